//! The record of one of the chip's queues: its kind, its depth, a fresh one, and when it is fit.

pub const VIDEO: u16 = 0;
pub const CURSOR: u16 = 1;

/// Every other kind is sound.
#[derive(Clone, Copy, Debug, PartialEq, Eq)]
pub struct Queue {
    pub words: [u32; 8], // the ring; a queue of depth 4 uses the first four
    pub kind: u16,
    pub taken: u16,  // bytes already read of the word being read
    pub place: u32,  // ring place of the word being read
    pub held: u32,   // words held, the one being read included
    pub coming: u32, // words still to come
    pub count: u64,  // words loaded since the last emptying
}

impl Queue {
    /// All numbers and words 0, but sound has asked for four when fresh.
    pub fn fresh(kind: u16) -> Queue {
        let coming = if is_sound(kind) { 4 } else { 0 };
        Queue { words: [0; 8], kind, taken: 0, place: 0, held: 0, coming, count: 0 }
    }

    /// Video eight words, cursor four, sound four.
    pub fn depth(&self) -> u32 {
        match self.kind {
            VIDEO => 8,
            _ => 4,
        }
    }

    /// Fit exactly when all five of these hold.
    pub fn is_fit(&self) -> bool {
        let inside = self.place < self.depth();
        let held_fits = self.held <= self.depth();
        let coming_fits = self.coming <= self.depth();
        let taken_of_held = if self.held == 0 { self.taken == 0 } else { self.taken <= 3 };
        let counted = self.count >= u64::from(self.held);
        inside && held_fits && coming_fits && taken_of_held && counted
    }

    /// A queue asks while four or more words are still to come.
    pub fn asks(&self) -> bool {
        self.coming >= 4
    }

    /// The ring place that lies `steps` words behind the one being read.
    pub fn place_behind(&self, steps: u32) -> usize {
        ((self.place + steps) % self.depth()) as usize
    }

    /// The bytes that a fit queue has yet to give, in the order they came, low byte of each word first.
    pub fn bytes_left(&self) -> Vec<u8> {
        let held = (0..self.held).map(|i| self.words[self.place_behind(i)]);
        held.flat_map(|word| word.to_le_bytes()).skip(usize::from(self.taken)).collect()
    }
}

pub fn is_sound(kind: u16) -> bool {
    kind != VIDEO && kind != CURSOR
}
