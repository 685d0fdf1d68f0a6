//! Loading, reading, asking and emptying a queue. Refusals: 16 for a load, 17 for a read.

use crate::queue::{is_sound, Queue, CURSOR, VIDEO};
use crate::refusal::{EMPTY, FULL};

/// What every call answers: the refusal's number or 0, the byte read or 0, and the queue as it is left.
#[derive(Clone, Copy, Debug, PartialEq, Eq)]
pub struct Reply {
    pub number: u32,
    pub byte: u8,
    pub count: u64,
    pub asks: bool,
}

impl Queue {
    /// 16: into a full queue, or with the count at its largest.
    pub fn load(&mut self, word: u32) -> Reply {
        self.make_fit();
        if self.held == self.depth() || self.count == u64::MAX {
            return self.reply(FULL, 0);
        }
        self.words[self.place_behind(self.held)] = word;
        self.held += 1;
        self.count += 1;
        self.coming = self.coming.saturating_sub(1);
        self.reply(0, 0)
    }

    /// 17: from an empty queue. Of the control register's data only bits 5-4 count.
    pub fn read(&mut self, control: u32) -> Reply {
        self.make_fit();
        match self.bytes_left().first() {
            None => self.reply(EMPTY, 0),
            Some(&byte) => {
                let asked = self.asked_by_reading(control);
                self.take_byte();
                self.add_to_coming(asked);
                self.reply(0, byte)
            }
        }
    }

    /// Vertical sync starts with raster 0 and empties video and cursor; sound is never emptied.
    pub fn vertical_sync(&mut self, raster: u32) -> Reply {
        self.make_fit();
        if raster == 0 && !is_sound(self.kind) {
            *self = Queue::fresh(self.kind);
        }
        self.reply(0, 0)
    }

    /// An ask of any number of words, 0 too.
    pub fn ask(&mut self, words: u32) -> Reply {
        self.make_fit();
        self.add_to_coming(words);
        self.reply(0, 0)
    }

    /// An unfit record is replaced by a fresh one of its kind.
    fn make_fit(&mut self) {
        if !self.is_fit() {
            *self = Queue::fresh(self.kind);
        }
    }

    /// How many words the byte now to be read asks for.
    fn asked_by_reading(&self, control: u32) -> u32 {
        let ends_its_word = self.taken == 3;
        let request_point = control >> 4 & 3;
        let asks = match self.kind {
            VIDEO => ends_its_word && self.place % 4 == request_point,
            CURSOR => false,
            _ => self.bytes_left().len() == 1,
        };
        if asks {
            4
        } else {
            0
        }
    }

    /// A word holds its room until its last byte is read.
    fn take_byte(&mut self) {
        self.taken += 1;
        if self.taken == 4 {
            self.taken = 0;
            self.place = self.place_behind(1) as u32;
            self.held -= 1;
        }
    }

    /// Up to the queue's depth.
    fn add_to_coming(&mut self, words: u32) {
        self.coming = self.coming.saturating_add(words).min(self.depth());
    }

    fn reply(&self, number: u32, byte: u8) -> Reply {
        Reply { number, byte, count: self.count, asks: self.asks() }
    }
}
