//! Long runs of calls: the record is told anew from the list of all loads since the emptying and the bytes read of them.

use crate::queue::{Queue, CURSOR, VIDEO};

struct History {
    kind: u16,
    loads: Vec<u32>,
    bytes_read: usize,
    coming: u32,
}

impl History {
    fn fresh(kind: u16) -> History {
        History { kind, loads: Vec::new(), bytes_read: 0, coming: Queue::fresh(kind).coming }
    }

    fn depth(&self) -> usize {
        [8, 4, 4][usize::from(self.kind.min(2))]
    }

    /// All that the record should say.
    fn told(&self) -> Queue {
        let mut words = [0; 8];
        for (i, word) in self.loads.iter().enumerate() {
            words[i % self.depth()] = *word;
        }
        let wholly_read = self.bytes_read / 4;
        assert!(self.loads.len() <= wholly_read + self.depth());
        Queue {
            words,
            kind: self.kind,
            taken: (self.bytes_read % 4) as u16,
            place: (wholly_read % self.depth()) as u32,
            held: (self.loads.len() - wholly_read) as u32,
            coming: self.coming,
            count: self.loads.len() as u64,
        }
    }

    fn ask(&mut self, words: u32) {
        self.coming = (self.coming + words).min(self.depth() as u32);
    }

    /// The number that a load should answer.
    fn load(&mut self, word: u32) -> u32 {
        if self.loads.len() == self.bytes_read / 4 + self.depth() {
            return 16;
        }
        self.loads.push(word);
        self.coming -= u32::from(self.coming > 0);
        0
    }

    /// The number and the byte that a read should answer.
    fn read(&mut self, point: usize) -> (u32, u8) {
        if self.bytes_read == 4 * self.loads.len() {
            return (17, 0);
        }
        let byte = self.loads[self.bytes_read / 4] >> (8 * (self.bytes_read % 4));
        self.bytes_read += 1;
        let passed = self.kind == VIDEO && self.bytes_read % 16 == 4 * (point + 1) % 16;
        let dry = self.kind > CURSOR && self.bytes_read == 4 * self.loads.len();
        self.ask(if passed || dry { 4 } else { 0 });
        (0, byte as u8)
    }
}

pub fn next(seed: &mut u64) -> u32 {
    *seed = seed.wrapping_mul(6_364_136_223_846_793_005).wrapping_add(1_442_695_040_888_963_407);
    (*seed >> 32) as u32
}

fn one_call(seed: &mut u64, queue: &mut Queue, history: &mut History) {
    match next(seed) % 200 {
        0 => {
            queue.vertical_sync(0);
            if history.kind < 2 {
                *history = History::fresh(history.kind);
            }
        }
        1 | 2 => {
            let words = next(seed) % 10;
            queue.ask(words);
            history.ask(words);
        }
        3..=50 => {
            let word = next(seed);
            assert_eq!(queue.load(word).number, history.load(word));
        }
        _ => {
            let control = next(seed);
            let reply = queue.read(control);
            assert_eq!((reply.number, reply.byte), history.read((control / 16 % 4) as usize));
        }
    }
}

#[test]
fn long_runs() {
    let mut seed = 1;
    for kind in [VIDEO, CURSOR, 2, 40_000] {
        for _ in 0..20 {
            let (mut queue, mut history) = (Queue::fresh(kind), History::fresh(kind));
            for _ in 0..2000 {
                one_call(&mut seed, &mut queue, &mut history);
                assert_eq!(queue, history.told());
            }
        }
    }
}
