//! The chip's queues: what each call on one answers.

use crate::calls::{self, *};
use crate::refusal::{answer, Refusal};

/// What a call on a queue answers, of the queue as the call leaves it: also where it is refused.
#[derive(Clone, Copy, Debug, PartialEq, Eq)]
pub struct Reply<T> {
    /// Words loaded since the last emptying.
    pub count: u64,
    /// Whether the queue asks: four words or more are still to come.
    pub asks: bool,
    /// What the call itself has to say.
    pub answer: T,
}

/// A reply of the C call, and what it says besides.
fn reply<T>(told: calls::Reply, answer: T) -> Reply<T> {
    Reply { count: told.count, asks: told.asks != 0, answer }
}

/// Success, or the refusal whose number stands in a reply.
fn refused(told: calls::Reply) -> Result<(), Refusal> {
    answer(u64::from(told.number) << 32)
}

impl Queue {
    /// The kind of a video queue.
    pub const VIDEO: u16 = 0;
    /// The kind of a cursor queue.
    pub const CURSOR: u16 = 1;
    /// The kind of a sound queue; every number above is sound too.
    pub const SOUND: u16 = 2;

    /// A fresh queue of a kind: all else is 0, but sound has four words to come. It counts as just emptied.
    pub fn fresh(kind: u16) -> Queue {
        // SAFETY: no memory is handed over.
        unsafe { vom_queue_fresh(kind) }
    }

    /// Loads one word behind those held; one less is to come, if any were. Refusal: 16.
    pub fn load(&mut self, word: u32) -> Reply<Result<(), Refusal>> {
        // SAFETY: see `calls`.
        let told = unsafe { vom_queue_load(self, word) };
        reply(told, refused(told))
    }

    /// Reads one byte. `control` is the control register's data, of which bits 5-4 count: a video queue asks for four
    /// words with the last byte of a word whose place % 4 is their number, sound with the last byte it holds.
    /// Refusal: 17.
    pub fn read(&mut self, control: u32) -> Reply<Result<u8, Refusal>> {
        // SAFETY: see `calls`.
        let told = unsafe { vom_queue_read(self, control) };
        reply(told, refused(told).map(|()| told.byte as u8))
    }

    /// The vertical sync of a raster: it starts with raster 0, and there empties a queue that is not sound.
    pub fn vertical_sync(&mut self, raster: u32) -> Reply<()> {
        // SAFETY: see `calls`.
        reply(unsafe { vom_queue_vertical_sync(self, raster) }, ())
    }

    /// Asks for so many words, any number: as many more are to come, at most the depth in all.
    pub fn ask(&mut self, words: u32) -> Reply<()> {
        // SAFETY: see `calls`.
        reply(unsafe { vom_queue_ask(self, words) }, ())
    }
}
