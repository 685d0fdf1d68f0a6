//! The live bench: one video queue, fed in blocks of four words and read byte by byte, raster after raster.

use crate::address::CONTROL;
use crate::parts::Parts;
use crate::plate::bytes_of;
use crate::queue::{Queue, VIDEO};
use crate::record::Record;
use crate::setting::Setting;

pub const FILLER: u32 = 0xFFFF_FFFF;

/// What happened on one raster.
#[derive(Clone, Copy, Debug, Default, PartialEq, Eq)]
pub struct Counts {
    pub asked: u32,
    pub loaded: u32,
    pub read: u32,
}

pub struct Bench<'a> {
    record: &'a Record,
    setting: &'a Setting,
    video: &'a [u32],
    own: Vec<u8>, // the frame's own bytes
    queue: Queue,
    block: u32, // words of the block under way that are not loaded yet
    pub loaded: usize,
    pub filler: usize,
    pub read: usize,
    pub differs_at: Option<usize>, // the first byte read that was not the frame's own
}

impl<'a> Bench<'a> {
    /// For a plate whose word counts have been checked.
    pub fn new(parts: &'a Parts) -> Bench<'a> {
        Bench {
            record: &parts.record,
            setting: &parts.setting,
            video: &parts.video,
            own: bytes_of(&parts.video),
            queue: Queue::fresh(VIDEO),
            block: 0,
            loaded: 0,
            filler: 0,
            read: 0,
            differs_at: None,
        }
    }

    /// One raster: the syncs, then blocks, loads and reads until none of them applies.
    pub fn raster(&mut self, y: u32) -> Counts {
        self.queue.vertical_sync(y);
        self.queue.sync_ends(self.record, y);
        let mut counts = Counts::default();
        loop {
            if self.block == 0 && self.queue.asks() {
                self.block = 4;
                counts.asked += 4;
            }
            if self.block > 0 && self.queue.held < self.queue.depth() {
                self.load_one();
                counts.loaded += 1;
            } else if counts.read < self.bytes_shown(y) {
                self.read_one();
                counts.read += 1;
            } else {
                return counts;
            }
        }
    }

    /// The bytes that a raster shows.
    fn bytes_shown(&self, y: u32) -> u32 {
        let s = self.setting;
        if s.vds <= y && y < s.vde {
            (s.de - s.ds) * s.depth / 8
        } else {
            0
        }
    }

    /// The plate's video words in order and, when these are used up, filler.
    fn load_one(&mut self) {
        let next = self.video.get(self.loaded);
        self.queue.load(*next.unwrap_or(&FILLER));
        self.filler += usize::from(next.is_none());
        self.loaded += 1;
        self.block -= 1;
    }

    /// A refused read differs too.
    fn read_one(&mut self) {
        let reply = self.queue.read(self.record.data(CONTROL));
        let is_own = reply.number == 0 && self.own.get(self.read) == Some(&reply.byte);
        if !is_own && self.differs_at.is_none() {
            self.differs_at = Some(self.read);
        }
        self.read += 1;
    }
}
