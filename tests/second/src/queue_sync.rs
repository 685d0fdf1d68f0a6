//! What horizontal sync asks of a cursor queue and its end of a video queue, by the registers as they stand.

use crate::queue::{Queue, CURSOR, VIDEO};
use crate::queue_calls::Reply;
use crate::record::Record;
use crate::setting;

/// Four on the cursor's first raster and on every second one after while it shows.
pub fn cursor_ask(record: &Record, raster: u32) -> u32 {
    let s = setting::read(record);
    let shows = s.cursor_on && s.vcs <= raster && raster < s.vce;
    if shows && (raster - s.vcs) % 2 == 0 {
        4
    } else {
        0
    }
}

/// Eight on the first displayed raster.
pub fn video_ask(record: &Record, raster: u32) -> u32 {
    let s = setting::read(record);
    if s.display_on && raster == s.vds {
        8
    } else {
        0
    }
}

impl Queue {
    /// The horizontal sync of a raster; only a cursor queue is asked.
    pub fn horizontal_sync(&mut self, record: &Record, raster: u32) -> Reply {
        let asked = if self.kind == CURSOR { cursor_ask(record, raster) } else { 0 };
        self.ask(asked)
    }

    /// The end of a raster's horizontal sync; only a video queue is asked.
    pub fn sync_ends(&mut self, record: &Record, raster: u32) -> Reply {
        let asked = if self.kind == VIDEO { video_ask(record, raster) } else { 0 };
        self.ask(asked)
    }
}
