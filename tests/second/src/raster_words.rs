//! The video words of one raster: a part of the caller's list. Refusals: setting, 11, 12.

use crate::record::Record;
use crate::refusal::{refuse_if, Refusal, RASTER};
use crate::setting::{self, Setting};
use std::ops::Range;

/// Where the stretch lies in the list; empty (0..0) for an undisplayed raster.
pub fn raster_words(record: &Record, video: &[u32], y: u16) -> Result<Range<usize>, Refusal> {
    let s = setting::check(record)?;
    s.judge_video(video)?;
    let y = u32::from(y);
    refuse_if(y >= s.v, RASTER)?;
    Ok(if s.displayed().contains(&y) { stretch(&s, y) } else { 0..0 })
}

/// The stretch of a displayed raster: nothing is skipped between rasters.
pub fn stretch(s: &Setting, y: u32) -> Range<usize> {
    let words_each = (s.de - s.ds) * s.depth / 32;
    let start = (y - s.vds) * words_each;
    start as usize..(start + words_each) as usize
}
