//! Marks per raster: an entry of three numbers for each displayed raster, kept beside the plate.

use crate::cell::{code, shown, Picture};
use crate::grey::grey;
use crate::marks::marked;
use crate::raster_words::stretch;
use crate::record::Record;
use crate::refusal::{refuse_if, Refusal, SHORT, WORD_INDEX};
use crate::setting::{self, Setting};

/// A raster's mark count, its least and its greatest grey.
pub const ENTRY: usize = 3;

/// The entries of all displayed rasters, in order. Refusals: setting, 11, 13.
pub fn summaries(
    record: &Record,
    video: &[u32],
    cursor: &[u32],
    threshold: u8,
    lent: &mut [u16],
) -> Result<(), Refusal> {
    let s = setting::check(record)?;
    s.judge_words(video, cursor)?;
    judge_lent(&s, lent)?;
    let picture = Picture { record, setting: &s, video, cursor };
    for y in s.displayed() {
        write_entry(&picture, y, threshold, lent);
    }
    Ok(())
}

/// One video word replaced, and its raster's entry made afresh. Refusals: setting, 11, 18, 13.
pub fn replace(
    record: &Record,
    video: &mut [u32],
    cursor: &[u32],
    threshold: u8,
    index: usize,
    word: u32,
    lent: &mut [u16],
) -> Result<(), Refusal> {
    let s = setting::check(record)?;
    s.judge_words(video, cursor)?;
    refuse_if(index >= video.len(), WORD_INDEX)?;
    judge_lent(&s, lent)?;
    video[index] = word;
    let picture = Picture { record, setting: &s, video, cursor };
    for y in s.displayed().filter(|y| stretch(&s, *y).contains(&index)) {
        write_entry(&picture, y, threshold, lent);
    }
    Ok(())
}

/// 13: three numbers for each displayed raster.
fn judge_lent(s: &Setting, lent: &[u16]) -> Result<(), Refusal> {
    refuse_if(lent.len() < ENTRY * s.displayed().len(), SHORT)
}

/// The entry of a displayed raster, at its place among the lent numbers.
fn write_entry(picture: &Picture, y: u32, threshold: u8, lent: &mut [u16]) {
    let place = ENTRY * (y - picture.setting.vds) as usize;
    lent[place..place + ENTRY].copy_from_slice(&entry(&picture.raster(y), threshold));
}

/// Over a raster's cells; 0, 255, 0 where none has code 5.
fn entry(cells: &[u16], threshold: u8) -> [u16; ENTRY] {
    let displayed = cells.iter().filter(|cell| code(**cell) == 5);
    let greys: Vec<u8> = displayed.map(|cell| grey(shown(*cell).colour)).collect();
    let least = greys.iter().min().unwrap_or(&255);
    let greatest = greys.iter().max().unwrap_or(&0);
    [marked(cells, threshold) as u16, u16::from(*least), u16::from(*greatest)]
}
