//! The whole frame: V rasters of N cells. Refusals: setting, 11, 13.

use crate::cell::Picture;
use crate::record::Record;
use crate::refusal::{refuse_if, Refusal, SHORT};
use crate::setting;

/// The cells, for a lent buffer of `lent` places.
pub fn frame(record: &Record, video: &[u32], cursor: &[u32], lent: usize) -> Result<Vec<u16>, Refusal> {
    let s = setting::check(record)?;
    s.judge_words(video, cursor)?;
    refuse_if(lent < s.n as usize * s.v as usize, SHORT)?;
    let picture = Picture { record, setting: &s, video, cursor };
    Ok((0..s.v).flat_map(|y| picture.raster(y)).collect())
}
