//! One raster of the frame: N cells. Refusals: setting, 11, 12, 13.

use crate::cell::Picture;
use crate::record::Record;
use crate::refusal::{refuse_if, Refusal, RASTER, SHORT};
use crate::setting;

/// The cells of raster y, for a lent buffer of `lent` places.
pub fn raster(
    record: &Record,
    video: &[u32],
    cursor: &[u32],
    y: u16,
    lent: usize,
) -> Result<Vec<u16>, Refusal> {
    let s = setting::check(record)?;
    s.judge_words(video, cursor)?;
    let y = u32::from(y);
    refuse_if(y >= s.v, RASTER)?;
    refuse_if(lent < s.n as usize, SHORT)?;
    let picture = Picture { record, setting: &s, video, cursor };
    Ok(picture.raster(y))
}
