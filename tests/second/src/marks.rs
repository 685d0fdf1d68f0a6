//! The mark count: display cells whose grey reaches a threshold. Refusals: setting, 11.

use crate::cell::{code, shown};
use crate::frame::frame;
use crate::grey::grey;
use crate::record::Record;
use crate::refusal::Refusal;

pub fn marks(record: &Record, video: &[u32], cursor: &[u32], threshold: u8) -> Result<u64, Refusal> {
    let cells = frame(record, video, cursor, usize::MAX)?;
    Ok(marked(&cells, threshold))
}

/// Counted over cells that are there already.
pub fn marked(cells: &[u16], threshold: u8) -> u64 {
    let is_mark = |cell: &&u16| code(**cell) == 5 && grey(shown(**cell).colour) >= threshold;
    cells.iter().filter(is_mark).count() as u64
}
