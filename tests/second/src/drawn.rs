//! A plate's picture: its setting and its cells. Refusals in order: 15, 14, 1, 2, the setting, 11.

use crate::frame::frame;
use crate::parts::parts;
use crate::refusal::Refusal;
use crate::setting::Setting;

pub use crate::parts::MOST_INPUT;

/// The setting and all cells of a plate that is not refused.
pub fn drawn(input: &[u8]) -> Result<(Setting, Vec<u16>), Refusal> {
    let p = parts(input)?;
    let cells = frame(&p.record, &p.video, &p.cursor, usize::MAX)?;
    Ok((p.setting, cells))
}
