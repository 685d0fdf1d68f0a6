//! Mixing: one raster's cells laid over a camera's colours. Refusals: setting, 13, 20.

use crate::cell::{code, shown};
use crate::record::Record;
use crate::refusal::{refusal_at, refuse_if, Refusal, CAMERA, SHORT};
use crate::setting;

/// The greatest colour of twelve bits.
const MOST_COLOUR: u16 = 4095;

/// The N colours seen, for a lent answer of `lent` places. What stands beyond N in a list has no say.
pub fn mix(record: &Record, cells: &[u16], camera: &[u16], lent: usize) -> Result<Vec<u16>, Refusal> {
    let n = setting::check(record)?.n as usize;
    refuse_if([cells.len(), camera.len(), lent].iter().any(|length| *length < n), SHORT)?;
    let (cells, camera) = (&cells[..n], &camera[..n]);
    if let Some(index) = camera.iter().position(|number| *number > MOST_COLOUR) {
        return Err(refusal_at(CAMERA, index as u32));
    }
    Ok(mixed(cells, camera))
}

/// Cell by cell, where all is judged already.
pub fn mixed(cells: &[u16], camera: &[u16]) -> Vec<u16> {
    cells.iter().zip(camera).map(|(cell, camera)| seen(*cell, *camera)).collect()
}

/// The camera's colour through border, display or cursor with supremacy set, else the cell's own.
fn seen(cell: u16, camera: u16) -> u16 {
    let own = shown(cell);
    if own.supremacy && (4..=6).contains(&code(cell)) {
        camera
    } else {
        own.colour
    }
}
