//! The text of "marks" of a plate, raster by raster. It is refused as the run printer's is: 15, 14, 1, 2, the setting, 11.

use crate::parts::parts;
use crate::refusal::{or_refused, Refusal};
use crate::summaries::{summaries, ENTRY};

pub fn rasters(plate: &[u8], threshold: u8) -> String {
    or_refused(displayed_rasters(plate, threshold))
}

/// A line for each displayed raster, then the sum of their counts.
fn displayed_rasters(plate: &[u8], threshold: u8) -> Result<String, Refusal> {
    let p = parts(plate)?;
    let mut numbers = vec![0; ENTRY * p.setting.displayed().len()];
    summaries(&p.record, &p.video, &p.cursor, threshold, &mut numbers)?;
    let mut lines = String::new();
    let mut total = 0;
    for (y, entry) in p.setting.displayed().zip(numbers.chunks(ENTRY)) {
        lines += &format!("raster {y} marks {} least {} greatest {}\n", entry[0], entry[1], entry[2]);
        total += u32::from(entry[0]);
    }
    Ok(lines + &format!("total {total}\n"))
}
