//! The run printer's text of a plate.

use crate::cell::code;
use crate::drawn::drawn;
use crate::marks::marked;
use crate::refusal::{or_refused, Refusal};

pub const THRESHOLD: u8 = 128;

pub fn text(input: &[u8]) -> String {
    or_refused(picture(input))
}

/// The text of a plate that is not refused.
pub fn picture(input: &[u8]) -> Result<String, Refusal> {
    let (s, cells) = drawn(input)?;
    let marks = marked(&cells, THRESHOLD);
    let mut lines = format!("frame {} {} words {} marks {}\n", s.n, s.v, s.video_words(), marks);
    for raster in cells.chunks(s.n as usize) {
        lines += &runs(raster);
    }
    Ok(lines)
}

/// One raster's runs, code x length, parted by one space, a newline after them.
fn runs(raster: &[u16]) -> String {
    let mut runs: Vec<(u16, usize)> = Vec::new();
    for cell in raster {
        match runs.last_mut() {
            Some((same, length)) if *same == code(*cell) => *length += 1,
            _ => runs.push((code(*cell), 1)),
        }
    }
    runs.iter().map(|(code, length)| format!("{code}x{length}")).collect::<Vec<_>>().join(" ") + "\n"
}
