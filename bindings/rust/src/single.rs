//! What is asked of one colour, one code or one byte, without a record.

use crate::calls::*;
use crate::refusal::{answer, Refusal};

/// The grey of a colour, 0 to 255, by its 12 lowest bits: `17 (77 red + 150 green + 29 blue) / 256`, rounded down.
///
/// ```
/// assert_eq!([0x00F, 0x0F0, 0xF00, 0xFFF].map(vombelishi::grey), [76, 149, 28, 255]);
/// assert_eq!(vombelishi::grey(0xF00F), vombelishi::grey(0x00F));
/// ```
pub fn grey(colour: u16) -> u8 {
    // SAFETY: no memory is handed over.
    unsafe { vom_grey(colour) }
}

/// The sync pin's level, 0 low or 1 high, where a cell has this code and control this data.
pub fn pin(code: u8, control: u32) -> u8 {
    // SAFETY: no memory is handed over.
    unsafe { vom_pin(code, control) }
}

/// One byte's left and right value in signed sixths, for a stereo value of which the three lowest bits count.
/// Refusal: 10 (where those bits are 0).
pub fn sound_pair(byte: u8, stereo: u8) -> Result<[i16; 2], Refusal> {
    let mut pair = [0; 2];
    sound_pair_into(byte, stereo, &mut pair)?;
    Ok(pair)
}

/// As [`sound_pair`], the two values at the start of `pair`. Refusals: 10, 13.
pub fn sound_pair_into(byte: u8, stereo: u8, pair: &mut [i16]) -> Result<(), Refusal> {
    // SAFETY: see `calls`.
    answer(unsafe { vom_sound_pair(byte, stereo, pair.as_mut_ptr(), pair.len()) })
}
