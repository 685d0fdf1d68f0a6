//! Sound: a left and a right value for each byte, in signed sixths.

use crate::address::stereo;
use crate::record::Record;
use crate::refusal::{refuse_if, Refusal, SHORT};
use crate::sound_judge::check_sound;

/// 2^c (p + 16) - 16, negated if bit 0 is set.
pub fn amplitude(byte: u8) -> i32 {
    let point = i32::from(byte >> 1 & 15);
    let chord = u32::from(byte >> 5);
    let size = 2i32.pow(chord) * (point + 16) - 16;
    if byte & 1 == 1 {
        -size
    } else {
        size
    }
}

/// Left and right of one byte at a stereo value 1 to 7: left takes 6, 5, .. 0 sixths.
pub fn pair(byte: u8, stereo_value: u8) -> [i16; 2] {
    let left = 7 - i32::from(stereo_value);
    let right = 6 - left;
    [left, right].map(|sixths| i16::try_from(amplitude(byte) * sixths).unwrap())
}

pub fn channel(counter: u32) -> u32 {
    counter % 8
}

/// The values and the counter afterwards. Refusals: 3, 10, 13.
pub fn sound(record: &Record, words: &[u32], counter: u32, lent: usize) -> Result<(Vec<i16>, u32), Refusal> {
    check_sound(record)?;
    refuse_if(lent < 8 * words.len(), SHORT)?;
    let mut counter = counter;
    let mut values = Vec::new();
    for byte in words.iter().flat_map(|word| word.to_le_bytes()) {
        let stereo_value = record.bits(stereo(channel(counter)), 2, 0);
        values.extend(pair(byte, stereo_value as u8));
        counter = counter.wrapping_add(1);
    }
    Ok((values, counter))
}
