//! The plate file: four sections of little-endian words and a trailer that points back.

use crate::refusal::{refusal, refuse_if, Refusal, PLATE_FILE, SHORT, TOO_LARGE};

pub const MOST_BYTES: u64 = 4_194_304;

/// The trailer: how many words back each section starts.
#[derive(Clone, Copy, Debug, PartialEq, Eq)]
pub struct Trailer {
    pub r: u32,
    pub v: u32,
    pub c: u32,
    pub s: u32,
}

impl Trailer {
    /// The byte at which registers, video, cursor, sound and trailer start.
    pub fn starts(&self) -> [u64; 5] {
        let back = |distance: u32| 4 * u64::from(self.r - distance);
        [0, back(self.v), back(self.c), back(self.s), 4 * u64::from(self.r)]
    }

    /// The five starts, then R, V, C, S.
    pub fn nine_numbers(&self) -> Vec<u64> {
        let distances = [self.r, self.v, self.c, self.s].map(u64::from);
        [self.starts().as_slice(), &distances].concat()
    }
}

/// Reading a file: 14.
pub fn read(file: &[u8]) -> Result<Trailer, Refusal> {
    let length = file.len() as u64;
    if !(16..=MOST_BYTES).contains(&length) {
        return Err(refusal(PLATE_FILE));
    }
    let last = words_of(&file[file.len() - 16..]);
    let t = Trailer { r: last[0], v: last[1], c: last[2], s: last[3] };
    let in_order = t.r >= t.v && t.v >= t.c && t.c >= t.s;
    let fits = 4 * u64::from(t.r) + 16 == length;
    refuse_if(!(in_order && fits), PLATE_FILE)?;
    Ok(t)
}

/// Every word but the trailer's: 14, 13.
pub fn copy(file: &[u8], lent: usize) -> Result<Vec<u32>, Refusal> {
    let t = read(file)?;
    refuse_if(lent < t.r as usize, SHORT)?;
    Ok(words_of(&file[..4 * t.r as usize]))
}

/// Writing a file from its sections: 15, 13.
pub fn write(
    registers: &[u32],
    video: &[u32],
    cursor: &[u32],
    sound: &[u32],
    lent: usize,
) -> Result<Vec<u8>, Refusal> {
    let s = sound.len() as u64;
    let c = s + cursor.len() as u64;
    let v = c + video.len() as u64;
    let r = v + registers.len() as u64;
    let bytes = 4 * r + 16;
    refuse_if(bytes > MOST_BYTES, TOO_LARGE)?;
    refuse_if((lent as u64) < bytes, SHORT)?;
    let trailer = [r, v, c, s].map(|distance| distance as u32);
    Ok(bytes_of(&[registers, video, cursor, sound, &trailer].concat()))
}

pub fn words_of(bytes: &[u8]) -> Vec<u32> {
    bytes.chunks_exact(4).map(|b| u32::from_le_bytes([b[0], b[1], b[2], b[3]])).collect()
}

pub fn bytes_of(words: &[u32]) -> Vec<u8> {
    words.iter().flat_map(|word| word.to_le_bytes()).collect()
}
