//! Plate files: where their sections lie, their words, a plate of four lists, the run printer's text.

use crate::calls::*;
use crate::refusal::{answer, Refusal};

/// The longest text that [`text`] can give: 1,025 lines of at most 8,256 bytes.
pub const MOST_TEXT: usize = 1025 * 8256;

/// The byte at which each section and the trailer start, and the trailer's four distances in words.
#[derive(Clone, Copy, Debug, PartialEq, Eq)]
pub struct Places {
    /// The byte at which the register words start: 0.
    pub registers: usize,
    /// The byte at which the video words start.
    pub video: usize,
    /// The byte at which the cursor words start.
    pub cursor: usize,
    /// The byte at which the sound words start.
    pub sound: usize,
    /// The byte at which the trailer starts.
    pub trailer: usize,
    /// R, from the trailer back to the register words: all words before the trailer.
    pub r: usize,
    /// V, from the trailer back to the video words.
    pub v: usize,
    /// C, from the trailer back to the cursor words.
    pub c: usize,
    /// S, from the trailer back to the sound words.
    pub s: usize,
}

impl Places {
    /// How many numbers the C call writes.
    const NUMBERS: usize = 9;

    /// Registers, video, cursor and sound: the R words that [`copy`] gives, cut at the section starts.
    ///
    /// # Panics
    /// If there are fewer than R words.
    pub fn sections<'w>(&self, words: &'w [u32]) -> [&'w [u32]; 4] {
        let starts = [self.registers, self.video, self.cursor, self.sound, self.trailer].map(|byte| byte / 4);
        [0, 1, 2, 3].map(|i| &words[starts[i]..starts[i + 1]])
    }
}

/// Judges a plate file. Refusal: 14.
pub fn read(file: &[u8]) -> Result<Places, Refusal> {
    let mut places = [0; Places::NUMBERS];
    read_into(file, &mut places)?;
    let [registers, video, cursor, sound, trailer, r, v, c, s] = places.map(|n| n as usize);
    Ok(Places { registers, video, cursor, sound, trailer, r, v, c, s })
}

/// As [`read`], the nine numbers of [`Places`], in its order, at the start of `places`. Refusals: 14, 13.
pub fn read_into(file: &[u8], places: &mut [u64]) -> Result<(), Refusal> {
    // SAFETY: see `calls`.
    answer(unsafe { vom_read(file.as_ptr(), file.len(), places.as_mut_ptr(), places.len()) })
}

/// Copies a plate's words out, but not the trailer's: the R that [`read`] tells. Refusals: 14, 13.
pub fn copy(file: &[u8], words: &mut [u32]) -> Result<(), Refusal> {
    // SAFETY: see `calls`.
    answer(unsafe { vom_copy(file.as_ptr(), file.len(), words.as_mut_ptr(), words.len()) })
}

/// Writes a plate of registers, video, cursor and sound, and tells its length: 4 bytes for each word, and 16.
/// Refusals: 15, 13.
#[rustfmt::skip] // a pointer and its length on one line
pub fn write(sections: [&[u32]; 4], out: &mut [u8]) -> Result<usize, Refusal> {
    let [registers, video, cursor, sound] = sections;
    let mut size = 0;
    // SAFETY: see `calls`.
    answer(unsafe {
        vom_write(
            registers.as_ptr(), registers.len(),
            video.as_ptr(), video.len(),
            cursor.as_ptr(), cursor.len(),
            sound.as_ptr(), sound.len(),
            out.as_mut_ptr(), out.len(),
            &mut size,
        )
    })?;
    Ok(size as usize)
}

/// Writes the run printer's text of a plate file and tells its length, [`MOST_TEXT`] at most. A refused plate has a
/// text too: the line `refused NUMBER DETAIL`. Refusal: 13.
pub fn text(file: &[u8], text: &mut [u8]) -> Result<usize, Refusal> {
    let mut size = 0;
    // SAFETY: see `calls`.
    answer(unsafe { vom_text(file.as_ptr(), file.len(), text.as_mut_ptr(), text.len(), &mut size) })?;
    Ok(size as usize)
}
