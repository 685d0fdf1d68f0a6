//! A record that was accepted for pictures, with its setting: how one is had, and what is asked of it.

use crate::calls::*;
use crate::record::Record;
use crate::refusal::{answer, Refusal};
use crate::refused::Refused;
use crate::setting::Setting;

/// A record that [`Record::load_and_check`] accepted, and the setting that it gives. There is no other way to one, so
/// what is asked of it is never refused for its registers.
///
/// ```
/// # use vombelishi::{plate, Record, Refusal};
/// # let file = include_bytes!("../../../samples/small.plate");
/// # let places = plate::read(file)?;
/// # let mut words = vec![0; places.r];
/// # plate::copy(file, &mut words)?;
/// # let [registers, video, cursor, _] = places.sections(&words);
/// # let mut cells = [0; 32 * 6];
/// let accepted = Record::new().load_and_check(registers)?;
/// assert_eq!((accepted.setting().n, accepted.setting().v), (32, 6));
/// accepted.frame(video, cursor, &mut cells)?;
/// # Ok::<(), Refusal>(())
/// ```
///
/// A record that was not checked has no frame, so this does not compile:
///
/// ```compile_fail,E0599
/// # use vombelishi::{plate, Record, Refusal};
/// # let file = include_bytes!("../../../samples/small.plate");
/// # let places = plate::read(file)?;
/// # let mut words = vec![0; places.r];
/// # plate::copy(file, &mut words)?;
/// # let [registers, video, cursor, _] = places.sections(&words);
/// # let mut cells = [0; 32 * 6];
/// let record = Record::new();
/// record.frame(video, cursor, &mut cells)?;
/// # Ok::<(), Refusal>(())
/// ```
#[derive(Clone, Debug, PartialEq, Eq)]
pub struct Accepted {
    record: Record,
    setting: Setting,
}

#[rustfmt::skip] // a pointer and its length on one line
impl Record {
    /// Applies register words, in order, and judges what they leave, for pictures: all of it or nothing. An empty list
    /// judges the record as it stands. Refusals: 1, 2, then of the record with the words applied 3 to 6, 19, 7 to 9.
    ///
    /// ```
    /// # use vombelishi::{plate, Record, Refusal};
    /// # let file = include_bytes!("../../../samples/small.plate");
    /// # let places = plate::read(file)?;
    /// # let mut words = vec![0; places.r];
    /// # plate::copy(file, &mut words)?;
    /// # let registers = places.sections(&words)[0];
    /// let accepted = Record::new().load_and_check(registers)?;
    /// let before = accepted.record().clone();
    /// let refused = accepted.into_record().load_and_check(&[0x8002_8000]).unwrap_err(); // N 22, and BE is 23
    /// assert_eq!(refused.refusal, Refusal { number: 6, detail: 0 });
    /// assert_eq!(refused.record, before);
    /// # Ok::<(), Refusal>(())
    /// ```
    pub fn load_and_check(mut self, words: &[u32]) -> Result<Accepted, Refused> {
        let mut numbers = [0; Setting::NUMBERS];
        // SAFETY: see `calls`.
        let told = unsafe {
            vom_load_and_check(
                self.values.as_mut_ptr(), 64,
                self.written.as_mut_ptr(), 64,
                words.as_ptr(), words.len(),
                numbers.as_mut_ptr(), numbers.len(),
            )
        };
        Ok(Accepted { record: self.after(told)?, setting: Setting::of(numbers) })
    }
}

#[rustfmt::skip] // a pointer and its length on one line
impl Accepted {
    /// The record, for what is asked of one that need not be accepted.
    pub fn record(&self) -> &Record {
        &self.record
    }

    /// The setting that the record gives.
    pub fn setting(&self) -> Setting {
        self.setting
    }

    /// The record alone, to load more words into it.
    pub fn into_record(self) -> Record {
        self.record
    }

    /// Paints a frame: N * V cells at the start of `cells`, raster after raster, each its code * 8192 + its
    /// supremacy * 4096 + its 12-bit colour. Refusals: 11, 13.
    pub fn frame(&self, video: &[u32], cursor: &[u32], cells: &mut [u16]) -> Result<(), Refusal> {
        // SAFETY: see `calls`.
        answer(unsafe {
            vom_frame(
                self.record.values.as_ptr(), 64,
                self.record.written.as_ptr(), 64,
                video.as_ptr(), video.len(),
                cursor.as_ptr(), cursor.len(),
                cells.as_mut_ptr(), cells.len(),
            )
        })
    }

    /// Paints raster `y` of that frame: N cells at the start of `cells`. Refusals: 11, 12, 13.
    pub fn raster(&self, video: &[u32], cursor: &[u32], y: u16, cells: &mut [u16]) -> Result<(), Refusal> {
        // SAFETY: see `calls`.
        answer(unsafe {
            vom_raster(
                self.record.values.as_ptr(), 64,
                self.record.written.as_ptr(), 64,
                video.as_ptr(), video.len(),
                cursor.as_ptr(), cursor.len(),
                y,
                cells.as_mut_ptr(), cells.len(),
            )
        })
    }

    /// The words of raster `y`, as that stretch of `video` itself; empty where the raster is not displayed.
    /// Refusals: 11 (for the video words alone), 12.
    pub fn raster_words<'v>(&self, video: &'v [u32], y: u16) -> Result<&'v [u32], Refusal> {
        let mut place = [0; 2];
        self.raster_words_into(video, y, &mut place)?;
        let [first, count] = place.map(|n| n as usize);
        Ok(&video[first..first + count])
    }

    /// As [`Accepted::raster_words`], the index of the first word and how many there are at the start of `place`: 0 and
    /// 0 where the raster is not displayed. Refusals: 11, 12, 13.
    pub fn raster_words_into(&self, video: &[u32], y: u16, place: &mut [u64]) -> Result<(), Refusal> {
        // SAFETY: see `calls`.
        answer(unsafe {
            vom_raster_words(
                self.record.values.as_ptr(), 64,
                self.record.written.as_ptr(), 64,
                video.as_ptr(), video.len(),
                y,
                place.as_mut_ptr(), place.len(),
            )
        })
    }

    /// Counts the display cells (code 5) of the frame whose grey reaches the threshold. Refusal: 11.
    pub fn marks(&self, video: &[u32], cursor: &[u32], threshold: u8) -> Result<u64, Refusal> {
        let mut count = 0;
        // SAFETY: see `calls`.
        answer(unsafe {
            vom_marks(
                self.record.values.as_ptr(), 64,
                self.record.written.as_ptr(), 64,
                video.as_ptr(), video.len(),
                cursor.as_ptr(), cursor.len(),
                threshold,
                &mut count,
            )
        })?;
        Ok(count)
    }
}
