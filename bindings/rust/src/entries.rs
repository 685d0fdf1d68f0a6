//! Marks per raster: the entries of the displayed rasters, made of a list of video words and kept while it changes.

use crate::accepted::Accepted;
use crate::calls::*;
use crate::refusal::{answer, Refusal};

/// What is kept of one displayed raster, over its display cells (code 5).
#[repr(C)] // three numbers with no gap between them, as the C calls have an entry
#[derive(Clone, Copy, Debug, PartialEq, Eq)]
pub struct Entry {
    /// How many of those cells have a grey that reaches the threshold.
    pub marks: u16,
    /// The least grey of those cells, 255 where there is none.
    pub least: u16,
    /// The greatest grey of those cells, 0 where there is none.
    pub greatest: u16,
}

impl Entry {
    /// How many numbers the C calls have for an entry.
    const NUMBERS: usize = 3;

    /// The entry of a raster without a display cell: the cursor covers them all.
    pub const EMPTY: Entry = Entry { marks: 0, least: 255, greatest: 0 };
}

#[rustfmt::skip] // a pointer and its length on one line
impl Accepted {
    /// The entries of the displayed rasters, in order from VDS on; none where the display is off. Refusal: 11.
    pub fn summaries(&self, video: &[u32], cursor: &[u32], threshold: u8) -> Result<Vec<Entry>, Refusal> {
        let setting = self.setting();
        let mut entries = vec![Entry::EMPTY; setting.vde.saturating_sub(setting.vds) as usize];
        self.summaries_into(video, cursor, threshold, &mut entries)?;
        Ok(entries)
    }

    /// As [`Accepted::summaries`], the entries at the start of `entries`. Refusals: 11, 13.
    pub fn summaries_into(
        &self, video: &[u32], cursor: &[u32], threshold: u8, entries: &mut [Entry],
    ) -> Result<(), Refusal> {
        // SAFETY: see `calls`; as many numbers are lent as the entries have.
        answer(unsafe {
            vom_summaries(
                self.record().values.as_ptr(), 64,
                self.record().written.as_ptr(), 64,
                video.as_ptr(), video.len(),
                cursor.as_ptr(), cursor.len(),
                threshold,
                entries.as_mut_ptr().cast(), Entry::NUMBERS * entries.len(),
            )
        })
    }

    /// Puts `word` into `video` at `index`, and the new entry of the raster that it belongs to into `entries`, which
    /// costs one raster and not a frame. All other words and entries stay as they were, right or not. Entries that
    /// [`Accepted::summaries`] made, with the same cursor words and threshold, stay right so. Refusals: 11, 18, 13.
    ///
    /// ```
    /// # use vombelishi::{plate, Entry, Record, Refusal};
    /// # let file = include_bytes!("../../../samples/small.plate");
    /// # let places = plate::read(file)?;
    /// # let mut words = vec![0; places.r];
    /// # plate::copy(file, &mut words)?;
    /// # let [registers, video, cursor, _] = places.sections(&words);
    /// # let accepted = Record::new().load_and_check(registers)?;
    /// let mut video = video.to_vec();
    /// let mut entries = accepted.summaries(&video, cursor, 30)?;
    /// assert_eq!(entries, [Entry { marks: 2, least: 0, greatest: 35 }]);
    /// accepted.replace(&mut video, cursor, 30, 0, 0xFFFF_7777, &mut entries)?;
    /// assert_eq!((&video[..], &entries[..]), (&[0xFFFF_7777][..], &[Entry { marks: 8, least: 35, greatest: 76 }][..]));
    /// let outside = accepted.replace(&mut video, cursor, 30, 1, 0, &mut entries);
    /// assert_eq!(outside, Err(Refusal { number: 18, detail: 0 }));
    /// # Ok::<(), Refusal>(())
    /// ```
    pub fn replace(
        &self, video: &mut [u32], cursor: &[u32], threshold: u8, index: usize, word: u32, entries: &mut [Entry],
    ) -> Result<(), Refusal> {
        // SAFETY: see `calls`; as many numbers are lent as the entries have.
        answer(unsafe {
            vom_replace(
                self.record().values.as_ptr(), 64,
                self.record().written.as_ptr(), 64,
                video.as_mut_ptr(), video.len(),
                cursor.as_ptr(), cursor.len(),
                threshold,
                index,
                word,
                entries.as_mut_ptr().cast(), Entry::NUMBERS * entries.len(),
            )
        })
    }
}
