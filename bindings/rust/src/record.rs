//! The register record, and all that is asked of one that need not be accepted for pictures.

use crate::calls::*;
use crate::refusal::{answer, Refusal};
use crate::refused::Refused;

/// What is known of each register, at its address / 4: its data, and if anything was written to it.
///
/// Values may be put here without loading words: of each the low 24 bits count, and what stands at the 18 reserved
/// addresses is never read. A picture is asked of an [`Accepted`](crate::Accepted) record, which
/// [`Record::load_and_check`] makes of this one.
#[derive(Clone, Debug, PartialEq, Eq)]
pub struct Record {
    /// Each register's data.
    pub values: [u32; 64],
    /// Not 0 where the register was written.
    pub written: [u8; 64],
}

pub(crate) const LONG_ENOUGH: &str = "only a record shorter than 64 is refused";

impl Default for Record {
    fn default() -> Record {
        Record::new()
    }
}

#[rustfmt::skip] // a pointer and its length on one line
impl Record {
    /// A fresh record: nothing is written.
    pub fn new() -> Record {
        Record { values: [0; 64], written: [0; 64] }
    }

    /// Applies register words, in order, and judges what they leave, for sound: all of it or nothing. An empty list
    /// judges the record as it stands. Refusals: 1, 2, then of the record with the words applied 3, 10.
    pub fn load_and_check_sound(mut self, words: &[u32]) -> Result<Record, Refused> {
        // SAFETY: see `calls`.
        let told = unsafe {
            vom_load_and_check_sound(
                self.values.as_mut_ptr(), 64,
                self.written.as_mut_ptr(), 64,
                words.as_ptr(), words.len(),
            )
        };
        self.after(told)
    }

    /// The record as a call left it that was lent it to be changed; with a refusal it is as it came.
    pub(crate) fn after(self, told: u64) -> Result<Record, Refused> {
        match answer(told) {
            Ok(()) => Ok(self),
            Err(refusal) => Err(Refused { refusal, record: self }),
        }
    }

    /// Applies one register word, whatever record it leaves. Refusal: 2 (detail 0).
    pub fn load_word(&mut self, word: u32) -> Result<(), Refusal> {
        // SAFETY: see `calls`.
        answer(unsafe { vom_load_word(self.values.as_mut_ptr(), 64, self.written.as_mut_ptr(), 64, word) })
    }

    /// Judges the record for sound. Refusals: 3, 10.
    pub fn check_sound(&self) -> Result<(), Refusal> {
        // SAFETY: see `calls`.
        answer(unsafe { vom_check_sound(self.values.as_ptr(), 64, self.written.as_ptr(), 64) })
    }

    /// How many words the sync of a raster, from its start to its end, asks of a queue of a kind: 8 of video on the first
    /// displayed raster; 4 of the cursor on its first raster and every second one after while it shows; else 0. The
    /// registers count as they stand: no check is asked of them.
    pub fn sync_ask(&self, kind: u16, raster: u32) -> u32 {
        let mut words = 0;
        // SAFETY: see `calls`.
        let told = answer(unsafe {
            vom_sync_ask(self.values.as_ptr(), 64, self.written.as_ptr(), 64, kind, raster, &mut words)
        });
        told.expect(LONG_ENOUGH);
        words
    }

    /// Plays words, four bytes each, low first: for each byte a left and a right value in signed sixths, 8 values for
    /// each word at the start of `out`. `counter` is the byte counter before the first byte, and afterwards that after
    /// the last; where the call is refused, it stays as it came. Refusals: 3, 10, 13.
    pub fn sound(&self, words: &[u32], counter: &mut u32, out: &mut [i16]) -> Result<(), Refusal> {
        // SAFETY: see `calls`.
        answer(unsafe {
            vom_sound(
                self.values.as_ptr(), 64,
                self.written.as_ptr(), 64,
                words.as_ptr(), words.len(),
                counter,
                out.as_mut_ptr(), out.len(),
            )
        })
    }
}
