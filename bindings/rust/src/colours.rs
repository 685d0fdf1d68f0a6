//! Colour and supremacy apart, and a raster's cells laid over a camera's colours.

use crate::accepted::Accepted;
use crate::calls::*;
use crate::record::{Record, LONG_ENOUGH};
use crate::refusal::{answer, Refusal};

/// A colour of 12 bits, and whether it has supremacy.
#[derive(Clone, Copy, Debug, PartialEq, Eq)]
pub struct Apart {
    /// Red in bits 3 to 0, green in 7 to 4, blue in 11 to 8.
    pub colour: u16,
    /// Whether a camera's picture shows in its place.
    pub supremacy: bool,
}

#[rustfmt::skip] // a pointer and its length on one line
impl Record {
    /// The colour that a logical pixel shows, and its supremacy: by the palette entry `pixel` % 16, and at depth 8 the
    /// colour by the pixel's high bits too; at any other depth the entry itself.
    pub fn colour(&self, depth: u8, pixel: u8) -> Apart {
        let (mut colour, mut supremacy) = (0, 0);
        // SAFETY: see `calls`.
        let told = answer(unsafe {
            vom_colour(self.values.as_ptr(), 64, self.written.as_ptr(), 64, depth, pixel, &mut colour, &mut supremacy)
        });
        told.expect(LONG_ENOUGH);
        Apart { colour, supremacy: supremacy != 0 }
    }
}

#[rustfmt::skip] // a pointer and its length on one line
impl Accepted {
    /// Lays one raster's cells over a camera's colours: N numbers of 12 bits at the start of `mixed`. Where a cell's code
    /// is 4, 5 or 6 and its supremacy is set, that is the camera's number at that place, else the cell's own colour. Any
    /// number is taken for a cell; beyond N nothing is read. Refusals: 13, 20.
    ///
    /// ```
    /// # use vombelishi::{plate, Record, Refusal};
    /// # let file = include_bytes!("../../../samples/small.plate");
    /// # let mut words = vec![0; plate::read(file)?.r];
    /// # plate::copy(file, &mut words)?;
    /// let registers = [&words[..30], &[0x4000_1F00]].concat(); // the border has supremacy
    /// let accepted = Record::new().load_and_check(&registers)?;
    /// let (mut cells, mut mixed) = ([0; 32], [0; 32]);
    /// accepted.raster(&[0x7654_3210], &[], 3, &mut cells)?;
    /// accepted.mix(&cells, &[0x5A5; 32], &mut mixed)?;
    /// assert_eq!(mixed[5..15], [0, 0, 0x5A5, 0x5A5, 0x5A5, 0x5A5, 0, 1, 2, 3]);
    /// # Ok::<(), Refusal>(())
    /// ```
    pub fn mix(&self, cells: &[u16], camera: &[u16], mixed: &mut [u16]) -> Result<(), Refusal> {
        // SAFETY: see `calls`.
        answer(unsafe {
            vom_mix(
                self.record().values.as_ptr(), 64,
                self.record().written.as_ptr(), 64,
                cells.as_ptr(), cells.len(),
                camera.as_ptr(), camera.len(),
                mixed.as_mut_ptr(), mixed.len(),
            )
        })
    }
}
