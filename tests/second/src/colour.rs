//! What a logical pixel, the border and the cursor show: a colour, and supremacy apart from it.

use crate::address::*;
use crate::record::Record;

/// A colour of twelve bits, and whether supremacy is set.
#[derive(Clone, Copy, Debug, PartialEq, Eq)]
pub struct Shown {
    pub colour: u16,
    pub supremacy: bool,
}

/// What a colour register says: bits 11 to 0, and bit 12.
fn said(record: &Record, address: u32) -> Shown {
    Shown { colour: record.bits(address, 11, 0) as u16, supremacy: record.bits(address, 12, 12) == 1 }
}

pub fn border(record: &Record) -> Shown {
    said(record, BORDER)
}

/// An entry of the cursor palette, whatever the depth.
pub fn cursor(record: &Record, pair: u32) -> Shown {
    said(record, cursor_entry(pair))
}

/// What a pixel shows at a depth of 1, 2, 4 or 8 bits.
pub fn display(record: &Record, depth: u32, pixel: u32) -> Shown {
    if depth == 8 {
        eight_bits(record, pixel)
    } else {
        said(record, palette_entry(pixel))
    }
}

/// Eight bits: the low four choose an entry, the high four replace four bits of its colour. Supremacy is the entry's.
fn eight_bits(record: &Record, pixel: u32) -> Shown {
    let entry = said(record, palette_entry(pixel % 16));
    let mut colour = 0;
    for bit in [10, 9, 8, 5, 4, 2, 1, 0] {
        colour |= entry.colour & (1 << bit);
    }
    for (from, to) in [(7, 11), (6, 7), (5, 6), (4, 3)] {
        colour |= ((pixel >> from & 1) as u16) << to;
    }
    Shown { colour, ..entry }
}
