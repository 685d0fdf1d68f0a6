//! Colour and supremacy apart by change request 6: every colour register, every cell, and the entry's supremacy at depth 8.

use crate::address::*;
use crate::cell::{code, shown};
use crate::colour::{border, cursor, display, Shown};
use crate::history_tests::next;
use crate::paper_tests::{small, word, SMALL_VIDEO};
use crate::raster::raster;
use crate::record::Record;
use crate::summaries_tests::with_cursor;

/// The two answers, by hand.
fn apart(colour: u16, supremacy: bool) -> Shown {
    Shown { colour, supremacy }
}

/// Document 01's thirteen bits, put together again.
fn together(shown: Shown) -> u16 {
    assert!(shown.colour <= 4095);
    shown.colour + if shown.supremacy { 4096 } else { 0 }
}

fn one(address: u32, data: u32) -> Record {
    Record::fresh().with_word(word(address, data))
}

#[test]
fn each_bit_of_a_register() {
    for bit in 0..24 {
        let expected = apart(if bit < 12 { 1 << bit } else { 0 }, bit == 12);
        assert_eq!(border(&one(BORDER, 1 << bit)), expected);
        for pair in 1..4 {
            assert_eq!(cursor(&one(cursor_entry(pair), 1 << bit), pair), expected);
        }
        for (depth, pixels) in [(1, 2), (2, 4), (4, 16)] {
            for pixel in 0..pixels {
                assert_eq!(display(&one(palette_entry(pixel), 1 << bit), depth, pixel), expected);
            }
        }
    }
}

#[test]
fn all_thirteen_bits() {
    for data in 0..8192 {
        // The bits above 12 are ignored, also those that a hand put above 23.
        let mut record = one(BORDER, 0xFF_E000 | data);
        record.values[(BORDER / 4) as usize] |= 0xFF00_0000;
        assert_eq!(u32::from(together(border(&record))), data);
        assert_eq!(border(&record).supremacy, data >= 4096);
    }
}

#[test]
fn supremacy_at_depth_eight_is_the_entrys() {
    // The pixel's high bits are colour bits 11, 7, 6 and 3: 8C8H.
    let alone = one(palette_entry(3), 0x1000);
    assert_eq!(display(&alone, 8, 0x03), apart(0, true));
    assert_eq!(display(&alone, 8, 0xF3), apart(0x8C8, true));
    let without = one(palette_entry(3), 0xFFF);
    assert_eq!(display(&without, 8, 0x03), apart(0x737, false));
    assert_eq!(display(&without, 8, 0xF3), apart(0xFFF, false));
    for pixel in 0..256 {
        assert_eq!(display(&alone, 8, pixel).supremacy, pixel % 16 == 3, "{pixel:02X}");
        assert!(!display(&without, 8, pixel).supremacy);
    }
}

#[test]
fn depth_eight_as_before() {
    let mut seed = 6;
    for _ in 0..100 {
        let data = next(&mut seed) % 0x2000;
        for pixel in 0..256 {
            let high = (pixel & 0x80) << 4 | (pixel & 0x60) << 1 | (pixel & 0x10) >> 1;
            let answer = display(&one(palette_entry(pixel % 16), data), 8, pixel);
            assert_eq!(u32::from(together(answer)), data & 0x1737 | high, "{data:04X} {pixel:02X}");
        }
    }
}

#[test]
fn every_cell_taken_apart() {
    for cell in 0..=u16::MAX {
        assert_eq!(8192 * code(cell) + together(shown(cell)), cell);
        assert_eq!(shown(cell).supremacy, cell & 0x1000 != 0);
    }
}

#[test]
fn cells_keep_their_form() {
    // Border 1F00H, entry 5 1005H, cursor entry 2 1ABCH on display position 11 alone, where its pair is 5.
    let words = [word(BORDER, 0x1F00), word(palette_entry(5), 0x1005), word(cursor_entry(2), 0x1ABC)];
    let record = words.into_iter().fold(with_cursor(small(), 3, 4), Record::with_word);
    let cells = raster(&record, &SMALL_VIDEO, &[0x0000_0800, 0], 3, 32).unwrap();
    assert_eq!(cells[9..11], [4 * 8192 + 4096 + 0xF00; 2]);
    assert_eq!(cells[11], 6 * 8192 + 4096 + 0xABC);
    assert_eq!(cells[12..19], [40961, 40962, 40963, 40964, 40965 + 4096, 40966, 40967]);
    assert_eq!([cells[0], cells[8], cells[31]], [8192, 0, 0]);
}
