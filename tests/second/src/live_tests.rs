//! The live bench on the small plate and on plates of other shapes.

use crate::address::*;
use crate::bench::{Bench, Counts};
use crate::live::live;
use crate::load::load_and_check;
use crate::paper_tests::{small_plate, small_registers, value, word};
use crate::parts::Parts;
use crate::plate;
use crate::record::Record;
use crate::text::text;

/// The small plate at depth 8, `words` words wide, `rasters` high, with a request point; its words all differ.
fn wide_plate(words: u32, rasters: u32, point: u32) -> Vec<u8> {
    let mut registers = small_registers();
    registers.push(word(CONTROL, 0xF | point << 4));
    registers.push(value(HDER, 2 + 2 * words));
    registers.push(value(HBER, 4 + 2 * words));
    registers.push(value(HCR, 4 + 2 * words));
    registers.extend([VDER, VBER, VCR].map(|address| value(address, 2 + rasters)));
    let video: Vec<u32> = (1..=words * rasters).map(|i| i.wrapping_mul(0x9E37_79B1)).collect();
    plate::write(&registers, &video, &[], &[], usize::MAX).unwrap()
}

#[test]
fn the_small_plates_two_lines() {
    let lines = "raster 3 asked 12 loaded 9 read 4\n\
                 loaded 9 read 4 filler 8 the frame's own bytes\n";
    assert_eq!(live(&small_plate()), lines);
}

#[test]
fn a_raster_of_four_words() {
    let lines = "raster 3 asked 12 loaded 12 read 16\n\
                 raster 4 asked 4 loaded 4 read 16\n\
                 raster 5 asked 4 loaded 4 read 16\n\
                 loaded 20 read 48 filler 8 the frame's own bytes\n";
    for point in 0..4 {
        assert_eq!(live(&wide_plate(4, 3, point)), lines);
    }
}

#[test]
fn a_block_that_waits_for_room_in_the_next_raster() {
    let lines = "raster 3 asked 8 loaded 8 read 4\n\
                 raster 4 asked 4 loaded 2 read 4\n\
                 raster 5 asked 0 loaded 1 read 4\n\
                 loaded 11 read 12 filler 8 the frame's own bytes\n";
    assert_eq!(live(&wide_plate(1, 3, 1)), lines);
}

#[test]
fn always_the_frames_own_bytes() {
    for (words, rasters) in (1..20).flat_map(|w| (1..20).map(move |r| (w, r))) {
        for point in 0..4 {
            let last = live(&wide_plate(words, rasters, point)).lines().last().unwrap().to_string();
            assert!(last.ends_with("the frame's own bytes"), "{words} {rasters} {point}: {last}");
            assert!(last.contains(&format!(" read {} ", 4 * words * rasters)), "{last}");
        }
    }
}

#[test]
fn display_off_is_one_line() {
    let mut registers = small_registers();
    registers.push(value(VDER, 2));
    let file = plate::write(&registers, &[], &[], &[], 1000).unwrap();
    assert_eq!(live(&file), "loaded 0 read 0 filler 0 the frame's own bytes\n");
}

#[test]
fn bytes_that_are_not_the_frames_own() {
    let (record, setting) = load_and_check(&Record::fresh(), &small_registers()).unwrap();
    let parts = Parts { record, setting, video: vec![], cursor: vec![] };
    let mut bench = Bench::new(&parts);
    assert_eq!(bench.raster(3), Counts { asked: 12, loaded: 9, read: 4 });
    assert_eq!((bench.differs_at, bench.filler, bench.read), (Some(0), 9, 4));
}

/// Plates that the printer refuses, each with what it says.
pub fn refused_plates() -> ([Vec<u8>; 8], [String; 8]) {
    let cut = small_plate()[4..].to_vec();
    let mut wrong_address = small_plate();
    wrong_address[3] = 0x50;
    let no_video = plate::write(&small_registers(), &[], &[], &[], 1000).unwrap();
    let one_cursor = plate::write(&small_registers(), &[0], &[0], &[], 1000).unwrap();
    let unwritten = plate::write(&small_registers()[1..], &[0], &[], &[], 1000).unwrap();
    let all = [cut, wrong_address, no_video, one_cursor, unwritten, vec![0; 65_537], vec![0; 65_536], vec![]];
    let said = ["14 0", "2 0", "11 0", "11 0", "3 224", "15 0", "14 0", "14 0"];
    (all, said.map(|numbers| format!("refused {numbers}\n")))
}

#[test]
fn refused_as_the_printer_is() {
    let (all, said) = refused_plates();
    assert_eq!(all.clone().map(|plate| text(&plate)), said);
    assert_eq!(all.map(|plate| live(&plate)), said);
}
