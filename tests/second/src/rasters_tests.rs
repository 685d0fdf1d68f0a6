//! The text of "marks": the small plate, two rasters, none, and refused plates.

use crate::address::*;
use crate::live_tests::refused_plates;
use crate::paper_tests::{small_plate, small_registers, value};
use crate::plate;
use crate::rasters::rasters;

/// The small plate with further register words, and this video.
fn plate_with(further: &[u32], video: &[u32]) -> Vec<u8> {
    let registers = [&small_registers(), further].concat();
    plate::write(&registers, video, &[], &[0xFFFF_FFFF], 1000).unwrap()
}

#[test]
fn the_small_plates_two_lines() {
    assert_eq!(rasters(&small_plate(), 128), "raster 3 marks 0 least 0 greatest 35\ntotal 0\n");
    assert_eq!(rasters(&small_plate(), 20), "raster 3 marks 4 least 0 greatest 35\ntotal 4\n");
    assert_eq!(rasters(&small_plate(), 0), "raster 3 marks 8 least 0 greatest 35\ntotal 8\n");
}

#[test]
fn two_rasters_add_up() {
    let lines = "raster 3 marks 5 least 0 greatest 35\n\
                 raster 4 marks 8 least 40 greatest 76\n\
                 total 13\n";
    assert_eq!(rasters(&plate_with(&[value(VDER, 4)], &[0x7654_3210, 0xFEDC_BA98]), 15), lines);
}

#[test]
fn display_off_is_one_line() {
    assert_eq!(rasters(&plate_with(&[value(VDER, 2)], &[]), 0), "total 0\n");
}

#[test]
fn refused_as_the_printer_is() {
    let (all, said) = refused_plates();
    assert_eq!(all.map(|plate| rasters(&plate, 128)), said);
}
