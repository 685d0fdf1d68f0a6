//! The paper's thirteen marked cases, the ninth by change request 4, the colours of 4 and 5 taken apart, and its small plate.

use crate::address::*;
use crate::cell::{code, shown};
use crate::colour::{display, Shown};
use crate::frame::frame;
use crate::grey::grey;
use crate::load::load_and_check;
use crate::plate;
use crate::raster::raster;
use crate::record::{load_word, Record};
use crate::refusal::{refusal, Refusal};
use crate::setting::{self, pixel_rate, Setting};
use crate::sound;
use crate::text::text;

pub fn word(address: u32, data: u32) -> u32 {
    address << 24 | data
}

pub fn value(address: u32, v: u32) -> u32 {
    word(address, v << 14)
}

pub fn small_registers() -> Vec<u32> {
    let horizontal = [15, 1, 3, 2, 6, 11];
    let vertical = [5, 0, 1, 2, 3, 4];
    let mut words = vec![word(CONTROL, 0xB), word(BORDER, 0xF00)];
    words.extend((0..16).map(|i| word(palette_entry(i), i)));
    words.extend((0..6).map(|i| value(HCR + 4 * i, horizontal[i as usize])));
    words.extend((0..6).map(|i| value(VCR + 4 * i, vertical[i as usize])));
    words
}

pub const SMALL_VIDEO: [u32; 1] = [0x7654_3210];

pub fn small() -> Record {
    load_and_check(&Record::fresh(), &small_registers()).unwrap().0
}

fn small_with(address: u32, v: u32) -> Result<Setting, Refusal> {
    judged(&small().with_word(value(address, v)))
}

/// What the one call says of a record as it stands; the record itself comes back either way.
pub fn judged(record: &Record) -> Result<Setting, Refusal> {
    let (same, answer) = match load_and_check(record, &[]) {
        Ok((accepted, setting)) => (accepted, Ok(setting)),
        Err(refused) => (refused.record, Err(refused.refusal)),
    };
    assert_eq!(same, *record);
    answer
}

fn one(word: u32) -> Record {
    load_word(&Record::fresh(), word).unwrap()
}

#[test]
fn case_1_line_length() {
    let record = one(0x8003_C000);
    assert_eq!(record.bits(HCR, 23, 14), 15);
    assert_eq!(setting::read(&record).n, 32);
}

#[test]
fn case_2_control() {
    let record = one(0xE000_000B);
    assert_eq!(pixel_rate(&record), 24);
    assert_eq!(setting::depth(&record), 4);
}

#[test]
fn case_3_stereo_seven() {
    let record = one(0x6000_0001);
    assert!(record.is_written(stereo(7)) && !record.is_written(stereo(0)));
    assert_eq!(record.data(stereo(7)), 1);
}

#[test]
fn case_4_depth_eight_entry_fifteen() {
    let record = one(word(palette_entry(15), 0x1FFF));
    assert_eq!(display(&record, 8, 0x0F), Shown { colour: 0x737, supremacy: true });
    assert_eq!(display(&record, 8, 0xFF), Shown { colour: 0xFFF, supremacy: true });
}

#[test]
fn case_5_depth_eight_entry_zero() {
    let record = one(word(palette_entry(0), 0));
    assert_eq!(display(&record, 8, 0x80), Shown { colour: 0x800, supremacy: false });
    assert_eq!(display(&record, 8, 0x10), Shown { colour: 8, supremacy: false });
}

#[test]
fn case_6_amplitudes() {
    let bytes = [0x01, 0x1E, 0x20, 0xFF];
    assert_eq!(bytes.map(sound::amplitude), [0, 15, 16, -3952]);
}

#[test]
fn case_7_sixths() {
    assert_eq!(sound::pair(0x20, 3), [64, 32]);
}

#[test]
fn case_8_counter() {
    assert_eq!(sound::channel(4_294_967_295), 7);
    let mut record = one(word(SOUND_FREQUENCY, 3));
    for channel in 0..8 {
        record = record.with_word(word(stereo(channel), if channel == 7 { 1 } else { 7 }));
    }
    // 20H at channel 7 is all left, at channels 0 to 2 all right.
    let (values, after) = sound::sound(&record, &[0x2020_2020], 4_294_967_295, 8).unwrap();
    assert_eq!(values, [96, 0, 0, 96, 0, 96, 0, 96]);
    assert_eq!(after, 3);
}

#[test]
fn case_9_greys() {
    assert_eq!([0xFFF, 0x00F].map(grey), [255, 76]);
}

#[test]
fn case_10_small_raster_three() {
    let cells = raster(&small(), &SMALL_VIDEO, &[], 3, 32).unwrap();
    let border: Vec<u16> = cells.iter().copied().filter(|c| code(*c) == 4).collect();
    let display: Vec<u16> = cells.iter().copied().filter(|c| code(*c) == 5).collect();
    assert_eq!(border, [36608; 8]);
    assert_eq!(display, [40960, 40961, 40962, 40963, 40964, 40965, 40966, 40967]);
    let nothing = Shown { colour: 0, supremacy: false };
    assert!(cells.iter().all(|c| code(*c) >= 4 || shown(*c) == nothing));
}

#[test]
fn case_11_border_end() {
    assert_eq!(small_with(HBER, 15).unwrap().be, 31);
    assert_eq!(small_with(HBER, 16), Err(refusal(6)));
}

#[test]
fn case_12_display_end() {
    assert_eq!(small_with(HDER, 2), Err(refusal(6)));
    assert_eq!(small_with(HDER, 5), Err(refusal(8)));
    let read = setting::read(&small().with_word(value(HDER, 5)));
    assert_eq!((read.de, read.de - read.ds), (17, 6));
}

#[test]
fn case_13_display_off() {
    let off = small().with_word(value(VDER, 2));
    assert!(!judged(&off).unwrap().display_on);
    assert_eq!(frame(&off, &SMALL_VIDEO, &[], 1000), Err(refusal(11)));
    assert!(frame(&off, &[], &[], 1000).is_ok());
}

pub fn small_plate() -> Vec<u8> {
    plate::write(&small_registers(), &SMALL_VIDEO, &[], &[], 140).unwrap()
}

#[test]
fn the_small_plate_is_140_bytes() {
    let file = small_plate();
    assert_eq!(small_registers().len(), 30);
    assert_eq!(file.len(), 140);
    assert_eq!(plate::words_of(&file[124..]), [31, 1, 0, 0]);
    assert_eq!(plate::read(&file).unwrap().starts(), [0, 120, 124, 124, 124]);
}

#[test]
fn the_small_plates_seven_lines() {
    let lines = "frame 32 6 words 1 marks 0\n\
                 3x4 2x28\n\
                 1x4 0x28\n\
                 1x4 0x3 4x16 0x9\n\
                 1x4 0x3 4x4 5x8 4x4 0x9\n\
                 1x4 0x3 4x16 0x9\n\
                 1x4 0x28\n";
    assert_eq!(text(&small_plate()), lines);
}

#[test]
fn printer_input_over_the_limit() {
    assert_eq!(text(&vec![0; 65_537]), "refused 15 0\n");
    assert_eq!(text(&vec![0; 65_536]), "refused 14 0\n");
    assert_eq!(text(&[]), "refused 14 0\n");
}
