//! Grey by change request 4: greys reckoned by hand, all colours, all words, the printer's marks.

use crate::address::palette_entry;
use crate::grey::grey;
use crate::paper_tests::{small_registers, word};
use crate::plate;
use crate::text::text;

const COLOURS: u16 = 4096;

/// Where each gun's four bits start: red, green, blue.
const GUNS: [u16; 3] = [0, 4, 8];

fn gun(colour: u16, start: u16) -> u64 {
    u64::from(colour >> start & 15)
}

/// The request's formula in wide numbers.
fn weighed(colour: u16) -> u64 {
    let [red, green, blue] = GUNS.map(|start| gun(colour, start));
    17 * (77 * red + 150 * green + 29 * blue) / 256
}

/// Document 01's grey before the request.
fn plain_third(colour: u16) -> u64 {
    17 * GUNS.map(|start| gun(colour, start)).iter().sum::<u64>() / 3
}

#[test]
fn each_gun_alone() {
    // Full: 19635, 38250, 7395 in 256ths. White is more than 76, 149 and 28 together, 253.
    assert_eq!([0x00F, 0x0F0, 0xF00].map(grey), [76, 149, 28]);
    assert_eq!(grey(0xFFF), 255);
    // One step: 1309, 2550, 493 in 256ths.
    assert_eq!([0x001, 0x010, 0x100].map(grey), [5, 9, 1]);
    assert_eq!(grey(0), 0);
}

#[test]
fn two_guns_and_three() {
    // 57885, 27030, 45645 and 54179 in 256ths.
    assert_eq!([0x0FF, 0xF0F, 0xFF0, 0x8CF].map(grey), [226, 105, 178, 211]);
}

#[test]
fn every_colour_by_the_formula() {
    for colour in 0..COLOURS {
        assert!(weighed(colour) <= 255);
        assert_eq!(u64::from(grey(colour)), weighed(colour), "{colour:03X}");
    }
}

#[test]
fn white_alone_is_255() {
    let brightest: Vec<u16> = (0..COLOURS).filter(|colour| grey(*colour) == 255).collect();
    assert_eq!(brightest, [0xFFF]);
    // The next below it, by one step of blue: 64787 in 256ths.
    assert_eq!((0..0xFFF).map(grey).max(), Some(253));
    assert_eq!(grey(0xEFF), 253);
}

#[test]
fn never_falls_when_one_gun_rises() {
    for colour in 0..COLOURS {
        for start in GUNS {
            if gun(colour, start) < 15 {
                let risen = colour + (1 << start);
                assert!(grey(colour) <= grey(risen), "{colour:03X} {risen:03X}");
            }
        }
    }
}

#[test]
fn bits_above_eleven_play_no_part() {
    for word in 0..=u16::MAX {
        assert_eq!(grey(word), grey(word % COLOURS), "{word:04X}");
    }
}

#[test]
fn the_plain_third_no_longer_answers() {
    let guns = [0x00F, 0x0F0, 0xF00];
    assert_eq!(guns.map(plain_third), [85; 3]);
    assert!(guns.iter().all(|colour| grey(*colour) != 85));
    // Deep red was too bright: 90 with one step of green, now 86.
    assert_eq!((plain_third(0x01F), grey(0x01F)), (90, 86));
}

/// The first line of the small plate with eight pixels of one colour.
fn first_line(colour: u32) -> String {
    let registers = [small_registers(), vec![word(palette_entry(0), colour)]].concat();
    let plate = plate::write(&registers, &[0], &[], &[], 1000).unwrap();
    text(&plate).lines().next().unwrap().to_string()
}

#[test]
fn the_printer_counts_by_the_weights() {
    // The threshold, 128, is 32768 in 256ths; 496H is 32776 and 978H, the next below, 32759.
    assert_eq!([0x496, 0x978].map(grey), [128, 127]);
    assert_eq!([0x496, 0x978].map(plain_third), [107, 136]);
    assert_eq!(first_line(0x496), "frame 32 6 words 1 marks 8");
    assert_eq!(first_line(0x978), "frame 32 6 words 1 marks 0");
}
