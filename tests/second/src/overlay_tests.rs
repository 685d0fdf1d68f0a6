//! A plate over a camera picture by change request 6: pictures reckoned by hand, refused plates, wrong pictures, any plates.

use crate::address::*;
use crate::camera::camera;
use crate::history_tests::next;
use crate::live_tests::refused_plates;
use crate::mixing::mix;
use crate::overlay::{overlay, NotOverlaid};
use crate::paper_tests::{judged, small, small_plate, word, SMALL_VIDEO};
use crate::ppm::ppm;
use crate::raster::raster;
use crate::record::Record;
use crate::refusal::{refusal, refusal_at};
use crate::summaries_tests::{two_rasters, with_cursor};
use crate::sync_tests::plate_of;

const SMALL_HEAD: &[u8] = b"P6\n32 6\n255\n";

/// A camera picture for the small plate: one colour's bytes everywhere.
fn one_colour(bytes: [u8; 3]) -> Vec<u8> {
    [SMALL_HEAD, &bytes.repeat(32 * 6)].concat()
}

/// The small plate with further register words.
fn plate_with(further: &[u32]) -> Vec<u8> {
    plate_of(&further.iter().fold(small(), |record, word| record.with_word(*word)), &SMALL_VIDEO, &[])
}

/// The picture of the small plate's frame: this border, these eight pixels, black elsewhere.
fn framed(border: [u8; 3], pixels: [[u8; 3]; 8]) -> Vec<u8> {
    let black = |length| vec![[0; 3]; length];
    let border = |length| vec![border; length];
    let without_display = [black(7), border(16), black(9)].concat();
    let with_display = [black(7), border(4), pixels.to_vec(), border(4), black(9)].concat();
    let rasters = [black(64), without_display.clone(), with_display, without_display, black(32)].concat();
    [SMALL_HEAD, &rasters.concat()].concat()
}

/// The small plate's own pixels: 0 to 7, of red alone.
const OWN: [[u8; 3]; 8] =
    [[0, 0, 0], [17, 0, 0], [34, 0, 0], [51, 0, 0], [68, 0, 0], [85, 0, 0], [102, 0, 0], [119, 0, 0]];

#[test]
fn without_supremacy_no_camera_shows() {
    for bytes in [[0, 0, 0], [255, 255, 255], [17, 34, 51]] {
        assert_eq!(overlay(&small_plate(), &one_colour(bytes)), Ok(framed([0, 0, 255], OWN)));
    }
}

#[test]
fn the_camera_through_the_border() {
    let plate = plate_with(&[word(BORDER, 0x1F00)]);
    assert_eq!(overlay(&plate, &one_colour([17, 34, 51])), Ok(framed([17, 34, 51], OWN)));
    assert_eq!(overlay(&plate, &one_colour([0, 0, 0])), Ok(framed([0, 0, 0], OWN)));
}

#[test]
fn the_camera_through_one_entry() {
    let plate = plate_with(&[word(palette_entry(6), 0x1006)]);
    let mut pixels = OWN;
    pixels[6] = [255, 0, 238];
    assert_eq!(overlay(&plate, &one_colour([255, 0, 238])), Ok(framed([0, 0, 255], pixels)));
}

#[test]
fn the_camera_at_the_same_place() {
    // Border and every entry let the camera through: on rasters 2 to 4 from 7 up to 23 the answer is the camera's picture.
    let entries: Vec<u32> = (0..16).map(|i| word(palette_entry(i), 0x1FFF)).collect();
    let plate = plate_with(&[&entries[..], &[word(BORDER, 0x1FFF)]].concat());
    let colours: Vec<u16> = (0..32 * 6).map(|place| place * 21).collect();
    let inside = |place: u16| (2..5).contains(&(place / 32)) && (7..23).contains(&(place % 32));
    let expected: Vec<u16> = (0..32 * 6).map(|place| if inside(place) { place * 21 } else { 0 }).collect();
    assert_eq!(overlay(&plate, &ppm(32, 6, &colours)), Ok(ppm(32, 6, &expected)));
}

#[test]
fn the_pictures_bytes() {
    let picture = ppm(2, 1, &[0x321, 0xF0F]);
    assert_eq!(picture, [&b"P6\n2 1\n255\n"[..], &[17, 34, 51, 255, 0, 255]].concat());
    for colour in 0..4096 {
        assert_eq!(camera(&ppm(1, 2, &[colour, 4095 - colour]), 1, 2), Some(vec![colour, 4095 - colour]));
    }
}

#[test]
fn refused_as_the_printer_is() {
    let (all, said) = refused_plates();
    for (plate, said) in all.iter().zip(said) {
        for file in [one_colour([0; 3]), Vec::new()] {
            let refused = overlay(plate, &file).unwrap_err();
            assert!(matches!(refused, NotOverlaid::Plate(_)));
            assert_eq!(format!("{refused}\n"), said);
        }
    }
    let of_record = |record: &Record| overlay(&plate_of(record, &[1, 2], &[]), b"");
    assert_eq!(of_record(&small()), Err(NotOverlaid::Plate(refusal(11))));
    let nearly_fresh = Record::fresh().with_word(word(CONTROL, 0xB));
    assert_eq!(of_record(&nearly_fresh), Err(NotOverlaid::Plate(refusal_at(3, 0))));
}

#[test]
fn a_camera_picture_that_is_not_right() {
    let right = one_colour([0; 3]);
    assert!(overlay(&small_plate(), &right).is_ok());
    let too_long = [&right[..], &[0]].concat();
    let mut no_gun = right.clone();
    *no_gun.last_mut().unwrap() = 16;
    let other_size = [&b"P6\n6 32\n255\n"[..], &right[SMALL_HEAD.len()..]].concat();
    let other_greatest = [&b"P6\n32 6\n254\n"[..], &right[SMALL_HEAD.len()..]].concat();
    for file in
        [&right[1..], &right[..right.len() - 1], &too_long, &no_gun, &other_size, &other_greatest, b""]
    {
        assert_eq!(overlay(&small_plate(), file), Err(NotOverlaid::Camera));
    }
}

/// A record whose colour registers hold any data.
fn any_colours(record: Record, seed: &mut u64) -> Record {
    let colours = (0..=cursor_entry(3)).step_by(4);
    colours.fold(record, |record, address| record.with_word(word(address, next(seed) % (1 << 24))))
}

fn any_words(count: u32, seed: &mut u64) -> Vec<u32> {
    (0..count).map(|_| next(seed)).collect()
}

#[test]
fn raster_by_raster_as_mixed() {
    let mut seed = 6;
    let shapes = [(0x3, [27, 18, 27]), (0x7, [15, 10, 15]), (0xB, [15, 10, 13]), (0xF, [15, 8, 11])];
    for (control, ends) in shapes.into_iter().cycle().take(40) {
        let record = any_colours(with_cursor(two_rasters(control, ends), 3, 5), &mut seed);
        let s = judged(&record).unwrap();
        let video = any_words(s.video_words(), &mut seed);
        let cursor = any_words(s.cursor_words(), &mut seed);
        let colours: Vec<u16> = (0..s.n * s.v).map(|_| next(&mut seed) as u16 % 4096).collect();
        let n = s.n as usize;
        let line = |y: u16, colours| {
            let cells = raster(&record, &video, &cursor, y, n).unwrap();
            mix(&record, &cells, colours, n).unwrap()
        };
        let expected: Vec<u16> = (0..).zip(colours.chunks(n)).flat_map(|(y, part)| line(y, part)).collect();
        let picture = overlay(&plate_of(&record, &video, &cursor), &ppm(s.n, s.v, &colours));
        assert_eq!(picture, Ok(ppm(s.n, s.v, &expected)));
        assert!(expected.iter().zip(&colours).any(|(seen, camera)| *seen != 0 && seen == camera));
    }
}
