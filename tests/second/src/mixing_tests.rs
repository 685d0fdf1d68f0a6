//! Mixing by change request 6: every cell, the lists' ends, 20 at the line's ends, the order of refusals.

use crate::address::*;
use crate::mixing::mix;
use crate::paper_tests::{judged, small, value, word, SMALL_VIDEO};
use crate::raster::raster;
use crate::record::Record;
use crate::refusal::{refusal, refusal_at};
use crate::summaries_tests::{refused_settings, two_rasters, with_cursor};

/// The small plate's line length.
const N: usize = 32;

/// The small plate's line, mixed.
fn over(cells: &[u16], camera: &[u16]) -> Vec<u16> {
    let answer = mix(&small(), cells, camera, N).unwrap();
    assert_eq!(answer.len(), N);
    answer
}

/// A camera list of this length, 0 but for these numbers.
fn camera_with(length: usize, numbers: &[(usize, u16)]) -> Vec<u16> {
    let mut camera = vec![0; length];
    for (index, number) in numbers {
        camera[*index] = *number;
    }
    camera
}

#[test]
fn all_eight_codes_with_and_without_supremacy() {
    #[rustfmt::skip]
    let cells = [
        0x0123, 0x1123, 0x2123, 0x3123, 0x4123, 0x5123, 0x6123, 0x7123,
        0x8123, 0x9123, 0xA123, 0xB123, 0xC123, 0xD123, 0xE123, 0xF123,
    ];
    #[rustfmt::skip]
    let seen = [
        0x123, 0x123, 0x123, 0x123, 0x123, 0x123, 0x123, 0x123,
        0x123, 0xABC, 0x123, 0xABC, 0x123, 0xABC, 0x123, 0x123,
    ];
    assert_eq!(over(&cells.repeat(2), &[0xABC; N]), seen.repeat(2));
}

#[test]
fn every_cell_over_both_ends_of_colour() {
    let cells: Vec<u16> = (0..=u16::MAX).collect();
    for camera in [0, 1, 0x800, 4095] {
        for line in cells.chunks(N) {
            let through = [0x9, 0xB, 0xD].contains(&(line[0] >> 12));
            let own = line.iter().map(|cell| cell & 0xFFF);
            let expected: Vec<u16> = own.map(|own| if through { camera } else { own }).collect();
            assert_eq!(over(line, &[camera; N]), expected);
        }
    }
}

#[test]
fn each_place_by_itself() {
    // Border cells, supremacy at every third place; the camera's colours all differ.
    let cells: Vec<u16> = (0..32).map(|x| if x % 3 == 0 { 0x9F00 } else { 0x8F00 }).collect();
    let camera: Vec<u16> = (0..32).map(|x| 4095 - 7 * x).collect();
    let answer = over(&cells, &camera);
    assert_eq!(answer[..7], [4095, 0xF00, 0xF00, 4074, 0xF00, 0xF00, 4053]);
    assert_eq!(answer[29..], [0xF00, 3885, 0xF00]);
}

#[test]
fn a_camera_number_at_the_lines_ends() {
    for index in [0, 1, 15, N - 2, N - 1] {
        for cell in [0, 0x8000, 0x9000, 0xF000] {
            let judged = |number| mix(&small(), &[cell; N], &camera_with(N, &[(index, number)]), N);
            let seen = if cell == 0x9000 { camera_with(N, &[(index, 4095)]) } else { vec![0; N] };
            assert_eq!(judged(4095), Ok(seen));
            for number in [4096, 4097, 0x9FFF, u16::MAX] {
                assert_eq!(judged(number), Err(refusal_at(20, index as u32)));
            }
        }
    }
}

#[test]
fn nothing_beyond_n_has_a_say() {
    for number in [4095, 4096, u16::MAX] {
        for index in [N, N + 1] {
            assert_eq!(over(&[0x9000; N + 2], &camera_with(N + 2, &[(index, number)])), [0; N]);
        }
    }
    let cells = [&[0x8001; N][..], &[0x9FFF, 0xFFFF]].concat();
    assert_eq!(mix(&small(), &cells, &[5; N], N + 1), Ok(vec![1; N]));
    // The last of the first N and the first beyond.
    let last = camera_with(N + 1, &[(N - 1, 4096), (N, 4096)]);
    assert_eq!(mix(&small(), &[0; N], &last, N), Err(refusal_at(20, 31)));
}

#[test]
fn the_first_of_several() {
    let several = [
        (vec![(0, 4096), (1, 4096)], 0),
        (vec![(7, 4096), (30, u16::MAX), (31, u16::MAX)], 7),
        (vec![(3, 4095), (4, 4097), (5, 4096)], 4),
        (vec![(30, u16::MAX), (31, 4096)], 30),
    ];
    for (numbers, first) in several {
        assert_eq!(mix(&small(), &[0; N], &camera_with(N, &numbers), N), Err(refusal_at(20, first)));
    }
    assert_eq!(mix(&small(), &[0; N], &[u16::MAX; N], N), Err(refusal_at(20, 0)));
}

#[test]
fn one_shorter_than_n() {
    let lengths = |cells: usize, camera: usize, lent| mix(&small(), &vec![0; cells], &vec![0; camera], lent);
    for right in [[N, N, N], [N + 1, N, N], [N, N + 1, N], [N, N, N + 1], [N, N, usize::MAX]] {
        assert_eq!(lengths(right[0], right[1], right[2]), Ok(vec![0; N]));
    }
    for place in 0..3 {
        for short in [0, 1, N - 2, N - 1] {
            for others in [N, N + 1, 2 * N] {
                let mut each = [others; 3];
                each[place] = short;
                assert_eq!(lengths(each[0], each[1], each[2]), Err(refusal(13)), "{each:?}");
            }
        }
    }
    assert_eq!(lengths(0, 0, 0), Err(refusal(13)));
}

#[test]
fn thirteen_before_twenty() {
    let wrong = [4096; N];
    assert_eq!(mix(&small(), &[0; N - 1], &wrong, N), Err(refusal(13)));
    assert_eq!(mix(&small(), &[0; N], &wrong[1..], N), Err(refusal(13)));
    assert_eq!(mix(&small(), &[0; N], &wrong, N - 1), Err(refusal(13)));
    assert_eq!(mix(&small(), &[0; N], &wrong, N), Err(refusal_at(20, 0)));
}

#[test]
fn the_setting_before_thirteen_and_twenty() {
    for (record, refusal) in refused_settings() {
        assert_eq!(mix(&record, &[], &[], 0), Err(refusal));
        assert_eq!(mix(&record, &[0; 2048], &[4096; 2048], 2048), Err(refusal));
        assert_eq!(mix(&record, &[0; 2048], &[0; 2048], 2048), Err(refusal));
    }
}

#[test]
fn n_is_the_settings_own() {
    // Depth 8 at its narrowest: HS 2, BS 3, DS 5, DE and BE 9, N 10.
    let horizontal = [4, 0, 1, 0, 2, 4];
    let registers = (0..6).map(|i| value(HCR + 4 * i, horizontal[i as usize]));
    let narrow = registers.fold(small().with_word(word(CONTROL, 0xF)), Record::with_word);
    let wide = small().with_word(value(HCR, 1023));
    for (record, n) in [(narrow, 10), (small().with_word(value(HCR, 16)), 34), (wide, 2048)] {
        assert_eq!(judged(&record).unwrap().n as usize, n);
        assert_eq!(mix(&record, &vec![0xDFFF; n], &vec![6; n], n), Ok(vec![6; n]));
        assert_eq!(mix(&record, &vec![0; n - 1], &vec![0; n], n), Err(refusal(13)));
        let at = |index| mix(&record, &vec![0; n], &camera_with(n + 1, &[(index, 4096)]), n);
        assert_eq!(at(n - 1), Err(refusal_at(20, n as u32 - 1)));
        assert_eq!(at(n), Ok(vec![0; n]));
    }
}

/// Camera colours C00H and on, one higher at each x.
fn rising() -> Vec<u16> {
    (0xC00..0xC20).collect()
}

#[test]
fn the_small_plates_raster_three() {
    // Supremacy in the border and in entries 1 and 6; border from 7, display from 11 up to 19, border up to 23.
    let words = [word(BORDER, 0x1F00), word(palette_entry(1), 0x1001), word(palette_entry(6), 0x1006)];
    let record = words.into_iter().fold(small(), Record::with_word);
    let cells = raster(&record, &SMALL_VIDEO, &[], 3, N).unwrap();
    let answer = mix(&record, &cells, &rising(), N).unwrap();
    assert_eq!(answer[..7], [0; 7]);
    assert_eq!(answer[7..11], [0xC07, 0xC08, 0xC09, 0xC0A]);
    assert_eq!(answer[11..19], [0, 0xC0C, 2, 3, 4, 5, 0xC11, 7]);
    assert_eq!(answer[19..23], [0xC13, 0xC14, 0xC15, 0xC16]);
    assert_eq!(answer[23..], [0; 9]);
}

#[test]
fn the_cursors_own_supremacy() {
    // Pairs 5 to 8, at x 11 to 14, are 1, 2, 3 and 0. Supremacy: cursor entry 2, and pixels 2 and 3, at x 13 and 14.
    let registers = [(cursor_entry(2), 0x1ABC), (palette_entry(2), 0x1002), (palette_entry(3), 0x1003)];
    let words = registers.map(|(address, data)| word(address, data));
    let record = words.into_iter().fold(with_cursor(small(), 3, 4), Record::with_word);
    let cells = raster(&record, &SMALL_VIDEO, &[0x0000_E400, 0], 3, N).unwrap();
    let answer = mix(&record, &cells, &rising(), N).unwrap();
    assert_eq!(answer[9..19], [0xF00, 0xF00, 0xFFF, 0xC0C, 0xFFF, 0xC0E, 4, 5, 6, 7]);
}

#[test]
fn supremacy_of_depth_eights_entry() {
    // DS 9, DE 13. Entry 3 is supremacy alone; bytes 03H, F3H, 00H, F0H.
    let record = two_rasters(0xF, [15, 4, 11]).with_word(word(palette_entry(3), 0x1000));
    let cells = raster(&record, &[0xF000_F303, 0], &[], 3, N).unwrap();
    assert_eq!(cells[9..13], [0xB000, 0xB8C8, 0xA000, 0xA8C8]);
    let answer = mix(&record, &cells, &rising(), N).unwrap();
    assert_eq!(answer[9..13], [0xC09, 0xC0A, 0, 0x8C8]);
}
