//! Marks per raster: entries reckoned by hand, refusals in their order, one word replaced.

use crate::address::*;
use crate::history_tests::next;
use crate::marks::marks;
use crate::paper_tests::{judged, small, value, word, SMALL_VIDEO};
use crate::record::Record;
use crate::refusal::{refusal, refusal_at, Refusal};
use crate::summaries::{replace, summaries};

const GARBAGE: u16 = 7777;

/// The small plate with other horizontal ends (HCR, HDER, HBER), and rasters 3 to 4 displayed: depth by the control data.
pub fn two_rasters(control: u32, ends: [u32; 3]) -> Record {
    let words = [
        value(HCR, ends[0]),
        value(HDER, ends[1]),
        value(HBER, ends[2]),
        value(VDER, 4),
        word(CONTROL, control),
    ];
    words.iter().fold(small(), |record, word| record.with_word(*word))
}

/// Rasters 3 to 4 of 16 pixels, two words each: DS 11, DE 27.
fn two_by_two() -> Record {
    two_rasters(0xB, [15, 10, 13])
}

/// A cursor, as bright as can be, at x from 6 and on the rasters VCS up to VCE; the sync stays, long enough for it or not.
pub fn cursor_alone(record: Record, vcs: u32, vce: u32) -> Record {
    let palette = (1..4).map(|i| word(cursor_entry(i), 0xFFF));
    let place = [word(HCSR, 0), value(VCSR, vcs - 1), value(VCER, vce - 1)];
    palette.chain(place).fold(record, Record::with_word)
}

/// That cursor with a sync long enough for it: 8 pixels at 8 MHz, the border from 9. The display stays where it was.
pub fn with_cursor(record: Record, vcs: u32, vce: u32) -> Record {
    let control = record.data(CONTROL) / 4 * 4;
    let sync = [word(CONTROL, control), value(HSWR, 3), value(HBSR, 4)];
    sync.into_iter().fold(cursor_alone(record, vcs, vce), Record::with_word)
}

/// The entries, with one number lent beyond them that must stay.
fn made(record: &Record, video: &[u32], cursor: &[u32], threshold: u8) -> Vec<u16> {
    let s = judged(record).unwrap();
    let mut numbers = vec![GARBAGE; 3 * (s.vde - s.vds) as usize + 1];
    summaries(record, video, cursor, threshold, &mut numbers).unwrap();
    assert_eq!(numbers.pop(), Some(GARBAGE));
    numbers
}

#[test]
fn the_small_plates_entry() {
    // Pixels 0 to 7 have greys 0, 5, 10, 15, 20, 25, 30, 35; the border, which never counts, has 28.
    let counts =
        [(0, 8), (1, 7), (5, 7), (6, 6), (20, 4), (21, 3), (28, 2), (35, 1), (36, 0), (128, 0), (255, 0)];
    for (threshold, count) in counts {
        assert_eq!(made(&small(), &SMALL_VIDEO, &[], threshold), [count, 0, 35]);
    }
}

#[test]
fn one_pixel_and_one_grey() {
    assert_eq!(made(&small(), &[0x7654_3219], &[], 6), [7, 5, 46]);
    assert_eq!(made(&small(), &[u32::MAX], &[], 76), [8, 76, 76]);
    let white = small().with_word(word(palette_entry(0), 0x1FFF));
    assert_eq!(made(&white, &[0], &[], 255), [8, 255, 255]);
    let supremacy_alone = small().with_word(word(palette_entry(0), 0x1000));
    assert_eq!(made(&supremacy_alone, &[0], &[], 1), [0, 0, 0]);
}

#[test]
fn entries_in_raster_order() {
    // Greys of C to F: 61, 66, 71, 76.
    let video = [0x7654_3210, 0xFEDC_BA98, 0xCCCC_CCCC, 0xDDDD_DDDC];
    assert_eq!(made(&two_by_two(), &video, &[], 64), [3, 0, 76, 7, 61, 66]);
}

#[test]
fn depth_one_and_a_count_above_a_byte() {
    // DS 23; DE 55, then DE 343: one word and ten words a raster.
    let narrow = two_rasters(0x3, [27, 18, 27]);
    assert_eq!(made(&narrow, &[0x8000_0001, u32::MAX], &[], 5), [2, 0, 5, 32, 5, 5]);
    let wide = two_rasters(0x3, [171, 162, 171]);
    assert_eq!(made(&wide, &[0; 20], &[], 0), [320, 0, 0, 320, 0, 0]);
}

#[test]
fn depth_two() {
    // DS 15, DE 31: one word a raster. Pixels 0 to 3 have greys 0, 5, 10, 15.
    let record = two_rasters(0x7, [15, 10, 15]);
    assert_eq!(made(&record, &[0xE4E4_E4E4, 0x5555_5555], &[], 10), [8, 0, 15, 0, 5, 5]);
}

#[test]
fn depth_eight_has_unsigned_greys() {
    // DS 9, DE 13. Bytes 00H, 80H, 10H, FFH are colours 0, 800H, 8, 8CFH: greys 0, 15, 40, 211.
    let record = two_rasters(0xF, [15, 4, 11]);
    let video = [0xFF10_8000, 0xFFFF_FFFF];
    let all = [(0, 4), (15, 3), (16, 2), (40, 2), (41, 1), (127, 1), (128, 1), (211, 1), (212, 0)];
    for (threshold, count) in all {
        let all_or_none = if threshold <= 211 { 4 } else { 0 };
        assert_eq!(made(&record, &video, &[], threshold), [count, 0, 211, all_or_none, 211, 211]);
    }
}

#[test]
fn covered_positions_do_not_count() {
    // Display positions 11 to 18 are the cursor's pairs 5 to 12, bits 10 to 25 of its first word.
    let record = with_cursor(small(), 3, 4);
    let entry = |first_word| made(&record, &SMALL_VIDEO, &[first_word, 0], 5);
    assert_eq!(entry(0), [7, 0, 35]);
    assert_eq!(entry(0xFC00_03FF), [7, 0, 35]);
    assert_eq!(entry(0x0000_0400), [7, 5, 35]);
    assert_eq!(entry(0x0200_0000), [6, 0, 30]);
    assert_eq!(entry(0x00FF_FC00), [1, 35, 35]);
    assert_eq!(entry(0x03FF_FC00), [0, 255, 0]);
    assert_eq!(made(&record, &SMALL_VIDEO, &[u32::MAX; 2], 0), [0, 255, 0]);
}

#[test]
fn one_raster_of_two_is_covered() {
    // At x 6 the cursor reaches to 37, over all of 11 to 26.
    let below = with_cursor(two_by_two(), 4, 6);
    assert_eq!(made(&below, &[u32::MAX; 4], &[u32::MAX; 4], 0), [16, 76, 76, 0, 255, 0]);
    let above = with_cursor(two_by_two(), 2, 4);
    assert_eq!(made(&above, &[u32::MAX; 4], &[u32::MAX; 4], 0), [0, 255, 0, 16, 76, 76]);
}

#[test]
fn display_off_has_no_entry() {
    let off = small().with_word(value(VDER, 2));
    let mut numbers = [GARBAGE; 3];
    assert_eq!(summaries(&off, &[], &[], 0, &mut []), Ok(()));
    assert_eq!(summaries(&off, &[], &[], 0, &mut numbers), Ok(()));
    assert_eq!(replace(&off, &mut [], &[], 0, 0, 1, &mut numbers), Err(refusal(18)));
    assert_eq!(replace(&off, &mut [], &[], 0, 0, 1, &mut []), Err(refusal(18)));
    assert_eq!(replace(&off, &mut [0], &[], 0, 0, 1, &mut numbers), Err(refusal(11)));
    assert_eq!(numbers, [GARBAGE; 3]);
}

/// Both calls' refusals, none of which changes a list or a number.
fn refused(
    record: &Record,
    video: &[u32],
    cursor: &[u32],
    index: usize,
    lent: usize,
) -> [Option<Refusal>; 2] {
    let (mut list, mut numbers) = (video.to_vec(), vec![GARBAGE; lent]);
    let by_summaries = summaries(record, video, cursor, 0, &mut numbers).err();
    if by_summaries.is_some() {
        assert_eq!(numbers, vec![GARBAGE; lent]);
    }
    numbers.fill(GARBAGE);
    let by_replace = replace(record, &mut list, cursor, 0, index, 0xABCD_EF01, &mut numbers).err();
    if by_replace.is_some() {
        assert_eq!((list.as_slice(), numbers), (video, vec![GARBAGE; lent]));
    }
    [by_summaries, by_replace]
}

/// Settings that are refused, each with its refusal, and most of them with a later one too.
pub fn refused_settings() -> [(Record, Refusal); 9] {
    [
        (Record::fresh(), refusal_at(3, 0xE0)),
        (small().with_word(value(VCSR, 0)).with_word(value(VCER, 9)), refusal_at(3, 0x44)),
        (small().with_word(word(CONTROL, 0x404B)), refusal(4)),
        (small().with_word(word(CONTROL, 0x4B)).with_word(value(HBER, 16)), refusal(5)),
        (small().with_word(value(HBER, 16)).with_word(value(VSWR, 6)), refusal(6)),
        (cursor_alone(small(), 3, 4).with_word(value(VSWR, 6)), refusal(19)),
        (small().with_word(value(VSWR, 6)).with_word(value(HDER, 5)), refusal(7)),
        (with_cursor(small(), 3, 7).with_word(value(HDER, 5)), refusal(8)),
        (with_cursor(small(), 3, 7), refusal(9)),
    ]
}

#[test]
fn the_setting_comes_before_the_rest() {
    for (record, refusal) in refused_settings() {
        assert_eq!(refused(&record, &[1, 2], &[3], 2, 0), [Some(refusal); 2]);
    }
}

#[test]
fn eleven_then_eighteen_then_thirteen() {
    let record = two_by_two();
    let video = [1, 2, 3, 4];
    for (list, cursor) in [(&video[..3], &[][..]), (&[5; 5], &[]), (&[], &[]), (&video, &[0])] {
        assert_eq!(refused(&record, list, cursor, list.len(), 0), [Some(refusal(11)); 2]);
        assert_eq!(refused(&record, list, cursor, 0, 6), [Some(refusal(11)); 2]);
    }
    for index in [4, 5, usize::MAX] {
        assert_eq!(refused(&record, &video, &[], index, 5), [Some(refusal(13)), Some(refusal(18))]);
        assert_eq!(refused(&record, &video, &[], index, 6), [None, Some(refusal(18))]);
    }
    for (index, lent) in [(0, 0), (0, 3), (1, 5), (3, 5)] {
        assert_eq!(refused(&record, &video, &[], index, lent), [Some(refusal(13)); 2]);
    }
    assert_eq!(refused(&record, &video, &[], 3, 6), [None; 2]);
}

#[test]
fn the_other_entries_keep_even_garbage() {
    // 88888888H is eight greys 40; the raster's other word is eight greys 5 or 10.
    let expected = [(0, [8, 5, 40]), (1, [8, 5, 40]), (2, [8, 10, 40]), (3, [8, 10, 40])];
    for (index, entry) in expected {
        let mut video = [0x1111_1111, 0x1111_1111, 0x2222_2222, 0x2222_2222];
        let (mut after, mut numbers) = (video, [GARBAGE; 8]);
        after[index] = 0x8888_8888;
        assert_eq!(replace(&two_by_two(), &mut video, &[], 40, index, 0x8888_8888, &mut numbers), Ok(()));
        assert_eq!(video, after);
        let mut expected = [GARBAGE; 8];
        let place = 3 * (index / 2);
        expected[place..place + 3].copy_from_slice(&entry);
        assert_eq!(numbers, expected);
    }
}

#[test]
fn a_word_under_the_cursor_is_replaced_too() {
    let (mut video, mut numbers) = (SMALL_VIDEO, [1, 2, 3]);
    assert_eq!(
        replace(&with_cursor(small(), 3, 4), &mut video, &[u32::MAX; 2], 0, 0, 5, &mut numbers),
        Ok(())
    );
    assert_eq!((video, numbers), ([5], [0, 255, 0]));
}

#[test]
fn a_fresh_table_after_any_replacements() {
    let mut seed = 2;
    let plain = [two_by_two(), two_rasters(0x3, [171, 162, 171]), two_rasters(0xF, [15, 8, 11])];
    for record in plain.into_iter().map(|record| with_cursor(record, 4, 5)) {
        let mut video = vec![0; judged(&record).unwrap().video_words() as usize];
        let cursor = [next(&mut seed), next(&mut seed)];
        let threshold = next(&mut seed) as u8 % 90;
        let mut numbers = made(&record, &video, &cursor, threshold);
        for _ in 0..200 {
            let (index, word) = (next(&mut seed) as usize % video.len(), next(&mut seed));
            let mut after = video.clone();
            after[index] = word;
            replace(&record, &mut video, &cursor, threshold, index, word, &mut numbers).unwrap();
            assert_eq!(video, after);
            assert_eq!(numbers, made(&record, &video, &cursor, threshold));
            let sum: u64 = numbers.chunks(3).map(|entry| u64::from(entry[0])).sum();
            assert_eq!(Ok(sum), marks(&record, &video, &cursor, threshold));
        }
    }
}
