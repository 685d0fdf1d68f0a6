//! The sync's width by change request 5: both ends at each pixel rate, the cursor off, 19 in its order, all else as before.

use crate::address::*;
use crate::frame::frame;
use crate::history_tests::next;
use crate::live::live;
use crate::marks::marks;
use crate::needed;
use crate::paper_tests::{judged, small, small_plate, small_registers, value, word, SMALL_VIDEO};
use crate::plate;
use crate::raster::raster;
use crate::raster_words::raster_words;
use crate::rasters::rasters;
use crate::record::Record;
use crate::refusal::{refusal, refusal_at, refuse_if, Refusal};
use crate::setting::{self, pixel_rate};
use crate::summaries::{replace, summaries};
use crate::summaries_tests::cursor_alone;
use crate::text::text;

/// By control bits 1-0: the rate in MHz, the longest even HS that is too short, the shortest that is long enough.
/// Ten clocks of 12 MHz are 6 2/3, 10, 13 1/3 and 20 pixels.
const ENDS: [(u32, u32, u32); 4] = [(8, 6, 8), (12, 8, 10), (16, 12, 14), (24, 18, 20)];

/// Depth 4, 24 MHz.
pub const CONTROL_DATA: u32 = 0xB;

/// The small plate made wide, so that HS may be up to 22 at every depth: N 70, border from 23 up to 69, 32 display positions.
fn wide(control: u32, hs: u32) -> Record {
    let horizontal = [34, hs / 2 - 1, 11, 9, 25, 34];
    let registers = (0..6).map(|i| value(HCR + 4 * i, horizontal[i as usize]));
    registers.fold(small().with_word(word(CONTROL, control)), Record::with_word)
}

/// The same with a cursor on raster 3.
pub fn wide_with_cursor(control: u32, hs: u32) -> Record {
    cursor_alone(wide(control, hs), 3, 4)
}

pub fn unwritten(mut record: Record, address: u32) -> Record {
    record.written[(address / 4) as usize] = false;
    record
}

/// What the checks say of it, 0 for accepted; what is accepted is what the data says.
fn answer(record: &Record) -> Refusal {
    match judged(record) {
        Ok(s) => {
            assert_eq!(s, setting::read(record));
            refusal(0)
        }
        Err(refused) => refused,
    }
}

#[test]
fn both_ends_at_each_rate() {
    for (bits, (rate, short, enough)) in (8..).zip(ENDS) {
        assert_eq!(pixel_rate(&wide_with_cursor(bits, short)), rate);
        assert_eq!(judged(&wide_with_cursor(bits, short)), Err(refusal(19)));
        let s = judged(&wide_with_cursor(bits, enough)).unwrap();
        assert_eq!((s.hs, s.cursor_on), (enough, true));
        for hs in (2..=22).step_by(2) {
            let number = if hs < enough { 19 } else { 0 };
            assert_eq!(answer(&wide_with_cursor(bits, hs)), refusal(number), "{rate} MHz, {hs}");
        }
    }
}

#[test]
fn the_longest_sync_of_a_setting() {
    // Depth 8: HS 2042, BS and DS 2043, DE and BE 2047, N 2048.
    let horizontal = [1023, 1020, 1021, 1019, 1021, 1023];
    for bits in 12..16 {
        let registers = (0..6).map(|i| value(HCR + 4 * i, horizontal[i as usize]));
        let record = registers.fold(wide_with_cursor(bits, 2), Record::with_word);
        assert_eq!(judged(&record).unwrap().hs, 2042);
    }
}

#[test]
fn no_other_bit_has_a_say() {
    for (bits, (_, short, enough)) in (0..).zip(ENDS) {
        for (hs, number) in [(short, 19), (enough, 0)] {
            // Every depth; then all control bits but the test mode's and interlace, and the bits of HSWR below its value.
            for depth in 0..4 {
                let control = bits | depth << 2;
                assert_eq!(answer(&wide_with_cursor(control, hs)), refusal(number));
                let mut record = wide_with_cursor(control | 0xFF_3FB0, hs);
                record = record.with_word(value(HSWR, hs / 2 - 1) | 0x3FFF);
                assert_eq!(answer(&record), refusal(number));
                // A record filled by hand, its data taken modulo 2^24.
                for address in [CONTROL, HSWR] {
                    record.values[(address / 4) as usize] |= 0xFF00_0000;
                }
                assert_eq!(answer(&record), refusal(number));
            }
        }
    }
}

#[test]
fn nothing_is_asked_with_the_cursor_off() {
    for bits in 8..12 {
        let on = wide_with_cursor(bits, 2);
        assert_eq!(answer(&on), refusal(19));
        let off = [
            wide(bits, 2),
            on.clone().with_word(value(VCER, 2)),
            on.clone().with_word(value(VCER, 1)),
            unwritten(on.clone(), VCSR),
            unwritten(on.clone(), VCER),
            unwritten(unwritten(on, VCSR), VCER),
        ];
        for record in off {
            assert_eq!(answer(&record), refusal(0));
            assert!(!setting::read(&record).cursor_on);
        }
    }
}

#[test]
fn a_cursor_that_shows_nowhere_is_on() {
    let nowhere = |hs| {
        [
            wide_with_cursor(CONTROL_DATA, hs).with_word(word(HCSR, 2047 << 13)),
            cursor_alone(wide(CONTROL_DATA, hs), 1, 2),
            // Display and border off.
            wide_with_cursor(CONTROL_DATA, hs).with_word(value(VDER, 2)).with_word(value(VBER, 1)),
        ]
    };
    assert_eq!(nowhere(18).map(|record| answer(&record)), [refusal(19); 3]);
    assert_eq!(nowhere(20).map(|record| answer(&record)), [refusal(0); 3]);
}

/// A setting's refusals in their order.
pub const ORDER: [u32; 8] = [3, 4, 5, 6, 19, 7, 8, 9];

/// The record spoilt so that this number applies.
pub fn spoilt(record: Record, number: u32) -> Record {
    let control = record.data(CONTROL);
    match number {
        3 => unwritten(record, cursor_entry(3)),
        4 => record.with_word(word(CONTROL, control | 0x4000)),
        5 => record.with_word(word(CONTROL, control | 0x40)),
        6 => record.with_word(value(HBER, 35)),
        7 => record.with_word(value(VSWR, 6)),
        8 => record.with_word(value(HDER, 24)),
        9 => record.with_word(word(HCSR, 0x800)),
        _ => record.with_word(value(HSWR, 8)), // 19: HS 18
    }
}

#[test]
fn after_six_and_before_seven() {
    let right = wide_with_cursor(CONTROL_DATA, 20);
    assert_eq!(answer(&right), refusal(0));
    for (i, first) in ORDER.into_iter().enumerate() {
        let refused = refusal_at(first, if first == 3 { 0x4C } else { 0 });
        let alone = spoilt(right.clone(), first);
        assert_eq!(answer(&alone), refused);
        for later in &ORDER[i + 1..] {
            assert_eq!(answer(&spoilt(alone.clone(), *later)), refused, "{first} {later}");
        }
        let with_all_later = ORDER[i..].iter().fold(right.clone(), |record, number| spoilt(record, *number));
        assert_eq!(answer(&with_all_later), refused);
    }
}

#[test]
fn before_the_word_counts_and_what_follows_them() {
    // Five video words for four and no cursor words for two; raster 6 of 6, index 5 of 5, nothing lent.
    for (hs, number) in [(18, 19), (20, 11)] {
        let (record, refused) = (wide_with_cursor(CONTROL_DATA, hs), refusal(number));
        assert_eq!(frame(&record, &[0; 5], &[], 0), Err(refused));
        assert_eq!(raster(&record, &[0; 5], &[], 6, 0), Err(refused));
        assert_eq!(raster_words(&record, &[0; 5], 6), Err(refused));
        assert_eq!(marks(&record, &[0; 5], &[], 0), Err(refused));
        assert_eq!(summaries(&record, &[0; 5], &[], 0, &mut []), Err(refused));
        assert_eq!(replace(&record, &mut [0; 5], &[], 0, 5, 1, &mut []), Err(refused));
    }
}

/// A word for each written register of a record, in the order of their addresses.
pub fn registers_of(record: &Record) -> Vec<u32> {
    let written = (0..=0xFC).step_by(4).filter(|address| record.is_written(*address));
    written.map(|address| word(address, record.data(address))).collect()
}

/// The plate of a record, with these words.
pub fn plate_of(record: &Record, video: &[u32], cursor: &[u32]) -> Vec<u8> {
    plate::write(&registers_of(record), video, cursor, &[], 1000).unwrap()
}

#[test]
fn the_printers_text() {
    let short = wide_with_cursor(CONTROL_DATA, 18);
    for plate in [plate_of(&short, &[0; 4], &[u32::MAX; 2]), plate_of(&short, &[], &[])] {
        assert_eq!([text(&plate), live(&plate), rasters(&plate, 0)], ["refused 19 0\n"; 3]);
    }
    // The cursor is at x from 6 up to 38, cut off before the border.
    let lines = "frame 70 6 words 4 marks 0\n\
                 3x20 2x50\n\
                 1x20 0x50\n\
                 1x20 0x3 4x46 0x1\n\
                 1x20 0x3 6x15 5x19 4x12 0x1\n\
                 1x20 0x3 4x46 0x1\n\
                 1x20 0x50\n";
    let enough = wide_with_cursor(CONTROL_DATA, 20);
    assert_eq!(text(&plate_of(&enough, &[0; 4], &[u32::MAX; 2])), lines);
    assert_eq!(text(&plate_of(&enough, &[], &[])), "refused 11 0\n");
}

#[test]
fn the_small_plate_is_the_same_at_every_rate() {
    for bits in 8..12 {
        let registers = [small_registers(), vec![word(CONTROL, bits)]].concat();
        let plate = plate::write(&registers, &SMALL_VIDEO, &[], &[], 1000).unwrap();
        assert_eq!(text(&plate), text(&small_plate()));
    }
}

/// The answer before the request: 3 to 9 by document 01's table.
fn before(record: &Record) -> Result<(), Refusal> {
    let s = setting::read(record);
    needed::judge(record, &s)?;
    refuse_if(record.data(CONTROL) & 0xC000 != 0, 4)?;
    refuse_if(record.data(CONTROL) & 0x40 != 0, 5)?;
    let never_falls = |row: &[u32]| row.windows(2).all(|pair| pair[0] <= pair[1]);
    refuse_if(s.ds >= s.de || !never_falls(&[s.hs, s.bs, s.ds, s.de, s.be, s.n]), 6)?;
    let both = s.vds < s.vde && never_falls(&[s.vs, s.vbs, s.vds, s.vde, s.vbe, s.v]);
    let border = s.vbs < s.vbe && never_falls(&[s.vs, s.vbs, s.vbe, s.v]);
    let display_off = s.vde <= s.vds && (s.vbe <= s.vbs || border);
    refuse_if(s.vs > s.v || !(both || display_off), 7)?;
    refuse_if((s.de - s.ds) * s.depth % 32 != 0, 8)?;
    refuse_if(s.cursor_on && (record.data(HCSR) & 0x1800 != 0 || s.vce > s.v), 9)
}

/// One register changed in any way.
fn changed(record: Record, seed: &mut u64) -> Record {
    let (kind, place, v) = (next(seed) % 8, next(seed), next(seed));
    match kind {
        0 => record.with_word(word(CONTROL, v % 0x40)),
        1 => record.with_word(word(CONTROL, v % 0x1_0000)),
        2 => record.with_word(value(HCR + 4 * (place % 6), v % 40)),
        3 => record.with_word(value(VCR + 4 * (place % 8), v % 8)),
        4 => record.with_word(word(HCSR, v % (1 << 24))),
        5 => unwritten(record, place % 64 * 4),
        _ => record.with_word(value(HSWR, v % 11)),
    }
}

/// Records of all kinds, from the wide plate by up to three changes.
fn any_records(start: &Record) -> Vec<Record> {
    let mut seed = 5;
    let mut any_record = || {
        let changes = next(&mut seed) % 4;
        (0..changes).fold(start.clone(), |record, _| changed(record, &mut seed))
    };
    (0..20_000).map(|_| any_record()).collect()
}

/// Each of these numbers was answered ten times or more.
pub fn all_met(answers: &[Refusal], numbers: &[u32]) {
    for number in numbers {
        let times = answers.iter().filter(|answer| answer.number == *number).count();
        assert!(times >= 10, "{number}: {times} times");
    }
}

#[test]
fn without_a_cursor_as_before() {
    let mut answers = Vec::new();
    for record in any_records(&wide(CONTROL_DATA, 2)) {
        if !setting::read(&record).cursor_on {
            let answered = answer(&record);
            assert_eq!(answered, before(&record).err().unwrap_or(refusal(0)), "{record:?}");
            answers.push(answered);
        }
    }
    all_met(&answers, &[0, 3, 4, 5, 6, 7, 8]);
}

#[test]
fn with_a_cursor_as_before_but_for_nineteen() {
    let mut answers = Vec::new();
    for record in any_records(&wide_with_cursor(CONTROL_DATA, 20)) {
        let s = setting::read(&record);
        let was = before(&record).err().unwrap_or(refusal(0));
        let rate = ENDS[(record.data(CONTROL) % 4) as usize].0;
        let too_short = s.cursor_on && 12 * s.hs < 10 * rate;
        let earlier = [3, 4, 5, 6].contains(&was.number);
        let answered = answer(&record);
        assert_eq!(answered, if too_short && !earlier { refusal(19) } else { was }, "{record:?}");
        answers.push(answered);
    }
    all_met(&answers, &[0, 3, 4, 5, 6, 7, 8, 9, 19]);
}
