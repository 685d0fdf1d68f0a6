//! Records whose setting is right, made step by step so that each rule holds by construction.

use crate::random::Random;
use second::address::*;
use second::load::load_and_check;
use second::needed::is_needed;
use second::record::Record;
use second::setting::{self, Setting};

/// How large a frame is wanted: a fixed last pair, a fixed last raster, or neither.
#[derive(Clone, Copy)]
pub struct Size {
    pub hcr: Option<u32>,
    pub vcr: Option<u32>,
}

pub const SMALL: Size = Size { hcr: None, vcr: None };
pub const WIDE: Size = Size { hcr: Some(1023), vcr: None };
pub const TALL: Size = Size { hcr: None, vcr: Some(1023) };
pub const MIDDLING: Size = Size { hcr: Some(511), vcr: Some(311) };
pub const FULL: Size = Size { hcr: Some(1023), vcr: Some(1023) };

/// Small, with a long line now and then.
pub fn small_or_wide(random: &mut Random) -> Size {
    if random.one_in(40) {
        WIDE
    } else {
        SMALL
    }
}

/// Puts a number into bits `high` to `low` of a register, leaves its other bits, marks it written.
pub fn put(record: &mut Record, address: u32, high: u32, low: u32, number: u32) {
    let place = (address / 4) as usize;
    let mask = (1 << (high - low + 1)) - 1;
    record.values[place] = record.values[place] & !(mask << low) | (number & mask) << low;
    record.written[place] = true;
}

/// The ten bits of a horizontal or vertical register, taken modulo 1,024.
pub fn put_value(record: &mut Record, address: u32, value: u32) {
    put(record, address, 23, 14, value);
}

pub fn value(record: &Record, address: u32) -> u32 {
    record.bits(address, 23, 14)
}

pub fn unwrite(record: &mut Record, address: u32) {
    record.written[(address / 4) as usize] = false;
}

/// What lies in a record before anything is put: nothing, words as loaded, or a hand's garbage.
pub fn ground(random: &mut Random) -> Record {
    let mut record = Record::fresh();
    let mask = random.pick(&[0, 0x00FF_FFFF, 0xFFFF_FFFF, 0xFFFF_FFFF]);
    for place in 0..64 {
        record.values[place] = random.word() & mask;
        record.written[place] = mask != 0 && random.one_in(2);
    }
    record
}

/// The setting of a record as it stands, if it is accepted.
pub fn setting_of(record: &Record) -> Option<Setting> {
    load_and_check(record, &[]).ok().map(|(_, setting)| setting)
}

/// A record that no rule of a setting refuses.
pub fn right(random: &mut Random, size: Size) -> Record {
    let mut record = ground(random);
    let depth = put_control(random, &mut record);
    let sync = if random.one_in(4) { 0 } else { least_sync(&record) };
    for (i, v) in horizontal(random, depth, sync, size.hcr).into_iter().enumerate() {
        put_value(&mut record, HCR + 4 * i as u32, v);
    }
    for (i, v) in vertical(random, size.vcr).into_iter().enumerate() {
        put_value(&mut record, VCR + 4 * i as u32, v);
    }
    put_cursor(random, &mut record);
    put_colours(random, &mut record);
    assert!(setting_of(&record).is_some(), "a record made to be right is refused: {record:?}");
    record
}

/// Any rate, depth and request point, no interlace, no test mode; the rest stays garbage.
fn put_control(random: &mut Random, record: &mut Record) -> u32 {
    let code = random.between(0, 3);
    put(record, CONTROL, 1, 0, random.between(0, 3));
    put(record, CONTROL, 3, 2, code);
    put(record, CONTROL, 6, 6, 0);
    put(record, CONTROL, 15, 14, 0);
    1 << code
}

/// How many pairs the display offset k is above the border's: (k - 1) / 2.
pub fn half_offset(depth: u32) -> u32 {
    match depth {
        1 => 9,
        2 => 5,
        4 => 3,
        _ => 2,
    }
}

/// HSWR of the shortest sync that a cursor is given: 2v+2 pixels, six times which are no fewer than 5 for each MHz.
pub fn least_sync(record: &Record) -> u32 {
    (5 * setting::pixel_rate(record) + 11) / 12 - 1
}

/// HCR, HSWR, HBSR, HDSR, HDER, HBER, with a sync of no less than is named.
fn horizontal(random: &mut Random, depth: u32, sync: u32, hcr: Option<u32>) -> [u32; 6] {
    let half = half_offset(depth);
    let pairs_each_word = 16 / depth;
    let hswr = sync + random.gap();
    let hbsr = hswr + 1 + random.gap();
    let hdsr = hbsr.saturating_sub(half) + random.gap();
    let most_words = hcr.map_or(3, |hcr| (hcr - half - hdsr) / pairs_each_word);
    let words = if hcr.is_some() && random.one_in(3) { most_words } else { random.between(1, most_words) };
    let hder = hdsr + words * pairs_each_word;
    let hber = hder + half + random.gap();
    let hber = hcr.map_or(hber, |hcr| hber.min(hcr));
    [hcr.unwrap_or(hber + random.gap()), hswr, hbsr, hdsr, hder, hber]
}

/// VCR, VSWR, VBSR, VDSR, VDER, VBER.
fn vertical(random: &mut Random, vcr: Option<u32>) -> [u32; 6] {
    let vcr = vcr.unwrap_or_else(|| random.pick(&[0, 1, 2, 3, 4, 5, 6, 7, 9, 12]));
    match random.between(0, 9) {
        _ if vcr == 0 => both_off(random, vcr),
        0 => both_off(random, vcr),
        1 | 2 => display_off(random, vcr),
        _ => both_on(random, vcr),
    }
}

fn rising(random: &mut Random, count: usize, last: u32) -> Vec<u32> {
    let mut numbers: Vec<u32> = (0..count).map(|_| random.between(0, last)).collect();
    numbers.sort_unstable();
    numbers
}

/// Two registers that do not rise: off.
fn not_rising(random: &mut Random, vcr: u32) -> (u32, u32) {
    let start = random.pick(&[just_past(vcr), 0, 1023, vcr / 2]);
    let end = if random.one_in(2) { start } else { random.between(0, start) };
    (start, end)
}

fn just_past(vcr: u32) -> u32 {
    (vcr + 1).min(1023)
}

fn both_on(random: &mut Random, vcr: u32) -> [u32; 6] {
    loop {
        let n = if random.one_in(3) { rising(random, 5, vcr) } else { mostly_display(random, vcr) };
        if n[2] < n[3] {
            return [vcr, n[0], n[1], n[2], n[3], n[4]];
        }
    }
}

/// Small margins above and below the display.
fn mostly_display(random: &mut Random, vcr: u32) -> Vec<u32> {
    let vswr = random.gap();
    let vbsr = vswr + random.gap();
    let vdsr = vbsr + random.gap();
    let vber = vcr.saturating_sub(random.gap());
    let vder = vber.saturating_sub(random.gap());
    vec![vswr, vbsr, vdsr, vder, vber]
}

fn display_off(random: &mut Random, vcr: u32) -> [u32; 6] {
    let (vdsr, vder) = not_rising(random, vcr);
    loop {
        let n = rising(random, 3, vcr);
        if n[1] < n[2] {
            return [vcr, n[0], n[1], vdsr, vder, n[2]];
        }
    }
}

fn both_off(random: &mut Random, vcr: u32) -> [u32; 6] {
    let (vdsr, vder) = not_rising(random, vcr);
    let (vbsr, vber) = not_rising(random, vcr);
    [vcr, random.between(0, vcr), vbsr, vdsr, vder, vber]
}

fn put_cursor(random: &mut Random, record: &mut Record) {
    let vcr = value(record, VCR);
    let fits = value(record, HSWR) >= least_sync(record);
    if vcr > 0 && fits && !random.one_in(4) {
        put_cursor_on(random, record, vcr);
    } else if random.one_in(2) {
        let (vcsr, vcer) = not_rising(random, vcr);
        put_value(record, VCSR, vcsr);
        put_value(record, VCER, vcer);
    } else {
        unwrite(record, random.pick(&[VCSR, VCER]));
    }
}

fn put_cursor_on(random: &mut Random, record: &mut Record, vcr: u32) {
    let vcsr = random.between(0, vcr - 1);
    let highest = if random.one_in(3) { vcr } else { vcr.min(vcsr + 40) };
    put_value(record, VCSR, vcsr);
    put_value(record, VCER, random.between(vcsr + 1, highest));
    put(record, HCSR, 23, 13, cursor_start(random, record));
    put(record, HCSR, 12, 11, 0);
}

/// Mostly where the cursor crosses an edge of border or display.
fn cursor_start(random: &mut Random, record: &Record) -> u32 {
    let s = setting::read(record);
    let edge = random.pick(&[s.hs, s.bs, s.ds, s.de, s.be, s.n]);
    match random.between(0, 9) {
        0 => 0,
        1 => 2047,
        2 => random.between(0, 2047),
        _ => (edge + random.between(0, 36)).saturating_sub(36 + 6).min(2047),
    }
}

/// The colours in use, and every needed register written.
fn put_colours(random: &mut Random, record: &mut Record) {
    let s = setting::read(record);
    for address in (0x00..=0xFC).step_by(4).filter(|&a| is_needed(a, &s)) {
        if address <= 0x4C {
            put(record, address, 12, 0, random.word());
        }
        record.written[(address / 4) as usize] = true;
    }
}

/// A record that sound does not refuse, before other garbage.
pub fn right_for_sound(random: &mut Random) -> Record {
    let mut record = ground(random);
    for channel in 0..8 {
        put(&mut record, stereo(channel), 2, 0, random.between(1, 7));
    }
    put(&mut record, SOUND_FREQUENCY, 7, 0, random.pick(&[3, 4, 127, 128, 200, 255]));
    record
}

/// The written registers as a shuffled list of words, some written twice.
pub fn as_words(random: &mut Random, record: &Record) -> Vec<u32> {
    let (mut early, mut last) = (Vec::new(), Vec::new());
    for slot in (0..64).filter(|&i| record.written[i as usize] && !is_reserved(4 * i)) {
        last.push(word(random, slot, record.values[slot as usize]));
        if random.one_in(8) {
            let overwritten = random.word();
            early.push(word(random, slot, overwritten));
        }
    }
    random.shuffle(&mut last);
    early.extend(last);
    early
}

/// A register word; bits 25 and 24 are ignored, so they are garbage.
pub fn word(random: &mut Random, slot: u32, data: u32) -> u32 {
    (slot << 26) | (random.between(0, 3) << 24) | (data % (1 << 24))
}
