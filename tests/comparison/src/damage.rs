//! Ways to spoil a right record, one rule each.

use crate::make_record::{half_offset, least_sync, put, put_value, unwrite, value};
use crate::random::Random;
use second::address::*;
use second::needed::is_needed;
use second::record::Record;
use second::setting;

type Damage = fn(&mut Random, &mut Record);

const DAMAGES: [Damage; 19] = [
    unwrite_one,
    unwrite_one,
    test_mode,
    interlace,
    sync_past_border,
    border_past_display,
    display_not_rising,
    display_past_border_end,
    border_past_line,
    other_rate,
    sync_past_frame,
    sync_past_border_start,
    border_start_past_display,
    display_end_past_border,
    border_end_past_frame,
    width_not_words,
    cursor_sub_position,
    cursor_past_frame,
    scramble,
];

/// One way, sometimes two, so that the order of the refusals shows.
pub fn damage(random: &mut Random, record: &mut Record) {
    one_way(random, record);
    while random.one_in(5) {
        one_way(random, record);
    }
}

/// The sync that a cursor is given is the most frequent of all, so that its edge is often met.
fn one_way(random: &mut Random, record: &mut Record) {
    if random.one_in(6) {
        return sync_too_short(random, record);
    }
    random.pick(&DAMAGES)(random, record);
}

/// A step up or down in one timing register: the edges of the rules.
pub fn nudge(random: &mut Random, record: &mut Record) {
    let all = [HCR, HSWR, HBSR, HDSR, HDER, HBER, VCR, VSWR, VBSR, VDSR, VDER, VBER, VCSR, VCER];
    let address = random.pick(&all);
    let step = random.pick(&[1, 1, 2, 1023, 1023, 1022]);
    put_value(record, address, value(record, address) + step);
}

fn unwrite_one(random: &mut Random, record: &mut Record) {
    let s = setting::read(record);
    let needed: Vec<u32> = (0x00..=0xFC).step_by(4).filter(|&a| is_needed(a, &s)).collect();
    unwrite(record, random.pick(&needed));
}

fn test_mode(random: &mut Random, record: &mut Record) {
    put(record, CONTROL, 15, 14, random.between(1, 3));
}

fn interlace(_: &mut Random, record: &mut Record) {
    put(record, CONTROL, 6, 6, 1);
}

/// HS > BS by one pixel or more.
fn sync_past_border(random: &mut Random, record: &mut Record) {
    put_value(record, HSWR, value(record, HBSR) + random.gap());
}

/// BS > DS.
fn border_past_display(random: &mut Random, record: &mut Record) {
    let display = value(record, HDSR) + half_offset(setting::depth(record));
    put_value(record, HBSR, display + 1 + random.gap());
}

/// DS = DE, or more.
fn display_not_rising(random: &mut Random, record: &mut Record) {
    let down = random.gap();
    put_value(record, HDER, value(record, HDSR).saturating_sub(down));
}

/// DE > BE.
fn display_past_border_end(random: &mut Random, record: &mut Record) {
    let display = value(record, HDER) + half_offset(setting::depth(record));
    put_value(record, HBER, display.saturating_sub(1 + random.gap()));
}

/// BE > N.
fn border_past_line(random: &mut Random, record: &mut Record) {
    put_value(record, HCR, value(record, HBER).saturating_sub(1 + random.gap()));
}

/// One pair less than a cursor is given, or a few.
fn sync_too_short(random: &mut Random, record: &mut Record) {
    put_value(record, HSWR, least_sync(record).saturating_sub(1 + random.gap()));
}

/// A sync that is long enough at one pixel rate may be too short at another.
fn other_rate(random: &mut Random, record: &mut Record) {
    put(record, CONTROL, 1, 0, random.between(0, 3));
}

/// VS > V.
fn sync_past_frame(random: &mut Random, record: &mut Record) {
    put_value(record, VSWR, value(record, VCR) + 1 + random.gap());
}

/// VS > VBS.
fn sync_past_border_start(random: &mut Random, record: &mut Record) {
    put_value(record, VSWR, value(record, VBSR) + 1 + random.gap());
}

/// VBS > VDS.
fn border_start_past_display(random: &mut Random, record: &mut Record) {
    put_value(record, VBSR, value(record, VDSR) + 1 + random.gap());
}

/// VDE > VBE.
fn display_end_past_border(random: &mut Random, record: &mut Record) {
    put_value(record, VBER, value(record, VDER).saturating_sub(1 + random.gap()));
}

/// VBE > V.
fn border_end_past_frame(random: &mut Random, record: &mut Record) {
    put_value(record, VCR, value(record, VBER).saturating_sub(1 + random.gap()));
}

/// The display loses some pairs, but fewer than a word.
fn width_not_words(random: &mut Random, record: &mut Record) {
    let pairs_each_word = 16 / setting::depth(record);
    let fewer = random.between(1, pairs_each_word - 1);
    put_value(record, HDER, value(record, HDER).saturating_sub(fewer));
}

fn cursor_sub_position(random: &mut Random, record: &mut Record) {
    put(record, HCSR, 12, 11, random.between(1, 3));
}

/// VCE > V, with the cursor on unless VCSR is unwritten.
fn cursor_past_frame(random: &mut Random, record: &mut Record) {
    put_value(record, VCER, value(record, VCR) + 1 + random.gap());
}

/// Any slot, any 32 bits.
fn scramble(random: &mut Random, record: &mut Record) {
    record.values[random.between(0, 63) as usize] = random.word();
}

/// Ways to spoil a record that is right for sound.
pub fn damage_sound(random: &mut Random, record: &mut Record) {
    loop {
        let channel = random.between(0, 7);
        match random.between(0, 4) {
            0 => unwrite(record, stereo(channel)),
            1 => unwrite(record, SOUND_FREQUENCY),
            2 | 3 => put(record, stereo(channel), 2, 0, 0),
            _ => put(record, SOUND_FREQUENCY, 7, 0, random.between(0, 2)),
        }
        if !random.one_in(4) {
            return;
        }
    }
}
