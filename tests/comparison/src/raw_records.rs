//! The C calls themselves, of a record that is only read: colour, what a sync asks for, the check for sound, sound; and of
//! single numbers.

use crate::bench::Bench;
use crate::damage::damage_sound;
use crate::handed::{judge, Given, Slice};
use crate::judged::Judged;
use crate::make_queue::kind;
use crate::make_record::{ground, right_for_sound};
use crate::random::Random;
use crate::syncs::{asked, rasters, sync_record};
use second::record::Record;
use second::refusal::{refusal, refuse_if, SHORT, SOUND};
use second::{colour, grey, pin, sound, sound_judge};
use vombelishi::calls::*;

pub fn raw_record_round(bench: &mut Bench, random: &mut Random) {
    let record = ground(random);
    raw_colour(bench, random, &record);
    raw_sync_ask(bench, random);
}

pub fn raw_sound_round(bench: &mut Bench, random: &mut Random) {
    let mut record = right_for_sound(random);
    if random.one_in(3) {
        damage_sound(random, &mut record);
    }
    raw_check_sound(bench, random, &record);
    raw_sound(bench, random, &record);
    raw_pair(bench, random);
    raw_numbers(bench, random);
}

/// Any depth and any pixel: what is no depth shows the entry, which four bits of the pixel pick.
fn raw_colour(bench: &mut Bench, random: &mut Random, record: &Record) {
    let mut given = Given::new(random, record);
    let (depth, pixel) = (random.pick(&[1, 2, 4, 8, 8, 0, 3, 16, 255]), random.between(0, 255));
    let mut shown = Slice::one(random, "colour", 0xA5A5);
    let mut supremacy = Slice::one(random, "supremacy", 0xA5);
    let expected = given.record().map(|record| match depth {
        8 => colour::display(&record, 8, pixel),
        _ => colour::display(&record, 4, pixel % 16),
    });
    if let Ok(right) = expected {
        shown.should_hold(&[right.colour]);
        supremacy.should_hold(&[right.supremacy.into()]);
    }
    let Given { values, written } = &mut given;
    let (v, w) = ((values.pointer(), values.len()), (written.pointer(), written.len()));
    let places = (shown.pointer(), supremacy.pointer());
    // SAFETY: each pointer is that of as many elements as are told, and what is written overlaps nothing. So below.
    let told = unsafe { vom_colour(v.0, v.1, w.0, w.1, depth as u8, pixel as u8, places.0, places.1) };
    judge(
        bench,
        "vom_colour",
        &expected,
        told,
        &[&given, &shown, &supremacy],
        &format!("depth {depth}\npixel {pixel}"),
    );
}

fn raw_sync_ask(bench: &mut Bench, random: &mut Random) {
    let record = sync_record(random);
    let (kind, rasters) = (kind(random), rasters(random, &record));
    let raster = random.pick(&rasters);
    let mut given = Given::new(random, &record);
    let mut words = Slice::one(random, "words", 0xA5A5_A5A5);
    let expected = given.record().map(|record| asked(&record, kind, raster));
    if let Ok(right) = expected {
        words.should_hold(&[right]);
    }
    let Given { values, written } = &mut given;
    let (v, w) = ((values.pointer(), values.len()), (written.pointer(), written.len()));
    let told = unsafe { vom_sync_ask(v.0, v.1, w.0, w.1, kind, raster, words.pointer()) };
    judge(
        bench,
        "vom_sync_ask",
        &expected,
        told,
        &[&given, &words],
        &format!("kind {kind}\nraster {raster}"),
    );
}

fn raw_check_sound(bench: &mut Bench, random: &mut Random, record: &Record) {
    let mut given = Given::new(random, record);
    let expected = given.record().and_then(|record| sound_judge::check_sound(&record));
    let Given { values, written } = &mut given;
    let told = unsafe { vom_check_sound(values.pointer(), values.len(), written.pointer(), written.len()) };
    judge(bench, "vom_check_sound", &expected, told, &[&given], "");
}

fn raw_sound(bench: &mut Bench, random: &mut Random, record: &Record) {
    let mut given = Given::new(random, record);
    let count = random.pick(&[0, 0, 1, 2, 3, 7, 12]);
    let words = random.words(count);
    let mut words = Slice::list(random, "words", &words, None);
    let before = random.pick(&[0, 5, u32::MAX, u32::MAX - 7]).wrapping_sub(random.gap());
    let mut counter = Slice::one(random, "counter", before);
    let mut out = Slice::answer(random, "out", 8 * words.len());
    let expected = given.record().and_then(|record| sound::sound(&record, words.given(), before, out.len()));
    if let Ok((values, after)) = &expected {
        out.should_hold(values);
        counter.should_hold(&[*after]);
    }
    let Given { values, written } = &mut given;
    let (v, w) = ((values.pointer(), values.len()), (written.pointer(), written.len()));
    let (from, to) = ((words.pointer(), words.len()), (out.pointer(), out.len()));
    let told = unsafe { vom_sound(v.0, v.1, w.0, w.1, from.0, from.1, counter.pointer(), to.0, to.1) };
    judge(bench, "vom_sound", &expected, told, &[&given, &words, &counter, &out], "");
}

/// Any byte and any stereo value, of which three bits count.
fn raw_pair(bench: &mut Bench, random: &mut Random) {
    let (byte, stereo) = (random.between(0, 255) as u8, random.between(0, 255) as u8);
    let mut pair = Slice::answer(random, "pair", 2);
    let room = refuse_if(pair.len() < 2, SHORT);
    let expected = match stereo % 8 {
        0 => Err(refusal(SOUND)),
        value => room.map(|()| sound::pair(byte, value)),
    };
    if let Ok(right) = &expected {
        pair.should_hold(right);
    }
    let told = unsafe { vom_sound_pair(byte, stereo, pair.pointer(), pair.len()) };
    judge(bench, "vom_sound_pair", &expected, told, &[&pair], &format!("byte {byte:02x}\nstereo {stereo}"));
}

/// Grey and the pin take numbers alone.
fn raw_numbers(bench: &mut Bench, random: &mut Random) {
    let (colour, control, code) = (random.word() as u16, random.word(), random.between(0, 255) as u8);
    let mut judged = Judged::default();
    judged.same("grey", &grey::grey(colour), unsafe { &vom_grey(colour) });
    bench.count("vom_grey", judged, || format!("colour {colour:04x}"));
    let mut judged = Judged::default();
    judged.same("level", &pin::pin(code, control), unsafe { &vom_pin(code, control) });
    bench.count("vom_pin", judged, || format!("code {code}\ncontrol {control:08x}"));
}
