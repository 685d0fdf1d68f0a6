//! Loading one word, and the check for sound.

use crate::bench::Bench;
use crate::damage::damage_sound;
use crate::judged::Judged;
use crate::make_record::{ground, right_for_sound, word};
use crate::ours;
use crate::random::Random;
use crate::show;
use second::record::{load_word, Record};
use second::sound_judge::check_sound;

pub fn load_word_round(bench: &mut Bench, random: &mut Random) {
    let record = ground(random);
    let (slot, data) = (random.between(0, 63), random.word());
    compare_load_word(bench, &record, word(random, slot, data));
}

/// The record afterwards: changed as expected, or as it came.
fn compare_load_word(bench: &mut Bench, record: &Record, word: u32) {
    let expected = load_word(record, word);
    let mut after = ours::record(record);
    let mut judged = Judged::answer(&expected, after.load_word(word));
    judged.same("record", &ours::record(expected.as_ref().unwrap_or(record)), &after);
    bench.count("load_word", judged, || format!("record {}\nword {word:08x}", show::record(record)));
}

pub fn check_sound_round(bench: &mut Bench, random: &mut Random) {
    let mut record = right_for_sound(random);
    compare_check_sound(bench, &record);
    damage_sound(random, &mut record);
    compare_check_sound(bench, &record);
}

fn compare_check_sound(bench: &mut Bench, record: &Record) {
    let expected = check_sound(record);
    let judged = Judged::answer(&expected, ours::record(record).check_sound());
    bench.count("check_sound", judged, || format!("record {}", show::record(record)));
}
