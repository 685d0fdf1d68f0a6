//! The C calls themselves, of a record that is lent to be changed: load_and_check, load_and_check_sound, load_word.

use crate::bench::Bench;
use crate::handed::{judge, Given, Slice};
use crate::make_list::{loading, Loading, PICTURES, SOUND};
use crate::make_record::{ground, word};
use crate::random::Random;
use second::address::address_of;
use second::load::{load_and_check, load_and_check_sound};
use second::record::{load_word, Record};
use second::refusal::{refuse_if, SHORT};
use vombelishi::calls::*;

pub fn raw_load_round(bench: &mut Bench, random: &mut Random) {
    for _ in 0..2 {
        let (for_pictures, for_sound) = (loading(random, &PICTURES), loading(random, &SOUND));
        raw_load_and_check(bench, random, &for_pictures);
        raw_load_and_check_sound(bench, random, &for_sound);
    }
    let record = ground(random);
    let (slot, data) = (random.between(0, 63), random.word());
    let word = word(random, slot, data);
    raw_load_word(bench, random, &record, word);
}

/// The words' registers hold their data and a 1; every other element is as it was.
fn should_be_loaded(given: &mut Given, loaded: &Record, words: &[u32]) {
    let mut written = given.written.given().to_vec();
    for word in words {
        written[address_of(*word) as usize / 4] = 1;
    }
    given.values.should_hold(&loaded.values);
    given.written.should_hold(&written);
}

#[rustfmt::skip] // a pointer and its length on one line
fn raw_load_and_check(bench: &mut Bench, random: &mut Random, loading: &Loading) {
    let mut given = Given::new(random, &loading.record);
    let mut words = Slice::list(random, "words", &loading.words, None);
    let mut setting = Slice::answer(random, "setting", 21);
    let room = refuse_if(setting.len() < 21, SHORT);
    let accepted = given.record().and_then(|record| Ok(load_and_check(&record, words.given())?));
    let short_alone = accepted.is_ok() && room.is_err() && words.len() > 0;
    bench.see_in("vom_load_and_check", "13 for the setting alone, and there are words", short_alone);
    let expected = accepted.and_then(|loaded| room.map(|()| loaded));
    if let Ok((record, right)) = &expected {
        should_be_loaded(&mut given, record, words.given());
        setting.should_hold(&right.numbers());
    }
    // SAFETY: each pointer is that of as many elements as are told, and what is written overlaps nothing. So below.
    let told = unsafe {
        vom_load_and_check(
            given.values.pointer(), given.values.len(),
            given.written.pointer(), given.written.len(),
            words.pointer(), words.len(),
            setting.pointer(), setting.len(),
        )
    };
    judge(bench, "vom_load_and_check", &expected, told, &[&given, &words, &setting], "");
}

#[rustfmt::skip] // a pointer and its length on one line
fn raw_load_and_check_sound(bench: &mut Bench, random: &mut Random, loading: &Loading) {
    let mut given = Given::new(random, &loading.record);
    let mut words = Slice::list(random, "words", &loading.words, None);
    let expected = given.record().and_then(|record| Ok(load_and_check_sound(&record, words.given())?));
    if let Ok(record) = &expected {
        should_be_loaded(&mut given, record, words.given());
    }
    let told = unsafe {
        vom_load_and_check_sound(
            given.values.pointer(), given.values.len(),
            given.written.pointer(), given.written.len(),
            words.pointer(), words.len(),
        )
    };
    judge(bench, "vom_load_and_check_sound", &expected, told, &[&given, &words], "");
}

fn raw_load_word(bench: &mut Bench, random: &mut Random, record: &Record, word: u32) {
    let mut given = Given::new(random, record);
    let expected = given.record().and_then(|record| load_word(&record, word));
    if let Ok(record) = &expected {
        should_be_loaded(&mut given, record, &[word]);
    }
    let Given { values, written } = &mut given;
    let told =
        unsafe { vom_load_word(values.pointer(), values.len(), written.pointer(), written.len(), word) };
    judge(bench, "vom_load_word", &expected, told, &[&given], &format!("word {word:08x}"));
}
