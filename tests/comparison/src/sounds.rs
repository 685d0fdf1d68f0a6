//! Sound values and the pair of one byte.

use crate::bench::Bench;
use crate::damage::damage_sound;
use crate::judged::Judged;
use crate::lent::{lent_length, Lent};
use crate::make_record::right_for_sound;
use crate::ours;
use crate::random::Random;
use crate::show;
use second::record::Record;
use second::sound::{pair, sound};

pub fn sound_round(bench: &mut Bench, random: &mut Random) {
    let mut record = right_for_sound(random);
    if random.one_in(3) {
        damage_sound(random, &mut record);
    }
    let count = if random.one_in(100) { 2000 } else { random.between(0, 12) };
    let words = random.words(count as usize);
    let counter = counter(random);
    compare_sound(bench, random, &record, &words, counter);
}

/// Mostly near the wrap.
fn counter(random: &mut Random) -> u32 {
    match random.between(0, 3) {
        0 => random.word(),
        1 => random.between(0, 16),
        _ => u32::MAX - random.between(0, 60),
    }
}

fn compare_sound(bench: &mut Bench, random: &mut Random, record: &Record, words: &[u32], counter: u32) {
    let length = lent_length(random, 8 * words.len());
    let expected = sound(record, words, counter, length);
    let (mut out, mut after) = (Lent::<i16>::new(random, length), counter);
    let told = ours::record(record).sound(words, &mut after, out.lend());
    let mut judged = Judged::answer(&expected, told);
    let (values, counted) = expected.unwrap_or((Vec::new(), counter));
    judged.memory("values", &out, &values);
    judged.same("counter afterwards", &counted, &after);
    bench.see("sound counter wraps", counted < counter);
    bench.count("sound", judged, || {
        let (record, words) = (show::record(record), show::list(words));
        format!("record {record}\nwords {words}\ncounter {counter}\nbuffer of {length}")
    });
}

/// Every byte at every stereo value 1 to 7.
pub fn every_pair(bench: &mut Bench, random: &mut Random) {
    for stereo in 1..=7 {
        for byte in 0..=u8::MAX {
            let mut lent: Lent<i16> = Lent::new(random, 2);
            let expected = pair(byte, stereo);
            let told = vombelishi::sound_pair_into(byte, stereo, lent.lend());
            let mut judged = Judged::answer(&Ok(expected), told);
            judged.memory("pair", &lent, &expected);
            judged.returned(Ok(expected), vombelishi::sound_pair(byte, stereo));
            bench.count("sound_pair", judged, || format!("byte {byte:02x}\nstereo {stereo}"));
        }
    }
}
