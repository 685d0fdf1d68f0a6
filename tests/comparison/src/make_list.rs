//! Records and the register words that are handed to them: whole lists, lists that mend or break a record, spoiled ones.

use crate::damage::{damage, damage_sound, nudge};
use crate::make_record::*;
use crate::random::Random;
use crate::show;
use second::address::{address_of, is_reserved, HIR};
use second::record::{load_word, Record};

/// What a record is judged for: how a right one is made, and how it is spoiled.
pub struct Purpose {
    right: fn(&mut Random) -> Record,
    spoil: fn(&mut Random, &mut Record),
}

pub const PICTURES: Purpose = Purpose { right: right_of_any_size, spoil: damage_or_nudge };
pub const SOUND: Purpose = Purpose { right: right_for_sound, spoil: damage_sound };

fn right_of_any_size(random: &mut Random) -> Record {
    let size = random.pick(&[SMALL, SMALL, WIDE, TALL, FULL]);
    right(random, size)
}

fn damage_or_nudge(random: &mut Random, record: &mut Record) {
    if random.one_in(2) {
        damage(random, record);
    } else {
        nudge(random, record);
    }
}

/// A record, and the words to load into it.
pub struct Loading {
    pub record: Record,
    pub words: Vec<u32>,
}

impl Loading {
    pub fn show(&self) -> String {
        format!("record {}\nwords {}", show::record(&self.record), show::list(&self.words))
    }
}

/// Records to be judged as they stand: right, then spoiled, and a hand's garbage.
pub fn standing(random: &mut Random, purpose: &Purpose) -> [Record; 3] {
    let right = (purpose.right)(random);
    let mut spoiled = right.clone();
    (purpose.spoil)(random, &mut spoiled);
    [right, spoiled, ground(random)]
}

/// Right or wrong in the record, in the list, in what the list leaves, or in several of these.
pub fn loading(random: &mut Random, purpose: &Purpose) -> Loading {
    let right = (purpose.right)(random);
    let mut wrong = right.clone();
    (purpose.spoil)(random, &mut wrong);
    let (from, to) = if random.one_in(2) { (wrong, right) } else { (right, wrong) };
    let (record, mut words) = match random.between(0, 9) {
        0..=2 => (Record::fresh(), as_words(random, &to)),
        3 => (ground(random), as_words(random, &to)),
        4 => (from, any_words(random)),
        5 => (from, Vec::new()),
        _ => {
            let words = changes(random, &from, &to);
            (from, words)
        }
    };
    if random.one_in(3) {
        spoil_list(random, &mut words);
    }
    Loading { record, words }
}

/// A right record's words and then some colours, which neither pictures nor sound ask anything of: mostly accepted, to a
/// fresh record always.
pub fn whole(random: &mut Random, purpose: &Purpose) -> Loading {
    let right = (purpose.right)(random);
    let mut words = as_words(random, &right);
    for _ in 0..random.between(0, 20) {
        let (slot, data) = (random.between(0, 19), random.word());
        words.push(word(random, slot, data));
    }
    let mut record = if random.one_in(2) { right } else { Record::fresh() };
    if random.one_in(4) {
        (purpose.spoil)(random, &mut record);
    }
    Loading { record, words }
}

/// The words that make another record of one, as far as words can: they unwrite nothing.
fn changes(random: &mut Random, from: &Record, to: &Record) -> Vec<u32> {
    let mut changed = to.clone();
    for (slot, written) in changed.written.iter_mut().enumerate() {
        *written &= !from.written[slot] || from.values[slot] != to.values[slot];
    }
    as_words(random, &changed)
}

/// Words at named addresses.
fn any_words(random: &mut Random) -> Vec<u32> {
    let count = if random.one_in(8) { random.between(50, 500) } else { random.between(1, 40) };
    (0..count).map(|_| named_word(random)).collect()
}

fn named_word(random: &mut Random) -> u32 {
    loop {
        let word = random.word();
        if is_named(&word) {
            return word;
        }
    }
}

pub fn is_named(word: &u32) -> bool {
    !is_reserved(address_of(*word))
}

/// Just as many words as there may be, or too many, or reserved ones among them, or both.
pub fn spoil_list(random: &mut Random, words: &mut Vec<u32>) {
    let count = match random.between(0, 7) {
        0 | 1 => random.pick(&[1023, 1024]),
        2 | 3 => random.pick(&[1025, 1026, 1100, 2000]),
        _ => 0,
    };
    fill_front(random, words, count);
    if count == 0 || random.one_in(4) {
        (0..random.between(1, 3)).for_each(|_| put_reserved(random, words));
    }
}

/// So many words, by others in front, without effect on any rule: later words overwrite them, or HIR plays no part.
fn fill_front(random: &mut Random, words: &mut Vec<u32>, count: usize) {
    let slots: Vec<u32> = words.iter().chain(&[HIR << 24]).map(|word| address_of(*word) / 4).collect();
    let missing = count.saturating_sub(words.len());
    let front = (0..missing).map(|_| {
        let (slot, data) = (random.pick(&slots), random.word());
        word(random, slot, data)
    });
    words.splice(0..0, front);
}

/// Often the first or the last.
fn put_reserved(random: &mut Random, words: &mut Vec<u32>) {
    let last = words.len();
    let any = random.between(0, last as u32) as usize;
    let place = random.pick(&[0, last, any, any]);
    let slots: Vec<u32> = (0..64).filter(|&slot| is_reserved(4 * slot)).collect();
    let (slot, data) = (random.pick(&slots), random.word());
    words.insert(place, word(random, slot, data));
}

/// The record with those of the words that have a named address, and nothing judged.
pub fn with_words(record: &Record, words: &[u32]) -> Record {
    let loaded = |record, word: &u32| load_word(&record, *word).expect("a named address");
    words.iter().filter(|word| is_named(word)).fold(record.clone(), loaded)
}
