//! Loading and judging in one call, for pictures and for sound: records as they stand, lists, and lists in two halves.

use crate::bench::Bench;
use crate::judged::Judged;
use crate::make_list::{is_named, loading, standing, whole, with_words, Loading, Purpose, PICTURES, SOUND};
use crate::make_record::{least_sync, value};
use crate::ours;
use crate::random::Random;
use second::address::{HSWR, VCER, VCSR};
use second::load::{load_and_check, load_and_check_sound};
use second::record::Record;
use second::refusal::{refusal_at, Refusal, RESERVED, SYNC_WIDTH, TOO_MANY_WORDS};
use second::setting::pixel_rate;

/// A pixel rate, and what is seen at it.
const SYNC_ENDS: [(u32, &str, &str); 4] = [
    (8, "8 MHz: 19 for a sync one pair too short", "8 MHz: cursor with the shortest sync"),
    (12, "12 MHz: 19 for a sync one pair too short", "12 MHz: cursor with the shortest sync"),
    (16, "16 MHz: 19 for a sync one pair too short", "16 MHz: cursor with the shortest sync"),
    (24, "24 MHz: 19 for a sync one pair too short", "24 MHz: cursor with the shortest sync"),
];

/// What a call tells and leaves: why it refused, the record afterwards, and for pictures the setting.
struct Left {
    refusal: Option<Refusal>,
    record: vombelishi::Record,
    setting: Option<vombelishi::Setting>,
}

/// One of the two calls: what it is called, what its records are made for, how the second program answers it, and how the
/// library does.
struct Call {
    name: &'static str,
    purpose: Purpose,
    expected: fn(&Record, &[u32]) -> Left,
    told: fn(vombelishi::Record, &[u32]) -> Left,
}

const FOR_PICTURES: Call = Call {
    name: "load_and_check",
    purpose: PICTURES,
    expected: |record, words| match load_and_check(record, words) {
        Ok((record, setting)) => loaded(ours::record(&record), Some(ours::setting(setting))),
        Err(refused) => given_back(ours::record(&refused.record), refused.refusal),
    },
    told: |record, words| match record.load_and_check(words) {
        Ok(accepted) => loaded(accepted.record().clone(), Some(accepted.setting())),
        Err(refused) => {
            given_back(refused.record, refusal_at(refused.refusal.number, refused.refusal.detail))
        }
    },
};

const FOR_SOUND: Call = Call {
    name: "load_and_check_sound",
    purpose: SOUND,
    expected: |record, words| match load_and_check_sound(record, words) {
        Ok(record) => loaded(ours::record(&record), None),
        Err(refused) => given_back(ours::record(&refused.record), refused.refusal),
    },
    told: |record, words| match record.load_and_check_sound(words) {
        Ok(record) => loaded(record, None),
        Err(refused) => {
            given_back(refused.record, refusal_at(refused.refusal.number, refused.refusal.detail))
        }
    },
};

fn loaded(record: vombelishi::Record, setting: Option<vombelishi::Setting>) -> Left {
    Left { refusal: None, record, setting }
}

fn given_back(record: vombelishi::Record, refusal: Refusal) -> Left {
    Left { refusal: Some(refusal), record, setting: None }
}

pub fn load_and_check_round(bench: &mut Bench, random: &mut Random) {
    round(bench, random, &FOR_PICTURES);
}

pub fn load_and_check_sound_round(bench: &mut Bench, random: &mut Random) {
    round(bench, random, &FOR_SOUND);
}

fn round(bench: &mut Bench, random: &mut Random, call: &Call) {
    for record in standing(random, &call.purpose) {
        compare(bench, call, &Loading { record, words: Vec::new() });
    }
    for _ in 0..4 {
        let loading = loading(random, &call.purpose);
        compare(bench, call, &loading);
    }
    halves(bench, random, call);
}

/// One input, and what the library leaves of it.
fn compare(bench: &mut Bench, call: &Call, loading: &Loading) -> Left {
    let Loading { record, words } = loading;
    let expected = (call.expected)(record, words);
    let told = (call.told)(ours::record(record), words);
    let mut judged = judge(&expected, &told);
    if told.refusal.is_some() {
        judged.same("record given back", &ours::record(record), &told.record);
    }
    see(bench, call, loading, &expected);
    bench.count(call.name, judged, || loading.show());
    told
}

fn judge(expected: &Left, told: &Left) -> Judged {
    let mut judged = Judged { refused: expected.refusal, ..Judged::default() };
    judged.same("answer", &expected.refusal, &told.refusal);
    judged.same("record", &expected.record, &told.record);
    judged.same("setting", &expected.setting, &told.setting);
    judged
}

/// A list that is accepted in one call, in two. Where the first half is accepted, the second leaves what the one call
/// leaves; where it is refused, the record that comes back takes the whole list.
fn halves(bench: &mut Bench, random: &mut Random, call: &Call) {
    let list = whole(random, &call.purpose);
    let once = compare(bench, call, &list);
    if once.refusal.is_some() {
        return;
    }
    let cut = random.between(0, list.words.len() as u32) as usize;
    let (first, second) = list.words.split_at(cut);
    let half = compare(bench, call, &Loading { record: list.record.clone(), words: first.to_vec() });
    let rest = if half.refusal.is_none() { second } else { &list.words };
    bench.see_in(call.name, "first half accepted, then the second", half.refusal.is_none());
    bench.see_in(call.name, "first half refused, then the whole list", half.refusal.is_some());
    let judged = judge(&once, &(call.told)(half.record, rest));
    bench.count(call.name, judged, || format!("{}\ncut at {cut}", list.show()));
}

fn see(bench: &mut Bench, call: &Call, loading: &Loading, expected: &Left) {
    let Loading { record, words } = loading;
    let after = with_words(record, words);
    bench.see_in(call.name, "record with bits above 23", record.values.iter().any(|v| *v >= 1 << 24));
    see_list(bench, call, loading, &after, expected);
    if let Some(s) = &expected.setting {
        let half = after.is_written(VCSR) != after.is_written(VCER);
        bench.see("setting with the cursor half written", half);
        bench.see("setting with BE = 2047", s.be == 2047);
        bench.see("setting with HS = BS - 1 and DS = BS", s.hs + 1 == s.bs && s.bs == s.ds);
        bench.see("setting with an unneeded palette entry unwritten", !after.is_written(0x3C));
    }
    see_sync(bench, &after, expected);
}

/// What the list does. `left` is the record with its named words, whether they are loaded or not.
fn see_list(bench: &mut Bench, call: &Call, loading: &Loading, left: &Record, expected: &Left) {
    let Loading { record, words } = loading;
    let refused = |record| (call.expected)(record, &[]).refusal.is_some();
    let (before, after) = (refused(record), refused(left));
    let number = expected.refusal.map_or(0, |refusal| refusal.number);
    let (many, reserved) = (number == TOO_MANY_WORDS, number == RESERVED);
    let judged = !many && !reserved;
    let mut see = |sight, there| bench.see_in(call.name, sight, there);
    see("no words, the record accepted", words.is_empty() && !before);
    see("no words, the record refused", words.is_empty() && before);
    see("list that mends the record", judged && before && !after);
    see("list that breaks the record", judged && !before && after);
    see("list that leaves the record refused", judged && !words.is_empty() && before && after);
    see("1,024 words accepted", words.len() == 1024 && number == 0);
    see("1, and the record would be refused before and after", many && before && after);
    see("1, and the record would be accepted", many && !after);
    see("1, and a word is reserved", many && !words.iter().all(is_named));
    see("2, and the record would be refused before and after", reserved && before && after);
    see("2, and the record would be accepted", reserved && !after);
}

/// The two ends of the rule about horizontal sync and the cursor, at each pixel rate, of the record with the words.
fn see_sync(bench: &mut Bench, record: &Record, expected: &Left) {
    let pairs = value(record, HSWR);
    let shortest = expected.setting.map_or(false, |s| s.cursor_on) && pairs == least_sync(record);
    let refused = expected.refusal.map(|r| r.number);
    let too_short = refused == Some(SYNC_WIDTH) && pairs + 1 == least_sync(record);
    for (rate, longest_refused, shortest_passed) in SYNC_ENDS {
        let here = pixel_rate(record) == rate;
        bench.see(shortest_passed, here && shortest);
        bench.see(longest_refused, here && too_short);
    }
}
