//! Load and check in one call by change request 7: each refusal met, their order, the record loaded, the record given back,
//! and lists in two halves.

use crate::address::*;
use crate::frame::frame;
use crate::history_tests::next;
use crate::load::{load_and_check, Refused};
use crate::marks::marks;
use crate::mixing::mix;
use crate::paper_tests::{judged, small, small_registers, value, word};
use crate::raster::raster;
use crate::raster_words::raster_words;
use crate::record::{load_word, Record};
use crate::refusal::{refusal, refusal_at, Refusal};
use crate::setting;
use crate::summaries::summaries;
use crate::summaries_tests::refused_settings;
use crate::sync_tests::{all_met, registers_of, spoilt, unwritten, wide_with_cursor, CONTROL_DATA, ORDER};

#[rustfmt::skip]
const RESERVED: [u32; 18] = [
    0x50, 0x54, 0x58, 0x5C,
    0xC4, 0xC8, 0xCC, 0xD0, 0xD4, 0xD8, 0xDC,
    0xE4, 0xE8, 0xEC, 0xF0, 0xF4, 0xF8, 0xFC,
];

/// A right record with a cursor, so that each of the check's refusals may apply to it when spoilt.
pub fn right() -> Record {
    wide_with_cursor(CONTROL_DATA, 20)
}

/// The record with these words applied, slot by slot.
pub fn applied(record: &Record, words: &[u32]) -> Record {
    let mut after = record.clone();
    for word in words {
        after.values[(word >> 26) as usize] = word & 0xFF_FFFF;
        after.written[(word >> 26) as usize] = true;
    }
    after
}

/// The record as a hand may fill it: bits above 23 in every slot, garbage in the reserved ones, every second of them written.
pub fn by_hand(mut record: Record) -> Record {
    for (slot, value) in (0..).zip(&mut record.values) {
        *value |= (255 - slot) << 24;
    }
    for address in RESERVED {
        record.values[(address / 4) as usize] = 0xDEAD_BE00 | address;
        record.written[(address / 4) as usize] = address % 8 == 0;
    }
    record
}

/// What the one call says, 0 for accepted. Accepted is the record with the words applied, with its setting; what is refused
/// comes back as given.
fn answer(record: &Record, words: &[u32]) -> Refusal {
    match load_and_check(record, words) {
        Ok((accepted, setting)) => {
            assert_eq!(accepted, applied(record, words));
            assert_eq!(setting, setting::read(&accepted));
            refusal(0)
        }
        Err(refused) => {
            assert_eq!(refused.record, *record);
            refused.refusal
        }
    }
}

/// What the check says of `right` spoilt in this way.
pub fn said(number: u32) -> Refusal {
    refusal_at(number, if number == 3 { 0x4C } else { 0 })
}

/// The words that make the one record of the other.
fn words_from_to(from: &Record, to: &Record) -> Vec<u32> {
    let there = registers_of(from);
    registers_of(to).into_iter().filter(|word| !there.contains(word)).collect()
}

/// The words again and again, up to this length.
pub fn again(words: &[u32], length: usize) -> Vec<u32> {
    words.iter().copied().cycle().take(length).collect()
}

pub fn without(words: &[u32], index: usize) -> Vec<u32> {
    [&words[..index], &words[index + 1..]].concat()
}

pub fn with(words: &[u32], index: usize, word: u32) -> Vec<u32> {
    [&words[..index], &[word], &words[index..]].concat()
}

#[test]
fn the_small_plates_record_and_setting() {
    let (record, setting) = load_and_check(&Record::fresh(), &small_registers()).unwrap();
    assert_eq!(record, applied(&Record::fresh(), &small_registers()));
    assert_eq!(record.written.iter().filter(|written| **written).count(), 30);
    let numbers = [32, 4, 7, 11, 19, 23, 6, 6, 1, 2, 3, 4, 5, 1, 1, 4, 1, 1, 0, 1, 0];
    assert_eq!(setting.numbers(), numbers);
}

#[test]
fn a_refusal_and_the_record_given() {
    let refused = load_and_check(&small(), &[word(BORDER, 1), value(HBER, 16)]).unwrap_err();
    assert_eq!(refused, Refused { refusal: refusal(6), record: small() });
    assert_eq!(Refusal::from(refused), refusal(6));
}

#[test]
fn each_needed_register_left_out() {
    let whole = registers_of(&right());
    assert_eq!((whole.len(), answer(&Record::fresh(), &whole)), (36, refusal(0)));
    for (index, word) in whole.iter().enumerate() {
        let address = address_of(*word);
        let cursor_off = address == VCSR || address == VCER;
        let expected = if cursor_off { refusal(0) } else { refusal_at(3, address) };
        assert_eq!(answer(&Record::fresh(), &without(&whole, index)), expected, "{address:02X}");
        // All before it left out: control, the last of them, is still there.
        let lowest = if index == 0 { refusal(0) } else { refusal_at(3, 0) };
        assert_eq!(answer(&Record::fresh(), &whole[index..]), lowest);
        // It and all behind it left out.
        assert_eq!(answer(&Record::fresh(), &whole[..index]), refusal_at(3, 0xE0));
    }
}

#[test]
fn each_of_the_checks_refusals_in_its_order() {
    for start in [Record::fresh(), by_hand(Record::fresh())] {
        for (i, first) in ORDER.into_iter().enumerate() {
            let mut record = right();
            for number in &ORDER[i..] {
                record = spoilt(record, *number);
                assert_eq!(answer(&start, &registers_of(&record)), said(first), "{first} {number}");
            }
        }
    }
    for (broken, number) in [(word(CONTROL, 0x800B), 4), (word(CONTROL, 0xFFFF), 4), (value(VCER, 6), 9)] {
        assert_eq!(answer(&right(), &[broken]), refusal(number));
    }
}

#[test]
fn the_longest_list() {
    let whole = registers_of(&right());
    for start in [Record::fresh(), by_hand(Record::fresh()), right(), by_hand(right())] {
        assert_eq!(answer(&start, &again(&whole, 1023)), refusal(0));
        assert_eq!(answer(&start, &again(&whole, 1024)), refusal(0));
        for length in [1025, 1026, 2048, 70_000] {
            assert_eq!(answer(&start, &again(&whole, length)), refusal(1));
        }
        // The last of 1,024 words counts.
        let last = |word| [again(&whole, 1023), vec![word]].concat();
        assert_eq!(answer(&start, &last(value(HSWR, 8))), refusal(19));
        assert_eq!(answer(&start, &last(word(0xFC, 0))), refusal_at(2, 1023));
        assert_eq!(load_and_check(&start, &last(value(HCR, 99))).unwrap().1.n, 200);
    }
}

#[test]
fn one_before_two_and_before_the_check() {
    for number in ORDER {
        let wrong = spoilt(right(), number);
        let long = again(&registers_of(&wrong), 1024);
        for start in [Record::fresh(), wrong, by_hand(right())] {
            for index in [0, 1, 1023, 1024] {
                assert_eq!(answer(&start, &with(&long, index, word(0x50, 0))), refusal(1));
            }
            assert_eq!(answer(&start, &again(&[word(0x50, 0)], 1025)), refusal(1));
            assert_eq!(answer(&start, &again(&[word(0x50, 0)], 1024)), refusal(2));
        }
    }
}

#[test]
fn two_with_the_index_of_the_first() {
    let whole = registers_of(&right());
    for address in RESERVED {
        // Bits 25 and 24 are ignored, the data as well.
        for low_bits in [0, 0x0300_0000, 0x03FF_FFFF, 0x0154_3210] {
            for index in [0, 1, 17, whole.len()] {
                let list = with(&whole, index, address << 24 | low_bits);
                let expected = refusal_at(2, index as u32);
                assert_eq!(answer(&Record::fresh(), &list), expected);
                assert_eq!(answer(&by_hand(right()), &list), expected);
                let with_later = with(&list, list.len(), word(0xE4, 0));
                assert_eq!(answer(&right(), &with_later), expected);
            }
        }
    }
}

#[test]
fn two_before_the_check() {
    assert_eq!(answer(&Record::fresh(), &[word(0x50, 0)]), refusal(2));
    for number in ORDER {
        let wrong = spoilt(right(), number);
        let list = registers_of(&wrong);
        for index in 0..=list.len() {
            let expected = refusal_at(2, index as u32);
            let with_reserved = with(&list, index, word(0xDC, 0xFF_FFFF));
            for start in [&Record::fresh(), &wrong, &right()] {
                assert_eq!(answer(start, &with_reserved), expected);
            }
            // Words behind the reserved one, which would mend the record, play no part.
            assert_eq!(answer(&wrong, &[&with_reserved[..], &registers_of(&right())].concat()), expected);
        }
    }
}

#[test]
fn one_word_alone_has_no_index() {
    for address in RESERVED {
        assert_eq!(load_word(&right(), word(address, 7)), Err(refusal(2)));
        assert_eq!(answer(&right(), &[word(BORDER, 0), word(address, 7)]), refusal_at(2, 1));
    }
    // It is not checked; one after the other they make the record that is accepted at once.
    let one_by_one = |record, word: &u32| load_word(&record, *word).unwrap();
    let record = small_registers().iter().fold(Record::fresh(), one_by_one);
    assert_eq!(load_and_check(&Record::fresh(), &small_registers()).unwrap().0, record);
}

#[test]
fn a_word_that_breaks_and_a_word_that_mends() {
    for number in &ORDER[1..] {
        let wrong = spoilt(right(), *number);
        let (breaks, mends) = (words_from_to(&right(), &wrong)[0], words_from_to(&wrong, &right())[0]);
        assert_eq!([answer(&right(), &[]), answer(&wrong, &[])], [refusal(0), refusal(*number)]);
        for start in [right(), wrong.clone(), by_hand(right()), by_hand(wrong)] {
            for list in [&[breaks][..], &[mends, breaks], &[breaks, mends, breaks]] {
                assert_eq!(answer(&start, list), refusal(*number));
            }
            for list in [&[mends][..], &[breaks, mends], &[mends, breaks, mends]] {
                assert_eq!(answer(&start, list), refusal(0));
            }
        }
    }
}

#[test]
fn three_is_broken_and_mended_too() {
    // At depth 1 two entries are in use, at depth 4 all; without a cursor its palette is not needed.
    let without_entry = |record, i| unwritten(record, palette_entry(i));
    let two_entries = (2..16).fold(wide_with_cursor(0x3, 20), without_entry);
    assert_eq!(answer(&two_entries, &[]), refusal(0));
    assert_eq!(answer(&two_entries, &[word(CONTROL, 0xB)]), refusal_at(3, 8));
    assert_eq!(answer(&two_entries, &[word(CONTROL, 0xB), word(CONTROL, 0x3)]), refusal(0));
    let cursor = [value(VCSR, 2), value(VCER, 3)];
    assert_eq!(answer(&small(), &cursor), refusal_at(3, 0x44));
    assert_eq!(answer(&spoilt(right(), 3), &[word(0x4C, 0)]), refusal(0));
    assert_eq!(answer(&unwritten(by_hand(right()), CONTROL), &[word(CONTROL, 0xB)]), refusal(0));
}

#[test]
fn the_setting_is_the_last_words() {
    let list = [value(HCR, 20), value(VCR, 7), value(HCR, 30)];
    let (record, setting) = load_and_check(&small(), &list).unwrap();
    assert_eq!((setting.n, setting.v), (62, 8));
    assert_eq!((record.data(HCR), record.data(VCR)), (30 << 14, 7 << 14));
    assert_eq!(judged(&record), Ok(setting));
}

#[test]
fn a_record_filled_by_hand_comes_back_untouched() {
    let all_wrong = |numbers: &[u32]| numbers.iter().fold(right(), |record, number| spoilt(record, *number));
    let mut refused = vec![(vec![0; 1025], refusal(1)), (vec![0, word(0x50, 1)], refusal_at(2, 1))];
    refused.extend((1..8).map(|i| (registers_of(&all_wrong(&ORDER[i..])), said(ORDER[i]))));
    for start in [by_hand(right()), by_hand(Record::fresh()), by_hand(spoilt(right(), 7))] {
        for (list, refusal) in &refused {
            let given_back = load_and_check(&start, list).unwrap_err();
            assert_eq!(given_back.refusal, *refusal);
            assert_eq!((given_back.record.values, given_back.record.written), (start.values, start.written));
        }
    }
    assert_eq!(answer(&by_hand(spoilt(right(), 3)), &[word(BORDER, 1)]), said(3));
}

#[test]
fn nothing_else_changes_in_a_record_filled_by_hand() {
    // HIR, a stereo register and the sound frequency are not needed; the words hold bits 25 and 24 as well.
    let list = [(HCR, 40 << 14), (BORDER, 0xABC), (HIR, 5), (STEREO_7, 0), (SOUND_FREQUENCY, 0xFF_FFFF)];
    let words = list.map(|(address, data)| word(address, data) | 0x0300_0000);
    let start = by_hand(right());
    let (record, setting) = load_and_check(&start, &words).unwrap();
    assert_eq!(setting.n, 82);
    for address in (0..=0xFC).step_by(4) {
        let slot = (address / 4) as usize;
        let named = list.iter().find(|named| named.0 == address);
        let expected = named.map_or((start.values[slot], start.written[slot]), |named| (named.1, true));
        assert_eq!((record.values[slot], record.written[slot]), expected, "{address:02X}");
    }
}

#[test]
fn an_empty_list() {
    for record in [right(), small(), by_hand(right()), by_hand(small())] {
        assert_eq!(load_and_check(&record, &[]), Ok((record.clone(), setting::read(&record))));
    }
    for (record, refusal) in refused_settings() {
        for record in [by_hand(record.clone()), record] {
            assert_eq!(load_and_check(&record, &[]), Err(Refused { refusal, record: record.clone() }));
        }
    }
}

#[test]
fn a_picture_call_judges_as_an_empty_list_does() {
    let spoilt_ones = ORDER.map(|number| (by_hand(spoilt(right(), number)), said(number)));
    for (record, refusal) in spoilt_ones.into_iter().chain(refused_settings()) {
        assert_eq!(answer(&record, &[]), refusal);
        assert_eq!(frame(&record, &[], &[], 0), Err(refusal));
        assert_eq!(raster(&record, &[], &[], 6, 0), Err(refusal));
        assert_eq!(raster_words(&record, &[], 6), Err(refusal));
        assert_eq!(marks(&record, &[], &[], 0), Err(refusal));
        assert_eq!(summaries(&record, &[], &[], 0, &mut []), Err(refusal));
        assert_eq!(mix(&record, &[], &[], 0), Err(refusal));
    }
}

#[test]
fn two_halves_where_the_first_is_accepted() {
    let list = [value(HCR, 40), value(HBER, 40), word(BORDER, 5), value(HSWR, 10), value(HCR, 60)];
    for start in [right(), by_hand(right())] {
        let at_once = load_and_check(&start, &list).unwrap();
        for half in 0..=list.len() {
            let (first, second) = list.split_at(half);
            let (between, _) = load_and_check(&start, first).unwrap();
            assert_eq!(load_and_check(&between, second), Ok(at_once.clone()));
        }
    }
}

#[test]
fn two_halves_where_the_first_is_refused() {
    // Control comes last, entry 0 first: what is left of the list after a refused half lacks entry 0.
    let whole = registers_of(&right());
    for half in 1..whole.len() {
        let (first, second) = whole.split_at(half);
        let refused = load_and_check(&Record::fresh(), first).unwrap_err();
        assert_eq!(refused, Refused { refusal: refusal_at(3, 0xE0), record: Record::fresh() });
        assert_eq!(answer(&refused.record, second), refusal_at(3, 0));
    }
    // HS 18, refused with 19, then 20: N is 82 at once, but 70 still when the first half is refused.
    let list = [value(HCR, 40), value(HSWR, 8), word(BORDER, 5), value(HSWR, 9)];
    assert_eq!(load_and_check(&right(), &list).unwrap().1.n, 82);
    for (half, n) in [(1, 82), (2, 70), (3, 70)] {
        let (first, second) = list.split_at(half);
        let between = match load_and_check(&right(), first) {
            Ok((accepted, _)) => accepted,
            Err(refused) => refused.record,
        };
        assert_eq!(load_and_check(&between, second).unwrap().1.n, n);
    }
}

/// A word of any kind, seldom with a reserved address.
fn any_word(seed: &mut u64) -> u32 {
    let (kind, place, v) = (next(seed) % 16, next(seed), next(seed));
    match kind {
        0 => v,
        1 => word(CONTROL, v % 0x1_0000),
        2 => value(HCR + 4 * (place % 6), v % 40),
        3 => value(VCR + 4 * (place % 8), v % 8),
        4 => word(HCSR, v % (1 << 24)),
        5 => value(HSWR, 7 + v % 4),
        _ => registers_of(&right())[place as usize % 36],
    }
}

#[test]
fn any_list_as_the_record_it_makes() {
    let (mut seed, mut answers) = (7, Vec::new());
    for round in 0..10_000 {
        let start = match round % 3 {
            0 => right(),
            1 => by_hand(right()),
            _ => unwritten(right(), next(&mut seed) % 64 * 4),
        };
        let list: Vec<u32> = (0..next(&mut seed) % 6).map(|_| any_word(&mut seed)).collect();
        let reserved = list.iter().position(|word| RESERVED.contains(&(word >> 24 & 0xFC)));
        let expected = match reserved {
            Some(index) => refusal_at(2, index as u32),
            None => judged(&applied(&start, &list)).err().unwrap_or(refusal(0)),
        };
        assert_eq!(answer(&start, &list), expected, "{list:X?}");
        answers.push(expected);
        let (first, second) = list.split_at(list.len() / 2);
        if let Ok((between, _)) = load_and_check(&start, first) {
            let later = if reserved.is_some() { first.len() as u32 } else { 0 };
            let Refusal { number, detail } = answer(&between, second);
            assert_eq!(refusal_at(number, detail + later), expected);
        }
    }
    all_met(&answers, &[0, 2, 3, 4, 5, 6, 19, 7, 8, 9]);
}
