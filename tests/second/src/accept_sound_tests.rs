//! Load and check for sound alone by change request 7: 1, 2, sound's 3 and 10, and nothing of the picture's.

use crate::accept_tests::{again, applied, by_hand, right, with, without};
use crate::address::*;
use crate::load::{load_and_check, load_and_check_sound, Refused};
use crate::paper_tests::{small, word};
use crate::record::Record;
use crate::refusal::{refusal, refusal_at, Refusal};
use crate::sound_judge::check_sound;
use crate::sync_tests::{registers_of, spoilt, ORDER};

/// What the call says, 0 for accepted. Accepted is the record with the words applied; what is refused comes back as given.
fn answer(record: &Record, words: &[u32]) -> Refusal {
    match load_and_check_sound(record, words) {
        Ok(accepted) => {
            assert_eq!(accepted, applied(record, words));
            refusal(0)
        }
        Err(refused) => {
            assert_eq!(refused.record, *record);
            refused.refusal
        }
    }
}

/// All that sound needs, in the order of the addresses: 60H to 7CH, C0H.
fn sound_registers() -> Vec<u32> {
    let stereo = (0..8).map(|i| word(STEREO_7 + 4 * i, 1 + i % 7));
    stereo.chain([word(SOUND_FREQUENCY, 3)]).collect()
}

/// A record with all that sound needs, filled by hand.
fn sounding() -> Record {
    by_hand(applied(&right(), &sound_registers()))
}

#[test]
fn the_picture_has_no_say() {
    let list = sound_registers();
    assert_eq!(load_and_check_sound(&Record::fresh(), &list), Ok(applied(&Record::fresh(), &list)));
    assert_eq!(answer(&by_hand(Record::fresh()), &list), refusal(0));
    for number in ORDER {
        let wrong = spoilt(right(), number);
        assert_eq!(answer(&wrong, &list), refusal(0));
        assert_eq!(answer(&by_hand(wrong.clone()), &list), refusal(0));
        let words = registers_of(&wrong);
        assert_eq!(answer(&Record::fresh(), &[&words[..], &list].concat()), refusal(0));
        assert_eq!(answer(&sounding(), &words), refusal(0));
    }
}

#[test]
fn sound_has_no_say_in_the_picture() {
    let silent = [registers_of(&right()), vec![word(STEREO_7, 0), word(SOUND_FREQUENCY, 0)]].concat();
    assert!(load_and_check(&Record::fresh(), &silent).is_ok());
    assert_eq!(answer(&Record::fresh(), &silent), refusal_at(3, 0x64));
    let both = [registers_of(&right()), sound_registers()].concat();
    let (record, _) = load_and_check(&Record::fresh(), &both).unwrap();
    assert_eq!(load_and_check_sound(&Record::fresh(), &both), Ok(record));
}

#[test]
fn three_with_the_lowest_unwritten() {
    let list = sound_registers();
    let refused = Refused { refusal: refusal_at(3, 0x60), record: small() };
    assert_eq!(load_and_check_sound(&small(), &[word(BORDER, 1)]), Err(refused));
    for (index, left_out) in list.iter().enumerate() {
        let expected = refusal_at(3, address_of(*left_out));
        for start in [Record::fresh(), right(), by_hand(right())] {
            assert_eq!(answer(&start, &without(&list, index)), expected);
            assert_eq!(answer(&start, &list[..index]), expected);
        }
    }
}

#[test]
fn ten_with_the_lowest_wrong_one() {
    let zero = |address| word(address, 0xFF_FF00);
    for address in sound_registers().iter().map(|word| address_of(*word)) {
        assert_eq!(answer(&sounding(), &[zero(address)]), refusal_at(10, address));
        assert_eq!(answer(&sounding(), &[zero(SOUND_FREQUENCY), zero(address)]), refusal_at(10, address));
        assert_eq!(answer(&sounding(), &[zero(address), zero(STEREO_7)]), refusal_at(10, 0x60));
        // 3 before it, though at a higher address.
        let last_left_out = [&sound_registers()[..8], &[zero(address)]].concat();
        let expected = if address == SOUND_FREQUENCY { refusal_at(10, 0xC0) } else { refusal_at(3, 0xC0) };
        assert_eq!(answer(&Record::fresh(), &last_left_out), expected);
    }
    for (frequency, number) in [(0, 10), (1, 10), (2, 10), (3, 0), (255, 0), (258, 10), (259, 0)] {
        let detail = if number == 10 { 0xC0 } else { 0 };
        assert_eq!(answer(&sounding(), &[word(SOUND_FREQUENCY, frequency)]), refusal_at(number, detail));
    }
}

/// Lists with what is said of them on a fresh record.
fn lists() -> [(Vec<u32>, Refusal); 3] {
    let list = sound_registers();
    let broken = with(&list, 9, word(0x7C, 0));
    [(list.clone(), refusal(0)), (without(&list, 3), refusal_at(3, 0x6C)), (broken, refusal_at(10, 0x7C))]
}

#[test]
fn the_longest_list() {
    for (list, said) in lists() {
        let palette = again(&[word(PALETTE, 5)], 1024 - list.len());
        let long = [palette, list].concat();
        assert_eq!(answer(&Record::fresh(), &long), said);
        for start in [Record::fresh(), sounding(), by_hand(small())] {
            for index in [0, 500, 1024] {
                assert_eq!(answer(&start, &with(&long, index, word(PALETTE, 5))), refusal(1));
                assert_eq!(answer(&start, &with(&long, index, word(0xC4, 5))), refusal(1));
            }
            let last_reserved = with(&long[1..], 1023, word(0xC4, 5));
            assert_eq!(answer(&start, &last_reserved), refusal_at(2, 1023));
        }
    }
}

#[test]
fn two_before_three_and_ten() {
    assert_eq!(answer(&Record::fresh(), &[word(0x5C, 0)]), refusal(2));
    for (list, said) in lists() {
        assert_eq!(answer(&Record::fresh(), &list), said);
        for index in 0..=list.len() {
            let with_reserved = with(&list, index, 0x5FFF_FFFF);
            for start in [Record::fresh(), sounding(), by_hand(small())] {
                assert_eq!(answer(&start, &with_reserved), refusal_at(2, index as u32));
                let with_later = [&with_reserved[..], &[word(0xFC, 0)]].concat();
                assert_eq!(answer(&start, &with_later), refusal_at(2, index as u32));
            }
        }
    }
}

#[test]
fn a_word_that_breaks_and_a_word_that_mends() {
    for mends in sound_registers() {
        let (address, breaks) = (address_of(mends), mends & 0xFF00_0000);
        for start in [sounding(), applied(&sounding(), &[breaks])] {
            for list in [&[breaks][..], &[mends, breaks], &[breaks, mends, breaks]] {
                assert_eq!(answer(&start, list), refusal_at(10, address));
            }
            for list in [&[mends][..], &[breaks, mends], &[mends, breaks, mends]] {
                assert_eq!(answer(&start, list), refusal(0));
            }
        }
    }
}

#[test]
fn an_empty_list_as_the_record_is_judged() {
    for record in [Record::fresh(), small(), sounding(), applied(&sounding(), &[word(0x68, 8)])] {
        let expected = check_sound(&record).map(|()| record.clone());
        let answered = load_and_check_sound(&record, &[]);
        assert_eq!(answered.map_err(Refusal::from), expected);
        answer(&record, &[]);
    }
    assert_eq!(answer(&sounding(), &[]), refusal(0));
}

#[test]
fn two_halves() {
    let list = [word(STEREO_7, 5), word(0x64, 0), word(BORDER, 7), word(0x64, 3)];
    let at_once = load_and_check_sound(&sounding(), &list).unwrap();
    let (first, second) = list.split_at(1);
    let between = load_and_check_sound(&sounding(), first).unwrap();
    assert_eq!(load_and_check_sound(&between, second), Ok(at_once));
    // A first half that is refused is lost: stereo 7 stays 1.
    for half in [2, 3] {
        let (first, second) = list.split_at(half);
        let refused = load_and_check_sound(&sounding(), first).unwrap_err();
        assert_eq!(refused, Refused { refusal: refusal_at(10, 0x64), record: sounding() });
        let after = load_and_check_sound(&refused.record, second).unwrap();
        assert_eq!((after.data(STEREO_7), after.data(0x64)), (1, 3));
    }
}
