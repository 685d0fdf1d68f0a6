//! Loading a list of register words and checking the record it makes, in one call: 1, 2, then the check's refusals.

// A refused record goes back whole, so a refusal is as large as an acceptance.
#![allow(clippy::result_large_err)]

use crate::address::{address_of, is_reserved};
use crate::record::Record;
use crate::refusal::{refusal_at, refuse_if, Refusal, RESERVED, TOO_MANY_WORDS};
use crate::setting::{self, Setting};
use crate::sound_judge::check_sound;

pub const MOST_WORDS: usize = 1024;

/// A refusal, and the record as it was given.
#[derive(Clone, Debug, PartialEq, Eq)]
pub struct Refused {
    pub refusal: Refusal,
    pub record: Record,
}

impl From<Refused> for Refusal {
    fn from(refused: Refused) -> Refusal {
        refused.refusal
    }
}

/// The record with every word applied, and its setting. Refusals: 1, 2, then of that record 3 to 6, 19, 7 to 9.
pub fn load_and_check(record: &Record, words: &[u32]) -> Result<(Record, Setting), Refused> {
    let refused = |refusal| Refused { refusal, record: record.clone() };
    let loaded = load(record, words).map_err(refused)?;
    let setting = setting::check(&loaded).map_err(refused)?;
    Ok((loaded, setting))
}

/// The record with every word applied, for sound alone. Refusals: 1, 2, then of that record sound's 3, 10.
pub fn load_and_check_sound(record: &Record, words: &[u32]) -> Result<Record, Refused> {
    let refused = |refusal| Refused { refusal, record: record.clone() };
    let loaded = load(record, words).map_err(refused)?;
    check_sound(&loaded).map_err(refused)?;
    Ok(loaded)
}

/// The record after all words; a later word replaces an earlier one.
fn load(record: &Record, words: &[u32]) -> Result<Record, Refusal> {
    refuse_if(words.len() > MOST_WORDS, TOO_MANY_WORDS)?;
    if let Some(index) = words.iter().position(|&w| is_reserved(address_of(w))) {
        return Err(refusal_at(RESERVED, index as u32));
    }
    Ok(words.iter().fold(record.clone(), |r, &w| r.with_word(w)))
}
