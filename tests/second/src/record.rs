//! The register record: data, and what was written.
//! A register's slot is its address divided by four.

use crate::address::{address_of, is_reserved};
use crate::refusal::{refusal, Refusal, RESERVED};

#[derive(Clone, Debug, PartialEq, Eq)]
pub struct Record {
    pub values: [u32; 64],
    pub written: [bool; 64],
}

impl Record {
    /// Nothing written.
    pub fn fresh() -> Record {
        Record { values: [0; 64], written: [false; 64] }
    }

    /// The data of a register: what the slot holds, modulo 2^24.
    pub fn data(&self, address: u32) -> u32 {
        self.values[slot(address)] % (1 << 24)
    }

    pub fn is_written(&self, address: u32) -> bool {
        self.written[slot(address)]
    }

    /// Bits `low` to `high` of a register's data.
    pub fn bits(&self, address: u32, high: u32, low: u32) -> u32 {
        (self.data(address) >> low) % (1 << (high - low + 1))
    }

    /// The record with one word's register changed; the address must not be reserved.
    pub fn with_word(mut self, word: u32) -> Record {
        let place = slot(address_of(word));
        self.values[place] = word % (1 << 24);
        self.written[place] = true;
        self
    }
}

fn slot(address: u32) -> usize {
    (address / 4) as usize
}

/// A single word: 2 with no detail.
pub fn load_word(record: &Record, word: u32) -> Result<Record, Refusal> {
    if is_reserved(address_of(word)) {
        return Err(refusal(RESERVED));
    }
    Ok(record.clone().with_word(word))
}
