//! Inputs in full, for the reader of a difference.

use second::record::Record;
use std::fmt::{Debug, LowerHex};

const MOST_SHOWN: usize = 2000;

/// A list in hexadecimal, cut off when it is very long (the round can be run again).
pub fn list<T: LowerHex + Debug>(items: &[T]) -> String {
    let shown: Vec<String> = items.iter().take(MOST_SHOWN).map(|i| format!("{i:x}")).collect();
    let more = if items.len() > MOST_SHOWN { " .." } else { "" };
    format!("{} long, hex [{}{}]", items.len(), shown.join(" "), more)
}

/// Each slot's address and value, a star where it was written.
pub fn record(record: &Record) -> String {
    let slot = |i: usize| {
        let star = if record.written[i] { "*" } else { "" };
        format!("{:02x}{}={:x}", 4 * i, star, record.values[i])
    };
    (0..64).map(slot).collect::<Vec<_>>().join(" ")
}
