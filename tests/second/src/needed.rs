//! Which registers a setting needs, and the lowest of them that is unwritten.

use crate::address::*;
use crate::record::Record;
use crate::refusal::{refusal_at, Refusal, UNWRITTEN};
use crate::setting::Setting;

/// Palette entries in use at each depth.
pub fn entries_in_use(depth: u32) -> u32 {
    match depth {
        1 => 2,
        2 => 4,
        _ => 16,
    }
}

/// Needed by the setting that a record's data gives.
pub fn is_needed(address: u32, s: &Setting) -> bool {
    match address {
        CONTROL | BORDER => true,
        HCR..=HBER | VCR..=VBER => true,
        HCSR | 0x44..=0x4C => s.cursor_on,
        0x00..=0x3C => address / 4 < entries_in_use(s.depth),
        _ => false,
    }
}

/// 3: the control register first and alone, then the lowest address.
pub fn judge(record: &Record, s: &Setting) -> Result<(), Refusal> {
    if !record.is_written(CONTROL) {
        return Err(refusal_at(UNWRITTEN, CONTROL));
    }
    lowest_unwritten(record, |address| is_needed(address, s))
}

/// 3 with the lowest address that is needed and unwritten, if there is one.
pub fn lowest_unwritten(record: &Record, needed: impl Fn(u32) -> bool) -> Result<(), Refusal> {
    for address in (0x00..=0xFC).step_by(4) {
        if needed(address) && !record.is_written(address) {
            return Err(refusal_at(UNWRITTEN, address));
        }
    }
    Ok(())
}
