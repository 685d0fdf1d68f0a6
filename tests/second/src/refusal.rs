//! The table of refusals: each refusal is its number and a detail.

use std::fmt;

#[derive(Clone, Copy, Debug, PartialEq, Eq)]
pub struct Refusal {
    pub number: u32,
    pub detail: u32,
}

pub const TOO_MANY_WORDS: u32 = 1;
pub const RESERVED: u32 = 2;
pub const UNWRITTEN: u32 = 3;
pub const TEST_MODE: u32 = 4;
pub const INTERLACE: u32 = 5;
pub const HORIZONTAL: u32 = 6;
pub const VERTICAL: u32 = 7;
pub const WIDTH: u32 = 8;
pub const CURSOR: u32 = 9;
pub const SOUND: u32 = 10;
pub const WORD_COUNT: u32 = 11;
pub const RASTER: u32 = 12;
pub const SHORT: u32 = 13;
pub const PLATE_FILE: u32 = 14;
pub const TOO_LARGE: u32 = 15;
pub const FULL: u32 = 16;
pub const EMPTY: u32 = 17;
pub const WORD_INDEX: u32 = 18;
pub const SYNC_WIDTH: u32 = 19;
pub const CAMERA: u32 = 20;

/// As the printer says it, without the line's end.
impl fmt::Display for Refusal {
    fn fmt(&self, f: &mut fmt::Formatter) -> fmt::Result {
        write!(f, "refused {} {}", self.number, self.detail)
    }
}

/// A refusal with detail 0.
pub fn refusal(number: u32) -> Refusal {
    refusal_at(number, 0)
}

pub fn refusal_at(number: u32, detail: u32) -> Refusal {
    Refusal { number, detail }
}

/// `Err` with that number and detail 0 if `wrong`, else `Ok`.
pub fn refuse_if(wrong: bool, number: u32) -> Result<(), Refusal> {
    if wrong {
        Err(refusal(number))
    } else {
        Ok(())
    }
}

/// A plate's lines, or the one line of a refused plate.
pub fn or_refused(lines: Result<String, Refusal>) -> String {
    lines.unwrap_or_else(|refusal| format!("{refusal}\n"))
}
