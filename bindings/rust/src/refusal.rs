//! Refusals: the paper's number and detail, and its rule in a few words.

use std::fmt;

/// Why a call was refused, by the paper's table. It prints as
/// `refused 3 224: a needed register is unwritten, address E0H`.
#[derive(Clone, Copy, Debug, PartialEq, Eq)]
pub struct Refusal {
    /// The row of the table.
    pub number: u32,
    /// 0, but for 2 and 20 (the index of the first such word or number), 3 and 10 (the lowest such address).
    pub detail: u32,
}

/// The table's rows: number, and when it is given.
const RULES: [(u32, &str); 20] = [
    (1, "more than 1,024 register words"),
    (2, "a reserved address"),
    (3, "a needed register is unwritten"),
    (4, "control bit 14 or 15 is set (test mode)"),
    (5, "interlace is set"),
    (6, "not HS <= BS <= DS < DE <= BE <= N"),
    (7, "the vertical rule is broken"),
    (8, "(DE - DS) * depth is no multiple of 32"),
    (9, "the cursor is on, and its sub-position is not 0 or VCE > V"),
    (10, "a stereo value is 0, or the sound frequency is below 3"),
    (11, "the count of video or cursor words is wrong"),
    (12, "the raster number is V or more"),
    (13, "a lent buffer is too short"),
    (14, "the file's length or trailer is wrong"),
    (15, "a plate to be written is over 4,194,304 bytes, or the printer's input over 65,536"),
    (16, "load into a full queue, or with its count at its largest"),
    (17, "read from an empty queue"),
    (18, "a word index outside the list"),
    (19, "the cursor is on, and 6 * HS is below 5 * the pixel rate in MHz"),
    (20, "a camera number above 4,095"),
];

impl Refusal {
    /// When the paper's table gives this refusal, in a few words.
    pub fn rule(&self) -> &'static str {
        let row = RULES.iter().find(|(number, _)| *number == self.number);
        row.map_or("not in the table", |(_, rule)| rule)
    }
}

impl fmt::Display for Refusal {
    fn fmt(&self, to: &mut fmt::Formatter) -> fmt::Result {
        let Refusal { number, detail } = *self;
        write!(to, "refused {number} {detail}: {}", self.rule())?;
        match (number, detail) {
            (2, index) => write!(to, ", word {index}"),
            (20, index) => write!(to, ", number {index}"),
            (10, 0) => Ok(()), // a byte's own stereo value has no address
            (3 | 10, address) => write!(to, ", address {address:02X}H"),
            _ => Ok(()),
        }
    }
}

impl std::error::Error for Refusal {}

/// Success, or the refusal that a call's number stands for.
pub(crate) fn answer(told: u64) -> Result<(), Refusal> {
    match told {
        0 => Ok(()),
        _ => Err(Refusal { number: (told >> 32) as u32, detail: told as u32 }),
    }
}
