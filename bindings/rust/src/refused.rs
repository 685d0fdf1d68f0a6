//! A refused load: why, and the record that it was asked of.

use crate::record::Record;
use crate::refusal::Refusal;
use std::fmt;

/// Why words were not loaded, and the record exactly as it was given. It prints as its [`Refusal`], and `?` makes it one.
///
/// ```
/// use vombelishi::{Record, Refusal};
///
/// fn height(registers: &[u32]) -> Result<u32, Refusal> {
///     Ok(Record::new().load_and_check(registers)?.setting().v)
/// }
/// assert_eq!(height(&[0x5000_0000]), Err(Refusal { number: 2, detail: 0 }));
/// ```
#[derive(Clone, Debug, PartialEq, Eq)]
pub struct Refused {
    /// Why the words were not loaded.
    pub refusal: Refusal,
    /// The record, to which nothing was written.
    pub record: Record,
}

impl fmt::Display for Refused {
    fn fmt(&self, to: &mut fmt::Formatter) -> fmt::Result {
        self.refusal.fmt(to)
    }
}

impl std::error::Error for Refused {}

impl From<Refused> for Refusal {
    fn from(refused: Refused) -> Refusal {
        refused.refusal
    }
}
