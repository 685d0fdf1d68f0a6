//! One compared input: what the second program expects, held against what was answered.

use crate::lent::{Lent, Pattern};
use crate::ours;
use crate::random::Random;
use second::refusal::Refusal;
use std::fmt::Debug;

#[derive(Default)]
pub struct Judged {
    pub refused: Option<Refusal>,
    pub differences: Vec<String>,
}

impl Judged {
    /// Starts from the answer: success or refusal, number and detail.
    pub fn answer<T>(expected: &Result<T, Refusal>, told: Result<(), vombelishi::Refusal>) -> Judged {
        let refused = expected.as_ref().err().copied();
        let mut judged = Judged { refused, differences: Vec::new() };
        judged.same("answer", &refused.map(ours::refusal), &told.err());
        judged
    }

    /// Starts from an answer that is returned.
    pub fn returning<T>(expected: Result<T, Refusal>, told: Result<T, vombelishi::Refusal>) -> Judged
    where
        T: PartialEq + Debug,
    {
        let mut judged = Judged { refused: expected.as_ref().err().copied(), differences: Vec::new() };
        judged.returned(expected, told);
        judged
    }

    /// A call that writes bytes and returns how many.
    pub fn bytes(
        random: &mut Random,
        expected: Result<&[u8], Refusal>,
        lent: usize,
        call: impl Fn(&mut [u8]) -> Result<usize, vombelishi::Refusal>,
    ) -> Judged {
        let mut out = Lent::new(random, lent);
        let mut judged = Judged::returning(expected.map(<[u8]>::len), call(out.lend()));
        judged.memory("bytes", &out, expected.unwrap_or_default());
        judged
    }

    /// The answer of the call's other form, which returns what the first writes to lent memory.
    pub fn returned<T>(&mut self, expected: Result<T, Refusal>, told: Result<T, vombelishi::Refusal>)
    where
        T: PartialEq + Debug,
    {
        self.same("answer returned", &expected.map_err(ours::refusal), &told);
    }

    pub fn same<T: PartialEq + Debug>(&mut self, what: &str, expected: &T, got: &T) {
        if expected != got {
            self.differences.push(format!("{what}: should be {expected:?}, is {got:?}"));
        }
    }

    /// `painted` at the start of the lent memory, its old pattern everywhere else.
    pub fn memory<T: Pattern>(&mut self, what: &str, lent: &Lent<T>, painted: &[T]) {
        if let Some(difference) = lent.difference(painted) {
            self.differences.push(format!("{what}, {difference}"));
        }
    }
}
