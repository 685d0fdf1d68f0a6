//! Where the comparisons are counted and their differences printed.

use crate::handed::Shape;
use crate::judged::Judged;
use second::refusal::Refusal;
use std::collections::BTreeMap;

/// Differences printed for each call.
const MOST_SHOWN: u64 = 2;

/// For one call: how often it was accepted (0) and refused with each number.
pub type Row = [u64; 21];

#[derive(Default)]
pub struct Bench {
    pub seed: u64,
    /// Name each round before it is run, to find one that does not return.
    pub trace: bool,
    family: &'static str,
    round: u64,
    pub passed: u64,
    pub failed: u64,
    failed_in: BTreeMap<&'static str, u64>,
    pub calls: BTreeMap<&'static str, Row>,
    /// Number and detail of each refusal, how often met.
    pub refusals: BTreeMap<(u32, u32), u64>,
    /// What was seen in the inputs of a call, or of any where none is named, how often.
    pub sights: BTreeMap<&'static str, BTreeMap<&'static str, u64>>,
    /// For the C calls themselves: the slices of each call, and the shapes in which each was handed over.
    pub shapes: BTreeMap<(&'static str, &'static str), BTreeMap<&'static str, u64>>,
}

impl Bench {
    pub fn new(seed: u64, trace: bool) -> Bench {
        Bench { seed, trace, ..Bench::default() }
    }

    pub fn begin(&mut self, family: &'static str, round: u64) {
        self.family = family;
        self.round = round;
        if self.trace {
            eprintln!("--seed {} --only {family} --round {round}", self.seed);
        }
    }

    /// Counts one compared input; `inputs` is asked for only if there is a difference.
    pub fn count(&mut self, call: &'static str, judged: Judged, inputs: impl Fn() -> String) {
        self.note(call, judged.refused);
        if judged.differences.is_empty() {
            self.passed += 1;
            return;
        }
        self.failed += 1;
        let in_call = self.failed_in.entry(call).or_default();
        *in_call += 1;
        if *in_call <= MOST_SHOWN {
            self.show(call, &judged.differences, &inputs());
        }
    }

    fn note(&mut self, call: &'static str, refused: Option<Refusal>) {
        let row = self.calls.entry(call).or_default();
        match refused {
            None => row[0] += 1,
            Some(Refusal { number, detail }) => {
                row[number as usize] += 1;
                *self.refusals.entry((number, detail)).or_default() += 1;
            }
        }
    }

    fn show(&self, call: &str, differences: &[String], inputs: &str) {
        println!("DIFFERENCE in {call}");
        for difference in differences {
            println!("  {difference}");
        }
        for line in inputs.lines() {
            println!("  given {line}");
        }
        println!("  again: --seed {} --only {} --round {}", self.seed, self.family, self.round);
    }

    /// Notes that an input had something in it that should not be missed.
    pub fn see(&mut self, sight: &'static str, there: bool) {
        self.see_in("", sight, there);
    }

    /// The same of one call's inputs alone.
    pub fn see_in(&mut self, call: &'static str, sight: &'static str, there: bool) {
        *self.sights.entry(call).or_default().entry(sight).or_default() += u64::from(there);
    }

    /// Notes in which shape a slice was handed over.
    pub fn hand(&mut self, call: &'static str, (slice, shape, there): Shape) {
        let shapes = self.shapes.entry((call, slice)).or_default();
        *shapes.entry(shape).or_default() += u64::from(there);
    }
}
