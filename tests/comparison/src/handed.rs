//! What C hands over: slices of every length, NULL where there is nothing, single numbers, records that are too short,
//! too long or marked with any byte. All of it is compared afterwards, with a guard before and behind.

use crate::bench::Bench;
use crate::judged::Judged;
use crate::lent::{Lent, Pattern};
use crate::random::Random;
use crate::show;
use second::record::Record;
use second::refusal::{refusal, Refusal, SHORT};
use std::fmt::LowerHex;

/// A slice's name, a kind of length or of content, and whether this slice is of that kind.
pub type Shape = (&'static str, &'static str, bool);

pub trait Handed {
    /// What should be met sooner or later.
    fn shapes(&self) -> Vec<Shape>;
    fn differences(&self) -> Vec<String>;
    fn show(&self) -> String;
}

/// How long a slice has to be.
enum Needed {
    /// One number, handed over without a length.
    One,
    Any,
    Exactly(usize),
}

pub struct Slice<T> {
    name: &'static str,
    lent: Lent<T>,
    needed: Needed,
    /// Whether nothing is handed over as NULL.
    null: bool,
    /// What the call should write, from the start on.
    written: Vec<T>,
}

impl<T: Pattern> Slice<T> {
    fn new(random: &mut Random, name: &'static str, lent: Lent<T>, needed: Needed) -> Slice<T> {
        let null = lent.given().is_empty() && !random.one_in(4);
        Slice { name, lent, needed, null, written: Vec::new() }
    }

    /// Memory for an answer of so many elements.
    pub fn answer(random: &mut Random, name: &'static str, needed: usize) -> Slice<T> {
        let length = answer_length(random, needed);
        let lent = Lent::new(random, length);
        Slice::new(random, name, lent, Needed::Exactly(needed))
    }

    /// A list to be read; `needed` is how many elements the call asks for, where it does.
    pub fn list(random: &mut Random, name: &'static str, items: &[T], needed: Option<usize>) -> Slice<T> {
        let lent = Lent::holding(random, items);
        Slice::new(random, name, lent, needed.map_or(Needed::Any, Needed::Exactly))
    }

    /// One number.
    pub fn one(random: &mut Random, name: &'static str, number: T) -> Slice<T> {
        let lent = Lent::holding(random, &[number]);
        Slice::new(random, name, lent, Needed::One)
    }

    pub fn pointer(&mut self) -> *mut T {
        if self.null {
            return std::ptr::null_mut();
        }
        self.lent.lend().as_mut_ptr()
    }

    pub fn given(&self) -> &[T] {
        self.lent.given()
    }

    pub fn len(&self) -> usize {
        self.given().len()
    }

    /// What the call should write here, from the start on.
    pub fn should_hold(&mut self, written: &[T]) {
        self.written = written.to_vec();
    }
}

/// How much is handed over where so much is needed: exact, longer, one short or none.
pub fn answer_length(random: &mut Random, needed: usize) -> usize {
    match random.between(0, 9) {
        0..=3 => needed,
        4..=6 => needed + random.between(1, 20) as usize,
        7 | 8 => needed.saturating_sub(1),
        _ => 0,
    }
}

impl<T: Pattern + LowerHex> Handed for Slice<T> {
    fn shapes(&self) -> Vec<Shape> {
        let null = (self.name, "NULL", self.null);
        match self.needed {
            Needed::One => Vec::new(),
            Needed::Any => vec![null],
            Needed::Exactly(needed) => vec![
                null,
                (self.name, "one short", self.len() + 1 == needed),
                (self.name, "exact", self.len() == needed),
                (self.name, "longer", self.len() > needed),
            ],
        }
    }

    fn differences(&self) -> Vec<String> {
        let difference = self.lent.difference(&self.written);
        difference.map(|difference| format!("{}, {difference}", self.name)).into_iter().collect()
    }

    fn show(&self) -> String {
        let null = if self.null { "NULL, " } else { "" };
        format!("{} {null}{}", self.name, show::list(self.given()))
    }
}

/// A record's two slices.
pub struct Given {
    pub values: Slice<u32>,
    pub written: Slice<u8>,
}

impl Given {
    /// The record, cut off or with any elements behind it; a written register is marked with any byte but 0.
    pub fn new(random: &mut Random, record: &Record) -> Given {
        let mut values = record.values.to_vec();
        values.extend(random.words(20));
        values.truncate(record_length(random));
        let mut written: Vec<u8> = record
            .written
            .iter()
            .map(|set| if *set { random.pick(&[1, 1, 2, 7, 128, 255]) } else { 0 })
            .collect();
        written.extend(random.bytes(20));
        written.truncate(record_length(random));
        Given {
            values: Slice::list(random, "values", &values, Some(64)),
            written: Slice::list(random, "written", &written, Some(64)),
        }
    }

    /// The record that the slices hold; 13 where one of them is too short.
    pub fn record(&self) -> Result<Record, Refusal> {
        let (values, written) = (self.values.given(), self.written.given());
        if values.len() < 64 || written.len() < 64 {
            return Err(refusal(SHORT));
        }
        let mut record = Record::fresh();
        record.values.copy_from_slice(&values[..64]);
        for (set, byte) in record.written.iter_mut().zip(written) {
            *set = *byte != 0;
        }
        Ok(record)
    }
}

fn record_length(random: &mut Random) -> usize {
    match random.between(0, 15) {
        0 => 0,
        1 => 63,
        2 => random.between(1, 62) as usize,
        3..=6 => random.between(65, 84) as usize,
        _ => 64,
    }
}

impl Handed for Given {
    fn shapes(&self) -> Vec<Shape> {
        let mut shapes = self.values.shapes();
        shapes.extend(self.written.shapes());
        shapes.push(("written", "bytes above 1", self.written.given().iter().take(64).any(|byte| *byte > 1)));
        shapes
    }

    fn differences(&self) -> Vec<String> {
        [self.values.differences(), self.written.differences()].concat()
    }

    fn show(&self) -> String {
        [self.values.show(), self.written.show()].join("\n")
    }
}

/// Holds the number that a call answered, and all that was handed to it, against what the second program expects.
pub fn judge<T>(
    bench: &mut Bench,
    call: &'static str,
    expected: &Result<T, Refusal>,
    told: u64,
    handed: &[&dyn Handed],
    others: &str,
) {
    let refused = expected.as_ref().err().copied();
    let mut judged = Judged { refused, differences: Vec::new() };
    judged.same(
        "answer",
        &refused.map_or((0, 0), |r| (r.number, r.detail)),
        &((told >> 32) as u32, told as u32),
    );
    for each in handed {
        judged.differences.extend(each.differences());
        for shape in each.shapes() {
            bench.hand(call, shape);
        }
    }
    bench.count(call, judged, || {
        let shown: Vec<String> = handed.iter().map(|each| each.show()).collect();
        format!("{}\n{others}", shown.join("\n"))
    });
}
