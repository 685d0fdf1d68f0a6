//! Lent memory: it holds a pattern or given items beforehand, with a guard before and behind the lent part, and all of
//! it is compared afterwards.

use crate::random::Random;
use std::fmt::Debug;
use vombelishi::Entry;

const GUARD: usize = 16;

pub trait Pattern: Copy + PartialEq + Debug {
    fn cut(number: u64) -> Self;
}

macro_rules! pattern {
    ($($kind:ty),*) => {
        $(impl Pattern for $kind {
            fn cut(number: u64) -> $kind {
                number as $kind
            }
        })*
    };
}

pattern!(u8, u16, i16, u32, u64);

impl Pattern for Entry {
    fn cut(number: u64) -> Entry {
        let [marks, least, greatest] = [0, 8, 16].map(|bits| (number >> bits) as u16);
        Entry { marks, least, greatest }
    }
}

pub struct Lent<T> {
    before: Vec<T>,
    all: Vec<T>,
}

impl<T: Pattern> Lent<T> {
    pub fn new(random: &mut Random, length: usize) -> Lent<T> {
        let seed = random.next();
        let before: Vec<T> = (0..length + 2 * GUARD).map(|i| pattern_at(seed, i)).collect();
        Lent { all: before.clone(), before }
    }

    pub fn holding(random: &mut Random, items: &[T]) -> Lent<T> {
        let mut lent = Lent::new(random, items.len());
        lent.before[GUARD..GUARD + items.len()].copy_from_slice(items);
        lent.all.clone_from(&lent.before);
        lent
    }

    pub fn lend(&mut self) -> &mut [T] {
        let end = self.all.len() - GUARD;
        &mut self.all[GUARD..end]
    }

    /// What was lent, as it was beforehand.
    pub fn given(&self) -> &[T] {
        &self.before[GUARD..self.before.len() - GUARD]
    }

    /// None if the memory holds `painted` from its start and what it held before everywhere else.
    pub fn difference(&self, painted: &[T]) -> Option<String> {
        let right = |i: usize| match i.checked_sub(GUARD) {
            Some(place) if place < painted.len() => painted[place],
            _ => self.before[i],
        };
        let wrong = (0..self.all.len()).find(|&i| self.all[i] != right(i))?;
        Some(format!(
            "at place {} of {} (of which {} are to be written): should be {:?}, is {:?}",
            wrong as i64 - GUARD as i64,
            self.all.len() - 2 * GUARD,
            painted.len(),
            right(wrong),
            self.all[wrong]
        ))
    }
}

fn pattern_at<T: Pattern>(seed: u64, i: usize) -> T {
    T::cut(seed.wrapping_add(i as u64).wrapping_mul(0x9E37_79B9_7F4A_7C15) >> 23)
}

/// A length to lend where `needed` are needed: exact, more or short.
pub fn lent_length(random: &mut Random, needed: usize) -> usize {
    let below = needed.saturating_sub(1);
    match random.between(0, 9) {
        0..=4 => needed,
        5..=7 => needed + random.between(1, 20) as usize,
        8 => below,
        _ => random.between(0, below.min(1 << 24) as u32) as usize,
    }
}
