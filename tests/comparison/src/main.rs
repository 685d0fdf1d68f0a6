//! Compares the library under test with the second program, on made inputs: both answer, and the answers and all lent
//! memory are held side by side.

mod bench;
mod damage;
mod families;
mod files;
mod handed;
mod judged;
mod large;
mod lent;
mod loads;
mod make_kept;
mod make_list;
mod make_overlay;
mod make_plate;
mod make_queue;
mod make_record;
mod make_scene;
mod mixes;
mod ours;
mod pictures;
mod printer;
mod queues;
mod random;
mod raw_files;
mod raw_loads;
mod raw_pictures;
mod raw_queues;
mod raw_records;
mod raw_summaries;
mod registers;
mod show;
mod sounds;
mod summaries;
mod syncs;
mod tables;
mod texts;

use crate::bench::Bench;
use crate::families::{run_round, FAMILIES};
use crate::printer::{compare_printer, Printer, PLATES, PRINTERS};
use std::iter::Peekable;
use std::time::{Duration, Instant};

const USAGE: &str = "compare [--seed N] [--rounds N] [--only FAMILY [--round R]] [--trace] \
    [--printer PROGRAM WORD ..] [--live PROGRAM WORD ..] [--tally PROGRAM WORD ..]";

struct Wishes {
    seed: u64,
    rounds: u64,
    only: Option<String>,
    round: Option<u64>,
    /// The programs, each with the words that it is started with.
    printers: Vec<(&'static Printer, Vec<String>)>,
    trace: bool,
    soak: Duration,
}

fn main() {
    let wishes = wishes();
    let started = Instant::now();
    println!("seed {}", wishes.seed);
    let mut bench = Bench::new(wishes.seed, wishes.trace);
    match &wishes.only {
        Some(name) => run_only(&mut bench, &wishes, name),
        None => run_all(&mut bench, &wishes, started),
    }
    tables::print(&bench);
    println!("{:.1} seconds", started.elapsed().as_secs_f64());
    finish(&mut bench, wishes.only.is_none());
}

fn wishes() -> Wishes {
    let soak = std::env::var("SOAK_SECONDS").map_or(0, |text| number(&text));
    let mut wishes = Wishes {
        seed: 1986,
        rounds: 30_000,
        only: None,
        round: None,
        printers: Vec::new(),
        trace: false,
        soak: Duration::from_secs(soak),
    };
    let mut words = std::env::args().skip(1).peekable();
    while let Some(word) = words.next() {
        if let Some(printer) = printer(&word) {
            wishes.printers.push((printer, command(&mut words)));
            continue;
        }
        let mut value = || words.next().unwrap_or_else(|| usage());
        match word.as_str() {
            "--seed" => wishes.seed = number(&value()),
            "--rounds" => wishes.rounds = number(&value()),
            "--only" => wishes.only = Some(value()),
            "--round" => wishes.round = Some(number(&value())),
            "--trace" => wishes.trace = true,
            _ => usage(),
        }
    }
    wishes
}

/// The program that an option stands for.
fn printer(option: &str) -> Option<&'static Printer> {
    let name = option.strip_prefix("--")?;
    PRINTERS.iter().find(|printer| printer.name == name)
}

/// What a program is started with: all words up to the next option that stands for one.
fn command(words: &mut Peekable<impl Iterator<Item = String>>) -> Vec<String> {
    let first = words.next().unwrap_or_else(|| usage());
    let rest = std::iter::from_fn(|| words.next_if(|word| printer(word).is_none()));
    std::iter::once(first).chain(rest).collect()
}

fn number(text: &str) -> u64 {
    text.parse().unwrap_or_else(|_| usage())
}

fn usage() -> ! {
    eprintln!("{USAGE}");
    std::process::exit(2);
}

/// The rounds asked for, then more until the soak's time is over.
fn run_all(bench: &mut Bench, wishes: &Wishes, started: Instant) {
    let mut round = 0;
    while round < wishes.rounds || started.elapsed() < wishes.soak {
        run_round(bench, round);
        round += 1;
    }
    println!("{round} rounds");
    for (printer, command) in &wishes.printers {
        (0..PLATES).for_each(|round| compare_printer(bench, printer, command, round));
    }
}

/// One family, in one round or in all.
fn run_only(bench: &mut Bench, wishes: &Wishes, name: &str) {
    let rounds = wishes.round.map_or(0..wishes.rounds, |round| round..round + 1);
    if let Some((printer, command)) = wishes.printers.iter().find(|(printer, _)| printer.name == name) {
        let rounds = wishes.round.map_or(0..PLATES, |_| rounds);
        return rounds.for_each(|round| compare_printer(bench, printer, command, round));
    }
    let found = FAMILIES.iter().find(|family| family.name == name);
    let family = found.unwrap_or_else(|| usage());
    for round in rounds.filter(|round| round % family.every == 0) {
        family.run(bench, round);
    }
}

/// In a whole run, what was never met is a failure. So is a run that compared nothing.
fn finish(bench: &mut Bench, whole: bool) {
    let missing = if whole { tables::never_met(bench) } else { Vec::new() };
    for what in &missing {
        println!("NEVER MET: {what}");
    }
    let failed = bench.failed + missing.len() as u64;
    println!("{} passed, {} failed", bench.passed, failed);
    std::process::exit(i32::from(failed != 0 || bench.passed == 0));
}
