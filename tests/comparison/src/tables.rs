//! The tables at the end: each refusal and each call, how often met. What must be met and
//! was not is a failure.

use crate::bench::{Bench, Row};

/// The refusals that each call can give, from the paper's orders. The wrapper is asked for a picture by two calls, which
/// count as one: the record is accepted as it stands, and then asked; so the setting's refusals are in that call's row. The C
/// calls themselves, from `vom_load_and_check` on, are also given records, and memory for every answer, that are too short.
const CAN_REFUSE: [(&str, &[usize]); 38] = [
    ("load_and_check", &[1, 2, 3, 4, 5, 6, 7, 8, 9, 19]),
    ("load_and_check_sound", &[1, 2, 3, 10]),
    ("load_word", &[2]),
    ("check_sound", &[3, 10]),
    ("frame", &[3, 4, 5, 6, 7, 8, 9, 11, 13, 19]),
    ("raster", &[3, 4, 5, 6, 7, 8, 9, 11, 12, 13, 19]),
    ("raster_words", &[3, 4, 5, 6, 7, 8, 9, 11, 12, 19]),
    ("marks", &[3, 4, 5, 6, 7, 8, 9, 11, 19]),
    ("summaries", &[3, 4, 5, 6, 7, 8, 9, 11, 13, 19]),
    ("replace", &[3, 4, 5, 6, 7, 8, 9, 11, 13, 18, 19]),
    ("mix", &[3, 4, 5, 6, 7, 8, 9, 13, 19, 20]),
    ("sound", &[3, 10, 13]),
    ("copy", &[13, 14]),
    ("write", &[13, 15]),
    ("text", &[1, 2, 3, 4, 5, 6, 7, 8, 9, 11, 13, 14, 15, 19]),
    ("queue_load", &[16]),
    ("queue_read", &[17]),
    ("vom_load_and_check", &[1, 2, 3, 4, 5, 6, 7, 8, 9, 13, 19]),
    ("vom_load_and_check_sound", &[1, 2, 3, 10, 13]),
    ("vom_load_word", &[2, 13]),
    ("vom_check_sound", &[3, 10, 13]),
    ("vom_frame", &[3, 4, 5, 6, 7, 8, 9, 11, 13, 19]),
    ("vom_raster", &[3, 4, 5, 6, 7, 8, 9, 11, 12, 13, 19]),
    ("vom_raster_words", &[3, 4, 5, 6, 7, 8, 9, 11, 12, 13, 19]),
    ("vom_marks", &[3, 4, 5, 6, 7, 8, 9, 11, 13, 19]),
    ("vom_summaries", &[3, 4, 5, 6, 7, 8, 9, 11, 13, 19]),
    ("vom_replace", &[3, 4, 5, 6, 7, 8, 9, 11, 13, 18, 19]),
    ("vom_mix", &[3, 4, 5, 6, 7, 8, 9, 13, 19, 20]),
    ("vom_colour", &[13]),
    ("vom_sound", &[3, 10, 13]),
    ("vom_sound_pair", &[10, 13]),
    ("vom_read", &[13, 14]),
    ("vom_copy", &[13, 14]),
    ("vom_write", &[13, 15]),
    ("vom_text", &[13]),
    ("vom_queue_load", &[16]),
    ("vom_queue_read", &[17]),
    ("vom_sync_ask", &[13]),
];

const ALWAYS_ANSWERED: [&str; 13] = [
    "colour",
    "grey",
    "pin",
    "sound_pair",
    "queue_fresh",
    "queue_vertical_sync",
    "queue_ask",
    "sync_ask",
    "vom_grey",
    "vom_pin",
    "vom_queue_fresh",
    "vom_queue_vertical_sync",
    "vom_queue_ask",
];

pub fn print(bench: &Bench) {
    println!("inputs compared, by call: accepted, then refused by number");
    println!("{:<24}{:>9}{}", "call", "accepted", (1..21).map(|n| format!("{n:>7}")).collect::<String>());
    for (call, row) in &bench.calls {
        print_row(call, row);
    }
    print_row("all", &totals(bench));
    print_details(bench);
    print_shapes(bench);
    println!("seen in the inputs:");
    for (sight, times) in sights(bench) {
        println!("{times:>10}  {sight}");
    }
}

/// Each sight, behind its call where it is of one call's inputs, and how often it was met.
fn sights(bench: &Bench) -> Vec<(String, u64)> {
    let mut all = Vec::new();
    for (call, sights) in &bench.sights {
        let of = if call.is_empty() { "" } else { ": " };
        all.extend(sights.iter().map(|(sight, times)| (format!("{call}{of}{sight}"), *times)));
    }
    all
}

/// The details of the refusals that name an address.
fn print_details(bench: &Bench) {
    for number in [3, 10] {
        let met = bench.refusals.iter().filter(|((n, _), _)| *n == number);
        let details: Vec<String> = met.map(|((_, detail), times)| format!("{detail:02X}H {times}")).collect();
        println!("refusal {number} by address: {}", details.join(", "));
    }
}

fn print_shapes(bench: &Bench) {
    println!("slices handed to the C calls themselves:");
    for ((call, slice), shapes) in &bench.shapes {
        let met: Vec<String> = shapes.iter().map(|(shape, times)| format!("{shape} {times}")).collect();
        println!("  {call}, {slice}: {}", met.join(", "));
    }
}

fn print_row(call: &str, row: &Row) {
    let numbers: String = row[1..].iter().map(|n| format!("{n:>7}")).collect();
    println!("{call:<24}{:>9}{numbers}", row[0]);
}

fn totals(bench: &Bench) -> Row {
    let mut all = Row::default();
    for row in bench.calls.values() {
        for (sum, times) in all.iter_mut().zip(row) {
            *sum += times;
        }
    }
    all
}

/// What should have been met and never was.
pub fn never_met(bench: &Bench) -> Vec<String> {
    let times = |call: &str, number: usize| bench.calls.get(call).map_or(0, |row| row[number]);
    let mut missing = Vec::new();
    for (call, numbers) in CAN_REFUSE {
        for &number in [0].iter().chain(numbers) {
            if times(call, number) == 0 {
                missing.push(format!("{call} with {number}"));
            }
        }
    }
    for call in ALWAYS_ANSWERED {
        if times(call, 0) == 0 {
            missing.push(call.to_string());
        }
    }
    missing.extend(details_never_met(bench));
    let all = totals(bench);
    missing.extend((1..21).filter(|&n| all[n] == 0).map(|n| format!("refusal {n}")));
    missing.extend(sights(bench).into_iter().filter(|(_, n)| *n == 0).map(|(sight, _)| sight));
    for ((call, slice), shapes) in &bench.shapes {
        missing.extend(
            shapes.iter().filter(|(_, n)| **n == 0).map(|(shape, _)| format!("{call}, {slice}: {shape}")),
        );
    }
    missing
}

/// Each address that 3 and 10 can name.
fn details_never_met(bench: &Bench) -> Vec<String> {
    let for_sound = |a: &u32| matches!(a, 0x60..=0x7C | 0xC0);
    let for_either = |a: &u32| for_sound(a) || matches!(a, 0x00..=0x4C | 0x80..=0x98 | 0xA0..=0xB4 | 0xE0);
    let addresses = || (0x00..=0xFC).step_by(4);
    let three = addresses().filter(for_either).map(|a| (3, a));
    let ten = addresses().filter(for_sound).map(|a| (10, a));
    let missing = three.chain(ten).filter(|met| !bench.refusals.contains_key(met));
    missing.map(|(number, a)| format!("refusal {number} with {a:02X}H")).collect()
}
