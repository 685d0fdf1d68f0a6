//! A list of register words that breaks a rule, the word that mends it, and the same list in two halves. `load`
use vombelishi::{Record, Refused};

/// So many words have all registers of the paper's small plate, but the line ends before the border does. The next one
/// mends that, and the other 16 are another palette.
const BROKEN: usize = 30;
const WHOLE: usize = BROKEN + 1;

fn list() -> Vec<u32> {
    let across = (0x80..).step_by(4).zip([10, 1, 3, 2, 6, 11]);
    let down = (0xA0..).step_by(4).zip([5, 0, 1, 2, 3, 4]);
    let mut words = vec![0xE000_000B, 0x4000_0F00];
    words.extend((0..16).map(|i| i << 26 | i)); // reds
    words.extend(across.chain(down).map(|(address, value)| address << 24 | value << 14));
    words.push(0x80 << 24 | 15 << 14);
    words.extend((0..16).map(|i| i << 26 | i << 4)); // greens
    words
}

/// The record with the words, or as it came.
fn hand(record: Record, words: &[u32]) -> Record {
    print!("{} words: ", words.len());
    match record.load_and_check(words) {
        Ok(accepted) => {
            println!("accepted, {} x {}", accepted.setting().n, accepted.setting().v);
            accepted.into_record()
        }
        Err(Refused { refusal, record }) => {
            println!("refused {} {}", refusal.number, refusal.detail);
            record
        }
    }
}

fn compare(what: &str, one: &Record, other: &Record) {
    println!("{what}: {}", if one == other { "yes" } else { "no" });
}

fn main() {
    let words = list();
    let given_back = hand(Record::new(), &words[..BROKEN]);
    compare("the record is as it came", &given_back, &Record::new());
    let once = hand(given_back, &words);
    let first = hand(Record::new(), &words[..WHOLE]);
    let twice = hand(first, &words[WHOLE..]);
    compare("two calls leave the record of one", &once, &twice);
}
