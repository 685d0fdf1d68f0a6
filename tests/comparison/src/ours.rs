//! What the second program expects, in the types of the library's Rust wrapper, name by name.

use second::colour::Shown;
use second::plate::Trailer;
use second::queue::Queue;
use second::queue_calls::Reply;
use second::record::Record;
use second::refusal::Refusal;
use second::setting::Setting;
use second::summaries::ENTRY;
use vombelishi::plate::Places;
use vombelishi::{Accepted, Apart, Entry};

pub fn record(record: &Record) -> vombelishi::Record {
    vombelishi::Record { values: record.values, written: record.written.map(u8::from) }
}

/// The record as it stands, accepted by the library or refused: pictures are asked of an accepted one alone.
pub fn accepted(record: &Record) -> Result<Accepted, vombelishi::Refusal> {
    Ok(self::record(record).load_and_check(&[])?)
}

pub fn refusal(Refusal { number, detail }: Refusal) -> vombelishi::Refusal {
    vombelishi::Refusal { number, detail }
}

pub fn apart(Shown { colour, supremacy }: Shown) -> Apart {
    Apart { colour, supremacy }
}

#[rustfmt::skip] // in the paper's order
pub fn setting(setting: Setting) -> vombelishi::Setting {
    let (video_words, cursor_words) = (setting.video_words(), setting.cursor_words());
    let Setting {
        n, hs, bs, ds, de, be, cx,
        v, vs, vbs, vds, vde, vbe, vcs, vce,
        depth, display_on, border_on, cursor_on,
    } = setting;
    vombelishi::Setting {
        n, hs, bs, ds, de, be, cx,
        v, vs, vbs, vds, vde, vbe, vcs, vce,
        depth, display_on, border_on, cursor_on,
        video_words, cursor_words,
    }
}

pub fn queue(queue: &Queue) -> vombelishi::Queue {
    let Queue { words, kind, taken, place, held, coming, count } = *queue;
    vombelishi::Queue { words, kind, taken, place, held, coming, count }
}

/// Three numbers to an entry.
pub fn entries(numbers: &[u16]) -> Vec<Entry> {
    let entry = |n: &[u16]| Entry { marks: n[0], least: n[1], greatest: n[2] };
    numbers.chunks_exact(ENTRY).map(entry).collect()
}

/// The numbers of entries that are already there.
pub fn numbers(entries: &[Entry]) -> Vec<u16> {
    entries.iter().flat_map(|entry| [entry.marks, entry.least, entry.greatest]).collect()
}

/// A reply, with what the call itself says.
pub fn reply<T>(reply: Reply, answer: T) -> vombelishi::Reply<T> {
    vombelishi::Reply { count: reply.count, asks: reply.asks, answer }
}

pub fn places(trailer: Trailer) -> Places {
    let [registers, video, cursor, sound, end] = trailer.starts().map(|byte| byte as usize);
    let [r, v, c, s] = [trailer.r, trailer.v, trailer.c, trailer.s].map(|distance| distance as usize);
    Places { registers, video, cursor, sound, trailer: end, r, v, c, s }
}
