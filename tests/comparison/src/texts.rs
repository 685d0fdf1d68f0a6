//! The printer's text, by the library's call.

use crate::bench::Bench;
use crate::judged::Judged;
use crate::make_plate::picture_file;
use crate::make_record::{small_or_wide, FULL, MIDDLING, TALL, WIDE};
use crate::random::Random;
use crate::show;
use second::refusal::{refuse_if, Refusal, SHORT};
use second::text::{picture, text};
use vombelishi::plate as library;

pub fn text_round(bench: &mut Bench, random: &mut Random) {
    let size = small_or_wide(random);
    let file = picture_file(random, size);
    compare_text(bench, random, &file);
}

/// Long lines, many rasters; what is too much for the printer is refused with 15.
pub fn large_text_round(bench: &mut Bench, random: &mut Random) {
    let size = random.pick(&[WIDE, TALL, TALL, MIDDLING, FULL]);
    let file = picture_file(random, size);
    compare_text(bench, random, &file);
}

fn lent_for(random: &mut Random, needed: usize) -> usize {
    match random.between(0, 9) {
        0 => needed - 1,
        1..=4 => needed,
        _ => needed + random.between(1, 200) as usize,
    }
}

/// A refused plate has a text too; only a buffer too short for the text is refused here.
fn compare_text(bench: &mut Bench, random: &mut Random, file: &[u8]) {
    let lines = text(file);
    let length = lent_for(random, lines.len());
    let expected = refuse_if(length < lines.len(), SHORT).map(|()| lines.as_bytes());
    let mut judged = Judged::bytes(random, expected, length, |out| library::text(file, out));
    judged.refused = counted_as(file, expected.err());
    bench.see("text of 1,025 lines", lines.lines().count() == 1025);
    let long_run = lines.split_whitespace().any(|run| run.len() >= "2x1000".len());
    bench.see("text with a run of a thousand pixels", judged.refused.is_none() && long_run);
    bench.see("text with marks", judged.refused.is_none() && !lines.contains(" marks 0\n"));
    bench.see("text of a plate of 65,536 bytes", file.len() == 65_536 && judged.refused.is_none());
    bench.count("text", judged, || {
        format!("file {}\nbuffer of {length} bytes\nthe text is\n{lines}", show::list(file))
    });
}

/// For the table: the refusal of the buffer, or the one that the text names.
fn counted_as(file: &[u8], of_buffer: Option<Refusal>) -> Option<Refusal> {
    of_buffer.or_else(|| picture(file).err())
}
