//! The C calls themselves, of plate files: read, copy, write, text.

use crate::bench::Bench;
use crate::handed::{judge, Slice};
use crate::make_plate::{picture_file, right_file, section_counts, spoil_file};
use crate::make_record::SMALL;
use crate::random::Random;
use second::plate::{self, MOST_BYTES};
use second::refusal::{refuse_if, SHORT};
use second::text::text;
use vombelishi::calls::*;

pub fn raw_file_round(bench: &mut Bench, random: &mut Random) {
    let mut file = right_file(random, 12);
    match random.between(0, 19) {
        0 => file.clear(),
        1..=5 => spoil_file(random, &mut file),
        _ => (),
    }
    raw_read(bench, random, &file);
    raw_copy(bench, random, &file);
    let counts = section_counts(random, 15);
    raw_write(bench, random, counts);
}

pub fn raw_text_round(bench: &mut Bench, random: &mut Random) {
    let file = if random.one_in(8) { Vec::new() } else { picture_file(random, SMALL) };
    raw_text(bench, random, &file);
}

/// Sections that together come to the limit of 4,194,304 bytes, or just pass it.
pub fn raw_long_write_round(bench: &mut Bench, random: &mut Random) {
    let each = (MOST_BYTES / 16) as usize - 1;
    let more = random.gap() as usize;
    raw_write(bench, random, [each, each, each, each + more]);
}

fn raw_read(bench: &mut Bench, random: &mut Random, file: &[u8]) {
    let mut file = Slice::list(random, "file", file, None);
    let mut places = Slice::answer(random, "places", 9);
    let room = refuse_if(places.len() < 9, SHORT);
    let expected = plate::read(file.given()).and_then(|trailer| room.map(|()| trailer.nine_numbers()));
    if let Ok(right) = &expected {
        places.should_hold(right);
    }
    let told = unsafe { vom_read(file.pointer(), file.len(), places.pointer(), places.len()) };
    judge(bench, "vom_read", &expected, told, &[&file, &places], "");
}

fn raw_copy(bench: &mut Bench, random: &mut Random, file: &[u8]) {
    let mut file = Slice::list(random, "file", file, None);
    let needed = plate::read(file.given()).map_or(20, |trailer| trailer.r as usize);
    let mut words = Slice::answer(random, "words", needed);
    let expected = plate::copy(file.given(), words.len());
    if let Ok(right) = &expected {
        words.should_hold(right);
    }
    let told = unsafe { vom_copy(file.pointer(), file.len(), words.pointer(), words.len()) };
    judge(bench, "vom_copy", &expected, told, &[&file, &words], "");
}

#[rustfmt::skip] // a pointer and its length on one line
fn raw_write(bench: &mut Bench, random: &mut Random, counts: [usize; 4]) {
    let [r, v, c, s] = counts.map(|count| random.words(count));
    let mut registers = Slice::list(random, "registers", &r, None);
    let mut video = Slice::list(random, "video", &v, None);
    let mut cursor = Slice::list(random, "cursor", &c, None);
    let mut sound = Slice::list(random, "sound", &s, None);
    let mut out = Slice::answer(random, "out", 4 * counts.iter().sum::<usize>() + 16);
    let before = random.next();
    let mut size = Slice::one(random, "size", before);
    let expected = plate::write(&r, &v, &c, &s, out.len());
    if let Ok(right) = &expected {
        out.should_hold(right);
        size.should_hold(&[right.len() as u64]);
    }
    let told = unsafe {
        vom_write(
            registers.pointer(), registers.len(),
            video.pointer(), video.len(),
            cursor.pointer(), cursor.len(),
            sound.pointer(), sound.len(),
            out.pointer(), out.len(),
            size.pointer(),
        )
    };
    judge(bench, "vom_write", &expected, told, &[&registers, &video, &cursor, &sound, &out, &size], "");
}

fn raw_text(bench: &mut Bench, random: &mut Random, file: &[u8]) {
    let lines = text(file);
    let mut file = Slice::list(random, "file", file, None);
    let mut out = Slice::answer(random, "text", lines.len());
    let before = random.next();
    let mut size = Slice::one(random, "size", before);
    let expected = refuse_if(out.len() < lines.len(), SHORT);
    if expected.is_ok() {
        out.should_hold(lines.as_bytes());
        size.should_hold(&[lines.len() as u64]);
    }
    let told = unsafe { vom_text(file.pointer(), file.len(), out.pointer(), out.len(), size.pointer()) };
    judge(bench, "vom_text", &expected, told, &[&file, &out, &size], "");
}
