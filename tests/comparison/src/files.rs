//! Reading, copying out and writing plate files.

use crate::bench::Bench;
use crate::judged::Judged;
use crate::lent::{lent_length, Lent};
use crate::make_plate::{right_file, section_counts, spoil_file};
use crate::ours;
use crate::random::Random;
use crate::show;
use second::plate::{self, MOST_BYTES};
use vombelishi::plate as library;

pub fn file_round(bench: &mut Bench, random: &mut Random) {
    let mut file = right_file(random, 12);
    if random.one_in(2) {
        spoil_file(random, &mut file);
    }
    compare_read(bench, random, &file);
    compare_copy(bench, random, &file);
}

/// Files at the limit of 4,194,304 bytes and just above it.
pub fn long_file_round(bench: &mut Bench, random: &mut Random) {
    let words = (MOST_BYTES / 4) as u32 - 4 + random.pick(&[0, 0, 1, 2]);
    let mut file = plate::bytes_of(&random.words(words as usize));
    let middle = random.between(0, words);
    file.extend(plate::bytes_of(&[words, middle, middle / 2, 0]));
    if random.one_in(4) {
        file.pop();
    }
    compare_read(bench, random, &file);
    compare_copy(bench, random, &file);
}

fn compare_read(bench: &mut Bench, random: &mut Random, file: &[u8]) {
    let expected = plate::read(file);
    let mut lent: Lent<u64> = Lent::new(random, 9);
    let mut judged = Judged::answer(&expected, library::read_into(file, lent.lend()));
    judged.returned(expected.map(ours::places), library::read(file));
    let numbers = expected.map(|t| t.nine_numbers()).unwrap_or_default();
    judged.memory("places", &lent, &numbers);
    bench.see("file of 16 bytes read", file.len() == 16 && !numbers.is_empty());
    bench.see("file too long, right otherwise", right_but_long(file));
    bench.see("file right only modulo 2^32", right_only_modulo(file));
    bench.see("file of 4,194,304 bytes read", file.len() == 4_194_304 && !numbers.is_empty());
    bench.count("read", judged, || format!("file {}", show::list(file)));
}

/// Above the limit, with a trailer that fits.
fn right_but_long(file: &[u8]) -> bool {
    let distance = plate::words_of(&file[file.len().saturating_sub(16)..]).first().copied();
    file.len() as u64 > MOST_BYTES && distance.map_or(false, |r| 4 * r as usize + 16 == file.len())
}

/// Wrong, but right for one who reckons 4R + 16 in 32 bits.
fn right_only_modulo(file: &[u8]) -> bool {
    if file.len() < 16 {
        return false;
    }
    let t = plate::words_of(&file[file.len() - 16..]);
    let in_order = t[0] >= t[1] && t[1] >= t[2] && t[2] >= t[3];
    let wrapped = t[0].wrapping_mul(4).wrapping_add(16) as usize;
    in_order && wrapped == file.len() && plate::read(file).is_err()
}

fn compare_copy(bench: &mut Bench, random: &mut Random, file: &[u8]) {
    let needed = plate::read(file).map_or(20, |t| t.r as usize);
    let length = lent_length(random, needed);
    let expected = plate::copy(file, length);
    let mut lent: Lent<u32> = Lent::new(random, length);
    let mut judged = Judged::answer(&expected, library::copy(file, lent.lend()));
    judged.memory("words", &lent, expected.as_deref().unwrap_or_default());
    bench.count("copy", judged, || format!("file {}\nbuffer of {length} words", show::list(file)));
}

pub fn write_round(bench: &mut Bench, random: &mut Random) {
    let counts = section_counts(random, 15);
    let [registers, video, cursor, sound] = counts.map(|count| random.words(count));
    compare_write(bench, random, [&registers, &video, &cursor, &sound]);
}

/// Sections that together come to the limit, or pass it.
pub fn long_write_round(bench: &mut Bench, random: &mut Random) {
    let most = (MOST_BYTES / 4) as u32 - 4;
    let total = most + random.pick(&[0, 1, 1, 2, 100]);
    let mut cuts = [(); 3].map(|()| random.between(0, total) as usize);
    cuts.sort_unstable();
    let words = random.words(total as usize);
    let sections = [&words[..cuts[0]], &words[cuts[0]..cuts[1]], &words[cuts[1]..cuts[2]], &words[cuts[2]..]];
    compare_write(bench, random, sections);
}

fn compare_write(bench: &mut Bench, random: &mut Random, sections: [&[u32]; 4]) {
    let [registers, video, cursor, sound] = sections;
    let words: usize = sections.iter().map(|section| section.len()).sum();
    let length = lent_length(random, 4 * words + 16);
    let expected = plate::write(registers, video, cursor, sound, length);
    let judged = Judged::bytes(random, expected.as_deref().map_err(|refusal| *refusal), length, |out| {
        library::write(sections, out)
    });
    let bytes = expected.map_or(0, |file| file.len());
    bench.see("file of 4,194,304 bytes written", bytes == 4_194_304);
    bench.see("file of 16 bytes written", bytes == 16);
    bench.count("write", judged, || {
        format!("sections {}\nbuffer of {length} bytes", sections.map(show::list).join("\nand "))
    });
}
