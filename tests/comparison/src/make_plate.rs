//! Plate files: right, and wrong in length or trailer.

use crate::make_list::spoil_list;
use crate::make_record::{as_words, Size};
use crate::make_scene::scene;
use crate::random::Random;
use second::plate::{bytes_of, write};

/// A file of random sections, right in length and trailer.
pub fn right_file(random: &mut Random, most_words: u32) -> Vec<u8> {
    let counts = section_counts(random, most_words);
    let [registers, video, cursor, sound] = counts.map(|count| random.words(count));
    write(&registers, &video, &cursor, &sound, usize::MAX).expect("small enough")
}

/// Lengths of the four sections, often none.
pub fn section_counts(random: &mut Random, most_words: u32) -> [usize; 4] {
    let empty_in_four = if random.one_in(4) { 3 } else { 1 };
    [(); 4].map(|()| {
        if random.between(1, 4) <= empty_in_four {
            0
        } else {
            random.between(0, most_words) as usize
        }
    })
}

/// Wrong in one way or another.
pub fn spoil_file(random: &mut Random, file: &mut Vec<u8>) {
    match random.between(0, 6) {
        0 => file.truncate(random.between(0, 20) as usize),
        1 => file.truncate(file.len() - random.between(1, 4) as usize),
        2 => file.extend(random.bytes(4)),
        3 => file.insert(0, 0),
        4 => wild_trailer(random, file),
        5 => nudge_trailer(random, file),
        _ => swap_trailer(random, file),
    }
}

fn trailer_word(file: &mut [u8], i: usize) -> &mut [u8] {
    let start = file.len() - 16 + 4 * i;
    &mut file[start..start + 4]
}

fn get(file: &mut [u8], i: usize) -> u32 {
    let word = trailer_word(file, i);
    u32::from_le_bytes([word[0], word[1], word[2], word[3]])
}

fn set(file: &mut [u8], i: usize, number: u32) {
    trailer_word(file, i).copy_from_slice(&number.to_le_bytes());
}

/// Numbers that a sum or product of 32 bits would take for right ones.
fn wild_trailer(random: &mut Random, file: &mut [u8]) {
    let high = random.pick(&[1 << 30, 2 << 30, 3 << 30, u32::MAX - 3, 0x8000_0000]);
    for i in 0..=random.between(0, 3) as usize {
        let wild = get(file, i).wrapping_add(high);
        set(file, i, wild);
    }
    if random.one_in(3) {
        let i = random.between(0, 3) as usize;
        set(file, i, u32::MAX - random.between(0, 5));
    }
}

/// One distance a little up or down.
fn nudge_trailer(random: &mut Random, file: &mut [u8]) {
    let i = random.between(0, 3) as usize;
    let step = random.pick(&[1, u32::MAX, 4, u32::MAX - 3]);
    let nudged = get(file, i).wrapping_add(step);
    set(file, i, nudged);
}

/// Two neighbouring distances exchanged.
fn swap_trailer(random: &mut Random, file: &mut [u8]) {
    let i = random.between(0, 2) as usize;
    let (one, other) = (get(file, i), get(file, i + 1));
    set(file, i, other);
    set(file, i + 1, one);
}

/// A file for the printer: a scene as a plate, sometimes spoiled, sometimes too long.
pub fn picture_file(random: &mut Random, size: Size) -> Vec<u8> {
    let scene = scene(random, size);
    let mut registers = as_words(random, &scene.record);
    if random.one_in(10) {
        spoil_list(random, &mut registers);
    }
    let sound_count = random.between(0, 9) as usize;
    let sound = random.words(sound_count);
    let sections = [&registers, &scene.video, &scene.cursor, &sound].map(|s| s.as_slice());
    let mut file = bytes_of(&sections.concat());
    pad_to_limit(random, &mut file);
    add_trailer(&mut file, sections.map(|section| section.len()));
    if random.one_in(12) {
        spoil_file(random, &mut file);
    }
    file
}

/// Sometimes more sound, so that the file is just as long as the printer takes, or longer.
fn pad_to_limit(random: &mut Random, file: &mut Vec<u8>) {
    let length = match random.between(0, 59) {
        0 => 65_536,
        1 => random.pick(&[65_540, 65_544, 70_000, 200_000]),
        _ => return,
    };
    file.resize(file.len().max(length - 16), 0xA5);
}

/// The trailer for these sections; what the file has beyond them is sound.
fn add_trailer(file: &mut Vec<u8>, sections: [usize; 4]) {
    let r = file.len() / 4;
    let v = r - sections[0];
    let c = v - sections[1];
    let s = c - sections[2];
    file.extend(bytes_of(&[r, v, c, s].map(|distance| distance as u32)));
}
