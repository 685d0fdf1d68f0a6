//! A record with its video and cursor words, right or spoiled.

use crate::damage::{damage, nudge};
use crate::make_record::{right, setting_of, Size};
use crate::random::Random;
use crate::show;
use second::grey::grey;
use second::record::Record;

#[derive(Clone)]
pub struct Scene {
    pub record: Record,
    pub video: Vec<u32>,
    pub cursor: Vec<u32>,
}

/// Right in everything.
pub fn right_scene(random: &mut Random, size: Size) -> Scene {
    let record = right(random, size);
    let mut scene = Scene { record, video: Vec::new(), cursor: Vec::new() };
    fill(random, &mut scene);
    scene
}

/// Right, or spoiled in its record or its word counts.
pub fn scene(random: &mut Random, size: Size) -> Scene {
    let mut scene = right_scene(random, size);
    match random.between(0, 9) {
        0..=4 => (),
        5 | 6 => damage(random, &mut scene.record),
        7 => {
            nudge(random, &mut scene.record);
            fill(random, &mut scene);
        }
        _ => spoil_counts(random, &mut scene),
    }
    scene
}

/// As many words as the setting asks for, if it is accepted.
fn fill(random: &mut Random, scene: &mut Scene) {
    if let Some(s) = setting_of(&scene.record) {
        scene.video = random.words(s.video_words() as usize);
        scene.cursor = cursor_words(random, s.cursor_words() as usize);
    }
}

/// Any pairs, some of them clear.
fn cursor_words(random: &mut Random, count: usize) -> Vec<u32> {
    let mask = random.pick(&[0xFFFF_FFFF, 0xFFFF_FFFF, 0x3333_3333, 0x0000_0001, 0xC000_0000]);
    random.words(count).into_iter().map(|word| word & mask).collect()
}

fn spoil_counts(random: &mut Random, scene: &mut Scene) {
    let list = if random.one_in(2) { &mut scene.video } else { &mut scene.cursor };
    match random.between(0, 5) {
        0 | 1 => list.push(random.word()),
        2 | 3 => drop(list.pop()),
        4 => list.clear(),
        _ => std::mem::swap(&mut scene.video, &mut scene.cursor),
    }
}

impl Scene {
    /// The grey of a palette entry.
    pub fn level(&self, random: &mut Random) -> u8 {
        grey(self.record.values[random.between(0, 15) as usize] as u16)
    }

    pub fn show(&self) -> String {
        format!(
            "record {}\nvideo {}\ncursor {}",
            show::record(&self.record),
            show::list(&self.video),
            show::list(&self.cursor)
        )
    }
}
