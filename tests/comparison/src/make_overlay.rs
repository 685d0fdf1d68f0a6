//! A record with one raster's cells and a camera's numbers, right or spoiled.

use crate::damage::{damage, nudge};
use crate::handed::answer_length;
use crate::make_record::{right, setting_of, small_or_wide};
use crate::random::Random;
use crate::show;
use second::record::Record;

pub struct Overlay {
    pub record: Record,
    pub cells: Vec<u16>,
    pub camera: Vec<u16>,
    /// N, or some number where the setting is refused.
    pub needed: usize,
}

pub fn overlay(random: &mut Random) -> Overlay {
    let size = small_or_wide(random);
    let mut record = right(random, size);
    match random.between(0, 9) {
        0..=6 => (),
        7 => nudge(random, &mut record),
        _ => damage(random, &mut record),
    }
    let needed = setting_of(&record).map_or(40, |s| s.n as usize);
    let (cells, camera) = (list_length(random, needed), list_length(random, needed));
    let cells = (0..cells).map(|_| cell(random)).collect();
    let mut camera: Vec<u16> = (0..camera).map(|_| colour(random)).collect();
    for _ in 0..random.pick(&[0, 0, 0, 1, 1, 2, 3]) {
        spoil(random, &mut camera, needed);
    }
    Overlay { record, cells, camera, needed }
}

/// Long enough in most rounds, so that both lists and the answer often are.
fn list_length(random: &mut Random, needed: usize) -> usize {
    if random.one_in(4) {
        return answer_length(random, needed);
    }
    needed + random.pick(&[0, 0, 1, 7])
}

/// Any 12 bits, the least and the greatest often.
fn colour(random: &mut Random) -> u16 {
    let any = random.between(0, 0xFFF) as u16;
    random.pick(&[0, 0xFFF, any, any])
}

/// Any code, with supremacy in every second cell.
fn cell(random: &mut Random) -> u16 {
    random.word() as u16
}

/// A number at or past the end of the 12 bits: at the first place, at N - 1, at N, or anywhere.
fn spoil(random: &mut Random, camera: &mut [u16], needed: usize) {
    let number = random.pick(&[0x0FFF, 0x1000, 0x1000, 0x1001, 0x8000, 0xFFFF]);
    let anywhere = random.between(0, camera.len().max(1) as u32 - 1) as usize;
    let place = random.pick(&[0, needed.saturating_sub(1), needed, anywhere, anywhere]);
    if let Some(was) = camera.get_mut(place) {
        *was = number;
    }
}

impl Overlay {
    pub fn show(&self) -> String {
        let Overlay { record, cells, camera, .. } = self;
        format!("record {}\ncells {}\ncamera {}", show::record(record), show::list(cells), show::list(camera))
    }
}
