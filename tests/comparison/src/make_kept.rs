//! Tables of entries kept beside a scene's lists, and the words that are replaced.

use crate::make_record::{setting_of, small_or_wide, Size};
use crate::make_scene::{right_scene, Scene};
use crate::random::Random;
use crate::show;
use second::record::Record;
use second::refusal::Refusal;
use second::summaries::{replace, summaries, ENTRY};

/// A scene, and the numbers that are lent for its entries.
#[derive(Clone)]
pub struct Kept {
    pub scene: Scene,
    pub threshold: u8,
    pub numbers: Vec<u16>,
}

#[derive(Clone, Copy, Debug)]
pub struct Replacement {
    pub index: usize,
    pub word: u32,
}

/// How a scene is made.
type Make = fn(&mut Random, Size) -> Scene;

/// Mostly with the display on, since there is no entry else. The cursor covers every position that it has, or none, or
/// those that it happens to.
pub fn covered(random: &mut Random, make: Make) -> Scene {
    let size = small_or_wide(random);
    let mut scene = make(random, size);
    while setting_of(&scene.record).map_or(false, |s| !s.display_on) && !random.one_in(4) {
        scene = make(random, size);
    }
    match random.between(0, 3) {
        0 => scene.cursor.fill(u32::MAX),
        1 => scene.cursor.fill(0),
        _ => (),
    }
    scene
}

/// The displayed rasters; some where the setting is refused.
pub fn displayed(record: &Record) -> usize {
    setting_of(record).map_or(4, |s| s.displayed().len())
}

/// The ends and the middle, at a palette entry's grey and just above, or any.
pub fn threshold(random: &mut Random, scene: &Scene) -> u8 {
    let (level, any) = (scene.level(random), random.word() as u8);
    random.pick(&[0, 1, 127, 128, 255, level, level.saturating_add(1), any])
}

/// The numbers of a scene's entries.
pub fn fresh(scene: &Scene, threshold: u8) -> Result<Vec<u16>, Refusal> {
    let Scene { record, video, cursor } = scene;
    let mut numbers = vec![0; ENTRY * displayed(record)];
    summaries(record, video, cursor, threshold, &mut numbers)?;
    Ok(numbers)
}

impl Kept {
    /// So many numbers that mean nothing.
    pub fn any(random: &mut Random, scene: Scene, length: usize) -> Kept {
        let threshold = threshold(random, &scene);
        Kept { scene, threshold, numbers: (0..length).map(|_| random.word() as u16).collect() }
    }

    /// Right in everything.
    pub fn right(random: &mut Random) -> Kept {
        let scene = covered(random, right_scene);
        let threshold = threshold(random, &scene);
        let numbers = fresh(&scene, threshold).expect("a scene that is right");
        Kept { scene, threshold, numbers }
    }

    /// As the second program replaces a word; the record is that of the scene as it was handed over.
    pub fn replace(&mut self, record: &Record, by: Replacement) -> Result<(), Refusal> {
        let Scene { video, cursor, .. } = &mut self.scene;
        replace(record, video, cursor, self.threshold, by.index, by.word, &mut self.numbers)
    }

    pub fn show(&self) -> String {
        format!("{}\nthreshold {}\nentries {}", self.scene.show(), self.threshold, show::list(&self.numbers))
    }
}

/// Any word, mostly for a place in the list: the first and the last of all. Else for one just past it, or far past it
/// where the index has low bits of a place.
pub fn replacement(random: &mut Random, video: &[u32]) -> Replacement {
    let inside = random.between(0, video.len().saturating_sub(1) as u32) as usize;
    let index = match random.between(0, 15) {
        0 | 1 => 0,
        2 | 3 => video.len().saturating_sub(1),
        4 => video.len(),
        5 => video.len() + 1 + inside,
        6 => random.pick(&[inside + (1 << 16), inside + (1 << 32), inside + (1 << 62), usize::MAX - inside]),
        _ => inside,
    };
    let (any, old) = (random.word(), video.get(index).copied().unwrap_or_default());
    let word = random.pick(&[any, any, any, 0, u32::MAX, old, old ^ 1 << (any % 32)]);
    Replacement { index, word }
}
