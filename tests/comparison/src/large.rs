//! A few large frames: long lines, many rasters, both.

use crate::bench::Bench;
use crate::make_kept::{displayed, replacement, Kept};
use crate::make_record::{setting_of, Size, FULL, MIDDLING, TALL, WIDE};
use crate::make_scene::{right_scene, scene};
use crate::pictures::{compare_frame, compare_marks, compare_raster, compare_raster_words};
use crate::random::Random;
use crate::summaries::{compare_replace, compare_summaries};
use second::summaries::ENTRY;

const SIZES: [Size; 4] = [WIDE, TALL, MIDDLING, FULL];

pub fn large_round(bench: &mut Bench, random: &mut Random) {
    let size = random.pick(&SIZES);
    let spoiled = random.one_in(8);
    let scene = if spoiled { scene(random, size) } else { right_scene(random, size) };
    compare_frame(bench, random, &scene);
    let threshold = (random.next() >> 56) as u8;
    compare_marks(bench, &scene, threshold);
    compare_summaries(bench, random, &scene, threshold);
    let last = setting_of(&scene.record).map_or(0, |s| s.v - 1);
    for _ in 0..20 {
        let y = random.between(0, last) as u16;
        compare_raster(bench, random, &scene, y);
        compare_raster_words(bench, random, &scene, y);
    }
    let entries = displayed(&scene.record);
    let mut kept = Kept::any(random, scene, ENTRY * entries);
    for _ in 0..4 {
        let replacement = replacement(random, &kept.scene.video);
        compare_replace(bench, random, &mut kept, replacement);
    }
}
