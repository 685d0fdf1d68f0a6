//! The C calls themselves, of marks per raster: summaries and replace.

use crate::bench::Bench;
use crate::handed::{answer_length, judge, Slice};
use crate::make_kept::{covered, displayed, replacement, threshold, Kept, Replacement};
use crate::make_scene::{scene, Scene};
use crate::random::Random;
use crate::raw_pictures::Handover;
use crate::summaries::series;
use second::summaries::{summaries, ENTRY};
use vombelishi::calls::*;

pub fn raw_summaries_round(bench: &mut Bench, random: &mut Random) {
    let scene = covered(random, scene);
    raw_summaries(bench, random, &scene);
    let length = answer_length(random, ENTRY * displayed(&scene.record));
    let mut kept = Kept::any(random, scene, length);
    let replacement = replacement(random, &kept.scene.video);
    raw_replace(bench, random, &mut kept, replacement);
}

pub fn raw_kept_round(bench: &mut Bench, random: &mut Random) {
    series(bench, random, raw_replace);
}

#[rustfmt::skip] // a pointer and its length on one line
fn raw_summaries(bench: &mut Bench, random: &mut Random, scene: &Scene) {
    let Handover { mut given, mut video, mut cursor, .. } = Handover::new(random, scene);
    let threshold = threshold(random, scene);
    let mut entries = Slice::answer(random, "entries", ENTRY * displayed(&scene.record));
    let mut right = entries.given().to_vec();
    let expected = given.record().and_then(|r| summaries(&r, video.given(), cursor.given(), threshold, &mut right));
    entries.should_hold(&right);
    let told = unsafe {
        vom_summaries(
            given.values.pointer(), given.values.len(),
            given.written.pointer(), given.written.len(),
            video.pointer(), video.len(),
            cursor.pointer(), cursor.len(),
            threshold,
            entries.pointer(), entries.len(),
        )
    };
    let others = format!("threshold {threshold}");
    judge(bench, "vom_summaries", &expected, told, &[&given, &video, &cursor, &entries], &others);
}

/// One replacement, which leaves what the second program leaves.
#[rustfmt::skip] // a pointer and its length on one line
fn raw_replace(bench: &mut Bench, random: &mut Random, kept: &mut Kept, replacement: Replacement) {
    let Handover { mut given, mut video, mut cursor, .. } = Handover::new(random, &kept.scene);
    let needed = ENTRY * displayed(&kept.scene.record);
    let mut entries = Slice::list(random, "entries", &kept.numbers, Some(needed));
    let expected = given.record().and_then(|r| kept.replace(&r, replacement));
    video.should_hold(&kept.scene.video);
    entries.should_hold(&kept.numbers);
    let told = unsafe {
        vom_replace(
            given.values.pointer(), given.values.len(),
            given.written.pointer(), given.written.len(),
            video.pointer(), video.len(),
            cursor.pointer(), cursor.len(),
            kept.threshold,
            replacement.index,
            replacement.word,
            entries.pointer(), entries.len(),
        )
    };
    let others = format!("threshold {}\n{replacement:x?}", kept.threshold);
    judge(bench, "vom_replace", &expected, told, &[&given, &video, &cursor, &entries], &others);
}
