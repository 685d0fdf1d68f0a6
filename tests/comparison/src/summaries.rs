//! Marks per raster: entries made of a list, a word of it replaced, and tables kept over many replacements.

use crate::bench::Bench;
use crate::judged::Judged;
use crate::lent::{lent_length, Lent};
use crate::make_kept::{covered, displayed, fresh, replacement, threshold, Kept, Replacement};
use crate::make_record::setting_of;
use crate::make_scene::{scene, Scene};
use crate::ours;
use crate::random::Random;
use second::refusal::{Refusal, WORD_COUNT, WORD_INDEX};
use second::setting::Setting;
use second::summaries::{summaries, ENTRY};
use vombelishi::Entry;

pub fn summaries_round(bench: &mut Bench, random: &mut Random) {
    let scene = covered(random, scene);
    for _ in 0..2 {
        let threshold = threshold(random, &scene);
        compare_summaries(bench, random, &scene, threshold);
    }
}

pub fn compare_summaries(bench: &mut Bench, random: &mut Random, scene: &Scene, threshold: u8) {
    let Scene { record, video, cursor } = scene;
    let length = lent_length(random, displayed(record));
    let mut lent: Lent<Entry> = Lent::new(random, length);
    let mut numbers = ours::numbers(lent.given());
    let expected = summaries(record, video, cursor, threshold, &mut numbers);
    let accepted = ours::accepted(record);
    let told = accepted.as_ref().map_err(|refusal| *refusal);
    let into = told.and_then(|given| given.summaries_into(video, cursor, threshold, lent.lend()));
    let mut judged = Judged::answer(&expected, into);
    judged.memory("entries", &lent, &ours::entries(&numbers));
    let made = fresh(scene, threshold).map(|numbers| ours::entries(&numbers));
    if let (Some(s), Ok(entries)) = (setting_of(record), &made) {
        see_entries(bench, &s, threshold, entries);
    }
    judged.returned(made, told.and_then(|given| given.summaries(video, cursor, threshold)));
    bench.count("summaries", judged, || {
        format!("{}\nthreshold {threshold}\nroom for {length} entries", scene.show())
    });
}

fn see_entries(bench: &mut Bench, s: &Setting, threshold: u8, entries: &[Entry]) {
    let any = |rule: &dyn Fn(&Entry) -> bool| entries.iter().any(rule);
    let (width, t) = ((s.de - s.ds) as u16, u16::from(threshold));
    bench.see("entries at depth 1", s.depth == 1 && s.display_on);
    bench.see("entries at depth 2", s.depth == 2 && s.display_on);
    bench.see("entries at depth 4", s.depth == 4 && s.display_on);
    bench.see("entries at depth 8", s.depth == 8 && s.display_on);
    bench.see("no entry, the display off", !s.display_on);
    bench.see("entry of a raster wholly covered", any(&|e| *e == Entry::EMPTY));
    bench.see("entry of a raster partly covered", t == 0 && any(&|e| 0 < e.marks && e.marks < width));
    bench.see("entry of a raster not covered, all marks", any(&|e| e.marks == width));
    bench.see("entry with a threshold between its greys", any(&|e| e.least < t && t <= e.greatest));
    bench.see("entry with a threshold above its greys", any(&|e| e.least <= e.greatest && e.greatest < t));
    bench.see("entry with one grey", any(&|e| e.least == e.greatest));
    bench.see("entry with more than 255 marks", any(&|e| e.marks > 255));
}

/// Some replacements beside numbers that mean nothing.
pub fn replace_round(bench: &mut Bench, random: &mut Random) {
    let scene = covered(random, scene);
    let entries = lent_length(random, displayed(&scene.record));
    let mut kept = Kept::any(random, scene, ENTRY * entries);
    for _ in 0..3 {
        let replacement = replacement(random, &kept.scene.video);
        compare_replace(bench, random, &mut kept, replacement);
    }
}

/// One replacement, which leaves what the second program leaves.
pub fn compare_replace(bench: &mut Bench, random: &mut Random, kept: &mut Kept, replacement: Replacement) {
    let before = kept.clone();
    let Scene { record, cursor, .. } = &before.scene;
    let mut video = Lent::holding(random, &before.scene.video);
    let mut entries = Lent::holding(random, &ours::entries(&before.numbers));
    let expected = kept.replace(record, replacement);
    let Replacement { index, word } = replacement;
    let told = ours::accepted(record).and_then(|accepted| {
        accepted.replace(video.lend(), cursor, before.threshold, index, word, entries.lend())
    });
    let mut judged = Judged::answer(&expected, told);
    judged.memory("video", &video, &kept.scene.video);
    judged.memory("entries", &entries, &ours::entries(&kept.numbers));
    match expected {
        Ok(()) => see_replaced(bench, &before, kept, index),
        Err(refusal) => see_refused(bench, &before, index, refusal),
    }
    bench.count("replace", judged, || format!("{}\n{replacement:x?}", before.show()));
}

fn see_replaced(bench: &mut Bench, before: &Kept, after: &Kept, index: usize) {
    let (was, is) = (&before.scene.video, &after.scene.video);
    let entry_changes = before.numbers != after.numbers;
    bench.see("replacement that changes its entry", entry_changes);
    bench.see("replacement of a word whose entry stays", was != is && !entry_changes);
    bench.see("replacement by the same word", was == is);
    bench.see("replacement of the first word of many", index == 0 && is.len() > 1);
    bench.see("replacement of the last word of many", index > 0 && index + 1 == is.len());
}

fn see_refused(bench: &mut Bench, before: &Kept, index: usize, refusal: Refusal) {
    let (length, outside) = (before.scene.video.len(), refusal.number == WORD_INDEX);
    let short = before.numbers.len() < ENTRY * displayed(&before.scene.record);
    let cut = index as u32 as usize;
    bench.see("replacement just past the list", outside && index == length && length > 0);
    bench.see("replacement of a word of none", outside && length == 0);
    bench.see("replacement in the list by 32 bits of its index", outside && cut < length);
    bench.see("replacement outside the list, too few entries", outside && short);
    let wrong_length = refusal.number == WORD_COUNT;
    bench.see("replacement outside a list of the wrong length", wrong_length && index >= length);
}

pub fn kept_round(bench: &mut Bench, random: &mut Random) {
    series(bench, random, compare_replace);
}

/// How one replacement is compared.
type Compare = fn(&mut Bench, &mut Random, &mut Kept, Replacement);

/// A table from fresh on over some dozen replacements, each of which is compared and leaves list and table to the next;
/// in the end it is a fresh one.
pub fn series(bench: &mut Bench, random: &mut Random, compare: Compare) {
    let mut kept = Kept::right(random);
    compare_fresh(bench, &kept);
    for _ in 0..random.between(10, 40) {
        let replacement = replacement(random, &kept.scene.video);
        compare(bench, random, &mut kept, replacement);
    }
    compare_fresh(bench, &kept);
}

/// What is kept is what the library makes of the list as it stands.
fn compare_fresh(bench: &mut Bench, kept: &Kept) {
    let Scene { record, video, cursor } = &kept.scene;
    let told = ours::accepted(record).and_then(|accepted| accepted.summaries(video, cursor, kept.threshold));
    let judged = Judged::returning(Ok(ours::entries(&kept.numbers)), told);
    bench.count("summaries", judged, || kept.show());
}
