//! A raster's cells over a camera's colours, by the wrapper and by the C call itself.

use crate::bench::Bench;
use crate::handed::{judge, Given, Slice};
use crate::judged::Judged;
use crate::lent::{lent_length, Lent};
use crate::make_overlay::{overlay, Overlay};
use crate::make_record::{setting_of, small_or_wide};
use crate::make_scene::right_scene;
use crate::ours;
use crate::random::Random;
use second::cell::{code, shown};
use second::refusal::Refusal;
use second::{mixing, raster};
use vombelishi::calls::vom_mix;

pub fn mix_round(bench: &mut Bench, random: &mut Random) {
    let (any, painted) = (overlay(random), painted(random));
    compare_mix(bench, random, &any);
    compare_mix(bench, random, &painted);
}

/// A raster that is painted, over a right camera.
fn painted(random: &mut Random) -> Overlay {
    let size = small_or_wide(random);
    let scene = right_scene(random, size);
    let s = setting_of(&scene.record).expect("a right scene is accepted");
    let (y, needed) = (random.between(0, s.v - 1) as u16, s.n as usize);
    let cells = raster::raster(&scene.record, &scene.video, &scene.cursor, y, needed).expect("and painted");
    let camera = random.words(needed).into_iter().map(|word| word as u16 & 0xFFF).collect();
    Overlay { record: scene.record, cells, camera, needed }
}

fn compare_mix(bench: &mut Bench, random: &mut Random, overlay: &Overlay) {
    let Overlay { record, cells, camera, needed } = overlay;
    let length = lent_length(random, *needed);
    let expected = mixing::mix(record, cells, camera, length);
    let mut lent: Lent<u16> = Lent::new(random, length);
    let told = ours::accepted(record).and_then(|accepted| accepted.mix(cells, camera, lent.lend()));
    let mut judged = Judged::answer(&expected, told);
    judged.memory("mixed", &lent, expected.as_deref().unwrap_or_default());
    match &expected {
        Ok(mixed) => see_mixed(bench, overlay, mixed),
        Err(refusal) => see_refused(bench, overlay, *refusal),
    }
    bench.count("mix", judged, || format!("{}\nanswer of {length}", overlay.show()));
}

#[rustfmt::skip] // one sight to a line
fn see_mixed(bench: &mut Bench, overlay: &Overlay, mixed: &[u16]) {
    let Overlay { cells, camera, needed, .. } = overlay;
    let place = |wanted: &dyn Fn(u16, bool) -> bool, camera_shown: bool| {
        (0..*needed).any(|x| {
            let own = shown(cells[x]);
            wanted(code(cells[x]), own.supremacy) && own.colour != camera[x] && (mixed[x] == camera[x]) == camera_shown
        })
    };
    bench.see("a border cell that shows the camera", place(&|code, supremacy| code == 4 && supremacy, true));
    bench.see("a display cell that shows the camera", place(&|code, supremacy| code == 5 && supremacy, true));
    bench.see("a cursor cell that shows the camera", place(&|code, supremacy| code == 6 && supremacy, true));
    bench.see("a display cell without supremacy over a camera", place(&|code, supremacy| code == 5 && !supremacy, false));
    bench.see("a cell of code 0 to 3 with supremacy", place(&|code, supremacy| code < 4 && supremacy, false));
    bench.see("a cell of code 7 with supremacy", place(&|code, supremacy| code == 7 && supremacy, false));
    bench.see("4095 as the last camera number", camera[needed - 1] == 4095);
    bench.see("a camera number above 4095 beyond N", camera[*needed..].iter().any(|number| *number > 4095));
}

fn see_refused(bench: &mut Bench, overlay: &Overlay, refusal: Refusal) {
    let Overlay { cells, camera, needed, .. } = overlay;
    let above = |number: &u16| *number > 4095;
    let first = camera.iter().position(above);
    let last = camera.iter().take(*needed).rposition(above);
    bench.see(
        "4096 refused as the first camera number",
        refusal.number == 20 && refusal.detail == 0 && camera[0] == 4096,
    );
    bench.see("20 for the last of N alone", refusal.number == 20 && first == Some(needed - 1));
    bench.see("20 for the first of several", refusal.number == 20 && first != last);
    bench.see("13 with a camera number above 4095", refusal.number == 13 && last.is_some());
    bench.see(
        "13 for the cells alone",
        refusal.number == 13 && cells.len() < *needed && camera.len() >= *needed,
    );
}

#[rustfmt::skip] // a pointer and its length on one line
pub fn raw_mix_round(bench: &mut Bench, random: &mut Random) {
    let Overlay { record, cells, camera, needed } = overlay(random);
    let mut given = Given::new(random, &record);
    let mut cells = Slice::list(random, "cells", &cells, Some(needed));
    let mut camera = Slice::list(random, "camera", &camera, Some(needed));
    let mut mixed = Slice::answer(random, "mixed", needed);
    let expected = given.record().and_then(|r| mixing::mix(&r, cells.given(), camera.given(), mixed.len()));
    if let Ok(right) = &expected {
        mixed.should_hold(right);
    }
    let told = unsafe {
        vom_mix(
            given.values.pointer(), given.values.len(),
            given.written.pointer(), given.written.len(),
            cells.pointer(), cells.len(),
            camera.pointer(), camera.len(),
            mixed.pointer(), mixed.len(),
        )
    };
    judge(bench, "vom_mix", &expected, told, &[&given, &cells, &camera, &mixed], "");
}
