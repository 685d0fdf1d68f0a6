//! Frames, rasters, the words of a raster, marks; colour, grey and the pin.

use crate::bench::Bench;
use crate::judged::Judged;
use crate::lent::{lent_length, Lent};
use crate::make_record::{ground, setting_of, small_or_wide};
use crate::make_scene::{scene, Scene};
use crate::ours;
use crate::random::Random;
use crate::show;
use second::cell::code;
use second::setting::Setting;
use second::{colour, frame, grey, marks, pin, raster, raster_words};

pub fn frame_round(bench: &mut Bench, random: &mut Random) {
    let size = small_or_wide(random);
    let scene = scene(random, size);
    compare_frame(bench, random, &scene);
}

pub fn compare_frame(bench: &mut Bench, random: &mut Random, scene: &Scene) {
    let Scene { record, video, cursor } = scene;
    let needed = setting_of(record).map_or(500, |s| (s.n * s.v) as usize);
    let length = lent_length(random, needed);
    let expected = frame::frame(record, video, cursor, length);
    let mut lent: Lent<u16> = Lent::new(random, length);
    let told = ours::accepted(record).and_then(|accepted| accepted.frame(video, cursor, lent.lend()));
    let mut judged = Judged::answer(&expected, told);
    judged.memory("cells", &lent, expected.as_deref().unwrap_or_default());
    if let (Some(s), Ok(cells)) = (setting_of(record), &expected) {
        see_setting(bench, &s);
        see_cells(bench, &s, cells);
    }
    bench.count("frame", judged, || format!("{}\nbuffer of {length} cells", scene.show()));
}

fn see_setting(bench: &mut Bench, s: &Setting) {
    bench.see("frame at depth 1", s.depth == 1);
    bench.see("frame at depth 2", s.depth == 2);
    bench.see("frame at depth 4", s.depth == 4);
    bench.see("frame at depth 8", s.depth == 8);
    bench.see("frame with the display off, border on", !s.display_on && s.border_on);
    bench.see("frame with the border off", !s.border_on);
    bench.see("frame with the border off, cursor on", !s.border_on && s.cursor_on);
    bench.see("frame with V = 1", s.v == 1);
    bench.see("frame with V = 1024", s.v == 1024);
    bench.see("frame with N = 2048", s.n == 2048);
    let border = s.border_on && s.cursor_on;
    let in_rasters = border && s.vcs < s.vbe && s.vbs < s.vce;
    let in_pixels = border && s.cx < s.be && s.bs < s.cx + 32;
    bench.see("cursor cut at the left of the border", in_rasters && in_pixels && s.cx < s.bs);
    bench.see("cursor cut at the right of the border", in_rasters && in_pixels && s.be < s.cx + 32);
    bench.see("cursor cut at the top of the border", in_rasters && in_pixels && s.vcs < s.vbs);
    bench.see("cursor cut at the foot of the border", in_rasters && in_pixels && s.vbe < s.vce);
    bench.see("cursor wholly past the line's end", s.cursor_on && s.cx >= s.n);
}

fn see_cells(bench: &mut Bench, s: &Setting, cells: &[u16]) {
    let has = |wanted: u16| cells.iter().any(|cell| code(*cell) == wanted);
    bench.see("frame with a code 0", has(0));
    bench.see("frame with a code 4", has(4));
    bench.see("frame with a code 5", has(5));
    bench.see("frame with a code 6", has(6));
    bench.see("frame with a code 6 at depth 8", s.depth == 8 && has(6));
    bench.see("frame with a code 6, display off", !s.display_on && has(6));
}

pub fn raster_round(bench: &mut Bench, random: &mut Random) {
    let size = small_or_wide(random);
    let scene = scene(random, size);
    let rasters = setting_of(&scene.record).map_or(3, |s| s.v) as u16;
    for y in 0..rasters {
        compare_raster(bench, random, &scene, y);
        compare_raster_words(bench, random, &scene, y);
    }
    for y in [rasters, random.pick(&[rasters + 1, 1023, 1024, 32768, 65535])] {
        compare_raster(bench, random, &scene, y);
        compare_raster_words(bench, random, &scene, y);
    }
}

pub fn compare_raster(bench: &mut Bench, random: &mut Random, scene: &Scene, y: u16) {
    let Scene { record, video, cursor } = scene;
    let needed = setting_of(record).map_or(50, |s| s.n as usize);
    let length = lent_length(random, needed);
    let expected = raster::raster(record, video, cursor, y, length);
    let mut lent: Lent<u16> = Lent::new(random, length);
    let told = ours::accepted(record).and_then(|accepted| accepted.raster(video, cursor, y, lent.lend()));
    let mut judged = Judged::answer(&expected, told);
    judged.memory("cells", &lent, expected.as_deref().unwrap_or_default());
    bench.count("raster", judged, || format!("{}\nraster {y}\nbuffer of {length} cells", scene.show()));
}

/// An undisplayed raster has an empty stretch: 0 long, from 0.
pub fn compare_raster_words(bench: &mut Bench, random: &mut Random, scene: &Scene, y: u16) {
    let Scene { record, video, .. } = scene;
    let expected = raster_words::raster_words(record, video, y);
    let mut lent: Lent<u64> = Lent::new(random, 2);
    let accepted = ours::accepted(record);
    let told = accepted.as_ref().map_err(|refusal| *refusal);
    let mut judged =
        Judged::answer(&expected, told.and_then(|given| given.raster_words_into(video, y, lent.lend())));
    let place = |words: &[u32]| words.as_ptr_range();
    judged.returned(
        expected.clone().map(|range| place(&video[range])),
        told.and_then(|given| given.raster_words(video, y)).map(place),
    );
    let stretch: Vec<u64> =
        expected.iter().flat_map(|range| [range.start, range.len()]).map(|n| n as u64).collect();
    judged.memory("start and length", &lent, &stretch);
    bench.see("raster without words", stretch == [0, 0]);
    bench.see("raster with words", stretch.iter().any(|n| *n > 0));
    bench.count("raster_words", judged, || format!("{}\nraster {y}", scene.show()));
}

pub fn marks_round(bench: &mut Bench, random: &mut Random) {
    let size = small_or_wide(random);
    let scene = scene(random, size);
    for threshold in [0, 1, 127, 128, 254, 255] {
        compare_marks(bench, &scene, threshold);
    }
    let level = scene.level(random);
    compare_marks(bench, &scene, level);
    compare_marks(bench, &scene, level.saturating_add(1));
}

pub fn compare_marks(bench: &mut Bench, scene: &Scene, threshold: u8) {
    let Scene { record, video, cursor } = scene;
    let expected = marks::marks(record, video, cursor, threshold);
    let told = ours::accepted(record).and_then(|accepted| accepted.marks(video, cursor, threshold));
    let judged = Judged::returning(expected, told);
    bench.see("marks counted, not none", expected.map_or(false, |count| count > 0));
    bench.count("marks", judged, || format!("{}\nthreshold {threshold}", scene.show()));
}

/// Every logical pixel of every depth, for one record.
pub fn colour_round(bench: &mut Bench, random: &mut Random) {
    let record = ground(random);
    let given = ours::record(&record);
    for depth in [1u8, 2, 4, 8] {
        for pixel in 0..=((1u32 << depth) - 1) as u8 {
            let mut judged = Judged::default();
            let expected = colour::display(&record, depth.into(), pixel.into());
            judged.same("colour", &ours::apart(expected), &given.colour(depth, pixel));
            bench.count("colour", judged, || {
                format!("record {}\ndepth {depth}\npixel {pixel}", show::record(&record))
            });
        }
    }
}

/// All 65,536 words of 16 bits, the 8,192 colours among them.
pub fn every_grey(bench: &mut Bench, _: &mut Random) {
    for colour in 0..=u16::MAX {
        let mut judged = Judged::default();
        judged.same("grey", &grey::grey(colour), &vombelishi::grey(colour));
        bench.count("grey", judged, || format!("colour {colour:04x}"));
    }
}

/// Every code, with each control bit alone, each alone missing, and some at random.
pub fn every_pin(bench: &mut Bench, random: &mut Random) {
    let mut controls = vec![0, u32::MAX];
    controls.extend((0..32).map(|bit| 1 << bit));
    controls.extend((0..32).map(|bit| !(1 << bit)));
    controls.extend(random.words(30));
    for control in controls {
        for code in 0..=u8::MAX {
            let mut judged = Judged::default();
            judged.same("level", &pin::pin(code, control), &vombelishi::pin(code, control));
            bench.count("pin", judged, || format!("code {code}\ncontrol {control:08x}"));
        }
    }
}
