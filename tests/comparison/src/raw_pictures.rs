//! The C calls themselves, of a record with video and cursor words: frame, raster, raster_words, marks.

use crate::bench::Bench;
use crate::handed::{judge, Given, Slice};
use crate::make_record::{setting_of, small_or_wide};
use crate::make_scene::{scene, Scene};
use crate::random::Random;
use second::refusal::{refuse_if, SHORT};
use second::setting::Setting;
use second::{frame, marks, raster, raster_words};
use vombelishi::calls::*;

pub fn raw_picture_round(bench: &mut Bench, random: &mut Random) {
    let size = small_or_wide(random);
    let scene = scene(random, size);
    let rasters = setting_of(&scene.record).map_or(3, |s| s.v);
    let y = if random.one_in(8) { rasters + random.gap() } else { random.between(0, rasters - 1) };
    raw_frame(bench, random, &scene);
    raw_raster(bench, random, &scene, y as u16);
    raw_raster_words(bench, random, &scene, y as u16);
    raw_marks(bench, random, &scene);
}

/// A scene as it is handed over, and the setting that its record gives.
pub struct Handover {
    pub given: Given,
    pub video: Slice<u32>,
    pub cursor: Slice<u32>,
    setting: Option<Setting>,
}

impl Handover {
    pub fn new(random: &mut Random, scene: &Scene) -> Handover {
        let setting = setting_of(&scene.record);
        let video_words = setting.as_ref().map(|s| s.video_words() as usize);
        let cursor_words = setting.as_ref().map(|s| s.cursor_words() as usize);
        Handover {
            given: Given::new(random, &scene.record),
            video: Slice::list(random, "video", &scene.video, video_words),
            cursor: Slice::list(random, "cursor", &scene.cursor, cursor_words),
            setting,
        }
    }
}

#[rustfmt::skip] // a pointer and its length on one line
fn raw_frame(bench: &mut Bench, random: &mut Random, scene: &Scene) {
    let Handover { mut given, mut video, mut cursor, setting } = Handover::new(random, scene);
    let needed = setting.map_or(100, |s| s.n as usize * s.v as usize);
    let mut cells = Slice::answer(random, "cells", needed);
    let expected = given.record().and_then(|r| frame::frame(&r, video.given(), cursor.given(), cells.len()));
    if let Ok(right) = &expected {
        cells.should_hold(right);
    }
    let told = unsafe {
        vom_frame(
            given.values.pointer(), given.values.len(),
            given.written.pointer(), given.written.len(),
            video.pointer(), video.len(),
            cursor.pointer(), cursor.len(),
            cells.pointer(), cells.len(),
        )
    };
    judge(bench, "vom_frame", &expected, told, &[&given, &video, &cursor, &cells], "");
}

#[rustfmt::skip] // a pointer and its length on one line
fn raw_raster(bench: &mut Bench, random: &mut Random, scene: &Scene, y: u16) {
    let Handover { mut given, mut video, mut cursor, setting } = Handover::new(random, scene);
    let mut cells = Slice::answer(random, "cells", setting.map_or(100, |s| s.n as usize));
    let expected = given.record().and_then(|r| raster::raster(&r, video.given(), cursor.given(), y, cells.len()));
    if let Ok(right) = &expected {
        cells.should_hold(right);
    }
    let told = unsafe {
        vom_raster(
            given.values.pointer(), given.values.len(),
            given.written.pointer(), given.written.len(),
            video.pointer(), video.len(),
            cursor.pointer(), cursor.len(),
            y,
            cells.pointer(), cells.len(),
        )
    };
    judge(bench, "vom_raster", &expected, told, &[&given, &video, &cursor, &cells], &format!("raster {y}"));
}

#[rustfmt::skip] // a pointer and its length on one line
fn raw_raster_words(bench: &mut Bench, random: &mut Random, scene: &Scene, y: u16) {
    let Handover { mut given, mut video, .. } = Handover::new(random, scene);
    let mut place = Slice::answer(random, "place", 2);
    let room = refuse_if(place.len() < 2, SHORT);
    let expected = given.record().and_then(|r| raster_words::raster_words(&r, video.given(), y));
    let expected = expected.and_then(|range| room.map(|()| [range.start as u64, range.len() as u64]));
    if let Ok(right) = &expected {
        place.should_hold(right);
    }
    let told = unsafe {
        vom_raster_words(
            given.values.pointer(), given.values.len(),
            given.written.pointer(), given.written.len(),
            video.pointer(), video.len(),
            y,
            place.pointer(), place.len(),
        )
    };
    judge(bench, "vom_raster_words", &expected, told, &[&given, &video, &place], &format!("raster {y}"));
}

#[rustfmt::skip] // a pointer and its length on one line
fn raw_marks(bench: &mut Bench, random: &mut Random, scene: &Scene) {
    let Handover { mut given, mut video, mut cursor, .. } = Handover::new(random, scene);
    let threshold = random.pick(&[0, 1, 100, 128, 255]);
    let before = random.next();
    let mut count = Slice::one(random, "count", before);
    let expected = given.record().and_then(|r| marks::marks(&r, video.given(), cursor.given(), threshold));
    if let Ok(right) = expected {
        count.should_hold(&[right]);
    }
    let told = unsafe {
        vom_marks(
            given.values.pointer(), given.values.len(),
            given.written.pointer(), given.written.len(),
            video.pointer(), video.len(),
            cursor.pointer(), cursor.len(),
            threshold,
            count.pointer(),
        )
    };
    let others = format!("threshold {threshold}");
    judge(bench, "vom_marks", &expected, told, &[&given, &video, &cursor, &count], &others);
}
