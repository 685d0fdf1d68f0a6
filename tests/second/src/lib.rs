//! A second program for plates, written from the paper alone, one idea to a file.
//! It is plain and slow on purpose: each function is one of the paper's sentences.

pub mod address;
pub mod bench;
pub mod camera;
pub mod cell;
pub mod colour;
pub mod drawn;
pub mod frame;
pub mod grey;
pub mod live;
pub mod load;
pub mod marks;
pub mod mixing;
pub mod needed;
pub mod overlay;
pub mod parts;
pub mod pin;
pub mod plate;
pub mod ppm;
pub mod queue;
pub mod queue_calls;
pub mod queue_sync;
pub mod raster;
pub mod raster_words;
pub mod rasters;
pub mod record;
pub mod refusal;
pub mod setting;
pub mod sound;
pub mod sound_judge;
pub mod summaries;
pub mod text;

#[cfg(test)]
mod accept_sound_tests;
#[cfg(test)]
mod accept_tests;
#[cfg(test)]
mod camera_tests;
#[cfg(test)]
mod colour_tests;
#[cfg(test)]
mod grey_tests;
#[cfg(test)]
mod history_tests;
#[cfg(test)]
mod live_tests;
#[cfg(test)]
mod mixing_tests;
#[cfg(test)]
mod overlay_tests;
#[cfg(test)]
mod paper_tests;
#[cfg(test)]
mod parts_tests;
#[cfg(test)]
mod queue_tests;
#[cfg(test)]
mod rasters_tests;
#[cfg(test)]
mod summaries_tests;
#[cfg(test)]
mod sync_tests;
