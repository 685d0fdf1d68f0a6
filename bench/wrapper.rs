//! Ours by the safe Rust wrapper, for the column beside the C call. The Rust baseline is built with it: one library for both.
mod frame;

use std::slice::{from_raw_parts, from_raw_parts_mut};
use vombelishi::{Accepted, Record};

/// The record as the wrapper accepts it, made before anything is timed and never freed.
#[no_mangle]
pub extern "C" fn wrapped_accepted(values: &[u32; 64], written: &[u8; 64]) -> Box<Accepted> {
    let record = Record { values: *values, written: *written };
    Box::new(record.load_and_check(&[]).expect("the setting was refused"))
}

/// # Safety
/// Each pointer is that of as many elements as the length behind it says.
#[no_mangle]
#[rustfmt::skip] // a pointer and its length on one line
pub unsafe extern "C" fn wrapped_frame(
    accepted: &Accepted,
    video: *const u32, video_len: usize,
    cursor: *const u32, cursor_len: usize,
    cells: *mut u16, cells_len: usize,
) {
    let (video, cursor) = (from_raw_parts(video, video_len), from_raw_parts(cursor, cursor_len));
    accepted.frame(video, cursor, from_raw_parts_mut(cells, cells_len)).expect("the frame was refused");
}
