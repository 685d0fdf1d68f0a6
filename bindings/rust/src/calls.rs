//! The C calls themselves. include/vombelishi.h says what each takes, refuses and writes.
//!
//! Why the other modules hand over slices and queues safely: a call reads and writes within the given lengths only, or
//! within the one queue; it keeps no pointer; and what it writes overlaps nothing else, since Rust lends it mutably.

#![allow(missing_docs)]

/// One of the chip's queues: words go in singly and leave as bytes, low byte first.
///
/// Any numbers may stand here. Every call on a queue first replaces one that is not fit by a fresh one of its kind, also
/// where it then refuses; beyond that a refused call leaves it as it was. It is fit where `place` is below its depth,
/// `held` and `coming` are at most its depth, `taken` is at most 3, and 0 where `held` is 0, and `count` is not below
/// `held`.
///
/// ```
/// use vombelishi::{Queue, Refusal};
///
/// let mut queue = Queue::fresh(Queue::VIDEO);
/// assert!(queue.ask(8).asks);
/// for word in [0x0403_0201, 0x0807_0605, 0, 0, 0, 0, 0, 0] {
///     queue.load(word).answer?;
/// }
/// let full = queue.load(0);
/// assert_eq!((full.count, full.answer), (8, Err(Refusal { number: 16, detail: 0 })));
/// let bytes = [(); 5].map(|()| queue.read(0x00).answer);
/// assert_eq!(bytes, [Ok(1), Ok(2), Ok(3), Ok(4), Ok(5)]);
/// assert_eq!((queue.held, queue.coming), (7, 4)); // reading passed the end of word 0, as control bits 5-4 say
/// # Ok::<(), Refusal>(())
/// ```
#[repr(C)]
#[derive(Clone, Debug, PartialEq, Eq)]
pub struct Queue {
    /// The words held, around in a ring; where the depth is 4, in the first four.
    pub words: [u32; 8],
    /// [`Queue::VIDEO`], eight words deep, [`Queue::CURSOR`], four, or any other number: sound, four.
    pub kind: u16,
    /// Bytes already read of the word that is being read.
    pub taken: u16,
    /// Where in `words` that word stands.
    pub place: u32,
    /// Words held, that one among them until its last byte is read.
    pub held: u32,
    /// Words asked for and still to come.
    pub coming: u32,
    /// Words loaded since the last emptying.
    pub count: u64,
}

/// What a call on a queue answers; `number` is the refusal's, or 0.
#[repr(C)]
#[derive(Clone, Copy, Debug, PartialEq, Eq)]
pub struct Reply {
    pub count: u64,
    pub number: u32,
    pub byte: u16,
    pub asks: u16,
}

#[rustfmt::skip] // a pointer and its length on one line
extern "C" {
    pub fn vom_load_and_check(
        values: *mut u32, values_len: usize,
        written: *mut u8, written_len: usize,
        words: *const u32, words_len: usize,
        setting: *mut u32, setting_len: usize,
    ) -> u64;
    pub fn vom_load_and_check_sound(
        values: *mut u32, values_len: usize,
        written: *mut u8, written_len: usize,
        words: *const u32, words_len: usize,
    ) -> u64;
    pub fn vom_load_word(values: *mut u32, values_len: usize, written: *mut u8, written_len: usize, word: u32) -> u64;
    pub fn vom_check_sound(values: *const u32, values_len: usize, written: *const u8, written_len: usize) -> u64;
    pub fn vom_frame(
        values: *const u32, values_len: usize,
        written: *const u8, written_len: usize,
        video: *const u32, video_len: usize,
        cursor: *const u32, cursor_len: usize,
        cells: *mut u16, cells_len: usize,
    ) -> u64;
    pub fn vom_raster(
        values: *const u32, values_len: usize,
        written: *const u8, written_len: usize,
        video: *const u32, video_len: usize,
        cursor: *const u32, cursor_len: usize,
        y: u16,
        cells: *mut u16, cells_len: usize,
    ) -> u64;
    pub fn vom_raster_words(
        values: *const u32, values_len: usize,
        written: *const u8, written_len: usize,
        video: *const u32, video_len: usize,
        y: u16,
        place: *mut u64, place_len: usize,
    ) -> u64;
    pub fn vom_marks(
        values: *const u32, values_len: usize,
        written: *const u8, written_len: usize,
        video: *const u32, video_len: usize,
        cursor: *const u32, cursor_len: usize,
        threshold: u8,
        count: *mut u64,
    ) -> u64;
    pub fn vom_summaries(
        values: *const u32, values_len: usize,
        written: *const u8, written_len: usize,
        video: *const u32, video_len: usize,
        cursor: *const u32, cursor_len: usize,
        threshold: u8,
        entries: *mut u16, entries_len: usize,
    ) -> u64;
    pub fn vom_replace(
        values: *const u32, values_len: usize,
        written: *const u8, written_len: usize,
        video: *mut u32, video_len: usize,
        cursor: *const u32, cursor_len: usize,
        threshold: u8,
        index: usize,
        word: u32,
        entries: *mut u16, entries_len: usize,
    ) -> u64;
    pub fn vom_mix(
        values: *const u32, values_len: usize,
        written: *const u8, written_len: usize,
        cells: *const u16, cells_len: usize,
        camera: *const u16, camera_len: usize,
        mixed: *mut u16, mixed_len: usize,
    ) -> u64;
    pub fn vom_colour(
        values: *const u32, values_len: usize,
        written: *const u8, written_len: usize,
        depth: u8,
        pixel: u8,
        colour: *mut u16,
        supremacy: *mut u8,
    ) -> u64;
    pub fn vom_grey(colour: u16) -> u8;
    pub fn vom_pin(code: u8, control: u32) -> u8;
    pub fn vom_sound(
        values: *const u32, values_len: usize,
        written: *const u8, written_len: usize,
        words: *const u32, words_len: usize,
        counter: *mut u32,
        out: *mut i16, out_len: usize,
    ) -> u64;
    pub fn vom_sound_pair(byte: u8, stereo: u8, pair: *mut i16, pair_len: usize) -> u64;
    pub fn vom_read(file: *const u8, file_len: usize, places: *mut u64, places_len: usize) -> u64;
    pub fn vom_copy(file: *const u8, file_len: usize, words: *mut u32, words_len: usize) -> u64;
    pub fn vom_write(
        registers: *const u32, registers_len: usize,
        video: *const u32, video_len: usize,
        cursor: *const u32, cursor_len: usize,
        sound: *const u32, sound_len: usize,
        out: *mut u8, out_len: usize,
        size: *mut u64,
    ) -> u64;
    pub fn vom_text(file: *const u8, file_len: usize, text: *mut u8, text_len: usize, size: *mut u64) -> u64;
    pub fn vom_queue_fresh(kind: u16) -> Queue;
    pub fn vom_queue_load(queue: *mut Queue, word: u32) -> Reply;
    pub fn vom_queue_read(queue: *mut Queue, control: u32) -> Reply;
    pub fn vom_queue_vertical_sync(queue: *mut Queue, raster: u32) -> Reply;
    pub fn vom_queue_ask(queue: *mut Queue, words: u32) -> Reply;
    pub fn vom_sync_ask(
        values: *const u32, values_len: usize,
        written: *const u8, written_len: usize,
        kind: u16,
        raster: u32,
        words: *mut u32,
    ) -> u64;
}
