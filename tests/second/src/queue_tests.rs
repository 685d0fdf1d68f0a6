//! The chip's queues: each call's sentences.

use crate::address::*;
use crate::paper_tests::{small, value, word};
use crate::queue::{Queue, CURSOR, VIDEO};
use crate::queue_calls::Reply;
use crate::queue_sync::{cursor_ask, video_ask};
use crate::record::Record;

const SOUND: u16 = 2;
const KINDS: [u16; 4] = [VIDEO, CURSOR, SOUND, 65_535];

fn loaded(kind: u16, words: &[u32]) -> Queue {
    let mut queue = Queue::fresh(kind);
    for word in words {
        assert_eq!(queue.load(*word).number, 0);
    }
    queue
}

fn read_bytes(queue: &mut Queue, control: u32, bytes: usize) -> Vec<u8> {
    (0..bytes).map(|_| queue.read(control)).inspect(|r| assert_eq!(r.number, 0)).map(|r| r.byte).collect()
}

/// A queue with one number changed, which makes it unfit.
fn unfit_ones(kind: u16) -> Vec<Queue> {
    let q = loaded(kind, &[1, 2]);
    let d = q.depth();
    let all = vec![
        Queue { place: d, ..q },
        Queue { place: u32::MAX, ..q },
        Queue { held: d + 1, count: 99, ..q },
        Queue { held: u32::MAX, count: u64::MAX, ..q },
        Queue { coming: d + 1, ..q },
        Queue { coming: u32::MAX, ..q },
        Queue { taken: 4, ..q },
        Queue { taken: u16::MAX, ..q },
        Queue { taken: 1, held: 0, ..q },
        Queue { count: 1, ..q },
    ];
    assert!(q.is_fit() && all.iter().all(|unfit| !unfit.is_fit()));
    all
}

#[test]
fn fresh_ones() {
    for kind in KINDS {
        let q = Queue::fresh(kind);
        let coming = if kind >= 2 { 4 } else { 0 };
        assert_eq!(q, Queue { words: [0; 8], kind, taken: 0, place: 0, held: 0, coming, count: 0 });
        assert!(q.is_fit());
        assert_eq!(q.asks(), kind >= 2);
    }
    assert_eq!(KINDS.map(|kind| Queue::fresh(kind).depth()), [8, 4, 4, 4]);
}

#[test]
fn ends_of_fitness() {
    for kind in KINDS {
        let d = Queue::fresh(kind).depth();
        let full = Queue { taken: 3, place: d - 1, held: d, coming: d, count: u64::from(d), ..Queue::fresh(kind) };
        assert!(full.is_fit());
        assert!(!Queue { count: full.count - 1, ..full }.is_fit());
    }
}

#[test]
fn low_byte_first_in_the_order_they_came() {
    for kind in KINDS {
        let mut q = loaded(kind, &[0x0403_0201, 0x0807_0605]);
        assert_eq!(read_bytes(&mut q, 0, 8), [1, 2, 3, 4, 5, 6, 7, 8]);
    }
}

#[test]
fn a_word_holds_its_room_until_its_last_byte() {
    for kind in KINDS {
        let depth = Queue::fresh(kind).depth();
        let mut q = loaded(kind, &(1..=depth).collect::<Vec<_>>());
        for _ in 0..4 {
            let before = q;
            assert_eq!(q.load(99), Reply { number: 16, byte: 0, count: u64::from(depth), asks: q.asks() });
            assert_eq!(q, before);
            q.read(0x10);
        }
        assert_eq!(q.load(99).number, 0);
        assert_eq!(q.words[0], 99);
        assert_eq!((q.place, q.held, q.count), (1, depth, u64::from(depth) + 1));
    }
}

#[test]
fn reading_an_empty_one() {
    for kind in KINDS {
        let mut q = Queue::fresh(kind);
        assert_eq!(q.read(u32::MAX), Reply { number: 17, byte: 0, count: 0, asks: kind >= 2 });
        assert_eq!(q, Queue::fresh(kind));
    }
}

#[test]
fn request_points_of_video() {
    for point in 0..4 {
        for other_bits in [0, 0xFFFF_FFCF] {
            let mut q = loaded(VIDEO, &[7; 8]);
            let control = point << 4 | other_bits;
            let coming: Vec<u32> = (0..32).map(|_| (q.read(control), q.coming).1).collect();
            let expected = |byte: u32| 4 * u32::from(byte >= 4 * point + 3) + 4 * u32::from(byte >= 4 * point + 19);
            assert_eq!(coming, (0..32).map(expected).collect::<Vec<_>>());
        }
    }
}

#[test]
fn eight_asked_stop_asking_at_the_fifth_load() {
    let mut q = Queue::fresh(VIDEO);
    assert!(q.ask(8).asks);
    let asks: Vec<bool> = (0..8).map(|i| q.load(i).asks).collect();
    assert_eq!(asks, [true, true, true, true, false, false, false, false]);
}

#[test]
fn cursor_reading_asks_nothing() {
    let mut q = loaded(CURSOR, &[1; 4]);
    for byte in 0..16 {
        assert!(!q.read(byte << 4).asks);
    }
    assert_eq!(q.coming, 0);
}

#[test]
fn sound_asks_at_its_last_byte() {
    let mut q = loaded(SOUND, &[1, 2]);
    assert_eq!(q.coming, 2);
    for byte in 0..8 {
        let reply = q.read(0);
        assert_eq!((reply.asks, q.coming), if byte == 7 { (true, 4) } else { (false, 2) });
    }
}

#[test]
fn asks_add_up_to_the_depth() {
    for kind in KINDS {
        for (first, second) in [(0, 0), (1, 2), (3, u32::MAX), (u32::MAX, u32::MAX)] {
            let mut q = Queue::fresh(kind);
            let start = u64::from(q.coming);
            q.ask(first);
            q.ask(second);
            let sum = start + u64::from(first) + u64::from(second);
            assert_eq!(u64::from(q.coming), sum.min(u64::from(q.depth())));
        }
    }
}

#[test]
fn vertical_sync_empties_on_raster_0_and_never_sound() {
    for kind in KINDS {
        let full = loaded(kind, &[9; 4]);
        for raster in [0, 1, 2, u32::MAX] {
            let mut q = full;
            let reply = q.vertical_sync(raster);
            let after = if raster == 0 && kind < 2 { Queue::fresh(kind) } else { full };
            assert_eq!(q, after);
            assert_eq!(reply, Reply { number: 0, byte: 0, count: after.count, asks: after.asks() });
        }
    }
}

#[test]
fn unfit_ones_are_replaced_even_on_refusal() {
    for kind in KINDS {
        for unfit in unfit_ones(kind) {
            let (mut a, mut b, mut c, mut d) = (unfit, unfit, unfit, unfit);
            assert_eq!(a.read(0).number, 17);
            assert_eq!(a, Queue::fresh(kind));
            assert_eq!(b.load(5), Reply { number: 0, byte: 0, count: 1, asks: false });
            assert_eq!(b, loaded(kind, &[5]));
            c.vertical_sync(7);
            assert_eq!(c, Queue::fresh(kind));
            d.ask(0);
            assert_eq!(d, Queue::fresh(kind));
        }
    }
}

#[test]
fn the_count_at_its_largest() {
    for kind in KINDS {
        let mut q = Queue { count: u64::MAX - 1, ..Queue::fresh(kind) };
        assert_eq!(q.load(0xABCD_EF01).count, u64::MAX);
        let before = q;
        assert_eq!(q.load(2), Reply { number: 16, byte: 0, count: u64::MAX, asks: false });
        assert_eq!(q, before);
        assert_eq!(q.read(0).byte, 1);
        assert_eq!(q.count, u64::MAX);
    }
}

#[test]
fn the_end_of_the_first_displayed_rasters_sync() {
    for (record, first) in [(small(), Some(3)), (small().with_word(value(VDER, 2)), None), (Record::fresh(), None)] {
        for raster in (0..2000).chain([u32::MAX]) {
            let asked = if Some(raster) == first { 8 } else { 0 };
            assert_eq!(video_ask(&record, raster), asked);
            for kind in KINDS {
                let mut q = Queue::fresh(kind);
                q.sync_ends(&record, raster);
                let coming = if kind == VIDEO { asked } else { Queue::fresh(kind).coming };
                assert_eq!(q, Queue { coming, ..Queue::fresh(kind) });
            }
        }
    }
}

#[test]
fn every_second_raster_of_the_cursor() {
    let record = Record::fresh().with_word(value(VCSR, 4)).with_word(value(VCER, 9));
    let asking: Vec<u32> = (0..2000).chain([u32::MAX]).filter(|y| cursor_ask(&record, *y) == 4).collect();
    assert_eq!(asking, [5, 7, 9]);
    let mut half_written = record.clone();
    half_written.written[(VCSR / 4) as usize] = false;
    assert!((0..2000).all(|y| cursor_ask(&half_written, y) == 0));
    let off = record.clone().with_word(value(VCER, 4));
    assert!((0..2000).all(|y| cursor_ask(&off, y) == 0));
    for kind in KINDS {
        let mut q = Queue::fresh(kind);
        q.horizontal_sync(&record, 5);
        assert_eq!(q.coming, if kind == VIDEO { 0 } else { 4 });
    }
}

#[test]
fn syncs_of_another_kind_still_make_it_fit() {
    let record = small().with_word(word(VCSR, 0)).with_word(value(VCER, 9));
    for kind in KINDS {
        for unfit in unfit_ones(kind) {
            let (mut h, mut e) = (unfit, unfit);
            h.horizontal_sync(&record, 1);
            e.sync_ends(&record, 3);
            let fresh = Queue::fresh(kind);
            assert_eq!(h, Queue { coming: if kind == CURSOR { 4 } else { fresh.coming }, ..fresh });
            assert_eq!(e, Queue { coming: if kind == VIDEO { 8 } else { fresh.coming }, ..fresh });
        }
    }
}
