//! The C calls themselves, of queues: a fresh one, and histories of calls on one that lies in guarded memory.

use crate::bench::Bench;
use crate::judged::Judged;
use crate::lent::Lent;
use crate::make_queue::{kind, Call};
use crate::queues::{history, Side};
use crate::random::Random;
use second::queue::Queue;
use second::queue_calls::Reply;
use vombelishi::calls::{self, *};

pub fn raw_queue_round(bench: &mut Bench, random: &mut Random) {
    let kind = kind(random);
    raw_fresh(bench, kind);
    history::<Raw>(bench, random);
}

/// A queue's numbers as C lays them out, eight bytes at a time, which have no gap between them.
fn laid(queue: &Queue) -> [u64; 7] {
    let pair = |low: u32, high: u32| u64::from(low) | u64::from(high) << 32;
    let w = &queue.words;
    let kind = u32::from(queue.kind) | u32::from(queue.taken) << 16;
    [
        pair(w[0], w[1]),
        pair(w[2], w[3]),
        pair(w[4], w[5]),
        pair(w[6], w[7]),
        pair(kind, queue.place),
        pair(queue.held, queue.coming),
        queue.count,
    ]
}

fn raw_fresh(bench: &mut Bench, kind: u16) {
    let mut judged = Judged::default();
    // SAFETY: no memory is handed over; a queue is seven times eight bytes, any of them.
    let told: [u64; 7] = unsafe { std::mem::transmute(vom_queue_fresh(kind)) };
    judged.same("queue", &laid(&Queue::fresh(kind)), &told);
    bench.count("vom_queue_fresh", judged, || format!("kind {kind}"));
}

struct Raw(Lent<u64>);

impl Side for Raw {
    fn new(random: &mut Random, queue: &Queue) -> Raw {
        Raw(Lent::holding(random, &laid(queue)))
    }

    fn put(&mut self, queue: &Queue) {
        self.0.lend().copy_from_slice(&laid(queue));
    }

    fn compare(&mut self, call: Call, reply: Reply, after: &Queue, judged: &mut Judged) {
        let queue = self.0.lend().as_mut_ptr().cast();
        // SAFETY: the pointer is that of a queue's bytes, and at a multiple of eight.
        let told = unsafe {
            match call {
                Call::Load(word) => vom_queue_load(queue, word),
                Call::Read(control) => vom_queue_read(queue, control),
                Call::VerticalSync(raster) => vom_queue_vertical_sync(queue, raster),
                Call::Ask(words) => vom_queue_ask(queue, words),
            }
        };
        judged.same("reply", &whole(reply), &told);
        judged.memory("queue", &self.0, &laid(after));
    }

    fn name(call: Call) -> &'static str {
        match call {
            Call::Load(_) => "vom_queue_load",
            Call::Read(_) => "vom_queue_read",
            Call::VerticalSync(_) => "vom_queue_vertical_sync",
            Call::Ask(_) => "vom_queue_ask",
        }
    }
}

fn whole(Reply { number, byte, count, asks }: Reply) -> calls::Reply {
    calls::Reply { count, number, byte: byte.into(), asks: asks.into() }
}
