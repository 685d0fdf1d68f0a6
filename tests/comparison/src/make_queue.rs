//! Queues as they may stand when a call is made, and the calls of a history.

use crate::bench::Bench;
use crate::random::Random;
use second::queue::Queue;
use second::queue_calls::Reply;

#[derive(Clone, Copy, Debug)]
pub enum Call {
    Load(u32),
    Read(u32),
    VerticalSync(u32),
    Ask(u32),
}

impl Call {
    /// So many loads of sixteen calls, reads for the most part else.
    pub fn any(random: &mut Random, loads: u32) -> Call {
        let any = random.word();
        match random.between(0, 15) {
            n if n < loads => Call::Load(any),
            14 => Call::VerticalSync(random.pick(&[0, 0, 1, 2, 256, 1 << 16, u32::MAX, any])),
            15 => Call::Ask(random.pick(&[0, 1, 3, 4, 4, 8, 256, u32::MAX - 3, u32::MAX, any])),
            _ => Call::Read(any),
        }
    }

    pub fn expected(self, queue: &mut Queue) -> Reply {
        match self {
            Call::Load(word) => queue.load(word),
            Call::Read(control) => queue.read(control),
            Call::VerticalSync(raster) => queue.vertical_sync(raster),
            Call::Ask(words) => queue.ask(words),
        }
    }
}

/// Video and cursor often, numbers that have their low byte, and any others: all those are sound.
pub fn kind(random: &mut Random) -> u16 {
    let any = random.word() as u16;
    random.pick(&[0, 0, 0, 0, 1, 1, 1, 2, 2, 3, 256, 257, u16::MAX, any])
}

/// Fresh, any numbers, unfit in one way, or fit and filled by hand.
pub fn queue(bench: &mut Bench, random: &mut Random) -> Queue {
    let kind = kind(random);
    let mut queue = fit(random, kind);
    match random.between(0, 7) {
        0..=2 => queue = Queue::fresh(kind),
        3 => queue = wild(random, kind),
        4 => spoil(bench, random, &mut queue),
        _ => bench.see("queue fit, filled by hand", queue.is_fit()),
    }
    queue
}

fn words(random: &mut Random) -> [u32; 8] {
    [(); 8].map(|()| random.word())
}

/// Each rule of fitness holds by construction.
fn fit(random: &mut Random, kind: u16) -> Queue {
    let depth = Queue::fresh(kind).depth();
    let held = random.between(0, depth);
    let taken = if held == 0 { 0 } else { random.between(0, 3) as u16 };
    let (place, coming) = (random.between(0, depth - 1), random.between(0, depth));
    Queue { words: words(random), kind, taken, place, held, coming, count: count(random, held) }
}

/// At its least, a little above, past 32 bits, near its largest.
fn count(random: &mut Random, held: u32) -> u64 {
    let least = u64::from(held);
    match random.between(0, 5) {
        0 => least,
        1 => least + u64::from(random.gap()),
        2 => 1 << 32,
        3 => random.next().max(least),
        _ => u64::MAX - u64::from(random.between(0, 12)),
    }
}

fn wild(random: &mut Random, kind: u16) -> Queue {
    let [place, held, coming] = [(); 3].map(|()| random.word());
    Queue {
        words: words(random),
        kind,
        taken: random.word() as u16,
        place,
        held,
        coming,
        count: random.next(),
    }
}

/// A rule of fitness: what is seen where it is broken by one, and by much, and how it is broken, so far beyond.
type Break = (&'static str, &'static str, fn(&mut Queue, u32));

const BREAKS: [Break; 6] = [
    ("queue unfit, its place by one", "queue unfit, its place by much", |queue, beyond| {
        queue.place = queue.depth() - 1 + beyond;
    }),
    ("queue unfit, words held by one", "queue unfit, words held by much", |queue, beyond| {
        queue.held = queue.depth() + beyond;
        queue.count = queue.count.max(queue.held.into());
    }),
    ("queue unfit, words to come by one", "queue unfit, words to come by much", |queue, beyond| {
        queue.coming = queue.depth() + beyond;
    }),
    ("queue unfit, bytes of a word by one", "queue unfit, bytes of a word by much", |queue, beyond| {
        queue.held = queue.held.max(1);
        queue.count = queue.count.max(queue.held.into());
        queue.taken = (3 + beyond.min(0xFFFC)) as u16;
    }),
    ("queue unfit, bytes of no word by one", "queue unfit, bytes of no word by much", |queue, beyond| {
        queue.held = 0;
        queue.taken = beyond.min(3) as u16;
    }),
    ("queue unfit, its count by one", "queue unfit, its count by much", |queue, beyond| {
        queue.held = queue.held.max(2);
        queue.count = queue.held.saturating_sub(beyond).into();
    }),
];

/// Breaks one rule of a fit queue and no other, and notes which.
pub fn spoil(bench: &mut Bench, random: &mut Random, queue: &mut Queue) {
    let far = random.between(2, u32::MAX - 8);
    let beyond = random.pick(&[1, 1, 1, 2, 253, 256, u32::MAX - 8, far]);
    let chosen = random.between(0, BREAKS.len() as u32 - 1) as usize;
    (BREAKS[chosen].2)(queue, beyond);
    for (i, (by_one, by_much, _)) in BREAKS.iter().enumerate() {
        let broken = i == chosen && !queue.is_fit();
        bench.see(by_one, broken && beyond == 1);
        bench.see(by_much, broken && beyond > 1);
    }
}
