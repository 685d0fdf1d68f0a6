//! Queues: a fresh one of each kind, and long histories of calls on one.

use crate::bench::Bench;
use crate::judged::Judged;
use crate::make_queue::{self, spoil, Call};
use crate::ours;
use crate::random::Random;
use second::queue::{is_sound, Queue, VIDEO};
use second::queue_calls::Reply;
use second::refusal::{refusal, Refusal, EMPTY, FULL};

/// The library's side of a history: a queue of its own, which each call updates in its place.
pub trait Side {
    fn new(random: &mut Random, queue: &Queue) -> Self;
    /// Puts other numbers there.
    fn put(&mut self, queue: &Queue);
    /// Makes a call and compares the whole reply, and the whole queue afterwards.
    fn compare(&mut self, call: Call, reply: Reply, after: &Queue, judged: &mut Judged);
    fn name(call: Call) -> &'static str;
}

pub fn queue_round(bench: &mut Bench, random: &mut Random) {
    history::<vombelishi::Queue>(bench, random);
}

/// Some hundred calls on one queue: full most of the time, or empty, or between; it is spoiled now and then.
pub fn history<S: Side>(bench: &mut Bench, random: &mut Random) {
    let mut queue = make_queue::queue(bench, random);
    let mut theirs = S::new(random, &queue);
    let loads = random.pick(&[2, 3, 3, 4, 9]);
    for _ in 0..random.between(200, 400) {
        if queue.is_fit() && random.one_in(60) {
            spoil(bench, random, &mut queue);
            theirs.put(&queue);
        }
        compare_call(bench, &mut theirs, &mut queue, Call::any(random, loads));
    }
}

fn compare_call<S: Side>(bench: &mut Bench, theirs: &mut S, queue: &mut Queue, call: Call) {
    let before = *queue;
    let reply = call.expected(queue);
    let mut judged = Judged { refused: refused(reply), ..Judged::default() };
    theirs.compare(call, reply, queue, &mut judged);
    see_call(bench, call, reply, [&before, queue]);
    bench.count(S::name(call), judged, || format!("{before:x?}\n{call:x?}"));
}

/// The refusal whose number stands in a reply.
pub fn refused(reply: Reply) -> Option<Refusal> {
    (reply.number != 0).then(|| refusal(reply.number))
}

fn see_call(bench: &mut Bench, call: Call, reply: Reply, [before, after]: [&Queue; 2]) {
    let fit = before.is_fit();
    match call {
        Call::Load(_) => {
            let (refused, full) = (reply.number == FULL, before.held == before.depth());
            bench.see("load into a full queue", refused && full);
            bench.see("load with room, the count at its largest", refused && !full);
            bench.see("load around the end", fit && !refused && before.place + before.held >= before.depth());
        }
        Call::Read(_) => {
            let asks = fit && after.coming > before.coming;
            bench.see("read that asks for video words", asks && before.kind == VIDEO);
            bench.see("read that asks for sound words", asks && is_sound(before.kind));
            bench.see("read of a queue that is not fit", reply.number == EMPTY && !fit);
        }
        Call::VerticalSync(raster) => {
            let held = fit && before.held > 0;
            bench.see("vertical sync that empties", held && after.held == 0);
            bench.see("vertical sync that leaves sound", held && raster == 0 && after == before);
            bench.see("vertical sync of another raster", held && raster != 0 && after == before);
        }
        Call::Ask(words) => {
            let past = fit && before.coming.checked_add(words).is_none();
            bench.see("ask whose sum is past 32 bits", past && after.coming == after.depth());
        }
    }
}

impl Side for vombelishi::Queue {
    fn new(_: &mut Random, queue: &Queue) -> vombelishi::Queue {
        ours::queue(queue)
    }

    fn put(&mut self, queue: &Queue) {
        *self = ours::queue(queue);
    }

    fn compare(&mut self, call: Call, reply: Reply, after: &Queue, judged: &mut Judged) {
        match call {
            Call::Load(word) => judged.same("reply", &expected(reply, ()), &self.load(word)),
            Call::Read(control) => judged.same("reply", &expected(reply, reply.byte), &self.read(control)),
            Call::VerticalSync(raster) => {
                judged.same("reply", &ours::reply(reply, ()), &self.vertical_sync(raster));
            }
            Call::Ask(words) => judged.same("reply", &ours::reply(reply, ()), &self.ask(words)),
        }
        judged.same("queue", &ours::queue(after), self);
    }

    fn name(call: Call) -> &'static str {
        match call {
            Call::Load(_) => "queue_load",
            Call::Read(_) => "queue_read",
            Call::VerticalSync(_) => "queue_vertical_sync",
            Call::Ask(_) => "queue_ask",
        }
    }
}

/// The reply of a call that can refuse.
fn expected<T>(reply: Reply, value: T) -> vombelishi::Reply<Result<T, vombelishi::Refusal>> {
    ours::reply(reply, refused(reply).map_or(Ok(value), |refusal| Err(ours::refusal(refusal))))
}

/// Every kind.
pub fn every_fresh(bench: &mut Bench, _: &mut Random) {
    for kind in 0..=u16::MAX {
        let mut judged = Judged::default();
        judged.same("queue", &ours::queue(&Queue::fresh(kind)), &vombelishi::Queue::fresh(kind));
        bench.count("queue_fresh", judged, || format!("kind {kind}"));
    }
}
