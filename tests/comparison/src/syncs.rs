//! What a raster's sync asks of a queue.

use crate::bench::Bench;
use crate::damage::{damage, nudge};
use crate::judged::Judged;
use crate::make_list::with_words;
use crate::make_queue::kind;
use crate::make_record::{as_words, ground, right, SMALL, TALL};
use crate::ours;
use crate::random::Random;
use crate::show;
use second::queue::Queue;
use second::record::Record;
use second::setting;

pub fn sync_ask_round(bench: &mut Bench, random: &mut Random) {
    let record = sync_record(random);
    for raster in rasters(random, &record) {
        let kind = kind(random);
        compare_sync_ask(bench, &record, kind, raster);
    }
}

/// Right, spoiled, moved by a step, loaded, or filled by hand: sync asks of any record.
pub fn sync_record(random: &mut Random) -> Record {
    let size = random.pick(&[SMALL, SMALL, TALL]);
    let mut record = right(random, size);
    match random.between(0, 4) {
        0 => return ground(random),
        1 => damage(random, &mut record),
        2 => nudge(random, &mut record),
        3 => return with_words(&Record::fresh(), &as_words(random, &record)),
        _ => (),
    }
    record
}

/// Around each raster where something starts or ends, the same past 16 bits, and any others.
pub fn rasters(random: &mut Random, record: &Record) -> Vec<u32> {
    let s = setting::read(record);
    let edges = [s.vcs, s.vce, s.vds, s.vde, s.v];
    let mut rasters = vec![0, u32::MAX, random.word(), random.between(0, 1024)];
    rasters.extend(edges.iter().flat_map(|edge| [edge - 1, *edge, edge + 1, edge + 2]));
    rasters.extend([s.vcs + (1 << 16), s.vds + (1 << 16)]);
    rasters
}

/// What both syncs of a raster ask of a queue of that kind to which no words are to come yet.
pub fn asked(record: &Record, kind: u16, raster: u32) -> u32 {
    let mut queue = Queue { coming: 0, ..Queue::fresh(kind) };
    queue.horizontal_sync(record, raster);
    queue.sync_ends(record, raster);
    queue.coming
}

fn compare_sync_ask(bench: &mut Bench, record: &Record, kind: u16, raster: u32) {
    let expected = asked(record, kind, raster);
    let mut judged = Judged::default();
    judged.same("words", &expected, &ours::record(record).sync_ask(kind, raster));
    let s = setting::read(record);
    bench.see("sync that asks for video words", expected == 8);
    bench.see("sync that asks for cursor words", expected == 4 && raster == s.vcs);
    bench.see("sync that asks for cursor words again", expected == 4 && raster > s.vcs);
    bench.see("sync that asks sound for nothing", kind > 1 && (raster == s.vcs || raster == s.vds));
    bench.count("sync_ask", judged, || {
        format!("record {}\nkind {kind}\nraster {raster}", show::record(record))
    });
}
