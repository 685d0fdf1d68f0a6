//! The families of comparisons and how often each has its turn.

use crate::bench::Bench;
use crate::random::Random;
use crate::{files, large, loads, mixes, pictures, queues, raw_files, raw_loads, raw_pictures, raw_queues};
use crate::{raw_records, raw_summaries, registers, sounds, summaries, syncs, texts};

pub struct Family {
    pub name: &'static str,
    /// Runs in rounds 0, every, 2 * every, ..
    pub every: u64,
    round: fn(&mut Bench, &mut Random),
}

const ONCE: u64 = u64::MAX;

#[rustfmt::skip]
pub const FAMILIES: [Family; 37] = [
    Family { name: "load_and_check", every: 1, round: loads::load_and_check_round },
    Family { name: "load_and_check_sound", every: 1, round: loads::load_and_check_sound_round },
    Family { name: "load_word", every: 1, round: registers::load_word_round },
    Family { name: "check_sound", every: 1, round: registers::check_sound_round },
    Family { name: "frame", every: 1, round: pictures::frame_round },
    Family { name: "raster", every: 1, round: pictures::raster_round },
    Family { name: "marks", every: 1, round: pictures::marks_round },
    Family { name: "summaries", every: 1, round: summaries::summaries_round },
    Family { name: "replace", every: 1, round: summaries::replace_round },
    Family { name: "kept", every: 10, round: summaries::kept_round },
    Family { name: "mix", every: 1, round: mixes::mix_round },
    Family { name: "colour", every: 50, round: pictures::colour_round },
    Family { name: "grey", every: ONCE, round: pictures::every_grey },
    Family { name: "pin", every: ONCE, round: pictures::every_pin },
    Family { name: "large", every: 200, round: large::large_round },
    Family { name: "sound", every: 1, round: sounds::sound_round },
    Family { name: "sound_pair", every: ONCE, round: sounds::every_pair },
    Family { name: "file", every: 1, round: files::file_round },
    Family { name: "write", every: 1, round: files::write_round },
    Family { name: "text", every: 1, round: texts::text_round },
    Family { name: "large_text", every: 50, round: texts::large_text_round },
    Family { name: "long_file", every: 200, round: files::long_file_round },
    Family { name: "long_write", every: 100, round: files::long_write_round },
    Family { name: "queue", every: 10, round: queues::queue_round },
    Family { name: "queue_fresh", every: ONCE, round: queues::every_fresh },
    Family { name: "sync_ask", every: 4, round: syncs::sync_ask_round },
    Family { name: "raw_load", every: 1, round: raw_loads::raw_load_round },
    Family { name: "raw_record", every: 1, round: raw_records::raw_record_round },
    Family { name: "raw_sound", every: 1, round: raw_records::raw_sound_round },
    Family { name: "raw_picture", every: 1, round: raw_pictures::raw_picture_round },
    Family { name: "raw_mix", every: 1, round: mixes::raw_mix_round },
    Family { name: "raw_summaries", every: 1, round: raw_summaries::raw_summaries_round },
    Family { name: "raw_kept", every: 10, round: raw_summaries::raw_kept_round },
    Family { name: "raw_file", every: 1, round: raw_files::raw_file_round },
    Family { name: "raw_text", every: 8, round: raw_files::raw_text_round },
    Family { name: "raw_long_write", every: 1000, round: raw_files::raw_long_write_round },
    Family { name: "raw_queue", every: 10, round: raw_queues::raw_queue_round },
];

impl Family {
    pub fn run(&self, bench: &mut Bench, round: u64) {
        bench.begin(self.name, round);
        let mut random = Random::new(bench.seed, self.name, round);
        (self.round)(bench, &mut random);
    }
}

/// Every family whose turn it is in this round.
pub fn run_round(bench: &mut Bench, round: u64) {
    for family in FAMILIES.iter().filter(|family| round % family.every == 0) {
        family.run(bench, round);
    }
}
