//! The live bench's text of a plate. It is refused as the run printer's is: 15, 14, 1, 2, the setting, 11.

use crate::bench::Bench;
use crate::parts::parts;
use crate::refusal::{or_refused, Refusal};

pub fn live(plate: &[u8]) -> String {
    or_refused(one_frame(plate))
}

/// A line for each raster that asked or loaded, then the frame's.
fn one_frame(plate: &[u8]) -> Result<String, Refusal> {
    let p = parts(plate)?;
    p.setting.judge_words(&p.video, &p.cursor)?;
    let mut bench = Bench::new(&p);
    let mut lines = String::new();
    for y in 0..p.setting.v {
        let c = bench.raster(y);
        if c.asked > 0 || c.loaded > 0 {
            lines += &format!("raster {y} asked {} loaded {} read {}\n", c.asked, c.loaded, c.read);
        }
    }
    Ok(lines + &last_line(&bench))
}

fn last_line(bench: &Bench) -> String {
    let verdict = match bench.differs_at {
        None => "the frame's own bytes".to_string(),
        Some(byte) => format!("differs at {byte}"),
    };
    format!("loaded {} read {} filler {} {verdict}\n", bench.loaded, bench.read, bench.filler)
}
