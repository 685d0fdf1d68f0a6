//! A plate's parts: its registers loaded and checked, its video and cursor words.
//! Refusals in order: 15, 14, 1, 2, then 3 to 6, 19, 7 to 9.

use crate::load::load_and_check;
use crate::plate::{read, words_of};
use crate::record::Record;
use crate::refusal::{refuse_if, Refusal, TOO_LARGE};
use crate::setting::Setting;

pub const MOST_INPUT: usize = 65_536;

pub struct Parts {
    pub record: Record,
    pub setting: Setting,
    pub video: Vec<u32>,
    pub cursor: Vec<u32>,
}

pub fn parts(input: &[u8]) -> Result<Parts, Refusal> {
    refuse_if(input.len() > MOST_INPUT, TOO_LARGE)?;
    let starts = read(input)?.starts().map(|byte| byte as usize);
    let section = |i: usize| words_of(&input[starts[i]..starts[i + 1]]);
    let (registers, video, cursor) = (section(0), section(1), section(2));
    let (record, setting) = load_and_check(&Record::fresh(), &registers)?;
    Ok(Parts { record, setting, video, cursor })
}
