//! What sound needs: the sound frequency and all stereo registers. Refusals: 3, 10.

use crate::address::{SOUND_FREQUENCY, STEREO_7};
use crate::needed::lowest_unwritten;
use crate::record::Record;
use crate::refusal::{refusal_at, Refusal, SOUND};

fn is_stereo(address: u32) -> bool {
    (STEREO_7..=0x7C).contains(&address)
}

fn is_wrong(record: &Record, address: u32) -> bool {
    if is_stereo(address) {
        record.bits(address, 2, 0) == 0
    } else {
        address == SOUND_FREQUENCY && record.bits(address, 7, 0) < 3
    }
}

pub fn check_sound(record: &Record) -> Result<(), Refusal> {
    lowest_unwritten(record, |address| is_stereo(address) || address == SOUND_FREQUENCY)?;
    for address in (0x00..=0xFC).step_by(4) {
        if is_wrong(record, address) {
            return Err(refusal_at(SOUND, address));
        }
    }
    Ok(())
}
