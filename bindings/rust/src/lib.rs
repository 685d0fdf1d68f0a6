#![doc = include_str!("../README.md")]
#![deny(missing_docs)]
#![allow(clippy::result_large_err)] // a record that is given back is no larger than an accepted one

mod accepted;
pub mod calls;
mod colours;
mod entries;
pub mod plate;
mod queue;
mod record;
mod refusal;
mod refused;
mod setting;
mod single;

pub use accepted::Accepted;
pub use calls::Queue;
pub use colours::Apart;
pub use entries::Entry;
pub use queue::Reply;
pub use record::Record;
pub use refusal::Refusal;
pub use refused::Refused;
pub use setting::Setting;
pub use single::{grey, pin, sound_pair, sound_pair_into};
