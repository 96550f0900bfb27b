//! Inputs from a seed: valid logs, damaged ones, random bytes.

mod damage;
mod log;
mod random;
mod table;
mod write;

pub use damage::damaged;
pub use log::{Mood, longest_log, next_event, valid_log};
pub use random::Random;
pub use table::{longest_table, table};
pub use write::{event_bytes, table_bytes};

#[derive(Clone, Copy, Debug, PartialEq, Eq)]
pub enum Kind {
    Valid,
    Damaged,
    Random,
}

/// One input. The same seed and index give the same one.
pub fn input(seed: u64, index: u64) -> (Kind, Vec<u8>) {
    let mut random = Random::new(seed, index);
    match random.below(20) {
        0..=10 => (Kind::Valid, valid_log(&mut random)),
        11..=16 => {
            let log = valid_log(&mut random);
            (Kind::Damaged, damaged(&mut random, log))
        }
        17 => (Kind::Random, damage::fields(&mut random)),
        _ => (Kind::Random, damage::bytes(&mut random)),
    }
}
