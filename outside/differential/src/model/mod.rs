//! The model: docs/RULES.md in plain Rust. It is written from that page alone.

mod event;
mod field;
mod replay;
mod station;
mod table;

pub use event::{Event, read_event};
pub use field::Refused;
pub use replay::{MOST_BYTES, replay};
pub use station::{Started, Station};
pub use table::{Job, MAX_JOBS, MAX_RESOURCES, MAX_UNITS, Table, read_table};
