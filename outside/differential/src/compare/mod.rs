//! The model beside the proved code: the same input to both, and every byte of the answers compared.

mod replays;
mod seen;
mod states;
mod steps;

pub use replays::{library_differs, program_differs, shortened};
pub use seen::Seen;
pub use states::hand_made_differs;
pub use steps::steps_differ;

/// Two answers that ought to be the same.
#[derive(Clone, Debug, PartialEq, Eq)]
pub struct Difference {
    /// What was asked, and how it was reached.
    pub what: String,
    /// The bytes that went in: a log, or a state's bytes.
    pub input: Vec<u8>,
    pub model: String,
    pub proved: String,
}

/// Nothing if two answers are the same.
fn compared<T: PartialEq + std::fmt::Debug>(what: &str, input: &[u8], model: T, proved: T) -> Result<(), Box<Difference>> {
    if model == proved {
        return Ok(());
    }
    Err(Box::new(Difference { what: what.to_string(), input: input.to_vec(), model: format!("{model:?}"), proved: format!("{proved:?}") }))
}

/// Bytes in hex.
pub fn hex(bytes: &[u8]) -> String {
    bytes.iter().map(|byte| format!("{byte:02x}")).collect()
}
