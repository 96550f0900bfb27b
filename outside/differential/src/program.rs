//! The proved code, reached as the built program `replay`.

use std::io::{self, Write};
use std::path::Path;
use std::process::{Command, Stdio};

/// What the program prints for an input.
pub fn replay(program: &Path, input: &[u8]) -> io::Result<Vec<u8>> {
    let mut child = Command::new(program).stdin(Stdio::piped()).stdout(Stdio::piped()).spawn()?;
    // It reads what it replays before it prints anything, so all may be written first. Of an input that is too long it leaves the rest.
    if let Some(mut stdin) = child.stdin.take() {
        match stdin.write_all(input) {
            Err(error) if error.kind() != io::ErrorKind::BrokenPipe => return Err(error),
            _ => {}
        }
    }
    let output = child.wait_with_output()?;
    if !output.status.success() {
        return Err(io::Error::other(format!("{}: {}", program.display(), output.status)));
    }
    Ok(output.stdout)
}
