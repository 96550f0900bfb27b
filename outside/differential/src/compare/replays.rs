//! Whole replays compared, and an input with a difference made short.

use super::{Difference, compared};
use crate::model;
use crate::{library, program};
use std::io;
use std::path::Path;

/// What a lent buffer has before a call.
const LENT: u8 = 0xA5;

/// The model's replay and the library's, in a buffer of just the room that is needed, and then in one that is a byte too short.
pub fn library_differs(input: &[u8]) -> Result<(), Box<Difference>> {
    let mut expected = Vec::new();
    model::replay(input, &mut expected);
    let mut out = vec![LENT; library::room(input.len())];
    let written = match library::replay(input, &mut out) {
        Ok(written) => written,
        Err(refusal) => return compared("replay in a buffer of its room", input, Ok(expected.len()), Err(refusal)),
    };
    texts(input, &expected, out.get(..written).unwrap_or(&out))?;
    let untouched = |bytes: &[u8]| bytes.iter().all(|&byte| byte == LENT);
    compared("bytes behind the output stay", input, true, untouched(&out[written..]))?;
    out.fill(LENT);
    let short = out.len() - 1;
    compared("replay in a buffer too short", input, Err(6), library::replay(input, &mut out[..short]))?;
    compared("a refused replay writes nothing", input, true, untouched(&out))
}

/// The model's replay and the program's.
pub fn program_differs(path: &Path, input: &[u8]) -> io::Result<Result<(), Box<Difference>>> {
    let mut expected = Vec::new();
    model::replay(input, &mut expected);
    let printed = program::replay(path, input)?;
    Ok(texts(input, &expected, &printed))
}

/// The first line at which two outputs part.
fn texts(input: &[u8], model: &[u8], proved: &[u8]) -> Result<(), Box<Difference>> {
    if model == proved {
        return Ok(());
    }
    let lines = |text: &[u8]| -> Vec<String> {
        let parts = text.split_inclusive(|&byte| byte == b'\n');
        parts.map(|line| String::from_utf8_lossy(line).into_owned()).collect()
    };
    let (model, proved) = (lines(model), lines(proved));
    let same = model.iter().zip(&proved).take_while(|(model, proved)| model == proved).count();
    let line = |lines: &[String]| lines.get(same).map_or("(no such line)".to_string(), |line| format!("{line:?}"));
    Err(Box::new(Difference {
        what: format!("replay, line {} of the output", same + 1),
        input: input.to_vec(),
        model: line(&model),
        proved: line(&proved),
    }))
}

/// At most so many bytes are tried to make an input short.
const EFFORT: usize = 4_000_000;

/// The last difference that is found while parts of the input are taken out, from large ones to single bytes.
pub fn shortened(first: Difference, differs: impl Fn(&[u8]) -> Result<(), Box<Difference>>) -> Difference {
    let mut best = first;
    let mut width = best.input.len() / 2;
    let mut tried = 0;
    while width > 0 && tried < EFFORT {
        let mut place = 0;
        while place + width <= best.input.len() && tried < EFFORT {
            tried += best.input.len();
            let mut fewer = best.input.clone();
            fewer.drain(place..place + width);
            match differs(&fewer) {
                Err(smaller) => best = *smaller,
                Ok(()) => place += width,
            }
        }
        width /= 2;
    }
    best
}
