//! Hand-made states: bytes of a state that was reached, changed by hand, so that some are refused with 10 and some are well formed and
//! never reached.

use super::steps::readers;
use super::{Difference, compared};
use crate::generator::{Mood, Random, event_bytes, next_event};
use crate::library::State;
use crate::model::{self, MAX_JOBS, Station};
use crate::state_bytes::{STATE_BYTES, state_bytes, state_of};

const MOOD: Mood = Mood { wrong: 6, arrive: 6, acquire: 12, release: 4, release_all: 2, finish: 4, climbs: 4 };

/// Where the started jobs stand in a state's bytes.
const STACK: usize = 19 + 19 * MAX_JOBS + 1;

/// A hand-made state, read and given an event, by the model and by the library. Whether it was well formed; None if the log has no state.
pub fn hand_made_differs(input: &[u8], random: &mut Random) -> Result<Option<bool>, Box<Difference>> {
    let Some(reached) = reached(input, random) else {
        return Ok(None);
    };
    let mut bytes = state_bytes(&reached);
    for _ in 0..random.of(&[1, 1, 1, 2, 3]) {
        change(random, &reached, &mut bytes);
    }
    let mut station = state_of(&bytes);
    let mut state = State { bytes: bytes.clone() };
    let length = usize::from(reached.table.stack_size);
    readers(&bytes, station.as_ref(), &state, length)?;
    let event = next_event(random, station.as_ref().unwrap_or(&reached), MOOD);
    let mut memories = [vec![7; length], vec![7; length]];
    let expected = match &mut station {
        Some(station) => station.apply(event, &mut memories[0]).map_err(u32::from),
        None => Err(10),
    };
    let answer = state.apply(&event_bytes(event), &mut memories[1]);
    let what = |asked: &str| format!("{asked}, of the hand-made state and {event:?}");
    compared(&what("apply"), &bytes, expected.map(|started| started.map(u32::from)), answer)?;
    let after = station.as_ref().map_or(bytes.clone(), state_bytes);
    compared(&what("the state's bytes"), &bytes, after, state.bytes)?;
    compared(&what("the stack memory is the same"), &bytes, true, memories[0] == memories[1])?;
    Ok(Some(station.is_some()))
}

/// The state after some of a log's events.
fn reached(input: &[u8], random: &mut Random) -> Option<Station> {
    let (table, start) = model::read_table(input).ok()?;
    let mut station = Station::new(table);
    let mut place = start;
    for _ in 0..random.below(60) {
        let Ok((event, after)) = model::read_event(input, place) else {
            break;
        };
        let _ = station.step(event);
        place = after;
    }
    Some(station)
}

/// One change. Most leave much in order, since a state with a few bytes changed anywhere is hardly ever well formed.
fn change(random: &mut Random, reached: &Station, bytes: &mut Vec<u8>) {
    if bytes.len() != STATE_BYTES {
        return;
    }
    let depth = reached.stack.len();
    match random.below(11) {
        // Units held, of any started job.
        0..=4 if depth > 0 && !reached.free.is_empty() => {
            let place = random.below(depth);
            let resource = random.below(reached.free.len());
            let need = reached.table.jobs[usize::from(reached.stack[place].job)].needs[resource];
            let held = random.of(&[need, need, need / 2, 0, need + 1]);
            let at = STACK + 17 * place + 1 + 2 * resource;
            bytes[at..at + 2].copy_from_slice(&held.to_be_bytes());
        }
        // A count.
        5 => {
            let at = random.of(&[18, STACK - 1, STACK + 17 * MAX_JOBS, STATE_BYTES - 1]);
            bytes[at] = random.of(&[0, 1, bytes[at].wrapping_add(1), bytes[at].wrapping_sub(1), 33, 255]);
        }
        // A waiting job, or one past the waiting ones.
        6 => {
            let at = STATE_BYTES - 1 - MAX_JOBS + random.below((reached.waiting.len() + 1).min(MAX_JOBS));
            bytes[at] = random.below(reached.table.jobs.len() + 1) as u8;
        }
        // A number of the table.
        7 => {
            let at = random.below(20 + 19 * reached.table.jobs.len());
            bytes[at] ^= 1 << random.below(8);
        }
        // Nothing held any more: then a waiting job may be due to start, which no event leaves.
        8 if depth > 0 => {
            for place in 0..depth {
                bytes[STACK + 17 * place + 1..STACK + 17 * (place + 1)].fill(0);
            }
        }
        9 => {
            let at = random.below(STATE_BYTES);
            bytes[at] = random.byte();
        }
        _ => {
            if random.one_in(8) {
                bytes.resize(random.of(&[0, STATE_BYTES - 1, STATE_BYTES + 1]), 0);
            }
        }
    }
}
