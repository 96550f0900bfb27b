//! Events applied one at a time, through the model and through the library's functions over a state's bytes.

use super::{Difference, compared};
use crate::generator::Random;
use crate::library::{self, State};
use crate::model::{self, MAX_RESOURCES, Station};
use crate::state_bytes::{STATE_BYTES, state_bytes};

/// What the lent stack memory has before a start.
const LENT: u8 = 0xA5;

/// Reads the table of a log, makes the fresh state and applies at most so many events. After each the answers, the states' bytes, the stack
/// memories and the readers are compared. The number of events applied.
pub fn steps_differ(input: &[u8], random: &mut Random, most: usize) -> Result<usize, Box<Difference>> {
    let read = model::read_table(input);
    let taken = read.as_ref().map(|(_, taken)| *taken).map_err(|refused| u32::from(refused.number));
    compared("how many bytes the table takes", input, taken, library::read_table(input))?;
    let place = read.as_ref().map_or_else(|refused| refused.place, |(_, taken)| *taken);
    compared("where the table's reading stopped", input, place as u64, library::refused_at(input))?;
    let station = read.ok().map(|(table, _)| Station::new(table));
    let mut state = fresh(input, taken.map(|_| ()), station.as_ref(), STATE_BYTES)?;
    let too_short = STATE_BYTES - 1;
    fresh(input, taken.and(Err(6)), None, too_short)?;
    let (Some(mut station), Ok(start)) = (station, taken) else {
        return Ok(0);
    };
    let size = usize::from(station.table.stack_size);
    let mut memories = Memories { model: vec![LENT; size], proved: vec![LENT; size] };
    let mut place = start;
    for applied in 0..most {
        match step(input, place, &mut station, &mut state, &mut memories, random)? {
            Some(after) => place = after,
            None => return Ok(applied),
        }
    }
    Ok(most)
}

/// The fresh state, stored over so many bytes. A refused one leaves them as they were.
fn fresh(input: &[u8], answer: Result<(), u32>, station: Option<&Station>, length: usize) -> Result<State, Box<Difference>> {
    let mut state = State { bytes: vec![LENT; length] };
    compared("the fresh state", input, answer, state.store_fresh(input))?;
    let expected = station.map_or(vec![LENT; length], state_bytes);
    compared("the fresh state's bytes", input, expected, state.bytes.clone())?;
    Ok(state)
}

/// The stack memory that each side is lent.
struct Memories {
    model: Vec<u8>,
    proved: Vec<u8>,
}

/// One event, the one at a place of the input: the place after it, or None where it can't be read.
fn step(
    input: &[u8],
    place: usize,
    station: &mut Station,
    state: &mut State,
    memories: &mut Memories,
    random: &mut Random,
) -> Result<Option<usize>, Box<Difference>> {
    let here = &input[..];
    let what = |asked: &str| format!("{asked}, for the event at {place}");
    // Now and then the memory that is lent is a byte too short.
    let lent = memories.model.len() - usize::from(random.one_in(30));
    let read = model::read_event(input, place);
    let expected = match read {
        Ok((event, _)) => station.apply(event, &mut memories.model[..lent]).map_err(u32::from),
        Err(refused) => Err(refused.number.into()),
    };
    let answer = state.apply(&input[place..], &mut memories.proved[..lent]);
    compared(&what("apply"), here, expected.map(|started| started.map(u32::from)), answer)?;
    compared(&what("the state's bytes"), here, state_bytes(station), state.bytes.clone())?;
    compared(&what("the stack memory is the same"), here, true, memories.model == memories.proved)?;
    if random.one_in(4) {
        readers(here, Some(station), state, memories.model.len())?;
    }
    if let Ok(Some(_)) = expected {
        memories.model.fill(LENT);
        memories.proved.fill(LENT);
    }
    Ok(read.ok().map(|(_, after)| after))
}

/// What is read from a state, by the model and by the library. The model has no station where the state is not well formed.
pub fn readers(input: &[u8], station: Option<&Station>, state: &State, memory_length: usize) -> Result<(), Box<Difference>> {
    let of = station.ok_or(10);
    let running = of.map(|station| station.running().map(u32::from));
    compared("the running job", input, running, state.running())?;
    let ceiling = of.map(|station| Some(station.system_ceiling().into()));
    compared("the system ceiling", input, ceiling, state.system_ceiling())?;
    let waiting = of.map(|station| Some(station.waiting.len() as u32));
    compared("the number waiting", input, waiting, state.number_waiting())?;
    let word = of.map(|station| station.waiting_word().into());
    compared("the waiting word", input, word, state.waiting_word())?;
    for resource in 0..=MAX_RESOURCES {
        let ceiling =
            of.and_then(|station| if resource < station.free.len() { Ok(Some(station.ceiling(resource).into())) } else { Err(15) });
        compared("a resource's ceiling", input, ceiling, state.ceiling(resource as u8))?;
    }
    for length in [memory_length, memory_length + 1, 0] {
        frame(input, station, state, length)?;
    }
    Ok(())
}

/// The running job's frame in a memory of some length: 0 and 0 where there is none.
fn frame(input: &[u8], station: Option<&Station>, state: &State, length: usize) -> Result<(), Box<Difference>> {
    let of = station.filter(|station| length == usize::from(station.table.stack_size));
    let frame = of.map_or(0..0, Station::frame);
    compared("the frame's length", input, frame.len() as u64, state.frame_length(length))?;
    compared("the frame's start", input, frame.start as u64, state.frame_start(length))
}
