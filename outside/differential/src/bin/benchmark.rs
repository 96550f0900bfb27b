//! Times the proved library and plain Rust, in one run on one machine, and prints both with their ratio.
//!
//! Each figure is the best of several runs. No buffer is cleared in what is timed: replay's output buffer is made and filled once, before the
//! runs, and is used again by each; plain Rust's output is a `Vec` whose bytes are kept from run to run in the same way.

use differential::generator::{self, Random, event_bytes, table_bytes};
use differential::library::{self, State};
use differential::model::{self, Event, Station};
use differential::state_bytes::{state_bytes, state_of};
use std::hint::black_box;
use std::time::Instant;

const RUNS: usize = 40;

fn main() {
    replay_longest_log();
    read_longest_table();
    apply_once();
}

/// The best time of one call, in nanoseconds, where a run makes so many calls.
fn best(calls: usize, mut run: impl FnMut()) -> f64 {
    let mut best = f64::INFINITY;
    for _ in 0..RUNS {
        let begun = Instant::now();
        for _ in 0..calls {
            run();
        }
        best = best.min(begun.elapsed().as_nanos() as f64 / calls as f64);
    }
    best
}

fn line(what: &str, proved: f64, plain: f64) {
    println!("{what}: proved {proved:.0} ns, plain {plain:.0} ns, ratio {:.2}", proved / plain);
}

/// Replay of the longest log: 32 jobs, 8 resources, much blocking.
fn replay_longest_log() {
    let log = generator::longest_log(&mut Random::new(1, 0));
    let mut out = vec![0; library::room(log.len())];
    let mut text = Vec::new();
    model::replay(&log, &mut text);
    let written = library::replay(&log, &mut out).unwrap_or(0);
    assert_eq!(text, out[..written], "the two replays differ");
    let lines = text.iter().filter(|&&byte| byte == b'\n').count();
    println!("the longest log: {} bytes, {lines} lines, {written} bytes of output", log.len());
    let proved = best(1, || {
        black_box(library::replay(black_box(&log), &mut out)).ok();
    });
    let plain = best(1, || {
        text.clear();
        model::replay(black_box(&log), &mut text);
        black_box(&text);
    });
    line("replay of the longest log", proved, plain);
}

/// Reading the longest table: 756 bytes.
fn read_longest_table() {
    let bytes = table_bytes(&generator::longest_table(&mut Random::new(1, 0)));
    let proved = best(1000, || {
        black_box(library::read_table(black_box(&bytes))).ok();
    });
    let plain = best(1000, || {
        black_box(model::read_table(black_box(&bytes))).ok();
    });
    line(&format!("reading the longest table ({} bytes)", bytes.len()), proved, plain);
}

/// One public apply: the running job of a busy state takes a unit, and gives it back. The library is lent the state as bytes, reads them, tests
/// that the state is well formed, and stores them. Plain Rust is timed twice: with its own state, where nothing is tested again, and over
/// bytes, where it does all that the library does. Reading the number waiting shows what bytes and test take without an event.
fn apply_once() {
    let mut station = busy();
    let mut memory = vec![0; usize::from(station.table.stack_size)];
    let mut state = State { bytes: state_bytes(&station) };
    let Some((job, resource)) = free_unit(&station) else {
        eprintln!("no unit to take");
        return;
    };
    let pair = [Event::Acquire { job, resource, amount: 1 }, Event::Release { job, resource, amount: 1 }];
    let bytes = pair.map(event_bytes);
    let proved = best(200, || {
        for event in &bytes {
            let answer = state.apply(black_box(event), &mut memory);
            assert_eq!(answer, Ok(None));
        }
    });
    let plain = best(10_000, || {
        for event in pair {
            let answer = station.apply(black_box(event), &mut memory);
            assert_eq!(answer, Ok(None));
        }
    });
    println!("a busy state: {} started, {} waiting", station.stack.len(), station.waiting.len());
    line("one apply, plain with its own state", proved / 2.0, plain / 2.0);
    let mut kept = state.bytes.clone();
    let plain = best(200, || {
        for event in pair {
            let mut station = state_of(black_box(&kept)).expect("the state is well formed");
            assert_eq!(station.apply(event, &mut memory), Ok(None));
            kept.copy_from_slice(&state_bytes(&station));
        }
    });
    line("one apply, plain over bytes too", proved / 2.0, plain / 2.0);
    read_once(&state);
}

/// The number waiting, read from a state's bytes.
fn read_once(state: &State) {
    let proved = best(400, || {
        black_box(black_box(state).number_waiting()).ok();
    });
    let plain = best(400, || {
        black_box(state_of(black_box(&state.bytes)).map(|station| station.waiting.len()));
    });
    line("reading the number waiting, both over bytes", proved, plain);
}

/// A state of the longest table with jobs that run, wait and hold units.
fn busy() -> Station {
    let mut random = Random::new(1, 0);
    let log = generator::longest_log(&mut random);
    let (table, start) = model::read_table(&log).expect("the longest log has a table");
    let mut station = Station::new(table);
    let mut place = start;
    while let Ok((event, after)) = model::read_event(&log, place) {
        let _ = station.step(event);
        place = after;
        if place > 8_000 && station.waiting.len() > 20 && free_unit(&station).is_some() {
            break;
        }
    }
    station
}

/// The running job, and a resource of which it may take one unit more, whose giving back starts nothing.
fn free_unit(station: &Station) -> Option<(u8, u8)> {
    let top = station.stack.last()?;
    let needs = station.table.jobs[usize::from(top.job)].needs;
    let may = |&resource: &usize| top.held[resource] < needs[resource] && station.free[resource] > 0;
    (0..station.free.len()).find(may).map(|resource| (top.job, resource as u8))
}
