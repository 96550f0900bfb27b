//! Valid logs: events chosen by the model's state, so that deep stacks, blocking and each refusal occur.

use super::random::Random;
use super::table::{ladder, longest_table, table};
use super::write::{event_bytes, table_bytes};
use crate::model::{Event, MOST_BYTES, Station, Table};

/// How often each kind of event is tried, and which job arrives.
#[derive(Clone, Copy, Debug)]
pub struct Mood {
    pub wrong: usize,
    pub arrive: usize,
    pub acquire: usize,
    pub release: usize,
    pub release_all: usize,
    pub finish: usize,
    /// Of so many arrivals one is of any job, and the others of the lowest job above the system ceiling, which starts at once.
    pub climbs: usize,
}

/// Many jobs come while the running one holds units.
const BLOCKING: Mood = Mood { wrong: 2, arrive: 12, acquire: 10, release: 6, release_all: 2, finish: 4, climbs: 1 };
/// Jobs that start on top of each other.
const CLIMBING: Mood = Mood { wrong: 1, arrive: 14, acquire: 4, release: 1, release_all: 1, finish: 1, climbs: 4 };
/// Arrivals and hardly anything else, so that the stack gets as deep as there are jobs.
const LADDER: Mood = Mood { wrong: 1, arrive: 30, acquire: 1, release: 1, release_all: 0, finish: 0, climbs: 200 };
/// Few jobs at a time.
const QUIET: Mood = Mood { wrong: 2, arrive: 4, acquire: 6, release: 4, release_all: 2, finish: 8, climbs: 1 };
/// Mostly refusals.
const WRONG: Mood = Mood { wrong: 30, arrive: 6, acquire: 6, release: 3, release_all: 1, finish: 3, climbs: 4 };

/// A log with a table that is mostly good; one in many is as long as is replayed, or longer.
pub fn valid_log(random: &mut Random) -> Vec<u8> {
    if random.one_in(100) {
        let table = ladder(random);
        return log_of(random, &table, LADDER, 1500);
    }
    let table = table(random);
    let length = match random.below(400) {
        0 => MOST_BYTES,
        1 => MOST_BYTES + random.between(1, 8),
        2..=160 => random.below(2500),
        _ => random.below(250),
    };
    let mood = random.of(&[BLOCKING, BLOCKING, CLIMBING, CLIMBING, QUIET, WRONG]);
    log_of(random, &table, mood, length)
}

/// The longest log, of the longest table, with much blocking.
pub fn longest_log(random: &mut Random) -> Vec<u8> {
    let table = longest_table(random);
    log_of(random, &table, BLOCKING, MOST_BYTES)
}

/// A table's bytes and events behind it, about so many bytes in all; exactly so many where that is as long as is replayed.
fn log_of(random: &mut Random, table: &Table, mood: Mood, length: usize) -> Vec<u8> {
    let mut bytes = table_bytes(table);
    let mut station = Station::new(table.clone());
    while bytes.len() + 40 < length {
        let event = next_event(random, &station, mood);
        let _ = station.step(event);
        bytes.extend(event_bytes(event));
    }
    if length >= MOST_BYTES {
        fill(random, &mut bytes, length);
    }
    bytes
}

/// Events of four and of seven bytes up to exactly a length.
fn fill(random: &mut Random, bytes: &mut Vec<u8>, length: usize) {
    while bytes.len() < length {
        let job = random.below(4) as u8;
        let event =
            if (length - bytes.len()).is_multiple_of(4) { Event::Arrive { job } } else { Event::Release { job, resource: 0, amount: 1 } };
        bytes.extend(event_bytes(event));
    }
}

/// An event that suits the state, or one that is refused.
pub fn next_event(random: &mut Random, station: &Station, mood: Mood) -> Event {
    let Mood { wrong, arrive, acquire, release, release_all, finish, climbs } = mood;
    for _ in 0..8 {
        let mut roll = random.below(wrong + arrive + acquire + release + release_all + finish);
        let mut falls_in = |width: usize| {
            let within = roll < width;
            roll = roll.wrapping_sub(width);
            within
        };
        let tried = if falls_in(wrong) {
            Some(wrong_event(random, station))
        } else if falls_in(arrive) {
            arrival(random, station, climbs)
        } else if falls_in(acquire) {
            acquisition(random, station)
        } else if falls_in(release) {
            giving_back(random, station)
        } else if falls_in(release_all) {
            let holds = station.stack.last().is_some_and(|top| top.held.iter().any(|&held| held > 0));
            station.running().filter(|_| holds).map(|job| Event::ReleaseAll { job })
        } else {
            leaving(random, station)
        };
        if let Some(event) = tried {
            return event;
        }
    }
    wrong_event(random, station)
}

/// A job that is neither started nor waiting arrives.
fn arrival(random: &mut Random, station: &Station, climbs: usize) -> Option<Event> {
    let is_idle = |job: &u8| !station.waiting.contains(job) && station.stack.iter().all(|started| started.job != *job);
    let idle: Vec<u8> = (0..station.table.jobs.len() as u8).filter(is_idle).collect();
    if idle.is_empty() {
        return None;
    }
    let any = random.of(&idle);
    if random.one_in(climbs) {
        return Some(Event::Arrive { job: any });
    }
    let ceiling = station.system_ceiling();
    let above = idle.iter().copied().filter(|&job| station.level(job) > ceiling);
    let job = above.min_by_key(|&job| station.level(job)).unwrap_or(any);
    Some(Event::Arrive { job })
}

/// The running job takes units within its need.
fn acquisition(random: &mut Random, station: &Station) -> Option<Event> {
    let top = station.stack.last()?;
    let needs = station.table.jobs[usize::from(top.job)].needs;
    let left: Vec<(u8, u16)> = (0..station.free.len())
        .map(|resource| (resource as u8, needs[resource] - top.held[resource]))
        .filter(|&(_, left)| left > 0)
        .collect();
    if left.is_empty() {
        return None;
    }
    let (resource, left) = random.of(&left);
    let amount = if random.one_in(2) { left } else { random.between(1, left.into()) as u16 };
    Some(Event::Acquire { job: top.job, resource, amount })
}

/// The running job gives back some of what it holds of a resource.
fn giving_back(random: &mut Random, station: &Station) -> Option<Event> {
    let top = station.stack.last()?;
    let held: Vec<(u8, u16)> = (0u8..).zip(top.held).filter(|&(_, held)| held > 0).collect();
    if held.is_empty() {
        return None;
    }
    let (resource, held) = random.of(&held);
    let amount = random.between(1, held.into()) as u16;
    Some(Event::Release { job: top.job, resource, amount })
}

/// The running job finishes, or gives everything back if it holds units.
fn leaving(random: &mut Random, station: &Station) -> Option<Event> {
    let top = station.stack.last()?;
    if top.held.iter().all(|&held| held == 0) {
        return Some(Event::Finish { job: top.job });
    }
    if random.one_in(2) { Some(Event::ReleaseAll { job: top.job }) } else { giving_back(random, station) }
}

/// An event that is mostly refused, by each number in turn.
fn wrong_event(random: &mut Random, station: &Station) -> Event {
    let jobs = station.table.jobs.len();
    let unlisted = random.of(&[jobs, jobs + 1, 128, 255]) as u8;
    let any = random.below(jobs) as u8;
    let running = station.running().unwrap_or(any);
    let resources = station.free.len();
    let unlisted_resource = random.of(&[resources, resources + 1, 8, 255]) as u8;
    let resource = random.below(resources.max(1)) as u8;
    let held = station.stack.last().map_or(0, |top| top.held[usize::from(resource)]);
    let need = station.table.jobs[usize::from(running)].needs[usize::from(resource)];
    let left = need.saturating_sub(held);
    let amount = random.of(&[0, 1, held, left, left + 1, need + 1, 0xffff, 0xffff - held, 256]);
    let started = station.stack.first().map_or(any, |bottom| bottom.job);
    let waiting = station.waiting.last().copied().unwrap_or(started);
    let job = random.of(&[running, running, running, any, unlisted, started, waiting]);
    match random.below(12) {
        0 => Event::Arrive { job },
        1 => Event::Finish { job },
        2 => Event::ReleaseAll { job },
        3 | 4 => Event::Acquire { job, resource, amount },
        5 | 6 => Event::Release { job, resource, amount },
        7 => Event::Acquire { job, resource: unlisted_resource, amount },
        8 => Event::Release { job, resource: unlisted_resource, amount },
        9 => Event::Acquire { job: running, resource, amount: left + 1 },
        10 => Event::Release { job: running, resource, amount: held + 1 },
        _ => Event::Arrive { job: waiting },
    }
}
