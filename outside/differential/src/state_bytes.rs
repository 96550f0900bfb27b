//! A state as bytes, as the library takes and hands it out: its fields in order, numbers with the high byte first.

use crate::model::{Job, MAX_JOBS, MAX_RESOURCES, MAX_UNITS, Started, Station, Table};

pub use urzalinda::STATE_BYTES;

/// The bytes of a state.
pub fn state_bytes(station: &Station) -> Vec<u8> {
    let mut bytes = Vec::with_capacity(STATE_BYTES);
    let table = &station.table;
    put(&mut bytes, table.stack_size);
    for resource in 0..MAX_RESOURCES {
        put(&mut bytes, table.units.get(resource).copied().unwrap_or(0));
    }
    bytes.push(table.units.len() as u8);
    for job in &table.jobs {
        bytes.push(job.level);
        put(&mut bytes, job.frame);
        job.needs.iter().for_each(|&need| put(&mut bytes, need));
    }
    bytes.resize(19 + MAX_JOBS * 19, 0);
    bytes.push(table.jobs.len() as u8);
    let stack = bytes.len();
    for started in &station.stack {
        bytes.push(started.job);
        started.held.iter().for_each(|&held| put(&mut bytes, held));
    }
    bytes.resize(stack + MAX_JOBS * 17, 0);
    bytes.push(station.stack.len() as u8);
    let waiting = bytes.len();
    bytes.extend_from_slice(&station.waiting);
    bytes.resize(waiting + MAX_JOBS, 0);
    bytes.push(station.waiting.len() as u8);
    bytes
}

fn put(bytes: &mut Vec<u8>, number: u16) {
    bytes.extend_from_slice(&number.to_be_bytes());
}

/// The state that some bytes say; None if it is not well formed.
pub fn state_of(bytes: &[u8]) -> Option<Station> {
    if bytes.len() != STATE_BYTES {
        return None;
    }
    let mut rest = Rest(bytes);
    let mut table = Table { stack_size: rest.number(), units: (0..MAX_RESOURCES).map(|_| rest.number()).collect(), jobs: Vec::new() };
    let resources = usize::from(rest.byte());
    let mut jobs: Vec<Job> = (0..MAX_JOBS).map(|_| rest.job()).collect();
    let job_count = usize::from(rest.byte());
    let mut stack: Vec<Started> = (0..MAX_JOBS).map(|_| rest.started()).collect();
    let depth = usize::from(rest.byte());
    let mut waiting: Vec<u8> = (0..MAX_JOBS).map(|_| rest.byte()).collect();
    let waiting_count = usize::from(rest.byte());
    cut(&mut table.units, resources, |&units| units == 0)?;
    cut(&mut jobs, job_count, |job| job.level == 0 && job.frame == 0 && job.needs == [0; 8])?;
    cut(&mut stack, depth, |started| started.job == 0 && started.held == [0; 8])?;
    cut(&mut waiting, waiting_count, |&job| job == 0)?;
    table.jobs = jobs;
    let free = free(&table, &stack)?;
    if !is_writable(&table) || !stands_well(&table, &stack, &waiting) {
        return None;
    }
    Some(Station::at(table, stack, waiting, free))
}

/// Cuts a list to its count; None if the count is out of range, or an entry past it is not zero.
fn cut<T>(list: &mut Vec<T>, count: usize, is_zero: impl Fn(&T) -> bool) -> Option<()> {
    let past = list.get(count..)?;
    if !past.iter().all(is_zero) {
        return None;
    }
    list.truncate(count);
    Some(())
}

/// The free units of each resource; None if more are held than there are.
fn free(table: &Table, stack: &[Started]) -> Option<Vec<u16>> {
    let mut free = table.units.clone();
    for started in stack {
        for (free, held) in free.iter_mut().zip(started.held) {
            *free = free.checked_sub(held)?;
        }
    }
    Some(free)
}

/// Whether a table could be written without 2, 4 or 5.
fn is_writable(table: &Table) -> bool {
    let resources = table.units.len();
    let units = |resource: usize| table.units.get(resource).copied().unwrap_or(0);
    let is_good = |job: &Job| {
        let fits = |resource: usize| job.needs[resource] <= units(resource);
        job.level > 0 && job.frame > 0 && (0..MAX_RESOURCES).all(fits)
    };
    !table.jobs.is_empty()
        && table.stack_size > 0
        && (0..resources).all(|resource| (1..=MAX_UNITS).contains(&units(resource)))
        && table.jobs.iter().all(is_good)
        && table.worst_stack() <= u32::from(table.stack_size)
}

/// Whether started and waiting jobs are listed, each once, and stand in their order, and none holds more than its need.
fn stands_well(table: &Table, stack: &[Started], waiting: &[u8]) -> bool {
    let jobs = table.jobs.len();
    let mut seen = [false; MAX_JOBS];
    let active = stack.iter().map(|started| started.job).chain(waiting.iter().copied());
    for job in active {
        let job = usize::from(job);
        if job >= jobs || seen[job] {
            return false;
        }
        seen[job] = true;
    }
    let within = |started: &Started| {
        let needs = table.jobs[usize::from(started.job)].needs;
        started.held.iter().zip(needs).all(|(&held, need)| held <= need)
    };
    let level = |job: u8| table.jobs[usize::from(job)].level;
    let rises = |pair: &[Started]| level(pair[0].job) < level(pair[1].job);
    let falls = |pair: &[u8]| level(pair[0]) >= level(pair[1]);
    stack.iter().all(within) && stack.windows(2).all(rises) && waiting.windows(2).all(falls)
}

/// The bytes that are still to be taken apart.
struct Rest<'a>(&'a [u8]);

impl Rest<'_> {
    fn byte(&mut self) -> u8 {
        let byte = self.0[0];
        self.0 = &self.0[1..];
        byte
    }

    fn number(&mut self) -> u16 {
        u16::from_be_bytes([self.byte(), self.byte()])
    }

    fn numbers(&mut self) -> [u16; MAX_RESOURCES] {
        std::array::from_fn(|_| self.number())
    }

    fn job(&mut self) -> Job {
        Job { level: self.byte(), frame: self.number(), needs: self.numbers() }
    }

    fn started(&mut self) -> Started {
        Started { job: self.byte(), held: self.numbers() }
    }
}
