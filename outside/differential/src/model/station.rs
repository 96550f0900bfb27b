//! The scheduler: started and waiting jobs, and what events do to them.

use super::event::Event;
use super::table::{MAX_RESOURCES, Table};
use std::ops::Range;

/// A started, unfinished job, and what it holds of each resource.
#[derive(Clone, Debug, PartialEq, Eq)]
pub struct Started {
    pub job: u8,
    pub held: [u16; MAX_RESOURCES],
}

#[derive(Clone, Debug, PartialEq, Eq)]
pub struct Station {
    pub table: Table,
    /// The top, which is the running job, comes last.
    pub stack: Vec<Started>,
    /// By falling level, equal levels by arrival: the head comes first.
    pub waiting: Vec<u8>,
    /// Of each resource: its units less all units held.
    pub free: Vec<u16>,
    /// The system ceiling, kept beside what it follows from.
    ceiling: u8,
}

impl Station {
    /// Nothing started, waiting or held.
    pub fn new(table: Table) -> Station {
        let free = table.units.clone();
        Station::at(table, Vec::new(), Vec::new(), free)
    }

    /// Any state.
    pub fn at(table: Table, stack: Vec<Started>, waiting: Vec<u8>, free: Vec<u16>) -> Station {
        let mut station = Station { table, stack, waiting, free, ceiling: 0 };
        station.ceiling = station.ceiling_now();
        station
    }

    pub fn running(&self) -> Option<u8> {
        self.stack.last().map(|top| top.job)
    }

    pub fn level(&self, job: u8) -> u8 {
        self.table.jobs[usize::from(job)].level
    }

    /// The largest level among the jobs whose need is greater than the free units, or 0 if there is none.
    pub fn ceiling(&self, resource: usize) -> u8 {
        let free = self.free[resource];
        let raising = self.table.jobs.iter().filter(|job| job.needs[resource] > free);
        raising.map(|job| job.level).max().unwrap_or(0)
    }

    pub fn system_ceiling(&self) -> u8 {
        self.ceiling
    }

    /// The largest of all resource ceilings and of the running job's level, in one pass over the jobs.
    fn ceiling_now(&self) -> u8 {
        let mut ceiling = self.running().map_or(0, |job| self.level(job));
        for job in &self.table.jobs {
            let raises = || job.needs.iter().zip(&self.free).any(|(need, free)| need > free);
            if job.level > ceiling && raises() {
                ceiling = job.level;
            }
        }
        ceiling
    }

    /// Bit j is set if job j waits.
    pub fn waiting_word(&self) -> u32 {
        self.waiting.iter().fold(0, |word, &job| word | 1 << job)
    }

    /// The bytes of the running job's frame in the stack memory; empty if nothing runs.
    pub fn frame(&self) -> Range<usize> {
        let mut frame = 0..0;
        for started in &self.stack {
            let length = self.table.jobs[usize::from(started.job)].frame;
            frame = frame.end..frame.end + usize::from(length);
        }
        frame
    }

    /// Applies an event, and clears the frame of a job that it starts: the job started, or the refusal's number.
    pub fn apply(&mut self, event: Event, memory: &mut [u8]) -> Result<Option<u8>, u8> {
        if memory.len() != usize::from(self.table.stack_size) {
            return Err(11);
        }
        let started = self.step(event)?;
        if started.is_some() {
            memory[self.frame()].fill(0);
        }
        Ok(started)
    }

    /// Applies an event where no stack memory is lent.
    pub fn step(&mut self, event: Event) -> Result<Option<u8>, u8> {
        match event {
            Event::Arrive { job } => self.arrive(job)?,
            Event::Release { job, resource, amount } => self.release(job, resource, amount)?,
            Event::Finish { job } => self.finish(job)?,
            Event::ReleaseAll { job } => self.release_all(job)?,
            Event::Acquire { job, resource, amount } => {
                self.acquire(job, resource, amount)?;
                self.ceiling = self.ceiling_now();
                return Ok(None);
            }
        }
        self.ceiling = self.ceiling_now();
        Ok(self.start_test())
    }

    /// The head starts exactly when its level is greater than the system ceiling.
    fn start_test(&mut self) -> Option<u8> {
        let head = *self.waiting.first()?;
        if self.level(head) <= self.ceiling {
            return None;
        }
        self.waiting.remove(0);
        self.stack.push(Started { job: head, held: [0; MAX_RESOURCES] });
        self.ceiling = self.ceiling_now();
        Some(head)
    }

    fn arrive(&mut self, job: u8) -> Result<(), u8> {
        self.listed(job)?;
        if self.waiting.contains(&job) || self.stack.iter().any(|started| started.job == job) {
            return Err(13);
        }
        let level = self.level(job);
        let behind = self.waiting.iter().position(|&other| self.level(other) < level);
        self.waiting.insert(behind.unwrap_or(self.waiting.len()), job);
        Ok(())
    }

    fn acquire(&mut self, job: u8, resource: u8, amount: u16) -> Result<(), u8> {
        self.runs(job)?;
        let resource = self.resource(resource, amount)?;
        let top = self.stack.last_mut().ok_or(14)?;
        let need = self.table.jobs[usize::from(job)].needs[resource];
        if u32::from(top.held[resource]) + u32::from(amount) > u32::from(need) {
            return Err(17);
        }
        if amount > self.free[resource] {
            return Err(18);
        }
        top.held[resource] += amount;
        self.free[resource] -= amount;
        Ok(())
    }

    fn release(&mut self, job: u8, resource: u8, amount: u16) -> Result<(), u8> {
        self.runs(job)?;
        let resource = self.resource(resource, amount)?;
        let top = self.stack.last_mut().ok_or(14)?;
        if amount > top.held[resource] {
            return Err(19);
        }
        top.held[resource] -= amount;
        self.free[resource] += amount;
        Ok(())
    }

    fn finish(&mut self, job: u8) -> Result<(), u8> {
        self.runs(job)?;
        if self.holds_any() {
            return Err(20);
        }
        self.stack.pop();
        Ok(())
    }

    fn release_all(&mut self, job: u8) -> Result<(), u8> {
        self.runs(job)?;
        if !self.holds_any() {
            return Err(21);
        }
        let top = self.stack.last_mut().ok_or(14)?;
        for (free, held) in self.free.iter_mut().zip(&mut top.held) {
            *free += *held;
            *held = 0;
        }
        Ok(())
    }

    /// 12 if there is no such job.
    fn listed(&self, job: u8) -> Result<(), u8> {
        if usize::from(job) < self.table.jobs.len() { Ok(()) } else { Err(12) }
    }

    /// 12 if there is no such job, 14 if it is not the running one.
    fn runs(&self, job: u8) -> Result<(), u8> {
        self.listed(job)?;
        if self.running() == Some(job) { Ok(()) } else { Err(14) }
    }

    /// 15 if there is no such resource, 16 if the amount is 0.
    fn resource(&self, resource: u8, amount: u16) -> Result<usize, u8> {
        let resource = usize::from(resource);
        if resource >= self.free.len() {
            return Err(15);
        }
        if amount == 0 { Err(16) } else { Ok(resource) }
    }

    /// Whether the running job holds any unit.
    fn holds_any(&self) -> bool {
        self.stack.last().is_some_and(|top| top.held.iter().any(|&held| held > 0))
    }
}
