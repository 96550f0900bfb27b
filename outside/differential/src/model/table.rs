//! Tables: read from bytes and judged.

use super::field::{HEADER, Refused, number, read_field};

pub const MAX_JOBS: usize = 32;
pub const MAX_RESOURCES: usize = 8;
pub const MAX_UNITS: u16 = 1000;

const VERSION: u8 = 0x01;
const STACK_SIZE: u8 = 0x02;
const UNITS: u8 = 0x03;
const JOB: u8 = 0x04;
const END: u8 = 0x05;

#[derive(Clone, Debug, PartialEq, Eq)]
pub struct Job {
    pub level: u8,
    pub frame: u16,
    /// By resource; zero past the table's resources.
    pub needs: [u16; MAX_RESOURCES],
}

#[derive(Clone, Debug, PartialEq, Eq)]
pub struct Table {
    pub stack_size: u16,
    /// Of each resource.
    pub units: Vec<u16>,
    pub jobs: Vec<Job>,
}

impl Table {
    /// For each level in use the largest frame at that level, added up.
    pub fn worst_stack(&self) -> u32 {
        let mut largest = [0; 256];
        for job in &self.jobs {
            let frame = &mut largest[usize::from(job.level)];
            *frame = job.frame.max(*frame);
        }
        largest.iter().map(|&frame| u32::from(frame)).sum()
    }

    /// The length of a tag's value where so many fields have been read; None if the tag can't stand there.
    fn length_due(&self, fields: usize, tag: u8) -> Option<usize> {
        let stands = match tag {
            VERSION => fields == 0,
            STACK_SIZE => fields == 1,
            UNITS => fields >= 2 && self.jobs.is_empty() && self.units.len() < MAX_RESOURCES,
            JOB => fields >= 2 && self.jobs.len() < MAX_JOBS,
            END => !self.jobs.is_empty(),
            _ => false,
        };
        let length = match tag {
            VERSION => 1,
            STACK_SIZE | UNITS => 2,
            JOB => 3 + 2 * self.units.len(),
            _ => 0,
        };
        stands.then_some(length)
    }

    /// Takes in the value of a field; None if it is outside its range.
    fn take(&mut self, tag: u8, value: &[u8]) -> Option<()> {
        match tag {
            VERSION => (value[0] == 1).then_some(()),
            STACK_SIZE => {
                self.stack_size = number(value);
                (self.stack_size > 0).then_some(())
            }
            UNITS => {
                let units = number(value);
                self.units.push(units);
                (1..=MAX_UNITS).contains(&units).then_some(())
            }
            JOB => {
                self.jobs.push(self.job(value)?);
                Some(())
            }
            _ => Some(()),
        }
    }

    /// The job that a field's value says; None if a number of it is outside its range.
    fn job(&self, value: &[u8]) -> Option<Job> {
        let mut job = Job { level: value[0], frame: number(&value[1..3]), needs: [0; MAX_RESOURCES] };
        if job.level == 0 || job.frame == 0 {
            return None;
        }
        for (resource, &units) in self.units.iter().enumerate() {
            let need = number(&value[3 + 2 * resource..]);
            if need > units {
                return None;
            }
            job.needs[resource] = need;
        }
        Some(job)
    }
}

/// The table at the front of the input, and how many bytes it took.
pub fn read_table(input: &[u8]) -> Result<(Table, usize), Refused> {
    let mut table = Table { stack_size: 0, units: Vec::new(), jobs: Vec::new() };
    let mut place = 0;
    let mut fields = 0;
    loop {
        let (tag, value) = read_field(input, place, |tag| table.length_due(fields, tag))?;
        if table.take(tag, value).is_none() {
            return Err(Refused { number: 4, place });
        }
        place += HEADER + value.len();
        fields += 1;
        if tag == END {
            break;
        }
    }
    if table.worst_stack() > u32::from(table.stack_size) {
        return Err(Refused { number: 5, place });
    }
    Ok((table, place))
}
