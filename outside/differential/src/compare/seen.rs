//! What occurred among the inputs that were tried, by the model.

use crate::model::{self, MOST_BYTES, Station};
use std::fmt;

#[derive(Default)]
pub struct Seen {
    too_long: u64,
    /// By refusal number; 0 counts those that were read.
    tables: [u64; 22],
    readings: [u64; 22],
    events: [u64; 22],
    starts: u64,
    deepest: usize,
    most_waiting: usize,
}

impl Seen {
    /// Takes in what an input's replay comes to.
    pub fn take(&mut self, input: &[u8]) {
        if input.len() > MOST_BYTES {
            self.too_long += 1;
            return;
        }
        match model::read_table(input) {
            Ok((table, start)) => {
                self.tables[0] += 1;
                self.events_from(input, start, Station::new(table));
            }
            Err(refused) => self.tables[usize::from(refused.number)] += 1,
        }
    }

    fn events_from(&mut self, input: &[u8], start: usize, mut station: Station) {
        let mut place = start;
        while place < input.len() {
            let (event, after) = match model::read_event(input, place) {
                Ok(read) => read,
                Err(refused) => return self.readings[usize::from(refused.number)] += 1,
            };
            match station.step(event) {
                Ok(started) => {
                    self.events[0] += 1;
                    self.starts += u64::from(started.is_some());
                }
                Err(refusal) => self.events[usize::from(refusal)] += 1,
            }
            self.deepest = self.deepest.max(station.stack.len());
            self.most_waiting = self.most_waiting.max(station.waiting.len());
            place = after;
        }
    }
}

impl fmt::Display for Seen {
    fn fmt(&self, out: &mut fmt::Formatter<'_>) -> fmt::Result {
        let refused = |counts: &[u64; 22]| -> String {
            let some = counts.iter().enumerate().skip(1).filter(|&(_, &count)| count > 0);
            some.map(|(number, count)| format!(" {number}:{count}")).collect()
        };
        writeln!(out, "tables read {}, refused{}; inputs too long {}", self.tables[0], refused(&self.tables), self.too_long)?;
        writeln!(out, "events accepted {}, refused{}; logs cut short{}", self.events[0], refused(&self.events), refused(&self.readings))?;
        write!(out, "starts {}, deepest stack {}, most waiting {}", self.starts, self.deepest, self.most_waiting)
    }
}
