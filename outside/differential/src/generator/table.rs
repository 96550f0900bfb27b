//! Tables of every shape.

use super::random::Random;
use crate::model::{Job, MAX_JOBS, MAX_RESOURCES, MAX_UNITS, Table};

/// How the levels of a table's jobs are chosen.
#[derive(Clone, Copy)]
enum Levels {
    Equal,
    Rising,
    Falling,
    Few,
    Any,
}

/// How the frames are chosen.
#[derive(Clone, Copy)]
enum Frames {
    Small,
    Fitting,
    Any,
}

/// A table. Most could be written; now and then one has a number just outside its range, or a stack that is too small.
pub fn table(random: &mut Random) -> Table {
    let resources = [0, 1, 1, 2, 3, MAX_RESOURCES, random.below(MAX_RESOURCES + 1)];
    let jobs = [1, 2, 3, 5, 8, MAX_JOBS, random.between(1, MAX_JOBS)];
    let (resources, jobs) = (random.of(&resources), random.of(&jobs));
    let mut made = shaped(random, resources, jobs);
    let worst = made.worst_stack();
    let spare = random.of(&[0, 0, 1, 100, u32::from(u16::MAX)]);
    made.stack_size = (worst + spare).min(u32::from(u16::MAX)) as u16;
    if random.one_in(40) {
        made.stack_size = made.stack_size.saturating_sub(1);
    }
    if random.one_in(40) {
        spoil(random, &mut made);
    }
    made
}

/// All jobs, at rising levels, with few needs: the stack can get as deep as there are jobs.
pub fn ladder(random: &mut Random) -> Table {
    let mut made = longest_table(random);
    for job in &mut made.jobs {
        job.needs = std::array::from_fn(|_| u16::from(random.one_in(30)));
    }
    made
}

/// A table of the longest form: all jobs and resources.
pub fn longest_table(random: &mut Random) -> Table {
    let mut made = Table { stack_size: u16::MAX, units: vec![8; MAX_RESOURCES], jobs: Vec::new() };
    for number in 0..MAX_JOBS {
        let needs = std::array::from_fn(|_| random.below(9) as u16);
        made.jobs.push(Job { level: 1 + 3 * number as u8, frame: 64, needs });
    }
    made
}

fn shaped(random: &mut Random, resources: usize, jobs: usize) -> Table {
    let most = random.of(&[1, 2, 4, 10, 255, 256, MAX_UNITS]);
    let units = (0..resources).map(|_| random.between(1, usize::from(most)) as u16).collect();
    let mut made = Table { stack_size: 0, units, jobs: Vec::new() };
    let levels = random.of(&[Levels::Equal, Levels::Rising, Levels::Rising, Levels::Falling, Levels::Few, Levels::Any]);
    let frames = random.of(&[Frames::Small, Frames::Small, Frames::Fitting, Frames::Fitting, Frames::Any]);
    let sparse = random.one_in(2);
    for number in 0..jobs {
        let level = level(random, levels, number);
        let frame = match frames {
            Frames::Small => random.between(1, 40),
            Frames::Fitting => random.between(1, usize::from(u16::MAX) / jobs),
            Frames::Any => random.between(1, usize::from(u16::MAX)),
        };
        let needs = needs(random, &made.units, sparse);
        made.jobs.push(Job { level, frame: frame as u16, needs });
    }
    made
}

fn level(random: &mut Random, levels: Levels, number: usize) -> u8 {
    let level = match levels {
        Levels::Equal => 7,
        Levels::Rising => 3 + 7 * number + random.below(7),
        Levels::Falling => 255 - 7 * number - random.below(7),
        Levels::Few => random.of(&[1, 2, 3, 255]),
        Levels::Any => random.between(1, 255),
    };
    level as u8
}

fn needs(random: &mut Random, units: &[u16], sparse: bool) -> [u16; MAX_RESOURCES] {
    let mut needs = [0; MAX_RESOURCES];
    for (need, &units) in needs.iter_mut().zip(units) {
        *need = match random.below(6) {
            0 => units,
            1 => 0,
            2 => 1,
            _ if sparse => 0,
            _ => random.below(usize::from(units) + 1) as u16,
        };
    }
    needs
}

/// Puts a number just outside its range.
fn spoil(random: &mut Random, made: &mut Table) {
    let job = random.below(made.jobs.len());
    let resource = if made.units.is_empty() { None } else { Some(random.below(made.units.len())) };
    match (random.below(6), resource) {
        (0, _) => made.jobs[job].level = 0,
        (1, _) => made.jobs[job].frame = 0,
        (2, Some(resource)) => made.units[resource] = 0,
        (3, Some(resource)) => made.units[resource] = MAX_UNITS + 1,
        (4, Some(resource)) => made.jobs[job].needs[resource] = made.units[resource] + 1,
        _ => made.stack_size = 0,
    }
}
