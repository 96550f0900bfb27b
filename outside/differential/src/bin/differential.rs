//! Runs inputs from a seed through the model and through the proved code, and compares the outputs byte for byte.

use differential::compare::{Difference, Seen, hand_made_differs, hex, library_differs, program_differs, shortened, steps_differ};
use differential::generator::{self, Kind, Random};
use std::env;
use std::path::{Path, PathBuf};
use std::process::ExitCode;
use std::time::Instant;

const USAGE: &str = "differential [--seed N] [--inputs N] [--differences N] [--program PATH] [--program-inputs N]";

/// At most so many events of one input are applied one at a time.
const STEPS: usize = 300;

struct Options {
    seed: u64,
    inputs: u64,
    /// Each part ends once it has found so many.
    differences: u64,
    program: Option<PathBuf>,
    program_inputs: u64,
}

fn options() -> Result<Options, String> {
    let mut options = Options { seed: 1, inputs: 100_000, differences: 5, program: None, program_inputs: 3_000 };
    let mut words = env::args().skip(1);
    while let Some(word) = words.next() {
        let value = words.next().ok_or(USAGE)?;
        let number = || value.parse::<u64>().map_err(|_| USAGE.to_string());
        match word.as_str() {
            "--seed" => options.seed = number()?,
            "--inputs" => options.inputs = number()?,
            "--differences" => options.differences = number()?,
            "--program" => options.program = Some(value.into()),
            "--program-inputs" => options.program_inputs = number()?,
            _ => return Err(USAGE.to_string()),
        }
    }
    Ok(options)
}

fn main() -> ExitCode {
    let options = match options() {
        Ok(options) => options,
        Err(error) => {
            eprintln!("{error}");
            return ExitCode::from(2);
        }
    };
    report_inputs(&options);
    let mut found = through_library(&options) + step_by_step(&options);
    if let Some(program) = &options.program {
        match through_program(&options, program) {
            Ok(differences) => found += differences,
            Err(error) => {
                eprintln!("{}: {error}", program.display());
                return ExitCode::from(2);
            }
        }
    }
    if found == 0 { ExitCode::SUCCESS } else { ExitCode::FAILURE }
}

/// What the inputs are, and what occurs in them.
fn report_inputs(options: &Options) {
    let mut seen = Seen::default();
    let mut kinds = [0; 3];
    let mut bytes = 0;
    for index in 0..options.inputs {
        let (kind, input) = generator::input(options.seed, index);
        kinds[kind as usize] += 1;
        bytes += input.len();
        seen.take(&input);
    }
    let of = |kind: Kind| kinds[kind as usize];
    println!(
        "seed {}: {} inputs, {bytes} bytes (valid {}, damaged {}, random {})",
        options.seed,
        options.inputs,
        of(Kind::Valid),
        of(Kind::Damaged),
        of(Kind::Random)
    );
    println!("{seen}");
}

/// Replays through the static library: the number of differences.
fn through_library(options: &Options) -> u64 {
    let begun = Instant::now();
    let (mut tried, mut found) = (0, 0);
    while tried < options.inputs && found < options.differences {
        let (_, input) = generator::input(options.seed, tried);
        if let Err(difference) = library_differs(&input) {
            found += 1;
            print(options.seed, tried, &shortened(*difference, library_differs));
        }
        tried += 1;
    }
    conclude("replay through the library", tried, found, begun);
    found
}

/// Events one at a time, and hand-made states, through the static library.
fn step_by_step(options: &Options) -> u64 {
    let begun = Instant::now();
    let (mut tried, mut found) = (0, 0);
    let (mut events, mut well_formed, mut refused) = (0, 0, 0);
    while tried < options.inputs && found < options.differences {
        let (_, input) = generator::input(options.seed, tried);
        let random = || Random::new(options.seed ^ 0x5eed, tried);
        let again = |bytes: &[u8]| steps_differ(bytes, &mut random(), STEPS).map(|_| ());
        let steps = steps_differ(&input, &mut random(), STEPS).map(|applied| events += applied);
        let steps = steps.map_err(|difference| Box::new(shortened(*difference, again)));
        let hand_made = hand_made_differs(&input, &mut random()).map(|made| match made {
            Some(true) => well_formed += 1,
            Some(false) => refused += 1,
            None => {}
        });
        for difference in [steps, hand_made].into_iter().filter_map(Result::err) {
            found += 1;
            print(options.seed, tried, &difference);
        }
        tried += 1;
    }
    conclude("events one at a time", tried, found, begun);
    println!("  events {events}; hand-made states well formed {well_formed}, refused {refused}");
    found
}

/// Replays through the program, as a process for each input.
fn through_program(options: &Options, program: &Path) -> std::io::Result<u64> {
    let begun = Instant::now();
    let (mut tried, mut found) = (0, 0);
    let inputs = options.inputs.min(options.program_inputs);
    while tried < inputs && found < options.differences {
        let (_, input) = generator::input(options.seed, tried);
        if let Err(difference) = program_differs(program, &input)? {
            found += 1;
            let again = |bytes: &[u8]| program_differs(program, bytes).unwrap_or(Ok(()));
            print(options.seed, tried, &shortened(*difference, again));
        }
        tried += 1;
    }
    conclude("replay through the program", tried, found, begun);
    Ok(found)
}

fn print(seed: u64, index: u64, difference: &Difference) {
    println!("DIFFERENCE at input {index} of seed {seed}: {}", difference.what);
    println!("  input  {}", hex(&difference.input));
    println!("  model  {}", difference.model);
    println!("  proved {}", difference.proved);
}

fn conclude(what: &str, inputs: u64, found: u64, begun: Instant) {
    println!("{what}: inputs {inputs}, differences {found}, seconds {:.1}", begun.elapsed().as_secs_f64());
}
