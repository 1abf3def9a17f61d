//! Compares the library with this project's own manager, from a seed and within a time.

use std::env;
use std::process::ExitCode;
use std::time::{Duration, Instant};

use compare::ffi::Library;
use compare::fuzz::comparison::{Comparison, Difference};
use compare::fuzz::{cases, damage, sequence};

/// Sequences that every run makes, so that all that has to occur does.
const LEAST_SEQUENCES: u64 = 600;

const USAGE: &str = "usage: compare [--seconds SECONDS] [--seed SEED] [--trace]";

struct Settings {
    seconds: u64,
    seed: u64,
    trace: bool,
}

fn settings() -> Option<Settings> {
    let mut settings = Settings { seconds: 50, seed: 1, trace: false };
    let mut arguments = env::args().skip(1);
    while let Some(name) = arguments.next() {
        let mut number = || arguments.next()?.parse().ok();
        match name.as_str() {
            "--seconds" => settings.seconds = number()?,
            "--seed" => settings.seed = number()?,
            "--trace" => settings.trace = true,
            _ => return None,
        }
    }
    Some(settings)
}

/// The sweeps that every run makes whole, then random sequences and damage until the time is over.
fn run(comparison: &mut Comparison, settings: &Settings) -> Result<u64, Box<Difference>> {
    let begun = Instant::now();
    let budget = Duration::from_secs(settings.seconds);
    let mut sequences = 0;
    // The first sequences come before the long sweeps, since they find most differences at once.
    while sequences < 50 {
        random_part(comparison, settings.seed.wrapping_add(sequences))?;
        sequences += 1;
    }
    damage::every_length(comparison)?;
    damage::every_word(comparison)?;
    println!("sweeps over lengths and words: {:.1} s", begun.elapsed().as_secs_f64());
    while sequences < LEAST_SEQUENCES || begun.elapsed() < budget {
        random_part(comparison, settings.seed.wrapping_add(sequences))?;
        sequences += 1;
    }
    Ok(sequences)
}

fn random_part(comparison: &mut Comparison, seed: u64) -> Result<(), Box<Difference>> {
    let machine = sequence::run(comparison, seed)?;
    sequence::run_grants(comparison, seed, &machine)?;
    sequence::run_chains(comparison, seed)?;
    damage::at_random(comparison, seed, &machine)
}

fn main() -> ExitCode {
    let Some(settings) = settings() else {
        eprintln!("{USAGE}");
        return ExitCode::from(2);
    };
    if let Err(failure) = cases::run(&mut Library) {
        println!("{failure}");
        return ExitCode::FAILURE;
    }
    println!("the rules' cases: as docs/RULES.md says");
    let mut library = Library;
    let mut comparison = Comparison::new(&mut library);
    comparison.trace = settings.trace;
    match run(&mut comparison, &settings) {
        Err(difference) => {
            println!("{difference}");
            println!("{} calls compared, the last one differs", comparison.calls);
            ExitCode::FAILURE
        }
        Ok(sequences) => finish(&comparison, settings.seed, sequences),
    }
}

/// A run that found no difference still fails if it missed something it had to see.
fn finish(comparison: &Comparison, seed: u64, sequences: u64) -> ExitCode {
    print!("{}", comparison.coverage.table());
    let mut gaps = comparison.coverage.gaps();
    gaps.extend(comparison.coverage.histories.gaps());
    for gap in &gaps {
        println!("gap: {gap}");
    }
    println!(
        "{} calls compared, {sequences} sequences from seed {seed}, no difference",
        comparison.calls
    );
    if gaps.is_empty() {
        ExitCode::SUCCESS
    } else {
        ExitCode::FAILURE
    }
}
