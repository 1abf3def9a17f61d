//! Writes calls with their answers to a file, for the libraries of other processors: tools/targets/replay.c makes them there.

use std::env;
use std::fs::File;
use std::io::BufWriter;
use std::process::ExitCode;

use compare::fuzz::comparison::{Comparison, Difference};
use compare::fuzz::{cases, damage, sequence};
use compare::itron;
use compare::record::Recorder;

/// With as many calls as this a record has to have all that a comparison must see.
const ENOUGH_CALLS: u64 = 300_000;

/// Of so many calls one more is made with the ITRON calls or among them.
const ITRON_SHARE: u64 = 4;

const USAGE: &str = "usage: record FILE CALLS SEED";

fn arguments() -> Option<(String, u64, u64)> {
    let mut words = env::args().skip(1);
    let found = (words.next()?, words.next()?.parse().ok()?, words.next()?.parse().ok()?);
    words.next().is_none().then_some(found)
}

fn said(difference: Box<Difference>) -> String {
    difference.to_string()
}

type FileRecorder = Recorder<BufWriter<File>>;

/// The rules' cases, then random sequences with random damage after each, until there are enough calls.
fn record_classic(recorder: &mut FileRecorder, calls: u64, seed: u64) -> Result<(), String> {
    let first = cases::run(recorder)?;
    let mut comparison = Comparison::new(recorder);
    let mut seeds = seed..;
    // However few are wanted, one sequence is among them.
    while comparison.calls == 0 || comparison.calls + first < calls {
        let seed = seeds.next().ok_or("no seed is left")?;
        let machine = sequence::run(&mut comparison, seed).map_err(said)?;
        sequence::run_chains(&mut comparison, seed).map_err(said)?;
        damage::at_random(&mut comparison, seed, &machine).map_err(said)?;
    }
    let gaps = comparison.coverage.gaps();
    if comparison.calls >= ENOUGH_CALLS && !gaps.is_empty() {
        return Err(format!("the record misses: {}", gaps.join("; ")));
    }
    Ok(())
}

/// The ITRON calls: the paper's cases, the ends of signed numbers, then rounds of both kinds of calls with damaged lists and tables;
/// each code of each call.
fn record_itron(recorder: &mut FileRecorder, calls: u64, seed: u64) -> Result<(), String> {
    let first = itron::cases::run(recorder)?;
    let mut comparison = itron::comparison::Comparison::new(recorder);
    itron::limits::codes(&mut comparison)?;
    itron::limits::signed(&mut comparison)?;
    let mut seeds = seed..;
    while comparison.services + comparison.calls + first < calls {
        itron::round::round(&mut comparison, seeds.next().ok_or("no seed is left")?)?;
    }
    let gaps = recorder.seen.code_gaps();
    if !gaps.is_empty() {
        return Err(format!("the record misses: {}", gaps.join("; ")));
    }
    Ok(())
}

fn record(path: &str, calls: u64, seed: u64) -> Result<String, String> {
    let failed = |error| format!("{path}: {error}");
    let file = File::create(path).map_err(failed)?;
    let mut recorder = Recorder::new(BufWriter::new(file));
    record_classic(&mut recorder, calls, seed)?;
    record_itron(&mut recorder, calls / ITRON_SHARE, seed)?;
    let (calls, damaged) = recorder.finish().map_err(failed)?;
    Ok(format!("{calls} calls recorded from seed {seed}, {damaged} of them on damaged tables or lists"))
}

fn main() -> ExitCode {
    let Some((path, calls, seed)) = arguments() else {
        eprintln!("{USAGE}");
        return ExitCode::from(2);
    };
    match record(&path, calls, seed) {
        Ok(done) => {
            println!("{done}");
            ExitCode::SUCCESS
        }
        Err(failure) => {
            eprintln!("record: {failure}");
            ExitCode::FAILURE
        }
    }
}
