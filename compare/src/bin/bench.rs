//! Time per call of the library and of this project's in-place manager, on the same sequences; and of the
//! library's state files and of its idents, beside its test for 25 on the same tables.

use std::hint::black_box;
use std::process::ExitCode;
use std::time::Instant;

use compare::call::{Answer, Call, Manager};
use compare::ffi::{self, Library};
use compare::fuzz::workload::{self, Workload};
use compare::inplace::agreement::{Tested, Untested};
use compare::layout::{set_word, slot_at, LENGTH, NAME};
use compare::state::LONGEST;
use compare::status::{INVALID_NAME, MOST_SLOTS, SUCCESSFUL};

/// Few enough that most replays of a busy machine are not interrupted.
const CALLS: usize = 2_000;
const ROUNDS: usize = 200;

/// What one replay took, and all its answers mixed into one number.
struct Replay {
    nanoseconds: f64,
    answers: u64,
}

// Each call stays a call for all three, as it is for firmware.
#[inline(never)]
fn one_call<M: Manager>(manager: &mut M, tables: &mut [u8], call: &Call) -> Answer {
    manager.call(tables, call)
}

/// Replays the calls in memory that all three managers are lent in turn.
fn replay<M: Manager>(manager: &mut M, workload: &Workload, tables: &mut [u8]) -> Replay {
    tables.copy_from_slice(&workload.tables);
    let mut answers = 0u64;
    let begun = Instant::now();
    for call in &workload.calls {
        let Answer { status, value, next } = one_call(manager, tables, call);
        let answer = u64::from(status) << 48 ^ u64::from(value) << 8 ^ u64::from(next);
        answers = answers.rotate_left(7) ^ answer;
    }
    let nanoseconds = begun.elapsed().as_nanos() as f64 / workload.calls.len() as f64;
    Replay { nanoseconds, answers }
}

/// The best times of library, tested and untested Rust, or nothing if their answers differ.
fn measure(workload: &Workload) -> Option<[f64; 3]> {
    let mut best = [f64::INFINITY; 3];
    let mut tables = workload.tables.clone();
    for _ in 0..ROUNDS {
        // One after the other in each round, so that a busy machine slows all three.
        let replays = [
            replay(&mut Library, workload, &mut tables),
            replay(&mut Tested, workload, &mut tables),
            replay(&mut Untested, workload, &mut tables),
        ];
        if replays.iter().any(|replay| replay.answers != replays[1].answers) {
            return None;
        }
        for (best, replay) in best.iter_mut().zip(&replays) {
            *best = best.min(replay.nanoseconds);
        }
    }
    Some(best)
}

/// Nanoseconds of a call, or nothing if an answer is not the one wanted.
fn timed(wanted: Answer, mut call: impl FnMut() -> Answer) -> Option<f64> {
    let mut wrong = 0u32;
    let begun = Instant::now();
    for _ in 0..CALLS {
        wrong += u32::from(call() != wanted);
    }
    let nanoseconds = begun.elapsed().as_nanos() as f64 / CALLS as f64;
    (wrong == 0).then_some(nanoseconds)
}

#[inline(never)]
fn clear(tables: &mut [u8]) {
    tables.fill(0);
    black_box(tables);
}

/// The best times of the test for 25 alone, a save and a load, or nothing if an answer is wrong.
fn measure_state(tables: &[u8]) -> Option<[f64; 3]> {
    // An ident of name 0 is refused right after the test.
    let tested = ffi::ident(tables, 0);
    let mut file = vec![0; LONGEST];
    let saved = ffi::save(tables, &mut file);
    file.truncate(saved.value as usize);
    let mut loaded = vec![0; LENGTH];
    let started = ffi::load(&mut loaded, &file);
    let statuses = [tested.status, saved.status, started.status];
    if statuses != [INVALID_NAME, SUCCESSFUL, SUCCESSFUL] || loaded != tables {
        return None;
    }
    let mut best = [f64::INFINITY; 4];
    for _ in 0..ROUNDS {
        let loads = timed(started, || {
            clear(&mut loaded);
            ffi::load(&mut loaded, &file)
        })?;
        let clears = timed(started, || {
            clear(&mut loaded);
            started
        })?;
        let saves = timed(saved, || ffi::save(tables, &mut file))?;
        let tests = timed(tested, || ffi::ident(tables, 0))?;
        for (best, time) in best.iter_mut().zip([tests, saves, loads, clears]) {
            *best = best.min(time);
        }
    }
    let [tests, saves, loads, clears] = best;
    Some([tests, saves, loads - clears])
}

/// The table of state files; false if an answer is wrong.
fn show_state() -> bool {
    println!();
    println!("state files, nanoseconds per call, {CALLS} calls, best of {ROUNDS}, goal at most 2.0 of the test");
    println!("for 25; the tables are cleared before each load, which is measured alone and taken off");
    println!(
        "{:<34} {:>9} {:>9} {:>9} {:>9} {:>9}",
        "", "test 25", "save", "load", "save/25", "load/25"
    );
    let Some([test, save, load]) = measure_state(&workload::queues()) else {
        println!("state files: the answers are wrong; run compare_state");
        return false;
    };
    println!(
        "{:<34} {test:>9.1} {save:>9.1} {load:>9.1} {:>9.2} {:>9.2}",
        "32 tasks, 64 live slots, queues",
        save / test,
        load / test
    );
    true
}

/// The best times of an ident whose match is in the last slot, by both functions, and of one of name 0.
fn measure_ident(tables: &mut [u8], name: u32) -> Option<[f64; 3]> {
    let (tested, none) = ffi::ident_looked(tables, 0);
    let (found, all) = ffi::ident_looked(tables, name);
    let given = [tested.status, none, found.status, all];
    if given != [INVALID_NAME, 0, SUCCESSFUL, MOST_SLOTS as u32] {
        return None;
    }
    let mut best = [f64::INFINITY; 3];
    for _ in 0..ROUNDS {
        let tests = timed(tested, || ffi::ident(tables, 0))?;
        let idents = timed(found, || ffi::ident(tables, name))?;
        let counted = timed(found, || ffi::ident_looked(tables, name).0)?;
        for (best, time) in best.iter_mut().zip([tests, idents, counted]) {
            *best = best.min(time);
        }
    }
    Some(best)
}

/// The table of idents; false if an answer is wrong.
fn show_ident() -> bool {
    println!();
    println!(
        "idents, nanoseconds per call, {CALLS} calls, best of {ROUNDS}; name 0 is the test for 25 alone"
    );
    println!(
        "{:<34} {:>9} {:>9} {:>9} {:>9} {:>9}",
        "", "name 0", "slot 64", "counted", "64/0", "counted/0"
    );
    // No other slot has the name.
    let (mut tables, name) = (workload::queues(), u32::MAX);
    set_word(&mut tables, slot_at(MOST_SLOTS - 1) + NAME, name);
    let Some([test, ident, counted]) = measure_ident(&mut tables, name) else {
        println!("idents: the answers are wrong; run compare");
        return false;
    };
    println!(
        "{:<34} {test:>9.1} {ident:>9.1} {counted:>9.1} {:>9.2} {:>9.2}",
        "32 tasks, 64 live slots, queues",
        ident / test,
        counted / test
    );
    true
}

fn main() -> ExitCode {
    println!("nanoseconds per call, {CALLS} calls, best of {ROUNDS}");
    println!(
        "{:<34} {:>9} {:>9} {:>9} {:>9} {:>9}",
        "", "library", "Rust+25", "Rust", "lib/R+25", "lib/Rust"
    );
    for workload in workload::all(CALLS) {
        let Some([library, tested, untested]) = measure(&workload) else {
            println!("{}: the answers differ; run compare", workload.name);
            return ExitCode::FAILURE;
        };
        println!(
            "{:<34} {library:>9.1} {tested:>9.1} {untested:>9.1} {:>9.2} {:>9.2}",
            workload.name,
            library / tested,
            library / untested
        );
    }
    let right = show_state() && show_ident();
    ExitCode::from(u8::from(!right))
}
