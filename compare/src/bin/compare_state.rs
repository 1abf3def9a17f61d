//! Compares `mast_save` and `mast_load` with this project's own: compare_state ROUNDS SEED

use std::env;
use std::process::ExitCode;

use compare::ffi::Library;
use compare::state::comparison::{Compared, Comparison};
use compare::state::round::round;

fn run(comparison: &mut Comparison, rounds: u64, seed: u64) -> Compared {
    let first = seed.wrapping_mul(1_000_003);
    (0..rounds).try_for_each(|each| round(comparison, first.wrapping_add(each)))
}

fn main() -> ExitCode {
    let numbers: Option<Vec<u64>> = env::args().skip(1).map(|word| word.parse().ok()).collect();
    let Some([rounds, seed]) = numbers.as_deref() else {
        eprintln!("usage: compare_state ROUNDS SEED");
        return ExitCode::from(2);
    };
    let mut library = Library;
    let mut comparison = Comparison::new(&mut library);
    if let Err(difference) = run(&mut comparison, *rounds, *seed) {
        println!("{difference}");
        return ExitCode::FAILURE;
    }
    print!("{}", comparison.seen.table());
    let gaps = comparison.seen.gaps();
    gaps.iter().for_each(|gap| println!("gap: {gap}"));
    let Comparison { saves, loads, calls, .. } = comparison;
    println!(
        "{saves} saves, {loads} loads and {calls} calls compared, {rounds} rounds from seed {seed}, no difference"
    );
    ExitCode::from(u8::from(!gaps.is_empty()))
}
