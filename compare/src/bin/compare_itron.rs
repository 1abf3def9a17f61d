//! Compares the library's ITRON calls with this project's own: compare_itron ROUNDS SEED

use std::env;
use std::process::ExitCode;

use compare::ffi::Library;
use compare::itron::cases;
use compare::itron::comparison::Comparison;
use compare::itron::limits::limits;
use compare::itron::round::round;
use compare::state::comparison::Compared;

/// The ends of all ranges, then rounds of mixed calls.
fn run(comparison: &mut Comparison, rounds: u64, seed: u64) -> Compared {
    limits(comparison)?;
    let first = seed.wrapping_mul(1_000_003);
    (0..rounds).try_for_each(|each| round(comparison, first.wrapping_add(each)))
}

fn main() -> ExitCode {
    let numbers: Option<Vec<u64>> = env::args().skip(1).map(|word| word.parse().ok()).collect();
    let Some([rounds, seed]) = numbers.as_deref() else {
        eprintln!("usage: compare_itron ROUNDS SEED");
        return ExitCode::from(2);
    };
    if let Err(failure) = cases::run(&mut Library) {
        println!("{failure}");
        return ExitCode::FAILURE;
    }
    let mut library = Library;
    let mut comparison = Comparison::new(&mut library);
    if let Err(difference) = run(&mut comparison, *rounds, *seed) {
        println!("{difference}");
        return ExitCode::FAILURE;
    }
    print!("{}", comparison.seen.table());
    let gaps = comparison.seen.gaps();
    gaps.iter().for_each(|gap| println!("gap: {gap}"));
    let Comparison { services, calls, codes, .. } = comparison;
    println!(
        "{services} ITRON calls, {calls} Classic calls and {codes} codes compared, {rounds} rounds from seed {seed}, no difference"
    );
    ExitCode::from(u8::from(!gaps.is_empty()))
}
