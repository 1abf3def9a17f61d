//! Compares `mast_run` with this project's own runner on random runs: compare_runs COUNT SEED

use std::env;
use std::process::ExitCode;

use compare::ffi;
use compare::sections::damage::{compare_lent, Statuses};

fn main() -> ExitCode {
    let numbers: Option<Vec<u64>> = env::args().skip(1).map(|word| word.parse().ok()).collect();
    let Some([count, seed]) = numbers.as_deref() else {
        eprintln!("usage: compare_runs COUNT SEED");
        return ExitCode::from(2);
    };
    let mut statuses = Statuses::default();
    let (mut runs, mut next) = (0, seed.wrapping_mul(1_000_003));
    while runs < *count {
        match compare_lent(next, &mut ffi::run, &mut statuses) {
            Ok(compared) => runs += u64::from(compared),
            Err(difference) => {
                println!("{difference}");
                return ExitCode::FAILURE;
            }
        }
        next = next.wrapping_add(1);
    }
    print!("{runs} runs of guarded sections, no difference\n{}", statuses.table());
    let gaps = statuses.gaps();
    gaps.iter().for_each(|gap| println!("{gap}"));
    ExitCode::from(u8::from(!gaps.is_empty()))
}
