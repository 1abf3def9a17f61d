//! Compares a program that runs guarded sections with this project's own runner, file by file over pipes.

use std::env;
use std::io::{self, Write};
use std::process::{ChildStdin, Command, ExitCode, Stdio};
use std::thread;
use std::time::{Duration, Instant};

use compare::fuzz::rng::Rng;
use compare::sections::check::check;
use compare::sections::coverage::Coverage;
use compare::sections::draw::random_run;
use compare::sections::read::read;
use compare::sections::runner::run;
use compare::sections::write::outcome_text;

const USAGE: &str = "usage: compare_sections PROGRAM [SECONDS [SEED]]
with - as the program only this project's own runner is tested";

/// Runs that are always made, so that all that has to occur does.
const LEAST_RUNS: u64 = 5000;

/// The runner's own output, nothing for a file with a fault, after its own tests.
fn wanted(text: &[u8], coverage: &mut Coverage) -> Result<Option<String>, String> {
    let input = match read(text) {
        Ok(input) => input,
        Err(fault) => {
            coverage.faulty(&fault);
            return Ok(None);
        }
    };
    let outcome = run(&input);
    check(&input, &outcome, coverage)?;
    Ok(Some(outcome_text(&input, &outcome)))
}

/// Sends a text in parts of random sizes; a program may stop reading at the first fault.
fn send(mut stdin: ChildStdin, text: &[u8], seed: u64) -> io::Result<()> {
    let (mut rng, mut rest) = (Rng::new(seed), text);
    while !rest.is_empty() {
        let most = rng.pick(&[20, 300, 100_000]);
        let (part, after) = rest.split_at(rest.len().min(1 + rng.below(most)));
        match stdin.write_all(part) {
            Err(error) if error.kind() == io::ErrorKind::BrokenPipe => break,
            written => written?,
        }
        rest = after;
    }
    Ok(())
}

/// What the program writes for a text: its output, and what it has to complain of.
fn output_of(program: &str, text: &[u8], seed: u64) -> io::Result<(Vec<u8>, Vec<u8>)> {
    let mut command = Command::new(program);
    command.stdin(Stdio::piped()).stdout(Stdio::piped()).stderr(Stdio::piped());
    let mut child = command.spawn()?;
    let stdin = child.stdin.take().expect("standard input is a pipe");
    let output = thread::scope(|scope| {
        let writer = scope.spawn(move || send(stdin, text, seed));
        let output = child.wait_with_output();
        writer.join().expect("the writer ends").and(output)
    })?;
    Ok((output.stdout, output.stderr))
}

/// What is wrong with the program's answer, in words.
fn difference(wanted: Option<&str>, stdout: &[u8], stderr: &[u8]) -> Option<String> {
    let (found, said) = (String::from_utf8_lossy(stdout), String::from_utf8_lossy(stderr));
    match wanted {
        None if !stdout.is_empty() => Some(format!("a faulty file, and the program prints\n{found}")),
        None if stderr.is_empty() => Some("a faulty file, and the program does not say so".into()),
        Some(wanted) if wanted != found => {
            Some(format!("independent:\n{wanted}program:\n{found}{said}"))
        }
        Some(_) if !stderr.is_empty() => Some(format!("the program complains: {said}")),
        _ => None,
    }
}

/// How many runs were made, or what went wrong in one.
fn compare(program: &str, seconds: u64, first: u64, coverage: &mut Coverage) -> Result<u64, String> {
    let (begun, budget) = (Instant::now(), Duration::from_secs(seconds));
    let mut runs = 0;
    while runs < LEAST_RUNS || begun.elapsed() < budget {
        let seed = first.wrapping_add(runs);
        let text = random_run(seed);
        let failed = |what: String| {
            format!("difference in run {seed}\n{}\n{what}", String::from_utf8_lossy(&text))
        };
        let wanted = wanted(&text, coverage).map_err(failed)?;
        if program != "-" {
            let written = output_of(program, &text, seed);
            let (stdout, stderr) =
                written.map_err(|error| format!("compare_sections: {program}: {error}"))?;
            if let Some(difference) = difference(wanted.as_deref(), &stdout, &stderr) {
                return Err(failed(difference));
            }
        }
        runs += 1;
    }
    Ok(runs)
}

fn main() -> ExitCode {
    let arguments: Vec<String> = env::args().skip(1).collect();
    let number = |place: usize, usual: u64| match arguments.get(place) {
        Some(text) => text.parse().ok(),
        None => Some(usual),
    };
    let (Some(program), Some(seconds), Some(seed)) = (arguments.first(), number(1, 10), number(2, 1))
    else {
        eprintln!("{USAGE}");
        return ExitCode::from(2);
    };
    let mut coverage = Coverage::default();
    let runs = match compare(program, seconds, seed, &mut coverage) {
        Ok(runs) => runs,
        Err(failure) => {
            println!("{failure}");
            return ExitCode::FAILURE;
        }
    };
    print!("{}", coverage.table());
    let gaps = coverage.gaps();
    for gap in &gaps {
        println!("gap: {gap}");
    }
    println!("{runs} runs from seed {seed}, no difference");
    if gaps.is_empty() {
        ExitCode::SUCCESS
    } else {
        ExitCode::FAILURE
    }
}
