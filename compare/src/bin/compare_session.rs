//! Compares a session program with this project's own session, over pipes cut anywhere.

use std::env;
use std::io::{self, BufRead, BufReader, Read, Write};
use std::process::{Child, Command, ExitCode, Stdio};
use std::sync::mpsc;
use std::thread;
use std::time::{Duration, Instant};

use compare::fuzz::rng::Rng;
use compare::session::lines::random_session;
use compare::session::run_session;

const USAGE: &str = "usage: compare_session PROGRAM [SECONDS [SEED]]";
/// Lines of a session; every sixteenth is long enough for waits of the standard limit to run out.
const LINES: usize = 200;
const LONG: usize = 800;
const LONG_EVERY: u64 = 16;
/// How long an answer to a single line may take before it counts as withheld.
const PATIENCE: Duration = Duration::from_secs(10);

fn spawn(program: &str) -> io::Result<Child> {
    Command::new(program).stdin(Stdio::piped()).stdout(Stdio::piped()).spawn()
}

/// The program's output for an input that arrives in chunks of random sizes.
fn output_of(program: &str, input: &[u8], seed: u64) -> io::Result<Vec<u8>> {
    let mut child = spawn(program)?;
    let mut stdin = child.stdin.take().expect("standard input is a pipe");
    let mut stdout = child.stdout.take().expect("standard output is a pipe");
    let mut output = Vec::new();
    thread::scope(|scope| {
        let writer = scope.spawn(move || -> io::Result<()> {
            let (mut rng, mut rest) = (Rng::new(seed), input);
            while !rest.is_empty() {
                let most = rng.pick(&[1, 20, 300, 100_000]);
                let (chunk, after) = rest.split_at(rest.len().min(1 + rng.below(most)));
                stdin.write_all(chunk)?;
                rest = after;
            }
            Ok(())
        });
        let read = stdout.read_to_end(&mut output);
        writer.join().expect("the writer ends").and(read)
    })?;
    child.wait()?;
    Ok(output)
}

/// The first line whose answers differ, in words.
fn first_difference(input: &[u8], wanted: &[u8], found: &[u8]) -> String {
    let lines = |bytes: &[u8]| -> Vec<String> {
        let text = String::from_utf8_lossy(bytes).into_owned();
        text.split('\n').map(String::from).collect()
    };
    let (wanted, found) = (lines(wanted), lines(found));
    let same = wanted.iter().zip(&found).take_while(|(wanted, found)| wanted == found).count();
    let said = input.split(|&byte| byte == b'\n').nth(same).unwrap_or(b"");
    let shown = |lines: &[String]| lines.get(same).cloned().unwrap_or("nothing more".into());
    format!(
        "line {}: {}\n  independent: {}\n  program:     {}",
        same + 1,
        said.escape_ascii(),
        shown(&wanted),
        shown(&found)
    )
}

/// Each answer has to come before the next line is sent.
fn answers_at_once(program: &str) -> io::Result<bool> {
    let mut child = spawn(program)?;
    let mut stdin = child.stdin.take().expect("standard input is a pipe");
    let stdout = child.stdout.take().expect("standard output is a pipe");
    let (sender, receiver) = mpsc::channel();
    let reader = thread::spawn(move || {
        BufReader::new(stdout).lines().map_while(Result::ok).try_for_each(|line| sender.send(line))
    });
    let mut prompt = true;
    for line in ["start 4 10 20\n", "bad line\n", "tick\n"] {
        stdin.write_all(line.as_bytes())?;
        prompt = prompt && receiver.recv_timeout(PATIENCE).is_ok();
    }
    drop(stdin);
    child.wait()?;
    // Answers still on their way have nobody to go to, which is all the same here.
    let _ = reader.join();
    Ok(prompt)
}

fn run(program: &str, seconds: u64, first_seed: u64) -> io::Result<bool> {
    let begun = Instant::now();
    if !answers_at_once(program)? {
        println!("an answer was withheld until more input came");
        return Ok(false);
    }
    let mut sessions = 0;
    while sessions < 20 || begun.elapsed() < Duration::from_secs(seconds) {
        let seed = first_seed.wrapping_add(sessions);
        let lines = match sessions % LONG_EVERY {
            _ if sessions == 0 => 0,
            0 => LONG,
            _ => LINES,
        };
        let input = random_session(seed, lines);
        let wanted = run_session(&input);
        let found = output_of(program, &input, seed)?;
        sessions += 1;
        if found != wanted {
            println!("difference in session {seed}, {}", first_difference(&input, &wanted, &found));
            return Ok(false);
        }
    }
    println!(
        "{sessions} sessions of {LINES} lines, every {LONG_EVERY}th of {LONG}, from seed {first_seed}, no difference"
    );
    Ok(true)
}

fn main() -> ExitCode {
    let arguments: Vec<String> = env::args().skip(1).collect();
    let number = |place: usize, usual: u64| match arguments.get(place) {
        Some(text) => text.parse().ok(),
        None => Some(usual),
    };
    let (Some(program), Some(seconds), Some(seed)) = (arguments.first(), number(1, 10), number(2, 1))
    else {
        eprintln!("{USAGE}");
        return ExitCode::from(2);
    };
    match run(program, seconds, seed) {
        Ok(true) => ExitCode::SUCCESS,
        Ok(false) => ExitCode::FAILURE,
        Err(error) => {
            println!("compare_session: {program}: {error}");
            ExitCode::FAILURE
        }
    }
}
