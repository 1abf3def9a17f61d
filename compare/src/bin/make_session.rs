//! Writes a session to standard output: a random one from a seed, or a long replay of ticks.

use std::env;
use std::io::{self, Write};
use std::process::ExitCode;

use compare::session::lines::{random_session, replay_of_ticks};

const USAGE: &str = "usage: make_session random LINES SEED | make_session ticks LINES";

fn session(arguments: &[String]) -> Option<Vec<u8>> {
    let arguments: Vec<&str> = arguments.iter().map(String::as_str).collect();
    match arguments[..] {
        ["random", lines, seed] => Some(random_session(seed.parse().ok()?, lines.parse().ok()?)),
        ["ticks", lines] => Some(replay_of_ticks(lines.parse().ok()?)),
        _ => None,
    }
}

fn main() -> ExitCode {
    let arguments: Vec<String> = env::args().skip(1).collect();
    let Some(text) = session(&arguments) else {
        eprintln!("{USAGE}");
        return ExitCode::from(2);
    };
    match io::stdout().lock().write_all(&text) {
        Ok(()) => ExitCode::SUCCESS,
        Err(error) => {
            eprintln!("make_session: {error}");
            ExitCode::FAILURE
        }
    }
}
