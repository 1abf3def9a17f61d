//! Runs guarded sections from a file or from standard input, and prints what they leave.

use std::env;
use std::fs;
use std::io::{self, Read, Write};
use std::process::ExitCode;

use compare::sections::write::answer_text;

fn text() -> Result<Vec<u8>, String> {
    let mut text = Vec::new();
    match env::args_os().nth(1) {
        Some(path) => {
            let name = path.to_string_lossy().into_owned();
            fs::read(&path).map_err(|error| format!("{name}: {error}"))
        }
        None => {
            let read = io::stdin().lock().read_to_end(&mut text);
            read.map_err(|error| format!("standard input: {error}")).map(|_| text)
        }
    }
}

fn run() -> Result<(), String> {
    let answer = answer_text(&text()?).map_err(|fault| fault.to_string())?;
    let written = io::stdout().lock().write_all(answer.as_bytes());
    written.map_err(|error| format!("standard output: {error}"))
}

fn main() -> ExitCode {
    match run() {
        Ok(()) => ExitCode::SUCCESS,
        Err(message) => {
            eprintln!("{message}");
            ExitCode::FAILURE
        }
    }
}
