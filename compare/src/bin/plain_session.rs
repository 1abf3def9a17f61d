//! Replays a session from a file or from standard input to standard output.

use std::env;
use std::fs::File;
use std::io::{self, Read, Write};
use std::process::ExitCode;

use compare::session::Session;

/// Bytes read at a time; the answers of each such part leave before the next is awaited.
const CHUNK: usize = 1 << 16;

fn replay(mut input: impl Read, mut output: impl Write) -> io::Result<()> {
    let mut session = Session::new();
    let mut chunk = vec![0; CHUNK];
    let mut answers = Vec::with_capacity(2 * CHUNK);
    loop {
        let length = match input.read(&mut chunk) {
            Err(error) if error.kind() == io::ErrorKind::Interrupted => continue,
            read => read?,
        };
        if length == 0 {
            session.finish(&mut answers);
            output.write_all(&answers)?;
            return output.flush();
        }
        session.feed(&chunk[..length], &mut answers);
        output.write_all(&answers)?;
        output.flush()?;
        answers.clear();
    }
}

// The standard output's own line buffer would cost a system call a line.
fn standard_output() -> io::Result<File> {
    use std::os::fd::AsFd;
    Ok(File::from(io::stdout().as_fd().try_clone_to_owned()?))
}

fn run() -> Result<(), String> {
    let output = standard_output().map_err(|error| format!("standard output: {error}"))?;
    match env::args_os().nth(1) {
        Some(path) => {
            let name = path.to_string_lossy().into_owned();
            let file = File::open(&path).map_err(|error| format!("cannot open {name}: {error}"))?;
            replay(file, output).map_err(|error| format!("replaying {name}: {error}"))
        }
        None => replay(io::stdin().lock(), output).map_err(|error| format!("replaying: {error}")),
    }
}

fn main() -> ExitCode {
    match run() {
        Ok(()) => ExitCode::SUCCESS,
        Err(message) => {
            eprintln!("plain_session: {message}");
            ExitCode::FAILURE
        }
    }
}
