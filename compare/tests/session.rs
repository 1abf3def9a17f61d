//! The session program's rules, on this project's own parser and printer.

use std::fs;
use std::path::PathBuf;

use compare::call::Call;
use compare::fuzz::coverage::Waits;
use compare::fuzz::rng::Rng;
use compare::model::Machine;
use compare::session::lines::{line_of, random_session};
use compare::session::{parse_line, print_answer, run_session, Session};

fn session(input: &[u8], wanted: &str) {
    let output = String::from_utf8(run_session(input)).unwrap();
    assert_eq!(output, wanted, "for {:?}", String::from_utf8_lossy(input));
}

const WORKED: &[u8] = b"start 4 10 20\ncreate 1 77 1 20 1\nobtain 2 65537 0 4294967295\n\
obtain 1 65537 0 3\ntick\nrelease 2 65537\ndelete 2 65537\nrelease 1 65537\ndelete 1 65537\n\
obtain 1 65537 0 4294967295\ncreate 1 78 2 0 4294967295\n";
const WORKED_ANSWERS: &str = "0 0 1\n0 65537 1\n0 0 1\n100 0 2\n0 0 2\n0 0 1\n12 0 1\n0 0 1\n0 0 1\n\
4 0 1\n0 131073 1\n";

#[test]
fn worked_session_of_the_paper() {
    session(WORKED, WORKED_ANSWERS);
}

#[test]
fn equals_of_the_paper() {
    let input = b"start 1 10 10\ncreate 1 77 0 0 4294967295\nobtain 1 65537 0 0\nrelease 2 65537\n";
    session(input, "0 0 1\n0 65537 1\n100 0 2\n0 0 2\n");
}

/// Radio 10, logger 20, display 30: the display holds the bus, and the radio waits for it.
#[test]
fn the_radio_waits_for_the_display() {
    for (attributes, next) in [(84, 3), (20, 2)] {
        let input = format!(
            "start 1 10 20 30\ncreate 3 7 0 {attributes} 1\nobtain 1 65537 0 9\nrelease 3 65537\n\
release 1 65537\ncreate 1 7 0 80 1\n"
        );
        let wanted = format!("0 0 1\n0 65537 1\n100 0 {next}\n0 0 1\n0 0 1\n11 0 1\n");
        session(input.as_bytes(), &wanted);
    }
}

/// Task 1 waits with this timeout; who is next so many ticks later.
fn next_after(timeout: &str, ticks: usize) -> u8 {
    let begun = format!("start 1 10 20\ncreate 2 77 0 0 9\nobtain 1 65537 0 {timeout}\n");
    let input = begun + &"tick\n".repeat(ticks) + "ident 77";
    let output = run_session(input.as_bytes());
    assert_eq!(output, session_of_the_model(input.as_bytes()));
    let last = output.strip_suffix(b"\n").and_then(|answers| answers.last());
    last.expect("the last line has an answer") - b'0'
}

#[test]
fn timeouts_of_a_session() {
    assert_eq!([499, 500].map(|ticks| next_after("0", ticks)), [2, 1]);
    assert_eq!([499, 500].map(|ticks| next_after("500", ticks)), [2, 1]);
    assert_eq!([0, 1].map(|ticks| next_after("1", ticks)), [2, 1]);
    assert_eq!([600, 5000].map(|ticks| next_after("4294967295", ticks)), [2, 2]);
    assert_eq!([600, 5000].map(|ticks| next_after("4294967294", ticks)), [2, 2]);
}

/// Each session of examples/ has the answers beside it, of the in-place variant and of the model.
#[test]
fn examples_have_their_answers() {
    let examples = concat!(env!("CARGO_MANIFEST_DIR"), "/../examples");
    let paths = fs::read_dir(examples).unwrap().map(|entry| entry.unwrap().path());
    let is_session = |path: &PathBuf| path.extension().is_some_and(|end| end == "session");
    let sessions: Vec<PathBuf> = paths.filter(is_session).collect();
    assert!(sessions.len() >= 5, "the examples are found");
    for path in sessions {
        let input = fs::read(&path).unwrap();
        let wanted = fs::read(path.with_extension("stdout")).unwrap();
        assert_eq!(run_session(&input), wanted, "in place on {}", path.display());
        assert_eq!(session_of_the_model(&input), wanted, "the model on {}", path.display());
    }
}

#[test]
fn every_cut_of_the_input_gives_the_same_output() {
    for size in 1..WORKED.len() {
        let (mut session, mut output) = (Session::new(), Vec::new());
        WORKED.chunks(size).for_each(|chunk| session.feed(chunk, &mut output));
        session.finish(&mut output);
        assert_eq!(output, WORKED_ANSWERS.as_bytes(), "chunks of {size}");
    }
}

#[test]
fn ends_of_the_input() {
    session(b"", "");
    session(b"\n", "bad\n");
    session(b"tick", "0 0 0\n");
    session(b"tick\n", "0 0 0\n");
    session(b"tick\n\n", "0 0 0\nbad\n");
    session(b"tick\nx", "0 0 0\nbad\n");
}

#[test]
fn broken_lines() {
    let broken: [&[u8]; 24] = [
        b" tick",
        b"tick ",
        b"tick 1",
        b"Tick",
        b"tic",
        b"ticks",
        b"tick\r",
        b"tick\0",
        b"\ttick",
        b"ident",
        b"ident ",
        b"ident 01",
        b"ident 00",
        b"ident  1",
        b"ident 1 ",
        b"ident 1 2",
        b"ident -1",
        b"ident +1",
        b"ident 4294967296",
        b"ident 99999999999999999999",
        b"ident 1\x80",
        b"start",
        b"start ",
        b"flush 1",
    ];
    for line in broken {
        session(line, "bad\n");
        session(&[line, b"\ntick\n"].concat(), "bad\n0 0 0\n");
    }
    session(b"ident 0\nident 4294967295\nstart 0\n", "3 0 0\n3 0 0\n10 0 0\n");
    session(b"task 1\n", "bad\n");
}

#[test]
fn longest_line() {
    // 8 bytes and 2 for each priority.
    let start_of = |length: usize| {
        let mut line = if length.is_multiple_of(2) { b"start 64".to_vec() } else { b"start 4".to_vec() };
        while line.len() < length {
            line.extend_from_slice(b" 1");
        }
        assert_eq!(line.len(), length);
        line
    };
    session(&start_of(255), "10 0 0\n");
    session(&start_of(256), "10 0 0\n");
    session(&start_of(257), "bad\n");
    session(&[start_of(258), b"\ntick\n".to_vec()].concat(), "bad\n0 0 0\n");
    session(&[vec![b'1'; 1 << 20], b"\ntick".to_vec()].concat(), "bad\n0 0 0\n");
}

#[test]
fn a_broken_line_changes_nothing() {
    session(b"start 1 1\ncreate 1 5 3 0 9 \ncreate 1 5 3 0 9\n", "0 0 1\nbad\n0 65537 1\n");
}

#[test]
fn a_create_has_five_numbers() {
    let bad: [&[u8]; 6] = [
        b"create 1 5 3 0",
        b"create 1 5 3 0 ",
        b"create 1 5 3 0 09",
        b"create 1 5 3 0 4294967296",
        b"create 1 5 3 0 -1",
        b"create 1 5 3 0 9 9",
    ];
    for line in bad {
        session(&[b"start 1 1\n", line].concat(), "0 0 1\nbad\n");
    }
    // The maximum is the last: not the count, nor the attributes.
    session(b"start 1 1\ncreate 1 5 3 0 2\ncreate 1 5 2 0 3\n", "0 0 1\n10 0 1\n0 65537 1\n");
    session(b"start 1 1\ncreate 1 5 1 1 16\ncreate 1 5 1 16 1\n", "0 0 1\n11 0 1\n0 65537 1\n");
}

#[test]
fn other_calls() {
    let input = b"start 2 3 2 1\ncreate 3 7 0 32 1\nident 7\nobtain 3 65537 2 9\n\
obtain 1 65537 1 9\nflush 0 65537\n";
    session(input, "0 0 3\n0 65537 3\n0 65537 3\n100 0 2\n13 0 2\n0 0 3\n");
}

/// The session over the structs of the model, line by line from the whole text.
fn session_of_the_model(input: &[u8]) -> Vec<u8> {
    let (mut machine, mut output) = (Machine::default(), Vec::new());
    let ended = input.strip_suffix(b"\n").unwrap_or(input);
    if input.is_empty() {
        return output;
    }
    for line in ended.split(|&byte| byte == b'\n') {
        match parse_line(line) {
            Some(call) => {
                // What was read has to be said the same way again.
                assert_eq!(line_of(&call).unwrap().as_bytes(), line);
                print_answer(machine.call(&call), &mut output);
            }
            None => output.extend_from_slice(b"bad\n"),
        }
    }
    output
}

/// Whether a wait with the standard limit comes to its end in a session.
fn has_standard_end(input: &[u8]) -> bool {
    let (mut machine, mut waits) = (Machine::default(), Waits::default());
    input.split(|&byte| byte == b'\n').filter_map(parse_line).any(|call| {
        let answer = machine.call(&call);
        let ended = waits.saw(&call, answer, &machine);
        call == Call::Tick && ended.iter().any(|(_, wait)| wait.is_standard_at_end())
    })
}

#[test]
fn the_standard_limit_runs_out_in_long_sessions() {
    let long = (0..40).map(|seed| random_session(seed, 800));
    let ends = long.filter(|input| {
        assert_eq!(run_session(input), session_of_the_model(input));
        has_standard_end(input)
    });
    assert!(ends.count() > 3);
}

#[test]
fn random_sessions_cut_anywhere() {
    let mut bad = 0;
    for seed in 0..300 {
        let input = random_session(seed, 100);
        let wanted = session_of_the_model(&input);
        assert_eq!(run_session(&input), wanted, "seed {seed}");
        bad += wanted.split(|&byte| byte == b'\n').filter(|line| line == b"bad").count();
        let mut rng = Rng::new(seed);
        let (mut session, mut output, mut rest) = (Session::new(), Vec::new(), &input[..]);
        while !rest.is_empty() {
            let (chunk, after) = rest.split_at(rng.below(rest.len().min(700) + 1));
            session.feed(chunk, &mut output);
            rest = after;
        }
        session.finish(&mut output);
        assert!(output == wanted, "seed {seed}, cut at random");
    }
    assert!(bad > 1000, "broken lines occur");
}

#[test]
fn working_priorities_decide_in_random_sessions() {
    let mut decided = 0;
    for input in (0..100).map(|seed| random_session(seed, 300)) {
        assert_eq!(run_session(&input), session_of_the_model(&input));
        let mut machine = Machine::default();
        for call in input.split(|&byte| byte == b'\n').filter_map(parse_line) {
            let next = machine.call(&call).next;
            decided += usize::from(next != machine.next_by(&machine.working_with(0)));
        }
    }
    assert!(decided > 100, "{decided} answers");
}
