//! The text and the numbers of a run of guarded sections, random runs and the examples.

use std::fs;

use compare::call::{Answer, Call};
use compare::layout;
use compare::sections::check::check;
use compare::sections::coverage::Coverage;
use compare::sections::damage::{compare_lent, Statuses};
use compare::sections::draw::random_run;
use compare::sections::lent::{Lent, GRANTS, PLACES};
use compare::sections::read::{read, Fault};
use compare::sections::rows::*;
use compare::sections::runner::run;
use compare::sections::write::{answer_text, input_lines, outcome_text};
use compare::sections::*;

#[test]
fn faults_of_a_file() {
    let faults = [
        (1, "local 1 8 0"),
        (1, "local 0 0 0\n"),
        (2, "cell 1 1\nlocal 33 0 0\nrun\n"),
        (2, "cell 1 1\n\nrun\n"),
        (2, "cell 1 1\ntick\nrun\n"),
        (2, "cell 1 1\ncell 1\nrun\n"),
        (2, "cell 1 1\nturn 1\n"),
        (2, "cell 1 1\nend\n"),
        (2, "cell 1 1\nload 0 0\n"),
        (2, "cell 1 1\nsection 1 0 0\n"),
        (2, "script 1\nset 0 0\n"),
        (4, "script 1\nsection 1 0 0\nend\nend\nrun\n"),
        (3, "script 1\nsection 1 0 0\nrun\n"),
        (3, "script 1\nsection 1 0 0\nscript 2\n"),
        (3, "tick tock\nscript 1\nrun \n"),
    ];
    for (wanted, text) in faults {
        let fault = read(text.as_bytes()).expect_err(text);
        assert_eq!(fault.line, wanted, "{fault} in\n{text}");
        assert!(fault.to_string().starts_with(&format!("line {wanted}: ")), "{fault}");
        assert!(answer_text(text.as_bytes()).is_err());
    }
}

#[test]
fn no_faults_of_a_file() {
    // Bad lines before the first part of the run are skipped, and so are lines that belong behind it.
    let text = "tick tock\nsection 1 0 0\nend\nload 0 0\ncell 1\n\nstart 1 5\nrun\n";
    assert_eq!(read(text.as_bytes()).unwrap().machine.tasks.len(), 1);
    // A last line without a newline counts, and nothing behind a last newline is no line.
    assert_eq!(read(b"run\ntick").unwrap().events, [Event::Call(Call::Tick)]);
    assert_eq!(read(b"run\ntick\n").unwrap().events, [Event::Call(Call::Tick)]);
    assert_eq!(read(b"run\ntick\n\n").unwrap().events[1..], [Event::Unknown]);
    // A line of more than 256 bytes is no event.
    let long = |length: usize| format!("run\nstart 1{}", " 1".repeat((length - 7).div_ceil(2)));
    assert_ne!(read(long(255).as_bytes()).unwrap().events, [Event::Unknown]);
    assert_eq!(read(long(257).as_bytes()).unwrap().events, [Event::Unknown]);
    // Cells, locals and scripts stand in any order, the end of the file ends all of them.
    let text =
        "script 1\nlocal 1 0 1\nlocal 1 0 2\nsection 1 0 0\nend\ncell 1 5\nsection 2 1 3\nset 1 2";
    let input = read(text.as_bytes()).unwrap();
    assert_eq!((&input.ids[..], &input.data.cells[..]), (&[1][..], &[5][..]));
    assert_eq!(input.data.locals[0][0], 2);
    let steps = vec![Step::Set { local: 1, number: 2 }];
    let second = Section { id: 2, options: 1, timeout: 3, steps };
    assert_eq!(input.scripts[0].sections[1], second);
}

#[test]
fn what_is_written_is_read_again() {
    let mut runs = 0;
    for seed in 0..500 {
        let Ok(input) = read(&random_run(seed)) else { continue };
        let again = read(input_lines(&input).join("\n").as_bytes()).unwrap();
        let wanted = Input { machine: again.machine.clone(), ..input };
        assert_eq!(again, wanted, "seed {seed}");
        runs += 1;
    }
    assert!(runs > 400);
}

/// A run with a step of each kind and an event of each kind.
const EACH: &str = "start 1 5 6\ncreate 1 7 1 16 1\ncell 65537 5\nlocal 2 7 4\nscript 2\nscript 1\n\
section 65537 2 3\nload 0 1\nstore 2 0\nset 3 9\nadd 4 5\nend\nrun\nturn 1\nstart 3 8 9\n\
create 4 5 6 7 19\nident 8\ndelete 9 10\nobtain 11 12 13 14\nrelease 15 16\nflush 17 18\ntick\nturn 2\n";

#[test]
fn numbers_of_a_run() {
    let input = read(EACH.as_bytes()).unwrap();
    let rows = [
        [1, 2, 0, 0],
        [1, 1, 0, 0],
        [2, 65537, 2, 3],
        [3, 0, 1, 0],
        [4, 2, 0, 0],
        [5, 3, 9, 0],
        [6, 4, 5, 0],
    ];
    assert_eq!(script_rows(&input.scripts), rows.concat());
    let events: [&[u32]; 10] = [
        &[1, 1],
        &[2, 3, 2, 8, 9],
        &[3, 4, 5, 6, 7, 19],
        &[4, 8],
        &[5, 9, 10],
        &[6, 11, 12, 13, 14],
        &[7, 15, 16],
        &[8, 17, 18],
        &[9],
        &[1, 2],
    ];
    assert_eq!(event_numbers(&input.events), events.concat());
    assert_eq!(local_numbers(&input.data.locals)[8..16], [0, 0, 0, 0, 0, 0, 0, 4]);
    let outcome = run(&input);
    assert_eq!(place_numbers(&outcome.places), [0, 0, 0, 1]);
    assert_eq!(grant_numbers(&outcome.grants), [1, 1, 0]);
}

#[test]
fn numbers_that_say_nothing() {
    // Cut short, or outside of what it belongs to.
    assert_eq!(scripts_of(&[]), Some(vec![]));
    for rows in [&[1, 1, 0][..], &[2, 1, 0, 0], &[1, 1, 0, 0, 3, 0, 0, 0], &[0; 4], &[7, 0, 0, 0]] {
        assert_eq!(scripts_of(rows), None, "{rows:?}");
    }
    let no_step = scripts_of(&[1, 1, 0, 0, 2, 65537, 0, 0, 7, 1, 1, 1]).unwrap();
    assert_eq!(no_step[0].sections[0].steps, [Step::Unknown]);
    // What a kind does not take is not looked at.
    assert_eq!(scripts_of(&[1, 5, 6, 7]), Some(vec![Script { task: 5, sections: vec![] }]));
    assert_eq!(events_of(&[]), []);
    let cut: [&[u32]; 9] = [
        &[0],
        &[10],
        &[1],
        &[2],
        &[2, 1],
        &[2, 1, 3, 5, 5],
        &[2, 1, u32::MAX],
        &[3, 1, 2, 3, 4],
        &[6, 1, 2, 3],
    ];
    for numbers in cut {
        assert_eq!(events_of(numbers), [Event::Unknown], "{numbers:?}");
    }
    assert_eq!(events_of(&[9, 0, 9]), [Event::Call(Call::Tick), Event::Unknown]);
    let start = Call::Start { slots: 1, priorities: vec![] };
    assert_eq!(events_of(&[2, 1, 0, 9]), [Event::Call(start), Event::Call(Call::Tick)]);
}

#[test]
fn random_runs_as_numbers() {
    for seed in 0..1500 {
        let Ok(input) = read(&random_run(seed)) else { continue };
        let outcome = run(&input);
        let mut lent = Lent::new(&input, 7777);
        assert_eq!(scripts_of(&lent.scripts).as_ref(), Some(&input.scripts), "seed {seed}");
        assert_eq!(lent.run(), outcome.answer, "seed {seed}");
        assert_eq!(lent.tables, layout::write(&outcome.machine), "seed {seed}");
        assert_eq!(lent.cells, outcome.data.cells, "seed {seed}");
        assert_eq!(lent.locals, local_numbers(&outcome.data.locals), "seed {seed}");
        let places = place_numbers(&outcome.places);
        assert_eq!(lent.places[..places.len()], places, "seed {seed}");
        assert!(lent.places[places.len()..].iter().all(|&place| place == 7777), "seed {seed}");
        let grants = grant_numbers(&outcome.grants);
        assert_eq!(lent.grants[..grants.len()], grants, "seed {seed}");
        assert!(lent.grants[grants.len()..].iter().all(|&number| number == 7777), "seed {seed}");
    }
}

fn scripts_in(lent: &Lent) -> usize {
    lent.scripts.chunks_exact(ROW).filter(|row| row[0] == SCRIPT).count()
}

#[test]
fn lengths_that_do_not_fit() {
    let input = read(EACH.as_bytes()).unwrap();
    let refused = |change: fn(&mut Lent), wanted: Answer| {
        let mut lent = Lent::new(&input, 7777);
        change(&mut lent);
        let before = lent.clone();
        assert_eq!(lent.run(), wanted);
        assert_eq!((&lent.tables, &lent.cells), (&before.tables, &before.cells));
        assert_eq!(lent.locals, before.locals);
        let (cleared, rest) = lent.places.split_at((2 * scripts_in(&lent)).min(lent.places.len()));
        assert!(cleared.iter().all(|&place| place == 0) && rest.iter().all(|&place| place == 7777));
        assert_eq!(lent.grants[0], 0);
        assert!(lent.grants[1..].iter().all(|&number| number == 7777));
    };
    let no_fit = Answer::new(11, 0, 1);
    refused(|lent| lent.ids.push(1), no_fit);
    refused(|lent| lent.cells.push(1), no_fit);
    refused(|lent| lent.locals.truncate(255), no_fit);
    refused(|lent| lent.locals.push(0), no_fit);
    refused(|lent| lent.places.truncate(2 * scripts_in(lent) - 1), no_fit);
    refused(|lent| lent.scripts.push(0), no_fit);
    refused(|lent| lent.events.push(0), no_fit);
    refused(|lent| lent.events.extend([7, 1, 65537]), Answer::new(4, 0, 1));
    refused(|lent| (lent.tables[3], lent.scripts) = (33, vec![0]), Answer::DISAGREE);
    refused(|lent| lent.tables.push(0), Answer::DISAGREE);
    let mut roomy = Lent::new(&input, 7777);
    roomy.places.push(7777);
    roomy.grants.push(7777);
    assert_eq!(roomy.run().status, 0);
    assert_eq!((roomy.places[PLACES], roomy.grants[GRANTS]), (7777, 7777));
    // Grants are written as far as there is room, and their count is the whole number of them.
    for room in 0..8 {
        let mut short = Lent::new(&input, 7777);
        short.grants.truncate(room);
        assert_eq!(short.run().status, 0);
        assert_eq!(short.grants, roomy.grants[..room]);
    }
}

#[test]
fn damaged_numbers() {
    let mut statuses = Statuses::default();
    for seed in 0..6000 {
        compare_lent(seed, &mut Lent::run, &mut statuses).unwrap();
    }
    assert_eq!(statuses.gaps(), [""; 0], "{}", statuses.table());
    // A subject that grants without saying so, or writes behind the room it needs, is told.
    let mut silent = |lent: &mut Lent| {
        let answer = lent.run();
        lent.grants.iter_mut().take(1).for_each(|count| *count = 0);
        answer
    };
    let mut eager = |lent: &mut Lent| {
        let answer = lent.run();
        lent.places.iter_mut().skip(PLACES).for_each(|place| *place = 0);
        answer
    };
    // So is one that waits for ever where a section's timeout is 0.
    let mut patient = |lent: &mut Lent| {
        let scripts = lent.scripts.clone();
        let sections = lent.scripts.chunks_exact_mut(ROW).filter(|row| row[0] == SECTION && row[3] == 0);
        sections.for_each(|row| row[3] = u32::MAX);
        let answer = lent.run();
        lent.scripts = scripts;
        answer
    };
    let subjects: [&mut dyn FnMut(&mut Lent) -> Answer; 3] = [&mut silent, &mut eager, &mut patient];
    for subject in subjects {
        let told = (0..500).any(|seed| compare_lent(seed, subject, &mut statuses).is_err());
        assert!(told);
    }
}

#[test]
fn random_runs_are_serial() {
    let mut coverage = Coverage::default();
    for seed in 0..6000 {
        let text = random_run(seed);
        match read(&text) {
            Err(fault) => coverage.faulty(&fault),
            Ok(input) => {
                let outcome = run(&input);
                check(&input, &outcome, &mut coverage).unwrap();
                assert!(!outcome_text(&input, &outcome).contains("serial no"), "seed {seed}");
            }
        }
    }
    assert_eq!(coverage.gaps(), [""; 0]);
}

/// Every file of examples/ prints what stands beside it.
#[test]
fn examples() {
    let folder = concat!(env!("CARGO_MANIFEST_DIR"), "/../examples");
    let mut paths: Vec<_> = fs::read_dir(folder).unwrap().map(|entry| entry.unwrap().path()).collect();
    paths.retain(|path| path.extension().is_some_and(|extension| extension == "sections"));
    assert!(paths.len() >= 21, "{}", paths.len());
    for path in paths {
        let output = answer_text(&fs::read(&path).unwrap()).map_err(|fault: Fault| fault.to_string());
        let wanted = fs::read_to_string(path.with_extension("stdout")).unwrap();
        assert_eq!(output, Ok(wanted), "{}", path.display());
    }
}
