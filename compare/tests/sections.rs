//! Document 01's sentences about guarded sections as cases, on this project's own runner.

use compare::call::{Answer, Call};
use compare::model::{Machine, State};
use compare::sections::plain::plain_run;
use compare::sections::read::read;
use compare::sections::runner::{run, Running};
use compare::sections::write::answer_text;
use compare::sections::*;

/// Three tasks and, for sections, 65537 with PRIORITY and 65538 with FIFO.
const SESSION: &str = "start 4 10 20 30\ncreate 1 77 1 20 1\ncreate 1 78 1 16 1\n";

fn input(text: &str) -> Input {
    read(format!("{SESSION}{text}").as_bytes()).unwrap()
}

/// Runs what follows the session's lines; the output has to be the lines wanted.
fn prints(text: &str, wanted: &[&str]) {
    let output = answer_text(format!("{SESSION}{text}").as_bytes()).unwrap();
    assert_eq!(output.lines().collect::<Vec<_>>(), wanted, "for\n{text}");
}

/// The lines of the output that begin with one of the words.
fn lines(text: &str, words: &[&str]) -> Vec<String> {
    let output = answer_text(format!("{SESSION}{text}").as_bytes()).unwrap();
    let begins = |line: &&str| words.iter().any(|word| line.starts_with(word));
    output.lines().filter(begins).map(String::from).collect()
}

/// Status, places and grants.
fn moves(text: &str, status: &str, wanted: &[&str]) {
    let output = answer_text(format!("{SESSION}{text}").as_bytes()).unwrap();
    assert_eq!(output.split(' ').next(), Some(status), "for\n{text}");
    assert_eq!(lines(text, &["place", "grants"]), wanted, "for\n{text}");
}

/// The heads of sections that wait for ever.
const FIRST: &str = "65537 0 4294967295";
const SECOND: &str = "65538 0 4294967295";

/// A script of sections that each take one step.
fn script(task: u32, sections: &[&str]) -> String {
    let sections: String =
        sections.iter().map(|head| format!("section {head}\nset 0 1\nend\n")).collect();
    format!("script {task}\n{sections}")
}

#[test]
fn a_turn_does_one_thing() {
    let text = "cell 65537 5\nscript 1\nsection 65537 0 0\nload 0 3\nadd 3 3\nstore 3 0\nend\nrun\n";
    let places = ["0 1", "0 2", "0 3", "0 4", "1 0", "1 0"];
    for (turns, place) in (1..).zip(places) {
        let text = format!("{text}{}", "turn 1\n".repeat(turns));
        assert_eq!(lines(&text, &["place"]), [format!("place 1 {place}")], "after {turns} turns");
        let cell = if turns >= 4 { 10 } else { 5 };
        assert_eq!(lines(&text, &["cells"]), [format!("cells {cell}")], "after {turns} turns");
        let serial = if turns >= 5 { "serial yes" } else { "serial open" };
        assert_eq!(lines(&text, &["serial"]), [serial], "after {turns} turns");
    }
}

#[test]
fn a_whole_output() {
    let text = "cell 65537 5\ncell 7 9\nlocal 3 7 8\nscript 2\nsection 65537 0 0\nload 0 3\nend\nrun\nturn 2\nturn 2\n";
    let start = [
        "0 0 1",
        "cells 5 9",
        "locals 1 0 0 0 0 0 0 0 0",
        "locals 2 0 0 0 5 0 0 0 0",
        "locals 3 0 0 0 0 0 0 0 8",
    ];
    let open = ["place 2 0 2", "grants 2:0", "open 2:0", "serial open"];
    prints(text, &[&start[..], &open].concat());
    let closed = ["place 2 1 0", "grants 2:0", "open"];
    let plain = [
        "plain cells 5 9",
        "plain locals 1 0 0 0 0 0 0 0 0",
        "plain locals 2 0 0 0 5 0 0 0 0",
        "plain locals 3 0 0 0 0 0 0 0 8",
        "serial yes",
    ];
    prints(&format!("{text}turn 2\n"), &[&start[..], &closed, &plain].concat());
}

#[test]
fn an_empty_list_of_events_changes_nothing() {
    let text = "cell 65537 5\nlocal 1 0 4\nscript 1\nsection 65537 0 0\nend\nrun\n";
    let before = input(text);
    let after = run(&before);
    assert_eq!(after.answer, Answer::new(0, 0, 1));
    assert_eq!((&after.machine, &after.data), (&before.machine, &before.data));
    assert_eq!((after.places, after.grants), (vec![Place::default()], vec![]));
    // Nor does an empty file, or one that ends before its run.
    for text in ["", "run\n", "cell 1"] {
        let output = answer_text(text.as_bytes()).unwrap();
        assert_eq!(output, "0 0 0\ncells\ngrants\nopen\nplain cells\nserial yes\n", "for {text:?}");
    }
}

#[test]
fn the_mission() {
    // The semaphore of two writers is deleted, and its slot goes to one with room for two.
    let writers = script(1, &[FIRST]) + &script(2, &[FIRST]);
    let events = "run\ndelete 3 65537\ncreate 3 79 2 0 2\nturn 1\nturn 2\nturn 1\nturn 2\n";
    moves(&(writers.clone() + events), "0", &["place 1 1 0", "place 2 1 0", "grants"]);
    let after = run(&input(&(writers + events)));
    let used = after.machine.slots[0].live.as_ref().unwrap();
    assert_eq!((used.count, after.machine.slots[0].generation), (2, 2), "nobody took of the new one");
}

#[test]
fn two_writers_take_turns() {
    let text = "cell 65537 0\n\
script 1\nsection 65537 0 4294967295\nload 0 0\nset 1 1\nadd 1 0\nstore 0 0\nend\n\
script 2\nsection 65537 0 4294967295\nload 0 0\nset 1 10\nadd 1 0\nstore 0 0\nend\nrun\n";
    // Whoever enters first: each turn of the other is lost until the release.
    for (first, second) in [(1, 2), (2, 1)] {
        let events = format!("turn {first}\nturn {second}\n").repeat(6);
        let rest = format!("turn {second}\n").repeat(5);
        let text = format!("{text}{events}{rest}");
        assert_eq!(lines(&text, &["cells", "plain cells"]), ["cells 11", "plain cells 11"]);
        assert_eq!(lines(&text, &["grants"]), [format!("grants {first}:0 {second}:0")]);
    }
}

#[test]
fn a_grant_moves_the_place_at_the_event_of_the_release() {
    let scripts = script(1, &[FIRST]) + &script(2, &[FIRST]);
    let waits = scripts.clone() + "run\nturn 1\nturn 2\nturn 2\nturn 1\n";
    moves(&waits, "0", &["place 1 0 2", "place 2 0 0", "grants 1:0"]);
    moves(&(waits + "turn 1\n"), "0", &["place 1 1 0", "place 2 0 1", "grants 1:0 2:0"]);
    // A release by someone else does the same.
    let other = script(1, &[FIRST]) + "run\nobtain 3 65537 0 0\nturn 1\n";
    moves(&other, "0", &["place 1 0 0", "grants"]);
    moves(&(other + "release 3 65537\n"), "0", &["place 1 0 1", "grants 1:0"]);
    // Without steps the release comes next.
    let empty =
        "script 1\nsection 65537 0 4294967295\nend\nrun\nobtain 3 65537 0 0\nturn 1\nrelease 3 65537\n";
    moves(empty, "0", &["place 1 0 1", "grants 1:0"]);
    moves(&format!("{empty}turn 1\n"), "0", &["place 1 1 0", "grants 1:0"]);
}

#[test]
fn waiting_is_no_grant() {
    let text = script(1, &[FIRST]) + "run\nobtain 3 65537 0 0\nturn 1\nturn 1\nturn 1\n";
    moves(&text, "0", &["place 1 0 0", "grants"]);
    assert_eq!(lines(&text, &["open", "serial"]), ["open", "serial yes"]);
}

#[test]
fn a_skip_comes_at_the_event_itself() {
    let two = script(1, &["65537 0 2", SECOND]);
    let held = two.clone() + "run\nobtain 3 65537 0 0\nturn 1\n";
    // The wait times out in the middle: at the second tick, and not at the next turn.
    moves(&(held.clone() + "tick\n"), "0", &["place 1 0 0", "grants"]);
    moves(&(held.clone() + "tick\ntick\n"), "0", &["place 1 1 0", "grants"]);
    moves(&(held.clone() + "tick\ntick\nturn 1\n"), "0", &["place 1 1 1", "grants 1:1"]);
    // A flush ends it with 13, whoever makes it.
    moves(&(held.clone() + "flush 3 65537\n"), "0", &["place 1 1 0", "grants"]);
    moves(&(held + "flush 0 65537\n"), "0", &["place 1 1 0", "grants"]);
    // A refused obtain skips at its own turn: 4 for a deleted semaphore, 13 with NO_WAIT.
    moves(&(two + "run\ndelete 3 65537\nturn 1\n"), "0", &["place 1 1 0", "grants"]);
    let poll = script(1, &["65537 1 0", SECOND]) + "run\nobtain 3 65537 0 0\nturn 1\n";
    moves(&poll, "0", &["place 1 1 0", "grants"]);
    moves(&(poll + "turn 1\n"), "0", &["place 1 1 1", "grants 1:1"]);
}

#[test]
fn a_section_of_timeout_0_is_skipped_at_the_500th_tick() {
    for options in [0, 2, 4_294_967_294u32] {
        let scripts = script(1, &[&format!("65537 {options} 0"), SECOND]) + &script(2, &[FIRST]);
        let held = scripts + "run\nobtain 3 65537 0 0\nturn 1\nturn 2\n";
        let after = |ticks: usize, call: &str| held.clone() + &"tick\n".repeat(ticks) + call;
        moves(&after(499, ""), "0", &["place 1 0 0", "place 2 0 0", "grants"]);
        moves(&after(500, ""), "0", &["place 1 1 0", "place 2 0 0", "grants"]);
        // The more urgent task is granted as long as it waits; the other one waits for ever.
        let release = "release 3 65537\n";
        moves(&after(499, release), "0", &["place 1 0 1", "place 2 0 0", "grants 1:0"]);
        moves(&after(600, release), "0", &["place 1 1 0", "place 2 0 1", "grants 2:0"]);
    }
    for poll in ["65537 1 0", "65537 3 4294967295"] {
        let text = script(1, &[poll, SECOND]) + "run\nobtain 3 65537 0 0\nturn 1\n";
        moves(&text, "0", &["place 1 1 0", "grants"]);
    }
}

#[test]
fn one_event_skips_several_and_grants_one() {
    let scripts = script(1, &["65537 0 1"]) + &script(2, &["65537 0 1"]);
    let text = scripts.clone() + "run\nobtain 3 65537 0 0\nturn 1\nturn 2\ntick\n";
    moves(&text, "0", &["place 1 1 0", "place 2 1 0", "grants"]);
    let text = scripts + "run\nobtain 3 65537 0 0\nturn 2\nturn 1\nrelease 3 65537\n";
    moves(&text, "0", &["place 1 0 1", "place 2 0 0", "grants 1:0"]);
}

#[test]
fn a_skipped_section_does_nothing() {
    let text = "cell 65537 5\nscript 1\nsection 65537 0 1\nset 0 9\nstore 0 0\nend\nrun\n\
obtain 3 65537 0 0\nturn 1\ntick\nrelease 3 65537\nturn 1\nturn 1\n";
    assert_eq!(lines(text, &["cells", "plain cells"]), ["cells 5", "plain cells 5"]);
}

#[test]
fn two_sections_of_one_identifier() {
    let text = script(1, &[FIRST, FIRST]) + "run\n" + &"turn 1\n".repeat(6);
    moves(&text, "0", &["place 1 2 0", "grants 1:0 1:1"]);
}

#[test]
fn a_nested_obtain_by_another_takes_two_releases() {
    let held = script(1, &[FIRST]) + "run\nobtain 3 65537 0 0\nobtain 3 65537 0 0\nturn 1\n";
    moves(&(held.clone() + "release 3 65537\n"), "0", &["place 1 0 0", "grants"]);
    moves(&(held + "release 3 65537\nrelease 3 65537\n"), "0", &["place 1 0 1", "grants 1:0"]);
}

#[test]
fn others_cannot_take_a_section_away() {
    let open = script(1, &[FIRST]) + "run\nturn 1\n";
    for call in ["release 3 65537", "release 0 65537", "delete 3 65537", "flush 0 65537", "tick"] {
        let text = format!("{open}{call}\nturn 1\nturn 1\n");
        moves(&text, "0", &["place 1 1 0", "grants 1:0"]);
    }
}

#[test]
fn steps() {
    let steps = |steps: &str| {
        let turns = "turn 1\n".repeat(8);
        let text = format!(
            "cell 65537 4294967295\nlocal 1 7 3\nscript 1\nsection 65537 0 0\n{steps}end\nrun\n{turns}"
        );
        lines(&text, &["cells", "locals 1", "serial"])
    };
    assert_eq!(
        steps("load 0 7\n"),
        ["cells 4294967295", "locals 1 0 0 0 0 0 0 0 4294967295", "serial yes"]
    );
    assert_eq!(steps("store 7 0\n"), ["cells 3", "locals 1 0 0 0 0 0 0 0 3", "serial yes"]);
    assert_eq!(steps("set 7 0\n"), ["cells 4294967295", "locals 1 0 0 0 0 0 0 0 0", "serial yes"]);
    // The sum is taken modulo 4294967296, into the local that is named last.
    assert_eq!(
        steps("load 0 0\nadd 7 0\n"),
        ["cells 4294967295", "locals 1 2 0 0 0 0 0 0 3", "serial yes"]
    );
    assert_eq!(
        steps("load 0 0\nadd 0 0\n"),
        ["cells 4294967295", "locals 1 4294967294 0 0 0 0 0 0 3", "serial yes"]
    );
}

#[test]
fn the_plain_run_knows_only_grants() {
    let text = "cell 65537 5\n\
script 1\nsection 65537 0 0\nload 0 0\nadd 0 0\nstore 0 0\nend\n\
script 2\nsection 65537 0 0\nload 0 0\nset 1 1\nadd 1 0\nstore 0 0\nend\nrun\n";
    let input = input(text);
    let grant = |task| Grant { task, section: 0 };
    let cells = |grants: &[Grant]| plain_run(&input.scripts, input.data.clone(), grants).cells;
    assert_eq!(cells(&[]), [5]);
    assert_eq!(cells(&[grant(1)]), [10]);
    assert_eq!(cells(&[grant(1), grant(2)]), [11]);
    assert_eq!(cells(&[grant(2), grant(1)]), [12]);
}

#[test]
fn a_run_goes_on_from_what_the_events_before_left() {
    let text = script(1, &["65537 0 3", SECOND])
        + &script(2, &[FIRST])
        + "run\nturn 2\nturn 1\ntick\nturn 2\nturn 2\nturn 1\nturn 1\nturn 1\nturn 1\n";
    let whole = input(&text);
    let mut running = Running::new(&whole);
    for (done, event) in whole.events.iter().enumerate() {
        let half = run(&Input { events: whole.events[..done].to_vec(), ..whole.clone() });
        assert_eq!((&half.machine, &half.data), (&running.machine, &running.data));
        assert_eq!((&half.places, &half.grants), (&running.places, &running.grants));
        running.event(event);
    }
    assert_eq!(running.places, run(&whole).places);
}

/// The run is refused with this status, and nothing has changed.
fn refused(input: &Input, status: u32, why: &str) {
    let outcome = run(input);
    let next = if status == 25 { 0 } else { input.machine.next_task() };
    assert_eq!(outcome.answer, Answer::new(status, 0, next), "{why}");
    assert_eq!((&outcome.machine, &outcome.data), (&input.machine, &input.data), "{why}");
    assert!(outcome.places.iter().all(|&place| place == Place::default()), "{why}");
    assert!(outcome.grants.is_empty() && outcome.open(&input.scripts).is_empty(), "{why}");
}

/// A run that is fine; 65539 is owned, 65540 is a counting semaphore, and task 3 waits there.
const FINE: &str =
    "create 1 79 0 16 1\ncreate 1 80 0 0 1\nobtain 3 65540 0 4294967295\ncell 65537 5\ncell 65538 6\n\
local 1 0 4\nscript 1\nsection 65537 0 0\nload 0 7\nend\nrun\nturn 1\n";

#[test]
fn refusals() {
    assert_eq!(run(&input(FINE)).answer.status, 0);
    let in_place = |old: &str, new: &str| {
        assert!(FINE.contains(old), "{old}");
        input(&FINE.replace(old, new))
    };
    let section = "section 65537 0 0\nload 0 7\nend\n";
    assert_eq!(run(&in_place(section, &section.repeat(8))).answer.status, 0);
    refused(&in_place(section, &section.repeat(9)), 11, "nine sections");
    assert_eq!(run(&in_place("load 0 7\n", &"load 0 7\n".repeat(16))).answer.status, 0);
    refused(&in_place("load 0 7\n", &"load 0 7\n".repeat(17)), 11, "seventeen steps");
    assert_eq!(run(&in_place("local 1", &("cell 1 1\n".repeat(62) + "local 1"))).answer.status, 0);
    refused(&in_place("local 1", &("cell 1 1\n".repeat(63) + "local 1")), 11, "65 cells");
    for step in ["load 0 8", "store 8 0", "set 8 0", "add 8 0", "add 0 8", "set 4294967295 0"] {
        refused(&in_place("load 0 7", step), 11, step);
    }
    refused(&in_place("run", "script 1\nrun"), 11, "two scripts for one task");
    for step in ["load 2 0", "store 0 2", "load 4294967295 0", "load 1 0", "store 0 1"] {
        refused(&in_place("load 0 7", step), 11, step);
    }
    for step in ["load 0", "load 0 07", "subtract 0 1", "", "cell 1 1", "section 65537 0 0", "tick"] {
        refused(&in_place("load 0 7", step), 11, step);
    }
    for event in
        ["turn", "turn 01", "run", "end", "", "task 1", "tick 1", "obtain 2 65537", "create 2 79 1 0"]
    {
        refused(&in_place("turn 1", event), 11, event);
    }
    for id in ["65539", "65540", "65541", "131073", "0", "65536", "1", "4294967295"] {
        let steps = format!("section {id} 0 0\nend\n");
        refused(&in_place(section, &steps), 11, id);
    }
}

#[test]
fn refusals_with_4() {
    let in_place = |old: &str, new: &str| input(&FINE.replace(old, new));
    for task in ["0", "4", "33", "4294967295", "3"] {
        refused(&in_place("run", &format!("script {task}\nrun")), 4, task);
    }
    for task in ["0", "2", "4", "4294967295"] {
        refused(&in_place("turn 1", &format!("turn 1\nturn {task}")), 4, task);
    }
    for call in ["create 1 0 0 0 0", "delete 1 0", "obtain 1 0 0 0", "release 1 0", "flush 1 0"] {
        refused(&in_place("turn 1", call), 4, call);
    }
}

#[test]
fn who_may_call() {
    // Neither an empty nor a finished script lets its task call.
    let text = "script 1\nscript 2\nsection 65537 0 0\nend\nrun\nturn 2\nturn 2\nturn 2\n";
    assert_eq!(run(&input(text)).places[1].section, 1);
    refused(&input(&format!("{text}flush 1 65537\n")), 4, "an empty script's task");
    refused(&input(&format!("{text}flush 2 65537\n")), 4, "a finished script's task");
    // Others may call as they like, refused or not; start and ident have no caller.
    for call in ["flush 0 65537", "flush 9 65537", "delete 0 65537", "ident 77", "start 1 1", "tick"] {
        assert_eq!(run(&input(&format!("{text}{call}\n"))).answer.status, 0, "{call}");
    }
}

#[test]
fn order_of_the_refusals() {
    let text = "create 1 79 0 0 1\nobtain 3 65539 0 4294967295\nscript 3\nrun\nflush 3 65539\nturn 1\n";
    refused(&input(text), 4, "waiting, calling, and a turn without a script");
    refused(&input(&format!("{text}turn")), 11, "an event of no kind at the end beats them");
    let mut disagrees = input(&format!("{text}turn"));
    disagrees.machine.tasks[0].state = State::Ready { answer: 1 };
    refused(&disagrees, 25, "tables that do not agree");
    let mut task = input("script 1\nrun\n");
    task.events.push(Event::Call(Call::Task { task: 1 }));
    refused(&task, 11, "how a task learns its answer is no event");
}

#[test]
fn many_scripts() {
    let scripts = |count: u32| -> String { (1..=count).map(|task| script(task, &[FIRST])).collect() };
    let session = format!("start 1{}\ncreate 1 77 1 16 1\n", " 5".repeat(32));
    let turns: String = (1..=32).map(|task| format!("turn {task}\n")).collect();
    let text = |count, events: &str| format!("{session}{}run\n{events}", scripts(count));
    let full = read(text(32, &turns.repeat(3)).as_bytes()).unwrap();
    assert_eq!(run(&full).grants.len(), 2, "one is done and the next one is granted");
    refused(&read(text(33, "").as_bytes()).unwrap(), 4, "one of 33 tasks is none");
    // A machine that is not started has no ready task, but events may start it.
    refused(&read(b"script 1\nrun\n").unwrap(), 4, "not started");
    let started = run(&read(b"run\nstart 1 5 4\ncreate 1 7 1 16 1\n").unwrap());
    assert_eq!((started.answer, started.machine.tasks.len()), (Answer::new(0, 0, 2), 2));
    assert_ne!(started.machine, Machine::default());
}
