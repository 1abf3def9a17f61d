//! Guarded sections whose semaphore lends the waiters' priorities to its owner.

use compare::sections::write::answer_text;

/// A script of one section on 65537 that takes one step and waits for ever.
fn script(task: u32) -> String {
    format!("script {task}\nsection 65537 0 4294967295\nset 0 1\nend\n")
}

/// The line of the output that begins with this word, or the first.
fn line(text: &str, word: &str) -> String {
    let output = answer_text(text.as_bytes()).unwrap();
    let found = output.lines().find(|line| line.starts_with(word));
    found.unwrap_or_else(|| panic!("no line {word} in\n{output}")).to_string()
}

/// Radio 10, logger 20, display 30: the display's section is open, and the radio's waits for it.
#[test]
fn the_display_in_its_section_works_for_the_radio() {
    for (attributes, next) in [(16, 2), (20, 2), (84, 3)] {
        let session = format!("start 1 10 20 30\ncreate 1 77 1 {attributes} 1\n");
        let scripts = format!("{session}{}{}run\nturn 3\nturn 1\n", script(1), script(3));
        assert_eq!(line(&scripts, ""), format!("0 0 {next}"), "{attributes}");
        assert_eq!(line(&scripts, "grants"), "grants 3:0");
        let done = format!("{scripts}turn 3\nturn 3\n");
        assert_eq!(line(&done, ""), "0 0 1", "{attributes}");
        assert_eq!(line(&done, "grants"), "grants 3:0 1:0");
    }
}

/// Sections of tasks 1 and 2 wait for that of 4; task 3 then waits for a semaphore that task 1 holds.
#[test]
fn sections_are_granted_by_working_priorities() {
    for (held, granted) in [(84, 1), (20, 2), (16, 2)] {
        let session = format!("start 2 30 20 10 1\ncreate 4 77 1 84 1\ncreate 1 78 0 {held} 1\n");
        let scripts = [1, 2, 4].map(script).concat();
        let events = "turn 4\nturn 1\nturn 2\nobtain 3 65538 0 4294967295\nturn 4\nturn 4\n";
        let text = format!("{session}{scripts}run\n{events}");
        assert_eq!(line(&text, "grants"), format!("grants 4:0 {granted}:0"), "{held}");
    }
}

#[test]
fn a_section_takes_no_owned_one() {
    for (count, attributes, status) in [(1, 84, 0), (0, 84, 11), (1, 80, 11), (1, 36, 11), (0, 36, 11)] {
        let session = format!("start 1 10 20\ncreate 2 77 {count} {attributes} 1\n");
        let text = format!("{session}{}run\n", script(1));
        assert_eq!(line(&text, ""), format!("{status} 0 1"), "{count} {attributes}");
    }
}
