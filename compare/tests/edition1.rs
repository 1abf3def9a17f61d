//! Edition 1 of the state file, which is still read: stored files from before edition 2, and what is refused.

use std::fs;
use std::path::PathBuf;

use compare::call::{Answer, Call};
use compare::inplace::agreement::Tested;
use compare::inplace::state::file_of;
use compare::layout::{self, set_word, slot_at, word, Model, LENGTH, MAXIMUM};
use compare::model::Machine;
use compare::session::{parse_line, print_answer};
use compare::state::read::{read, Fault};
use compare::state::sheet::Sheet;
use compare::state::write::{write, write_in};
use compare::state::{Keeper, LONGEST};

/// Both keepers' load, which have to agree on all that they leave.
fn load(tables: &mut [u8], file: &[u8]) -> Answer {
    let mut in_place = tables.to_vec();
    let answers = [Model.load(tables, file), Tested.load(&mut in_place, file)];
    assert_eq!(answers[0], answers[1]);
    assert!(tables == in_place, "the tables are the same");
    answers[0]
}

/// The tables that a file gives.
fn loaded(file: &[u8]) -> Vec<u8> {
    let mut tables = vec![0; LENGTH];
    let answer = load(&mut tables, file);
    assert_eq!((answer.status, answer.value), (0, 0));
    tables
}

/// The file that both keepers save of tables.
fn saved(tables: &[u8]) -> Vec<u8> {
    let (mut file, mut in_place) = (vec![0; LONGEST], vec![0; LONGEST]);
    let answers = [Model.save(tables, &mut file), Tested.save(tables, &mut in_place)];
    assert_eq!(answers[0], answers[1]);
    assert!(file == in_place, "the files are the same");
    file.truncate(answers[0].value as usize);
    file
}

/// The file is refused with 8 for this fault, on an unstarted machine that stays so.
fn refused(file: &[u8], fault: Fault) {
    assert_eq!(read(file).unwrap_err(), fault);
    let mut tables = vec![0; LENGTH];
    assert_eq!(load(&mut tables, file), Answer::new(8, 0, 0));
    assert!(tables.iter().all(|&byte| byte == 0), "a refusal changes nothing");
}

const STORED: [&str; 5] = ["classes", "full", "least", "retired", "morning"];

fn stored(name: &str) -> PathBuf {
    PathBuf::from(concat!(env!("CARGO_MANIFEST_DIR"), "/../examples/state/edition1")).join(name)
}

#[test]
fn stored_files_are_read() {
    for name in STORED {
        let file = fs::read(stored(&format!("{name}.edition1"))).unwrap();
        let renewed = fs::read(stored(&format!("{name}.edition2"))).unwrap();
        let tables = loaded(&file);
        assert!(saved(&tables) == renewed, "{name}: saved as edition 2");
        assert!(loaded(&renewed) == tables, "{name}: edition 2 gives the same tables");
        assert_eq!(file_of(&tables, 1), Some(file), "{name}: what edition 1 says of them");
    }
    let lengths = STORED.map(|name| fs::read(stored(&format!("{name}.edition1"))).unwrap().len());
    assert_eq!(lengths, [452, 2744, 108, 192, 244]);
}

/// The answers to a session that goes on from a machine.
fn answers(mut machine: Machine, session: &str) -> String {
    let mut output = Vec::new();
    for line in session.lines() {
        let call = parse_line(line.as_bytes()).expect(line);
        print_answer(machine.call(&call), &mut output);
    }
    String::from_utf8(output).unwrap()
}

#[test]
fn stored_files_are_resumed() {
    for name in &STORED[..4] {
        let machine = read(&fs::read(stored(&format!("{name}.edition1"))).unwrap()).unwrap();
        let session = fs::read_to_string(stored(&format!("{name}.resume"))).unwrap();
        let wanted = fs::read_to_string(stored(&format!("{name}.resumed"))).unwrap();
        assert_eq!(answers(machine, &session), wanted, "{name}");
    }
    // The tag's evening goes on from a morning of edition 1 as from one of edition 2.
    let machine = read(&fs::read(stored("morning.edition1")).unwrap()).unwrap();
    let evening = |end: &str| fs::read_to_string(stored(&format!("../evening.{end}"))).unwrap();
    assert_eq!(answers(machine, &evening("session")), evening("stdout"));
}

/// One of each class at its greatest count, a free slot and one that was freed; task 2 waits on the counting one.
fn machine() -> Machine {
    let mut machine = Machine::default();
    let create =
        |count, attributes, maximum| Call::Create { caller: 1, name: 77, count, attributes, maximum };
    for call in [
        Call::Start { slots: 6, priorities: vec![10, 20] },
        create(0, 0, 12),
        create(1, 20, 1),
        create(1, 32, 1),
        create(u32::MAX, 4, u32::MAX),
        create(5, 0, 5),
        Call::Delete { caller: 1, id: 65541 },
        Call::Obtain { caller: 2, id: 65537, options: 0, timeout: 3 },
    ] {
        assert!([0, 100].contains(&machine.call(&call).status), "{call:?}");
    }
    machine
}

/// The words of its file: the first slot's, behind two tasks; the queues and the ready sequence behind six slots.
const SLOT: usize = 14 + 8;
const RECORD: usize = 7;

fn edited(edits: &[(usize, u32)]) -> Vec<u8> {
    let mut file = write_in(1, &machine());
    edits.iter().for_each(|&(at, number)| set_word(&mut file, at, number));
    file
}

#[test]
fn maxima_by_class() {
    let file = write_in(1, &machine());
    assert_eq!((file.len(), word(&file, 0), word(&file, 7)), (56 + 20 * 2 + 32 * 6, 1, 28 * 6));
    let tables = loaded(&file);
    let maxima: Vec<u32> = (0..7).map(|index| word(&tables, slot_at(index) + MAXIMUM)).collect();
    assert_eq!(maxima, [u32::MAX, 1, 1, u32::MAX, 0, 0, 0]);
    // All else is as it was, and the file saved is longer by a number for each slot.
    let mut before = layout::write(&machine());
    set_word(&mut before, slot_at(0) + MAXIMUM, u32::MAX);
    assert!(before == tables);
    assert_eq!((saved(&tables).len(), word(&saved(&tables), 0)), (file.len() + 4 * 6, 2));
}

#[test]
fn an_exact_file_or_none() {
    let file = write_in(1, &machine());
    for length in 0..file.len() {
        refused(&file[..length], if length < 56 { Fault::Contents } else { Fault::Length });
    }
    for behind in 1..=8 {
        refused(&[&file[..], &vec![0; behind]].concat(), Fault::Behind);
    }
    // Seven numbers are no record of edition 2, and eight none of edition 1.
    refused(&edited(&[(0, 2)]), Fault::Slots);
    let mut renewed = write(&machine());
    set_word(&mut renewed, 0, 1);
    refused(&renewed, Fault::Slots);
    for (name, misplaced) in Sheet::of(1, &machine()).misplaced() {
        let mut tables = vec![0; LENGTH];
        assert_eq!(load(&mut tables, &misplaced.file()), Answer::new(8, 0, 0), "{name}");
    }
    refused(&edited(&[(0, 0)]), Fault::Edition);
    refused(&edited(&[(0, 3)]), Fault::Edition);
    refused(&edited(&[(1, 5)]), Fault::Bodies);
    refused(&edited(&[(5, 3)]), Fault::Kind);
    refused(&edited(&[(6, 92)]), Fault::Offset);
}

#[test]
fn a_zero_body_of_either_edition() {
    // 56 zeros are seven records of edition 2 and eight of edition 1; the queues say which there are.
    let of = |edition: u32, slots: usize| {
        let bodies = [vec![1, 0, 0, 0], vec![0; 56], vec![0; slots], vec![1]];
        Sheet::new(edition, bodies).file()
    };
    assert_eq!(read(&of(2, 7)).map(|machine| machine.slots.len()), Ok(7));
    assert_eq!(read(&of(1, 8)).map(|machine| machine.slots.len()), Ok(8));
    loaded(&of(2, 7));
    loaded(&of(1, 8));
    refused(&of(2, 8), Fault::Queues);
    refused(&of(1, 7), Fault::Queues);
}

#[test]
fn counts_of_tasks_and_slots() {
    let sheet = Sheet::of(1, &machine());
    loaded(&sheet.clone().with_tasks(32).file());
    loaded(&sheet.clone().with_slots(64).file());
    refused(&sheet.clone().with_tasks(0).file(), Fault::Tasks);
    refused(&sheet.clone().with_tasks(33).file(), Fault::Tasks);
    refused(&sheet.clone().with_slots(0).file(), Fault::Slots);
    refused(&sheet.clone().with_slots(65).file(), Fault::Slots);
}

#[test]
fn what_the_tables_say() {
    let at = |slot: usize, field: usize| SLOT + RECORD * slot + field;
    for edit in [(at(0, 2), 78), (at(3, 4), 0), (at(3, 3), 0), (at(1, 0), 65535), (at(5, 0), 65535)] {
        loaded(&edited(&[edit]));
    }
    // Counting, at a count that only the greatest maximum allows, made one of the binary classes.
    for attributes in [16, 20, 32, 36, 84] {
        refused(&edited(&[(at(3, 3), attributes)]), Fault::Agreement);
        loaded(&edited(&[(at(3, 3), attributes), (at(3, 4), 1)]));
    }
    for edit in [(at(1, 4), 2), (at(2, 4), 2), (at(2, 5), 1), (at(0, 4), 1), (at(0, 0), 0), (14, 256)] {
        refused(&edited(&[edit]), Fault::Agreement);
    }
    refused(&edited(&[(at(0, 1), 2)]), Fault::Live);
    for attributes in [48, 64, 68, 80, 96, 100, 116] {
        refused(&edited(&[(at(0, 3), attributes)]), Fault::Attributes);
    }
    // What a free slot still has.
    for field in 2..RECORD {
        refused(&edited(&[(at(4, field), 1)]), Fault::Rewritten);
        refused(&edited(&[(at(5, field), u32::MAX)]), Fault::Rewritten);
    }
    refused(&edited(&[(14 + 2, 65537)]), Fault::Rewritten);
}
