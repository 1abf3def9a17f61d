//! The comparison of how many slots an ident looks at, with the in-place variant in the library's stead, and
//! its record.

mod wrong;

use compare::call::{Answer, Call, Manager};
use compare::fuzz::cases;
use compare::inplace::agreement::Tested;
use compare::layout::{set_word, slot_at, word, LENGTH, LIVE, NAME, SLOTS, WORDS};
use compare::record::Recorder;
use wrong::random_parts;

/// What an ident of this name answered and counted, spoiled.
type Spoil = fn(tables: &mut [u8], name: u32, answer: Answer, looked: u32) -> (Answer, u32);

/// The in-place variant with one thing wrong where an ident counts, and in no other call.
struct Miscounts(Spoil);

impl Manager for Miscounts {
    fn call(&mut self, tables: &mut [u8], call: &Call) -> Answer {
        Tested.call(tables, call)
    }

    fn ident_looked(&mut self, tables: &mut [u8], name: u32) -> (Answer, u32) {
        let (answer, looked) = Tested.ident_looked(tables, name);
        (self.0)(tables, name, answer, looked)
    }
}

fn slots(tables: &[u8]) -> u32 {
    word(tables, SLOTS)
}

/// Whether the slot of this number bears the name.
fn bears(tables: &[u8], name: u32, number: u32) -> bool {
    word(tables, slot_at(number as usize - 1) + NAME) == name
}

/// How many of the slots up to this number are live.
fn live(tables: &[u8], number: u32) -> u32 {
    (0..number as usize).map(|index| word(tables, slot_at(index) + LIVE)).sum()
}

const WRONG: [(&str, Spoil); 12] = [
    ("counts from 0", |_, _, answer, looked| (answer, looked.saturating_sub(1))),
    ("looks at all slots, match or none", |tables, _, answer, looked| match answer.status {
        0 => (answer, slots(tables)),
        _ => (answer, looked),
    }),
    ("looks twice at what it finds", |_, _, answer, looked| match answer.status {
        0 => (answer, looked + 1),
        _ => (answer, looked),
    }),
    ("goes on to the last of the name", |tables, name, answer, looked| match answer.status {
        0 => (answer, (looked..=slots(tables)).rfind(|&number| bears(tables, name, number)).unwrap()),
        _ => (answer, looked),
    }),
    ("passes over free slots without a count", |tables, _, answer, looked| match answer.status {
        25 => (answer, looked),
        _ => (answer, live(tables, looked)),
    }),
    ("counts none without a match", |_, _, answer, looked| match answer.status {
        0 => (answer, looked),
        _ => (answer, 0),
    }),
    ("counts a slot too many without a match", |_, _, answer, looked| match answer.status {
        3 if looked > 0 => (answer, looked + 1),
        _ => (answer, looked),
    }),
    ("searches for name 0", |tables, name, answer, looked| match answer.status {
        3 if name == 0 => (answer, slots(tables)),
        _ => (answer, looked),
    }),
    ("searches before the test for 25", |tables, name, answer, looked| match answer.status {
        25 if tables.len() == LENGTH && name != 0 => {
            (answer, (1..=64).find(|&number| bears(tables, name, number)).unwrap_or(0))
        }
        _ => (answer, looked),
    }),
    ("leaves the count unwritten with 25", |_, _, answer, looked| match answer.status {
        25 => (answer, u32::MAX),
        _ => (answer, looked),
    }),
    ("leaves the count unwritten before start", |tables, _, answer, looked| match answer.status {
        3 if slots(tables) == 0 => (answer, u32::MAX),
        _ => (answer, looked),
    }),
    ("answers the count", |_, _, answer, looked| match answer.status {
        0 => (Answer { value: looked, ..answer }, looked),
        _ => (answer, looked),
    }),
];

#[test]
fn wrong_counts_are_found_at_random() {
    for (what, spoil) in WRONG {
        let found = random_parts(&mut Miscounts(spoil)).expect_err(what);
        assert!(matches!(found.call, Call::Ident { .. }), "{what}");
        let [wanted, counted] = found.looked.expect("the count was compared");
        assert!(wanted != counted || found.expected != found.found, "{what}");
        assert!(found.to_string().contains(&format!("slots looked at: {counted}\n")), "{what}");
    }
}

#[test]
fn wrong_counts_are_found_by_the_cases() {
    for (what, spoil) in WRONG {
        cases::run(&mut Miscounts(spoil)).expect_err(what);
    }
}

#[test]
fn a_write_by_the_count_is_found_and_named() {
    let spoil: Spoil = |tables, _, answer, looked| {
        if answer.status == 0 {
            set_word(tables, WORDS - 1, 7);
        }
        (answer, looked)
    };
    let found = random_parts(&mut Miscounts(spoil)).expect_err("the comparison finds it");
    assert!(found.memory.is_some_and(|said| said.starts_with("word 2786, ready sequence place 32: ")));
    assert!(
        cases::run(&mut Miscounts(spoil)).is_err_and(|said| said.ends_with("the tables were changed"))
    );
}

/// The last call's entry in a record, with what follows it.
fn last_entry(calls: &[Call]) -> Vec<u32> {
    let mut record = Vec::new();
    let mut recorder = Recorder::new(&mut record);
    let mut tables = vec![0; LENGTH];
    for call in calls {
        recorder.call(&mut tables, call);
    }
    let counted = recorder.ident_looked(&mut tables, 9);
    recorder.finish().expect("memory takes all of it");
    assert_eq!(counted, Tested.ident_looked(&mut tables, 9));
    let words: Vec<u32> =
        record.as_chunks::<4>().0.iter().map(|&word| u32::from_le_bytes(word)).collect();
    words[words.len() - 12..].to_vec()
}

#[test]
fn a_record_has_the_count_of_an_ident() {
    let create = |name| Call::create(1, name, 0, 0);
    let start = Call::Start { slots: 5, priorities: vec![3] };
    let ident = Call::Ident { name: 9 };
    // Kind, name, count, three zeros, the answer; then the sum, the end, and how many calls.
    let entry = last_entry(&[start.clone(), create(8), create(9), ident.clone()]);
    assert_eq!(entry[..9], [2, 9, 2, 0, 0, 0, 0, 65538, 1]);
    assert_eq!(entry[10..], [18, 4]);
    assert_eq!(last_entry(&[start, ident.clone()])[..9], [2, 9, 5, 0, 0, 0, 3, 0, 1]);
    assert_eq!(last_entry(&[ident])[..9], [2, 9, 0, 0, 0, 0, 3, 0, 0]);
}
