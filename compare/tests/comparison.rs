//! The comparison itself, with the in-place variant in the library's stead.

use compare::call::{Answer, Call, Manager};
use compare::fuzz::comparison::{Comparison, Difference};
use compare::fuzz::{damage, sequence};
use compare::inplace::agreement::Tested;
use compare::layout::{read, set_sequence, word, READY, SEQUENCE};

fn random_parts(comparison: &mut Comparison, sequences: u64) -> Result<(), Box<Difference>> {
    for seed in 0..sequences {
        let machine = sequence::run(comparison, seed)?;
        sequence::run_grants(comparison, seed, &machine)?;
        sequence::run_chains(comparison, seed)?;
        damage::at_random(comparison, seed, &machine)?;
    }
    Ok(())
}

#[test]
fn in_place_is_as_the_model() {
    let mut subject = Tested;
    let mut comparison = Comparison::new(&mut subject);
    random_parts(&mut comparison, 200).unwrap_or_else(|difference| panic!("{difference}"));
    assert_eq!(comparison.coverage.gaps(), [""; 0]);
    assert_eq!(comparison.coverage.histories.gaps(), [""; 0]);
}

#[test]
fn in_place_is_as_the_model_on_every_length() {
    let mut subject = Tested;
    damage::every_length(&mut Comparison::new(&mut subject)).unwrap_or_else(|found| panic!("{found}"));
}

#[test]
fn in_place_is_as_the_model_on_every_word() {
    let mut subject = Tested;
    damage::every_word(&mut Comparison::new(&mut subject)).unwrap_or_else(|found| panic!("{found}"));
}

/// The in-place variant with one thing done wrong after the call.
struct Wrong<Spoil>(Spoil);

impl<Spoil: FnMut(&Call, &mut [u8], Answer) -> Answer> Manager for Wrong<Spoil> {
    fn call(&mut self, tables: &mut [u8], call: &Call) -> Answer {
        let answer = Tested.call(tables, call);
        (self.0)(call, tables, answer)
    }

    // The same thing wrong in both, so that what is found is not that they differ.
    fn ident_looked(&mut self, tables: &mut [u8], name: u32) -> (Answer, u32) {
        let (answer, looked) = Tested.ident_looked(tables, name);
        ((self.0)(&Call::Ident { name }, tables, answer), looked)
    }
}

fn is_found(spoil: impl FnMut(&Call, &mut [u8], Answer) -> Answer) -> Box<Difference> {
    let mut subject = Wrong(spoil);
    random_parts(&mut Comparison::new(&mut subject), 50).expect_err("the comparison finds it")
}

#[test]
fn a_wrong_answer_is_found() {
    let found = is_found(|_, _, answer| match answer.status {
        25 => Answer { next: 1, ..answer },
        _ => answer,
    });
    assert_eq!((found.expected.next, found.found.next), (0, 1));
    assert!(found.memory.is_none());
}

#[test]
fn a_wrong_byte_is_found_and_named() {
    let found = is_found(|call, tables, answer| {
        if matches!(call, Call::Flush { .. }) && answer.status == 0 {
            compare::layout::set_word(tables, 134, 7);
        }
        answer
    });
    assert_eq!(found.expected, found.found);
    assert!(found.memory.is_some_and(|said| said.starts_with("word 134, slot 1 count: ")));
}

/// The sequence of ready tasks, as it is now.
fn sequence(tables: &[u8]) -> Vec<u32> {
    (0..word(tables, READY) as usize).map(|place| word(tables, SEQUENCE + place)).collect()
}

#[test]
fn the_lowest_number_among_equals_is_found() {
    let found = is_found(|_, tables, answer| {
        if answer.status == 25 {
            return answer;
        }
        let working = read(tables).expect("calls keep the tables in agreement").working();
        let ready = sequence(tables);
        let urgent = ready.iter().copied().min_by_key(|&number| (working[number as usize - 1], number));
        Answer { next: urgent.unwrap_or(0), ..answer }
    });
    assert!(found.found.next < found.expected.next && found.memory.is_none());
}

#[test]
fn a_poll_that_moves_its_caller_is_found() {
    let found = is_found(|call, tables, answer| {
        if let (Call::Obtain { caller, .. }, 0 | 13) = (call, answer.status) {
            let mut ready = sequence(tables);
            ready.retain(|number| number != caller);
            ready.push(*caller);
            set_sequence(tables, &ready);
        }
        answer
    });
    assert!(found.memory.is_some_and(|said| said.contains("ready sequence place ")));
}

#[test]
fn a_wake_at_the_front_is_found() {
    let mut before = Vec::new();
    let found = is_found(|call, tables, answer| {
        let mut ready = sequence(tables);
        if matches!(call, Call::Release { .. }) && answer.status == 0 && ready.len() > before.len() {
            ready.rotate_right(1);
            set_sequence(tables, &ready);
        }
        before = sequence(tables);
        answer
    });
    assert!(matches!(found.call, Call::Release { .. }));
}
