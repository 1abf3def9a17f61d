//! Maxima: the in-place variant with one thing done wrong with them, which the comparison and the cases have to find.

mod wrong;

use compare::call::{Answer, Call, Manager};
use compare::fuzz::cases;
use compare::inplace::agreement::Tested;
use compare::layout::{read_with_maxima_mended, set_word, slot_at, word, COUNT, MAXIMUM, QUEUED};
use compare::record::Recorder;
use wrong::{random_parts, Serve, Wrong};

/// The first word of the slot that an identifier names.
fn slot_of(id: u32) -> usize {
    slot_at((id % 65536) as usize - 1)
}

/// A create that was refused with 10 made all the same if it fits, with this count and maximum in the tables.
fn let_in(
    tables: &mut [u8],
    call: &Call,
    fits: fn(attributes: u32, count: u32, maximum: u32) -> bool,
) -> Answer {
    let answer = Tested.call(tables, call);
    let Call::Create { caller, name, count, attributes, maximum } = *call else { return answer };
    if answer.status != 10 || !fits(attributes, count, maximum) {
        return answer;
    }
    let made = Tested.call(tables, &Call::create(caller, name, count.min(1), attributes));
    if made.status == 0 {
        set_word(tables, slot_of(made.value) + COUNT, count);
        set_word(tables, slot_of(made.value) + MAXIMUM, maximum);
    }
    made
}

/// A create that was refused with `refused`, refused with 10 in its place if that applies too.
fn ten_before(tables: &mut [u8], call: &Call, refused: u32) -> Answer {
    let answer = Tested.call(tables, call);
    match *call {
        Call::Create { count, maximum, .. }
            if answer.status == refused && (maximum == 0 || count > maximum) =>
        {
            Answer { status: 10, ..answer }
        }
        _ => answer,
    }
}

const WRONG: [(&str, Serve); 14] = [
    ("lets in a count above the maximum", |tables, call| {
        let_in(tables, call, |attributes, count, maximum| {
            attributes <= 4 && maximum >= 1 && count > maximum
        })
    }),
    ("lets in maximum 0", |tables, call| {
        let_in(tables, call, |attributes, count, maximum| attributes <= 4 && maximum == 0 && count == 0)
    }),
    ("lets in maximum 2 of a simple binary semaphore", |tables, call| {
        let_in(tables, call, |attributes, count, maximum| attributes >= 32 && maximum == 2 && count <= 1)
    }),
    ("lets in maximum 2 of a binary semaphore", |tables, call| {
        let_in(tables, call, |attributes, count, maximum| {
            attributes & 16 != 0 && maximum == 2 && count == 1
        })
    }),
    ("tests 10 before 11", |tables, call| ten_before(tables, call, 11)),
    ("tests 10 before 3", |tables, call| ten_before(tables, call, 3)),
    ("tests 10 behind 5", |tables, call| {
        let (answer, full) = (Tested.call(tables, call), Call::create(1, 1, 0, 0));
        match (call, answer.status) {
            (Call::Create { .. }, 10) if Tested.call(&mut tables.to_vec(), &full).status == 5 => {
                Answer { status: 5, ..answer }
            }
            _ => answer,
        }
    }),
    ("stores the count as the maximum", |tables, call| {
        let answer = Tested.call(tables, call);
        if let (&Call::Create { count, attributes: 0 | 4, .. }, 0) = (call, answer.status) {
            set_word(tables, slot_of(answer.value) + MAXIMUM, count.max(1));
        }
        answer
    }),
    ("refuses one release too late", |tables, call| {
        let answer = Tested.call(tables, call);
        if let (&Call::Release { id, .. }, 13) = (call, answer.status) {
            let count = word(tables, slot_of(id) + COUNT);
            if count > 1 && count < u32::MAX {
                set_word(tables, slot_of(id) + COUNT, count + 1);
                return Answer { status: 0, ..answer };
            }
        }
        answer
    }),
    ("refuses one release too early", |tables, call| {
        let before = tables.to_vec();
        let answer = Tested.call(tables, call);
        if let (&Call::Release { id, .. }, 0) = (call, answer.status) {
            let field = |field: usize| word(&before, slot_of(id) + field);
            if field(QUEUED) == 0 && field(MAXIMUM) > 1 && field(COUNT) == field(MAXIMUM) - 1 {
                tables.copy_from_slice(&before);
                return Answer { status: 13, ..answer };
            }
        }
        answer
    }),
    ("knows no maximum but the greatest", |tables, call| {
        let answer = Tested.call(tables, call);
        if let (&Call::Release { id, .. }, 13) = (call, answer.status) {
            let at = slot_of(id);
            if word(tables, at + MAXIMUM) != u32::MAX {
                set_word(tables, at + COUNT, word(tables, at + COUNT) + 1);
                return Answer { status: 0, ..answer };
            }
        }
        answer
    }),
    ("leaves a freed slot its maximum", |tables, call| {
        let before = tables.to_vec();
        let answer = Tested.call(tables, call);
        if let (&Call::Delete { id, .. }, 0) = (call, answer.status) {
            set_word(tables, slot_of(id) + MAXIMUM, word(&before, slot_of(id) + MAXIMUM));
        }
        answer
    }),
    ("tests no maximum for 25", |tables, call| match (Tested.call(tables, call), call) {
        (answer, Call::Tick) if answer.status == 25 => match read_with_maxima_mended(tables) {
            Some(machine) => Answer::new(0, 0, machine.next_task()),
            None => answer,
        },
        (answer, _) => answer,
    }),
    ("keeps the maximum it was first created with", |tables, call| {
        let before = tables.to_vec();
        let answer = Tested.call(tables, call);
        if let (&Call::Create { maximum: 2.., .. }, 0) = (call, answer.status) {
            let used = word(&before, slot_of(answer.value)) > 0;
            if used {
                set_word(tables, slot_of(answer.value) + MAXIMUM, 1);
            }
        }
        answer
    }),
];

#[test]
fn wrong_maxima_are_found_at_random() {
    for (what, serve) in WRONG {
        random_parts(&mut Wrong(serve)).expect_err(what);
    }
}

#[test]
fn wrong_maxima_are_found_by_the_cases() {
    // The last needs a slot that is used again with a greater maximum, which no case has.
    for (what, serve) in &WRONG[..13] {
        cases::run(&mut Wrong(*serve)).expect_err(what);
    }
}

#[test]
fn a_record_has_the_maximum_of_a_create() {
    let mut record = Vec::new();
    let mut recorder = Recorder::new(&mut record);
    let mut tables = vec![0; compare::layout::LENGTH];
    recorder.call(&mut tables, &Call::Start { slots: 1, priorities: vec![7] });
    let create = Call::Create { caller: 1, name: 9, count: 3, attributes: 4, maximum: 12 };
    recorder.call(&mut tables, &create);
    recorder.finish().expect("memory takes all of it");
    let words: Vec<u32> =
        record.as_chunks::<4>().0.iter().map(|&word| u32::from_le_bytes(word)).collect();
    // Kind, five numbers, the answer; then the sum, the end, and how many calls.
    let entry = &words[words.len() - 12..];
    assert_eq!(entry[..9], [1, 1, 9, 3, 4, 12, 0, 65537, 1]);
    assert_eq!(entry[10..], [18, 2]);
}
