//! Damaged tables: 25 and nothing changed, or served, as this project's own code does.

use crate::call::{Answer, Call, Manager, KINDS};
use crate::fuzz::comparison::{Comparison, Difference, Expected, Place};
use crate::fuzz::generate::{Plan, TICKS_LEFT};
use crate::fuzz::lent::Lent;
use crate::fuzz::mutate::mutate;
use crate::fuzz::rng::Rng;
use crate::history::History;
use crate::layout::{self, *};
use crate::model::{Machine, State};
use crate::status::{FOREVER, STANDARD};

type Compared = Result<(), Box<Difference>>;

/// Calls made on every damaged table: one of each kind, drawn for the tables before the damage, and an ident
/// that matched there.
fn probes(rng: &mut Rng, machine: &Machine) -> Vec<Call> {
    let plan = Plan::draw(rng);
    let mut calls: Vec<Call> = (0..KINDS.len()).map(|kind| plan.draw_kind(rng, machine, kind)).collect();
    let last = machine.slots.iter().rev().find_map(|slot| slot.live.as_ref());
    calls.extend(last.map(|live| Call::Ident { name: live.name }));
    calls
}

/// Makes each call on its own copy of the bytes.
fn probe(comparison: &mut Comparison, place: Place, calls: &[Call], lent: &mut Lent) -> Compared {
    let bytes = lent.bytes().to_vec();
    let machine = layout::read(&bytes);
    comparison.coverage.damaged(&bytes, machine.as_ref());
    for call in calls {
        let compared = match &machine {
            None => {
                let expected = Expected { before: None, answer: Answer::DISAGREE, bytes: &bytes };
                comparison.step(place, call, lent, &expected)
            }
            Some(before) => {
                let mut machine = before.clone();
                let answer = machine.call(call);
                let after = layout::write(&machine);
                let expected = Expected { before: Some(before), answer, bytes: &after };
                let mut history = History::begin(&bytes);
                let compared = comparison
                    .step(place, call, lent, &expected)
                    .and_then(|()| comparison.account(&mut history, place, call, answer, lent.bytes()));
                lent.bytes_mut().copy_from_slice(&bytes);
                compared
            }
        };
        compared?;
    }
    Ok(())
}

/// The same, with words for what was damaged in case of a difference.
fn probe_damaged(
    comparison: &mut Comparison,
    place: Place,
    calls: &[Call],
    lent: &mut Lent,
    damage: impl Fn() -> String,
) -> Compared {
    probe(comparison, place, calls, lent).map_err(|mut difference| {
        difference.damage = Some(damage());
        difference
    })
}

/// Every length from 0 to a little above the layout's.
pub fn every_length(comparison: &mut Comparison) -> Compared {
    let mut rng = Rng::new(0);
    for machine in bases() {
        let calls = probes(&mut rng, &machine);
        let mut bytes = layout::write(&machine);
        bytes.resize(LENGTH + 40, 0);
        for length in 0..=bytes.len() {
            let place = Place { part: "every length", seed: 0, step: length as u64 };
            let mut lent = Lent::new(&bytes[..length], length % 4);
            probe_damaged(comparison, place, &calls, &mut lent, || format!("length {length}"))?;
        }
    }
    Ok(())
}

/// Every single word of several agreeing tables, set to each of a set of values.
pub fn every_word(comparison: &mut Comparison) -> Compared {
    for (base, machine) in (0..).zip(bases()) {
        let calls = probes(&mut Rng::new(base), &machine);
        let mut lent = Lent::new(&layout::write(&machine), base as usize % 4);
        for at in 0..WORDS {
            let place = Place { part: "every word", seed: base, step: at as u64 };
            let mut values = values(word(lent.bytes(), at)).to_vec();
            if is_ticks(at) {
                values.extend(TICKS_LEFT);
            }
            set_to_each(comparison, place, &calls, &mut lent, at, &values)?;
        }
    }
    every_small_number(comparison)?;
    every_sequence(comparison)
}

/// Every small number in every word that small tables use, so that no wrong answer or attribute passes.
fn every_small_number(comparison: &mut Comparison) -> Compared {
    let machine = small();
    let calls = probes(&mut Rng::new(0), &machine);
    let mut lent = Lent::new(&layout::write(&machine), 0);
    let numbers: Vec<u32> = (0..=300).collect();
    let tasks = 0..task_at(machine.tasks.len() as u32 + 1);
    let sequence = READY..SEQUENCE + machine.tasks.len() + 1;
    for at in tasks.chain(slot_at(0)..slot_at(machine.slots.len())).chain(sequence) {
        let place = Place { part: "every small number", seed: 0, step: at as u64 };
        set_to_each(comparison, place, &calls, &mut lent, at, &numbers)?;
    }
    Ok(())
}

/// Every length up to 5 with every number up to N + 1 in the first four places, of three equals of whom one waits.
fn every_sequence(comparison: &mut Comparison) -> Compared {
    let machine = made_by(&[
        Call::Start { slots: 1, priorities: vec![2; 3] },
        Call::create(1, 9, 0, 4),
        wait(2, 65537, 1),
    ]);
    let calls = probes(&mut Rng::new(0), &machine);
    let mut lent = Lent::new(&layout::write(&machine), 0);
    for step in 0..6 * 5u32.pow(4) {
        let (length, mut rest) = (step / 5u32.pow(4), step % 5u32.pow(4));
        set_word(lent.bytes_mut(), READY, length);
        for place in 0..4 {
            set_word(lent.bytes_mut(), SEQUENCE + place, rest % 5);
            rest /= 5;
        }
        let place = Place { part: "every sequence", seed: 0, step: u64::from(step) };
        let shown: Vec<u32> = (READY..SEQUENCE + 4).map(|at| word(lent.bytes(), at)).collect();
        let damage = || format!("words of the ready sequence {shown:?}");
        probe_damaged(comparison, place, &calls, &mut lent, damage)?;
    }
    Ok(())
}

/// Sets one word to each value in turn, and puts back what was there.
fn set_to_each(
    comparison: &mut Comparison,
    place: Place,
    calls: &[Call],
    lent: &mut Lent,
    at: usize,
    values: &[u32],
) -> Compared {
    let was = word(lent.bytes(), at);
    for &value in values {
        set_word(lent.bytes_mut(), at, value);
        let damage = || format!("{} was {was}, set to {value}", word_name(at));
        probe_damaged(comparison, place, calls, lent, damage)?;
    }
    set_word(lent.bytes_mut(), at, was);
    Ok(())
}

/// Whether the word at this index holds a task's ticks left.
fn is_ticks(at: usize) -> bool {
    (FIRST_TASK..FIRST_SLOT).contains(&at) && (at - FIRST_TASK) % TASK_WORDS == TICKS
}

/// Numbers at the ends of the limits, close to what was there, and the same with one byte altered.
fn values(was: u32) -> [u32; 18] {
    let next = was.wrapping_add(1);
    let last = was.wrapping_sub(1);
    let high = was ^ 0x0100_0000;
    let middle = was ^ 0x0001_0000;
    let low = was ^ 0x0100;
    [0, 1, 2, 4, 7, 16, 32, 33, 64, 65, 100, 256, 65536, u32::MAX, next, last, high ^ middle, low]
}

/// Random damage to the tables that a random sequence ended in or to blank ones, and random bytes.
pub fn at_random(comparison: &mut Comparison, seed: u64, machine: &Machine) -> Compared {
    let mut rng = Rng::new(!seed);
    let blank = Machine::default();
    for step in 0..60 {
        let machine = if rng.chance(3) { &blank } else { machine };
        let calls = probes(&mut rng, machine);
        let mut bytes = layout::write(machine);
        let times = rng.pick(&[1, 1, 2, 3]);
        let done: Vec<String> = (0..times).map(|_| mutate(&mut rng, machine, &mut bytes)).collect();
        let place = Place { part: "random damage", seed, step };
        let mut lent = Lent::new(&bytes, rng.below(4));
        probe_damaged(comparison, place, &calls, &mut lent, || done.join("; then "))?;
    }
    random_bytes(comparison, seed, &mut rng, machine)
}

fn random_bytes(comparison: &mut Comparison, seed: u64, rng: &mut Rng, machine: &Machine) -> Compared {
    let calls = probes(rng, machine);
    let any_length = rng.below(LENGTH + 100);
    let length = rng.pick(&[LENGTH, LENGTH, any_length]);
    // Small numbers in whole words pass the first tests of a reader more often.
    let words = rng.chance(50);
    let mut bytes: Vec<u8> =
        (0..length).map(|at| if words && at % 4 != 3 { 0 } else { rng.word() as u8 }).collect();
    if words && length == LENGTH {
        set_word(&mut bytes, TASKS, machine.tasks.len() as u32);
        set_word(&mut bytes, SLOTS, machine.slots.len() as u32);
    }
    let place = Place { part: "random bytes", seed, step: 0 };
    let mut lent = Lent::new(&bytes, rng.below(4));
    probe_damaged(comparison, place, &calls, &mut lent, || format!("{length} random bytes"))
}

fn made_by(calls: &[Call]) -> Machine {
    let mut tables = vec![0; LENGTH];
    for call in calls {
        Model.call(&mut tables, call);
    }
    layout::read(&tables).expect("tables that calls made agree")
}

fn wait(caller: u32, id: u32, timeout: u32) -> Call {
    Call::Obtain { caller, id, options: 0, timeout }
}

/// Several agreeing tables: unstarted, without a semaphore, small, of equals, crowded, with one long queue, and with chains.
pub fn bases() -> Vec<Machine> {
    let fresh = made_by(&[Call::Start { slots: 1, priorities: vec![1] }]);
    vec![Machine::default(), fresh, small(), equals(), crowded(), long_queue(), chains()]
}

/// Six tasks of one priority: 4, 3, 5 and 2 are ready in this order, 1 and 6 wait.
fn equals() -> Machine {
    let made = made_by(&[
        Call::Start { slots: 1, priorities: vec![4; 6] },
        Call::create(1, 9, 0, 0),
        wait(3, 65537, FOREVER),
        wait(5, 65537, FOREVER),
        wait(2, 65537, FOREVER),
        wait(1, 65537, 1),
        wait(6, 65537, STANDARD),
        Call::Release { caller: 0, id: 65537 },
        Call::Release { caller: 0, id: 65537 },
        Call::Release { caller: 0, id: 65537 },
    ]);
    assert_eq!(made.ready, [4, 3, 5, 2], "the tasks became ready in this order");
    made
}

/// Two tasks wait for the binary semaphore of the third.
fn small() -> Machine {
    made_by(&[
        Call::Start { slots: 2, priorities: vec![3, 2, 2] },
        Call::create(3, 9, 0, 20),
        Call::create(3, 9, 1, 32),
        wait(1, 65537, 4),
        wait(2, 65537, FOREVER),
    ])
}

/// 32 tasks with ties, 60 live slots of all kinds and 4 freed ones, most tasks in queues.
fn crowded() -> Machine {
    let priorities = (0..32).map(|task| 1 + task % 5).collect();
    let mut calls = vec![Call::Start { slots: 64, priorities }];
    for slot in 0..64 {
        calls.push(crowded_create(slot));
    }
    // Freed slots keep their generation.
    calls.extend([1, 8, 26, 62].map(|slot| Call::Delete { caller: 32, id: 65536 + slot }));
    let timeouts = [FOREVER, 1, 2, 3, STANDARD];
    let timeout = |task: u32| timeouts[task as usize % timeouts.len()];
    calls.extend((1..=30).map(|task| wait(task, 65536 + 3 + task % 7, timeout(task))));
    made_by(&calls)
}

/// Counts of 0 and 1, and of the counting ones maxima at the count, next to it and far above it.
fn crowded_create(slot: u32) -> Call {
    let attributes = [0, 4, 16, 20, 32, 36][slot as usize % 6];
    let maximum = match attributes {
        0 | 4 => [1, 12, 2, u32::MAX, u32::MAX - 1][slot as usize / 6 % 5],
        _ => 1,
    };
    Call::Create { caller: 32, name: 1 + slot % 40, count: slot / 6 % 2, attributes, maximum }
}

/// Task 5 waits for 4, 4 for 3, 3 and 1 for 2, which is ready; 8 and 9 for each other, and 10 for 8; 6 on a 20 for 7, which is ready.
fn chains() -> Machine {
    let priorities = vec![3, 9, 7, 5, 8, 2, 6, 12, 11, 4];
    let mut calls = vec![Call::Start { slots: 7, priorities }];
    for (owner, attributes) in [(2, 84), (3, 84), (4, 84), (8, 84), (9, 84), (7, 20)] {
        calls.push(Call::create(owner, 9, 0, attributes));
    }
    for (task, slot) in [(3, 1), (1, 1), (4, 2), (5, 3), (8, 5), (9, 4), (10, 4), (6, 6)] {
        calls.push(wait(task, 65536 + slot, if task == 4 { 2 } else { FOREVER }));
    }
    let made = made_by(&calls);
    assert_eq!(made.working(), [3, 3, 5, 5, 8, 2, 6, 4, 4, 4], "what the tasks work with");
    made
}

/// 31 tasks wait in one PRIORITY queue for a binary semaphore, one of them as long as no timeout says any more.
fn long_queue() -> Machine {
    let priorities = (0..32).map(|task| 255 - task / 2).collect();
    let mut calls = vec![Call::Start { slots: 1, priorities }, Call::create(32, 1, 0, 20)];
    calls.extend((1..=31).map(|task| wait(task, 65537, 33 - task)));
    let mut made = made_by(&calls);
    made.tasks[0].state = State::Waiting { id: 65537, ticks: u32::MAX };
    made
}
