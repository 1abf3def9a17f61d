//! Managers with one thing done wrong with working priorities, which the comparison and the cases have to find.

mod links;
mod wrong;

use compare::call::{Answer, Call, Manager};
use compare::fuzz::cases;
use compare::inplace::agreement::{Tested, Untested};
use compare::layout::*;
use compare::model::{Class, Machine, Order};
use links::all_by_links;
use wrong::{random_parts, Serve, Wrong};

/// Priorities of tasks 1 to N.
type Priorities = Vec<u32>;

/// A call whose queue is served by other priorities, and its next task chosen by others: they are written into the tables, in which
/// nobody lends meanwhile, and taken out again.
fn served(
    tables: &mut [u8],
    call: &Call,
    turns: impl Fn(&Machine) -> Priorities,
    nexts: impl Fn(&Machine, &Machine) -> Priorities,
) -> Answer {
    let Some(before) = read(tables) else { return Answer::DISAGREE };
    let lending = (0..before.slots.len()).map(slot_at).filter(|at| word(tables, at + ATTRIBUTES) == 84);
    let lending: Vec<usize> = lending.collect();
    lending.iter().for_each(|at| set_word(tables, at + ATTRIBUTES, 20));
    for (number, priority) in (1..).zip(turns(&before)) {
        set_word(tables, task_at(number) + PRIORITY_OF, priority);
    }
    let answer = Untested.call(tables, call);
    for (number, task) in (1..).zip(&before.tasks) {
        set_word(tables, task_at(number) + PRIORITY_OF, task.priority);
    }
    // One that the call deleted has no attributes any more.
    for at in lending.into_iter().map(|at| at + ATTRIBUTES) {
        let attributes = word(tables, at);
        set_word(tables, at, if attributes == 20 { 84 } else { attributes });
    }
    let after = read(tables).expect("the tables agree again");
    Answer { next: after.next_by(&nexts(&before, &after)), ..answer }
}

/// A manager that has other working priorities.
fn worked(tables: &mut [u8], call: &Call, working: impl Fn(&Machine) -> Priorities) -> Answer {
    served(tables, call, &working, |_, after| working(after))
}

/// A manager that serves queues by other priorities at calls of these kinds.
fn turned(
    tables: &mut [u8],
    call: &Call,
    kinds: &[usize],
    turns: impl Fn(&Machine) -> Priorities,
) -> Answer {
    let wrong = kinds.contains(&call.kind());
    let turns = |before: &Machine| if wrong { turns(before) } else { before.working() };
    served(tables, call, turns, |_, after| after.working())
}

/// A manager that counts with what was lent before a call of this kind, when it chooses the next task after it.
fn kept(tables: &mut [u8], call: &Call, kind: usize) -> Answer {
    served(tables, call, Machine::working, |before, after| {
        let both = before.working().into_iter().zip(after.working());
        match call.kind() == kind {
            true => both.map(|(was, is)| was.min(is)).collect(),
            false => after.working(),
        }
    })
}

/// The ready tasks that work with a lesser number than before, moved in the sequence.
fn moved(tables: &mut [u8], call: &Call, to_front: bool) -> Answer {
    let before = read(tables);
    let answer = Tested.call(tables, call);
    let (Some(before), Some(after)) = (before, read(tables)) else { return answer };
    if before.tasks.is_empty() {
        return answer;
    }
    let (was, is) = (before.working(), after.working());
    let boosted = |task: &u32| is[*task as usize - 1] < was[*task as usize - 1];
    let (moved, rest): (Vec<u32>, Vec<u32>) = after.ready.iter().partition(|task| boosted(task));
    set_sequence(tables, &if to_front { [moved, rest].concat() } else { [rest, moved].concat() });
    let next = read(tables).map_or(0, |machine| machine.next_task());
    Answer { next, ..answer }
}

fn own(machine: &Machine) -> Priorities {
    machine.working_with(0)
}

/// With one number for all a queue is served by arrival.
fn equal(machine: &Machine) -> Priorities {
    vec![1; machine.tasks.len()]
}

/// The attributes of the semaphore that a call names.
fn attributes_of(tables: &[u8], id: u32) -> u32 {
    read(tables).and_then(|machine| Some(machine.semaphore(id)?.attributes())).unwrap_or(0)
}

const DELETE: usize = 3;
const RELEASE: usize = 5;
const FLUSH: usize = 6;
const TICK: usize = 7;

const WRONG: [(&str, Serve); 24] = [
    ("nobody lends", |tables, call| worked(tables, call, own)),
    ("one link only", |tables, call| worked(tables, call, |machine| machine.working_with(1))),
    ("two links only", |tables, call| worked(tables, call, |machine| machine.working_with(2))),
    ("three links only", |tables, call| worked(tables, call, |machine| machine.working_with(3))),
    ("a waiter on 20 lends", |tables, call| {
        let lends = |machine: &Machine| {
            let binary = |live: &_| attributes_are(live, &[20, 84]);
            all_by_links(machine, binary, machine.tasks.len())
        };
        worked(tables, call, lends)
    }),
    ("a waiter on 16 lends", |tables, call| {
        let lends = |machine: &Machine| {
            let binary = |live: &_| attributes_are(live, &[16, 84]);
            all_by_links(machine, binary, machine.tasks.len())
        };
        worked(tables, call, lends)
    }),
    ("an owner is lent to by one of its semaphores alone", |tables, call| {
        worked(tables, call, first_lends)
    }),
    ("only ready tasks are lent to", |tables, call| {
        worked(tables, call, |machine| {
            let ready = |task: u32| !machine.is_waiting(task);
            let both = own(machine).into_iter().zip(machine.working());
            (1..).zip(both).map(|(task, (own, lent))| if ready(task) { lent } else { own }).collect()
        })
    }),
    ("the owner keeps what it inherited after its release", |tables, call| kept(tables, call, RELEASE)),
    ("the owner keeps what it inherited after a flush", |tables, call| kept(tables, call, FLUSH)),
    ("the owner keeps what it inherited after a tick", |tables, call| kept(tables, call, TICK)),
    ("what was inherited is written into the owner's record", |tables, call| {
        let before = read(tables);
        let answer = Tested.call(tables, call);
        if let (Some(before), &Call::Release { caller, .. }) = (before, call) {
            if answer.status == 0 && caller != 0 {
                let working = before.working()[caller as usize - 1];
                set_word(tables, task_at(caller) + PRIORITY_OF, working);
            }
        }
        answer
    }),
    ("a release serves by own priorities", |tables, call| turned(tables, call, &[RELEASE], own)),
    ("a release serves by arrival", |tables, call| turned(tables, call, &[RELEASE], equal)),
    ("an 84 is served by arrival", |tables, call| match *call {
        Call::Release { id, .. } if attributes_of(tables, id) == 84 => {
            turned(tables, call, &[RELEASE], equal)
        }
        _ => worked(tables, call, Machine::working),
    }),
    ("a tie in a queue goes by number", |tables, call| {
        turned(tables, call, &[DELETE, RELEASE, FLUSH], |machine| {
            (1..).zip(machine.working()).map(|(task, working)| 64 * working + task).collect()
        })
    }),
    ("a flush by own priorities", |tables, call| turned(tables, call, &[FLUSH], own)),
    ("a flush in the order of arrival", |tables, call| turned(tables, call, &[FLUSH], equal)),
    ("a flush by the priorities after it", |tables, call| {
        turned(tables, call, &[FLUSH], |machine| {
            let mut after = machine.clone();
            after.call(call);
            after.working()
        })
    }),
    ("a delete in the order of arrival", |tables, call| turned(tables, call, &[DELETE], equal)),
    ("a boosted task goes to the front of the sequence", |tables, call| moved(tables, call, true)),
    ("a boosted task goes to the end of the sequence", |tables, call| moved(tables, call, false)),
    ("80 let in", |tables, call| match *call {
        Call::Create { caller, name, count, attributes: 80, maximum } => {
            let attributes = 84;
            served_right(tables, &Call::Create { caller, name, count, attributes, maximum })
        }
        _ => served_right(tables, call),
    }),
    ("anyone may release an 84", |tables, call| match *call {
        Call::Release { id, .. } if attributes_of(tables, id) == 84 => {
            let owner = read(tables).and_then(|machine| Some(machine.semaphore(id)?.owner));
            served_right(tables, &Call::Release { caller: owner.unwrap_or(0), id })
        }
        _ => served_right(tables, call),
    }),
];

fn attributes_are(live: &compare::model::Semaphore, sums: &[u32]) -> bool {
    live.class == Class::Binary && sums.contains(&live.attributes())
}

/// Working priorities in which of an owner's semaphores the one in the lowest slot lends alone.
fn first_lends(machine: &Machine) -> Priorities {
    let mut other = machine.clone();
    let mut owners = Vec::new();
    for live in other.slots.iter_mut().filter_map(|slot| slot.live.as_mut()) {
        if live.attributes() == 84 && !live.queue.is_empty() {
            if owners.contains(&live.owner) {
                live.queue.clear();
            }
            owners.push(live.owner);
        }
    }
    other.working()
}

/// The same way round with the right priorities.
fn served_right(tables: &mut [u8], call: &Call) -> Answer {
    worked(tables, call, Machine::working)
}

/// A queue kept in order of priority, as it was before the request.
const SORTED: Serve = |tables, call| {
    let answer = served_right(tables, call);
    if let (&Call::Obtain { id, .. }, 100) = (call, answer.status) {
        let machine = read(tables).expect("a wait keeps the tables in agreement");
        let at = slot_at((id & 0xFFFF) as usize - 1);
        let priority = machine.semaphore(id).is_some_and(|live| live.order == Order::Priority);
        if priority {
            set_words(tables, at + QUEUE, &machine.in_turn(id));
        }
    }
    answer
};

#[test]
fn wrong_priorities_are_found_at_random() {
    for (what, serve) in WRONG {
        random_parts(&mut Wrong(serve)).expect_err(what);
    }
}

#[test]
fn wrong_priorities_are_found_by_the_cases() {
    for (what, serve) in WRONG {
        cases::run(&mut Wrong(serve)).expect_err(what);
    }
}

/// So that what is found is the one thing done wrong.
#[test]
fn the_same_way_round_with_right_priorities_is_right() {
    cases::run(&mut Wrong(served_right)).unwrap();
    random_parts(&mut Wrong(served_right)).unwrap_or_else(|difference| panic!("{difference}"));
}

#[test]
fn a_queue_in_order_of_priority_is_found_and_named() {
    cases::run(&mut Wrong(SORTED)).expect_err("the cases find it");
    let found = random_parts(&mut Wrong(SORTED)).expect_err("the comparison finds it");
    let said = found.memory.expect("a word differs");
    assert!(said.contains(" queue place "), "{said}");
}
