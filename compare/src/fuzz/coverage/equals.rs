//! What a comparison has to have seen of tasks of equal priority and of the sequence of ready tasks.

use crate::call::{Answer, Call};
use crate::fuzz::coverage::Coverage;
use crate::model::{Machine, State};
use crate::status::*;

/// Happenings among equals, besides those that each kind of call has.
const AMONG_EQUALS: [&str; 14] = [
    "next is not the lowest of its equals",
    "obtain handed over to an equal",
    "obtain took a task out of the middle of the sequence",
    "release woke a lower equal of the next task",
    "delete woke a lower equal of the next task",
    "flush woke a lower equal of the next task",
    "tick woke a lower equal of the next task",
    "delete woke two equals in queue order, against their numbers",
    "flush woke two equals in queue order, against their numbers",
    "tick woke the next task before a higher equal",
    "tick woke two equals by their numbers, against the order of their queue",
    "tick woke two equals of two semaphores",
    "a woken task took the 32nd place of the sequence",
    "damage left the tables in agreement, equals out of number order",
];

/// Calls that begin or end no wait, in the order of `KINDS`, with equals that a wrong move would show.
const MOVED_NOBODY: [&str; 9] = [
    "start moved nobody among equals",
    "create moved nobody among equals",
    "ident moved nobody among equals",
    "delete moved nobody among equals",
    "obtain moved nobody among equals",
    "release moved nobody among equals",
    "flush moved nobody among equals",
    "tick moved nobody among equals",
    "task moved nobody among equals",
];

/// What can be wrong with the ready sequence where nothing else is, and that alone.
const FAULTS: [&str; 8] = [
    "25 for the sequence alone: a length above 32",
    "25 for the sequence alone: a number behind its length",
    "25 for the sequence alone: 0 within its length",
    "25 for the sequence alone: a number above N",
    "25 for the sequence alone: a waiting task",
    "25 for the sequence alone: a task twice",
    "25 for the sequence alone: a ready task missing",
    "25 for the sequence alone: not started and not 0",
];

/// All that has to have happened.
pub fn wanted() -> impl Iterator<Item = &'static str> {
    AMONG_EQUALS.into_iter().chain(MOVED_NOBODY).chain(FAULTS)
}

impl Coverage {
    /// Counts damage that left the tables in agreement.
    pub fn damaged_in_agreement(&mut self, machine: &Machine) {
        self.happened(
            "damage left the tables in agreement, equals out of number order",
            next_passes_a_lower_equal(machine),
        );
    }

    /// Counts damage to the ready sequence of tables that agree otherwise: their machine, the length and the places.
    pub fn damaged_sequence(&mut self, machine: &Machine, length: u32, places: &[u32]) {
        if let Some(fault) = only_fault(machine, length, places) {
            self.happened(FAULTS[fault], true);
        }
    }

    /// Counts what a call did among equals, given the machine before and after it.
    pub fn saw_equals(&mut self, before: &Machine, call: &Call, answer: Answer, after: &Machine) {
        if before.tasks.is_empty() {
            return;
        }
        let (next, working) = (answer.next, after.working());
        let equals: Vec<u32> =
            after.ready.iter().copied().filter(|&task| equal(&working, task, next)).collect();
        self.happened("next is not the lowest of its equals", equals.iter().any(|&task| task < next));
        if let (Call::Obtain { caller, .. }, WAITING) = (call, answer.status) {
            let caller = *caller;
            let was_next = before.next_task() == caller;
            self.happened(
                "obtain handed over to an equal",
                was_next && next != 0 && equal(&working, caller, next),
            );
            let ends = [before.ready.first(), before.ready.last()];
            self.happened(
                "obtain took a task out of the middle of the sequence",
                !ends.contains(&Some(&caller)),
            );
        } else if before.ready == after.ready {
            self.happened(MOVED_NOBODY[call.kind()], next_passes_a_lower_equal(after));
        } else {
            self.saw_woken(before, call, &equals, after);
        }
    }

    /// Counts what waits that ended did; `equals` are the next task and its ready equals, in their sequence.
    fn saw_woken(&mut self, before: &Machine, call: &Call, equals: &[u32], after: &Machine) {
        let woken: Vec<u32> =
            after.ready.iter().copied().filter(|&task| before.is_waiting(task)).collect();
        let Some((&next, others)) = equals.split_first() else { return };
        let lower = others.iter().any(|&task| woken.contains(&task) && task < next);
        let behind_ready = lower && !woken.contains(&next);
        let pairs = equal_pairs(&after.working(), &woken);
        let against_numbers = against_numbers(before, &woken);
        match call {
            Call::Release { .. } => {
                self.happened("release woke a lower equal of the next task", behind_ready)
            }
            Call::Delete { .. } => {
                self.happened("delete woke a lower equal of the next task", behind_ready);
                self.happened(
                    "delete woke two equals in queue order, against their numbers",
                    against_numbers,
                );
            }
            Call::Flush { .. } => {
                self.happened("flush woke a lower equal of the next task", behind_ready);
                self.happened(
                    "flush woke two equals in queue order, against their numbers",
                    against_numbers,
                );
            }
            _ => {
                self.happened("tick woke a lower equal of the next task", behind_ready);
                self.happened(
                    "tick woke the next task before a higher equal",
                    pairs.iter().any(|(first, _)| *first == next),
                );
                self.saw_timeouts(before, &pairs);
            }
        }
        self.happened(
            "a woken task took the 32nd place of the sequence",
            after.ready.len() == MOST_TASKS,
        );
    }

    /// Counts equals that a tick woke, by where they had waited.
    fn saw_timeouts(&mut self, before: &Machine, pairs: &[(u32, u32)]) {
        let awaited = |task: u32| match before.tasks[task as usize - 1].state {
            State::Waiting { id, .. } => id,
            State::Ready { .. } => 0,
        };
        let place = |task: u32| {
            let queue = before.semaphore(awaited(task)).map(|live| &live.queue);
            queue.and_then(|queue| queue.iter().position(|&queued| queued == task))
        };
        for &(first, second) in pairs {
            let one_queue = awaited(first) == awaited(second);
            self.happened(
                "tick woke two equals by their numbers, against the order of their queue",
                one_queue && place(first) > place(second),
            );
            self.happened("tick woke two equals of two semaphores", !one_queue);
        }
    }
}

/// Whether of two equals the one with the higher number was woken first; a queue is woken by the priorities before the call.
fn against_numbers(before: &Machine, woken: &[u32]) -> bool {
    equal_pairs(&before.working(), woken).iter().any(|(first, second)| first > second)
}

/// The pairs of equals among these tasks, each with the earlier one first.
fn equal_pairs(working: &[u32], tasks: &[u32]) -> Vec<(u32, u32)> {
    let mut pairs = Vec::new();
    for (index, &first) in tasks.iter().enumerate() {
        let equals = tasks[index + 1..].iter().filter(|&&second| equal(working, first, second));
        pairs.extend(equals.map(|&second| (first, second)));
    }
    pairs
}

/// Whether two tasks work with one priority; nobody, 0, has none.
fn equal(working: &[u32], one: u32, other: u32) -> bool {
    one != 0 && other != 0 && working[one as usize - 1] == working[other as usize - 1]
}

/// Whether the next task has a ready equal of a lower number, which the sequence puts behind it.
pub fn next_passes_a_lower_equal(machine: &Machine) -> bool {
    let working = machine.working();
    let next = machine.next_by(&working);
    machine.ready.iter().any(|&task| task < next && equal(&working, task, next))
}

/// The place in `FAULTS` of the one thing that is wrong with a sequence, if it is one alone.
fn only_fault(machine: &Machine, length: u32, places: &[u32]) -> Option<usize> {
    if length as usize > MOST_TASKS {
        return Some(0);
    }
    if machine.tasks.is_empty() {
        return Some(7);
    }
    let (sequence, behind) = places.split_at(length as usize);
    let tasks = machine.tasks.len() as u32;
    let ready = machine.ready_by_number();
    let stands = |task: u32| sequence.iter().filter(|&&number| number == task).count();
    let waits = |task: &u32| (1..=tasks).contains(task) && machine.is_waiting(*task);
    let counts = [
        behind.iter().filter(|&&number| number != 0).count(),
        stands(0),
        sequence.iter().filter(|&&number| number > tasks).count(),
        sequence.iter().filter(|number| waits(number)).count(),
        ready.iter().map(|&task| stands(task).saturating_sub(1)).sum(),
        ready.iter().filter(|&&task| stands(task) == 0).count(),
    ];
    let fault = counts.iter().position(|&count| count == 1)?;
    (counts.iter().sum::<usize>() == 1).then_some(fault + 1)
}
