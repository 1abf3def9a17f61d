//! What has occurred in a comparison, and what has to.

mod equals;
mod inheritance;
mod maxima;
mod moment;
mod searches;
mod timeouts;

pub use equals::next_passes_a_lower_equal;
pub use inheritance::has_queue_against_priorities;
pub use timeouts::Waits;

use std::collections::BTreeMap;

use crate::call::{Answer, Call, KINDS};
use crate::history::seen::Seen;
use crate::layout::{self, word, READY, SEQUENCE, WORDS};
use crate::model::{Class, Machine, Order, Semaphore, State};
use crate::status::*;

/// Every status that document 01 gives each call, in the order of `KINDS`.
const STATUSES: [&[u32]; 9] = [
    &[0, 10, 14, 19, 25],
    &[0, 3, 4, 5, 10, 11, 14, 18, 25],
    &[0, 3, 25],
    &[0, 4, 12, 14, 18, 25],
    &[0, 4, 13, 14, 18, 25, 100],
    &[0, 4, 13, 14, 23, 25],
    &[0, 4, 14, 25],
    &[0, 25],
    &[0, 4, 25],
];

/// Happenings besides the statuses that a run has to have seen.
const HAPPENINGS: [&str; 32] = [
    "create refused with 64 live slots",
    "create refused with a retired slot free",
    "create with caller N",
    "create with caller N+1",
    "create with caller 4294967295",
    "slot created at generation 65535",
    "slot retired",
    "damage left the tables in agreement",
    "damage broke the agreement",
    "delete woke waiters",
    "flush woke waiters",
    "ident found the lower of two slots",
    "obtain nested",
    "obtain refused at nest 4294967295",
    "obtain of a simple binary waits",
    "obtain waits at the rear of FIFO behind a less urgent",
    "obtain waits at the rear of PRIORITY behind a less urgent",
    "obtain with 32 tasks",
    "obtain of a stale identifier",
    "obtain makes the last ready task wait",
    "release of a nest",
    "release refused at count 4294967295",
    "release refused at simple binary 1",
    "release handed a binary on",
    "release handed a simple binary on",
    "release handed a counting on",
    "release of an unowned binary by an interrupt",
    "tick ended a wait in the middle of a queue",
    "tick ended two waits",
    "task answered 6",
    "task answered 7",
    "task answered 13",
];

#[derive(Default)]
pub struct Coverage {
    statuses: BTreeMap<(usize, u32), u64>,
    happenings: BTreeMap<&'static str, u64>,
    waits: Waits,
    /// What happened in the histories of the sequences, with gaps of their own.
    pub histories: Seen,
}

impl Coverage {
    /// Counts an answer's status.
    pub fn answered(&mut self, call: &Call, status: u32) {
        *self.statuses.entry((call.kind(), status)).or_default() += 1;
    }

    fn happened(&mut self, name: &'static str, it_did: bool) {
        if it_did {
            *self.happenings.entry(name).or_default() += 1;
        }
    }

    /// Counts a damaged table by whether it still agrees.
    pub fn damaged(&mut self, bytes: &[u8], machine: Option<&Machine>) {
        self.happened("damage left the tables in agreement", machine.is_some());
        self.happened("damage broke the agreement", machine.is_none());
        if let Some(machine) = machine {
            self.damaged_in_agreement(machine);
            self.damaged_ticks(machine);
            self.damaged_queues(machine);
        } else if let Some(machine) = layout::read_with_sequence_mended(bytes) {
            let places: Vec<u32> = (SEQUENCE..WORDS).map(|at| word(bytes, at)).collect();
            self.damaged_sequence(&machine, word(bytes, READY), &places);
        } else if let Some(machine) = layout::read_with_maxima_mended(bytes) {
            self.damaged_maxima(&machine, bytes);
        }
    }

    /// Counts what a call did, given the machine before and after it.
    pub fn saw(&mut self, before: &Machine, call: &Call, answer: Answer, after: &Machine) {
        match *call {
            Call::Create { caller, .. } => {
                self.saw_create(before, caller, answer);
                self.saw_maximum(before, call, answer);
            }
            Call::Ident { name } => {
                let named = |live: &&Semaphore| live.name == name;
                let twins = before.slots.iter().filter_map(|slot| slot.live.as_ref()).filter(named);
                self.happened("ident found the lower of two slots", twins.count() > 1);
            }
            Call::Delete { id, .. } => self.saw_delete(before, id, answer),
            Call::Obtain { caller, id, .. } => self.saw_obtain(before, caller, id, answer, after),
            Call::Release { caller, id } => self.saw_release(before, caller, id, answer),
            Call::Flush { id, .. } => {
                let waiters = before.semaphore(id).is_some_and(|live| !live.queue.is_empty());
                self.happened("flush woke waiters", answer.status == 0 && waiters);
            }
            Call::Tick => self.saw_tick(before, after),
            Call::Task { .. } => {
                self.happened("task answered 6", answer.value == TIMEOUT);
                self.happened("task answered 7", answer.value == OBJECT_WAS_DELETED);
                self.happened("task answered 13", answer.value == UNSATISFIED);
            }
            Call::Start { .. } => {}
        }
        self.saw_equals(before, call, answer, after);
        self.saw_inheritance(before, call, answer, after);
        self.saw_waits(before, call, answer, after);
    }

    fn saw_create(&mut self, before: &Machine, caller: u32, answer: Answer) {
        let tasks = before.tasks.len() as u32;
        let live = before.slots.iter().filter(|slot| slot.live.is_some()).count();
        let refused = answer.status == TOO_MANY;
        self.happened("create refused with 64 live slots", refused && live == MOST_SLOTS);
        self.happened("create refused with a retired slot free", refused && live < before.slots.len());
        self.happened("create with caller N", tasks != 0 && caller == tasks);
        self.happened("create with caller N+1", caller == tasks + 1);
        self.happened("create with caller 4294967295", caller == u32::MAX);
        self.happened("slot created at generation 65535", answer.value >> 16 == LAST_GENERATION);
    }

    fn saw_delete(&mut self, before: &Machine, id: u32, answer: Answer) {
        let done = answer.status == SUCCESSFUL;
        let waiters = before.semaphore(id).is_some_and(|live| !live.queue.is_empty());
        self.happened("delete woke waiters", done && waiters);
        self.happened("slot retired", done && id >> 16 == LAST_GENERATION);
    }

    fn saw_obtain(&mut self, before: &Machine, caller: u32, id: u32, answer: Answer, after: &Machine) {
        self.happened("obtain with 32 tasks", before.tasks.len() == MOST_TASKS);
        let number = (id % 65536) as usize;
        let reused = (1..=before.slots.len()).contains(&number)
            && id / 65536 < before.slots[number - 1].generation
            && id >= 65536;
        self.happened("obtain of a stale identifier", reused && answer.status == INVALID_ID);
        let Some(live) = before.semaphore(id) else { return };
        let owned = live.class == Class::Binary && live.owner == caller;
        self.happened("obtain nested", owned && answer.status == SUCCESSFUL);
        let at_end = owned && live.nest == u32::MAX && answer.status == UNSATISFIED;
        self.happened("obtain refused at nest 4294967295", at_end);
        if answer.status == WAITING {
            let simple = live.class == Class::SimpleBinary;
            self.happened("obtain of a simple binary waits", simple);
            self.happened("obtain makes the last ready task wait", answer.next == 0);
            self.saw_joining(caller, id, after);
        }
    }

    fn saw_joining(&mut self, caller: u32, id: u32, after: &Machine) {
        let Some(live) = after.semaphore(id) else { return };
        let urgency = |task: &u32| after.tasks[*task as usize - 1].priority;
        let Some(place) = live.queue.iter().position(|&task| task == caller) else { return };
        let name = match live.order {
            Order::Fifo => "obtain waits at the rear of FIFO behind a less urgent",
            Order::Priority => "obtain waits at the rear of PRIORITY behind a less urgent",
        };
        self.happened(name, live.queue[..place].iter().any(|task| urgency(task) > urgency(&caller)));
    }

    fn saw_release(&mut self, before: &Machine, caller: u32, id: u32, answer: Answer) {
        let Some(live) = before.semaphore(id) else { return };
        let done = answer.status == SUCCESSFUL;
        let refused = answer.status == UNSATISFIED;
        self.happened("release of a nest", done && live.nest > 1);
        self.happened("release refused at count 4294967295", refused && live.count == u32::MAX);
        let simple = live.class == Class::SimpleBinary;
        self.happened("release refused at simple binary 1", refused && simple);
        self.released_at_maximum(live, answer);
        let nobodys = caller == 0 && live.class == Class::Binary && live.owner == 0;
        self.happened("release of an unowned binary by an interrupt", nobodys);
        let name = match live.class {
            Class::Binary => "release handed a binary on",
            Class::SimpleBinary => "release handed a simple binary on",
            Class::Counting => "release handed a counting on",
        };
        self.happened(name, done && !live.queue.is_empty() && live.nest <= 1);
    }

    fn saw_tick(&mut self, before: &Machine, after: &Machine) {
        let mut ended = 0;
        for (number, (was, is)) in (1..).zip(before.tasks.iter().zip(&after.tasks)) {
            let (State::Waiting { id, .. }, State::Ready { .. }) = (was.state, is.state) else {
                continue;
            };
            ended += 1;
            let queue = before.semaphore(id).map_or(&[][..], |live| &live.queue);
            let ends = queue.first() == Some(&number) || queue.last() == Some(&number);
            self.happened("tick ended a wait in the middle of a queue", !ends);
        }
        self.happened("tick ended two waits", ended >= 2);
    }

    /// What should have occurred and did not, and statuses that should not occur at all.
    pub fn gaps(&self) -> Vec<String> {
        let mut gaps = Vec::new();
        for (kind, statuses) in STATUSES.iter().enumerate() {
            let missing =
                statuses.iter().filter(|&&status| !self.statuses.contains_key(&(kind, status)));
            gaps.extend(missing.map(|status| format!("{} never answered {status}", KINDS[kind])));
        }
        let foreign = self.statuses.keys().filter(|(kind, status)| !STATUSES[*kind].contains(status));
        gaps.extend(foreign.map(|(kind, status)| format!("{} answered {status}", KINDS[*kind])));
        let of_parts = equals::wanted().chain(searches::wanted()).chain(maxima::wanted());
        let of_parts = of_parts.chain(timeouts::wanted()).chain(inheritance::wanted());
        let wanted = HAPPENINGS.into_iter().chain(of_parts);
        let missing = wanted.filter(|name| !self.happenings.contains_key(name));
        gaps.extend(missing.map(|name| format!("never seen: {name}")));
        gaps
    }

    /// A line for each call with how often each status occurred, and a line for each happening.
    pub fn table(&self) -> String {
        let mut lines = String::new();
        for (kind, name) in KINDS.iter().enumerate() {
            let of_kind = self.statuses.iter().filter(|((of, _), _)| *of == kind);
            let counts: Vec<String> =
                of_kind.map(|((_, status), count)| format!("{status}: {count}")).collect();
            lines += &format!("  {name:8} {}\n", counts.join("  "));
        }
        for (name, count) in &self.happenings {
            lines += &format!("  {count:>10} {name}\n");
        }
        lines + &self.histories.table()
    }
}
