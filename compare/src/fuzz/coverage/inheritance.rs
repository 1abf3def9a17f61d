//! What a comparison has to have seen of working priorities.

use crate::call::{Answer, Call};
use crate::fuzz::coverage::moment::Moment;
use crate::fuzz::coverage::Coverage;
use crate::model::{Machine, Order, Semaphore};
use crate::status::*;

/// Chains whose last link makes their owner next.
const CHAINS: [&str; 4] = [
    "next by a chain of 1 link",
    "next by a chain of 2 links",
    "next by a chain of 3 links",
    "next by a chain of 4 links or more",
];

/// Sums with the bit for inheritance that create refuses.
const REFUSED: [(u32, &str); 6] = [
    (64, "create refused with attributes 64"),
    (68, "create refused with attributes 68"),
    (80, "create refused with attributes 80"),
    (96, "create refused with attributes 96"),
    (100, "create refused with attributes 100"),
    (116, "create refused with attributes 116"),
];

/// PRIORITY queues whose first to be served is another than by own priorities.
const BY_INHERITANCE: [(u32, &str); 4] = [
    (4, "release of a 4 served one that is first by inheritance alone"),
    (20, "release of a 20 served one that is first by inheritance alone"),
    (36, "release of a 36 served one that is first by inheritance alone"),
    (84, "release of an 84 served one that is first by inheritance alone"),
];

/// Waiters on these lend nothing; if they did, the owner would be next.
const NO_LENDERS: [(u32, &str); 2] =
    [(16, "a waiter on 16 lends nothing"), (20, "a waiter on 20 lends nothing")];

/// What has to have happened besides, by the call that did it.
const NEXT: [&str; 4] = [
    "a 20 cuts a chain of inheritance semaphores",
    "next of a tie by inheritance, the boosted one first in the sequence",
    "next of a tie by inheritance, the boosted one later in the sequence",
    "next of a tie of two boosted to one number",
];

const CREATE: [&str; 2] = [
    "create of an inheritance semaphore that the caller owns",
    "create of an inheritance semaphore refused with 10",
];

const OBTAIN: [&str; 9] = [
    "obtain nested an inheritance semaphore that lends",
    "obtain of an inheritance semaphore refused at nest 4294967295",
    "obtain boosted a task in the middle of the ready sequence",
    "obtain boosted a task by a chain of 2 links or more",
    "obtain boosted a waiter in a queue past another",
    "obtain by which a second semaphore lends to one owner",
    "obtain closed a deadlock cycle of two",
    "obtain closed a deadlock cycle of three or more",
    "obtain lent to a deadlock cycle from outside",
];

const RELEASE: [&str; 11] = [
    "release served one that is not first in its queue",
    "release served the earlier of a tie by inheritance",
    "release of an inheritance semaphore by another than its owner",
    "release of an inheritance semaphore without an owner by an interrupt",
    "release of a nest kept the boost",
    "outermost release kept the boost by another semaphore",
    "outermost release left a lesser boost",
    "outermost release lost the boost",
    "outermost release lost the boost, and another task is next",
    "release handed an inheritance semaphore on to a boosted task",
    "release served a FIFO queue by arrival, another being boosted past its first",
];

const FLUSH: [&str; 6] = [
    "flush woke a PRIORITY queue in another order than arrival",
    "flush woke a PRIORITY queue in another order than by own priorities",
    "flush of an inheritance semaphore inside a deadlock cycle",
    "flush in the order before the call, which is another after it",
    "flush ended a wait in the middle of a chain, and another task is next",
    "flush of an inheritance semaphore, by which its owner lost the boost",
];

const DELETE: [&str; 3] = [
    "delete woke a PRIORITY queue in another order than arrival",
    "delete woke a PRIORITY queue in another order than by own priorities",
    "delete of an inheritance semaphore refused with 12",
];

const TICK: [&str; 3] = [
    "tick ended a wait in the middle of a chain, and another task is next",
    "tick ended a wait, and the owner lost its boost",
    "tick ended a wait of a deadlock cycle",
];

const DAMAGE: &str = "damage left the tables in agreement, a PRIORITY queue against its priorities";

/// All that has to have happened.
pub fn wanted() -> impl Iterator<Item = &'static str> {
    let by_attributes = REFUSED.into_iter().chain(BY_INHERITANCE).chain(NO_LENDERS);
    let by_call = NEXT.into_iter().chain(CREATE).chain(OBTAIN).chain(RELEASE).chain(FLUSH);
    let by_call = by_call.chain(DELETE).chain(TICK).chain([DAMAGE]);
    CHAINS.into_iter().chain(by_attributes.map(|(_, name)| name)).chain(by_call)
}

impl Coverage {
    /// Counts what working priorities did at a call, given the machine before and after it.
    pub fn saw_inheritance(&mut self, before: &Machine, call: &Call, answer: Answer, after: &Machine) {
        let (was, is) = (Moment::of(before), Moment::of(after));
        if answer.next != 0 {
            self.saw_next(&is, answer.next);
            self.saw_no_lenders(&is, answer.next);
        }
        let done = answer.status == SUCCESSFUL;
        match *call {
            Call::Create { attributes, .. } => self.saw_attributes(attributes, answer, after),
            Call::Obtain { caller, id, .. } if answer.status == WAITING => {
                self.saw_wait(&was, &is, caller, id)
            }
            Call::Obtain { caller, id, .. } => self.saw_nest(&is, caller, id, answer.status),
            Call::Release { caller, id } if done => self.saw_released(&was, &is, caller, id),
            Call::Release { caller, id } => self.saw_not_released(before, caller, id, answer.status),
            Call::Delete { id, .. } if done => self.saw_deleted(&was, id),
            Call::Delete { id, .. } => {
                let owned = before.semaphore(id).is_some_and(Semaphore::inherits);
                self.happened(DELETE[2], owned && answer.status == RESOURCE_IN_USE);
            }
            Call::Flush { id, .. } if done => self.saw_flushed(&was, &is, id),
            Call::Tick => self.saw_ticked(&was, &is),
            _ => {}
        }
    }

    /// Counts damage that left the tables in agreement, by the order of its queues.
    pub fn damaged_queues(&mut self, machine: &Machine) {
        self.happened(DAMAGE, has_queue_against_priorities(machine));
    }

    fn saw_attributes(&mut self, attributes: u32, answer: Answer, after: &Machine) {
        for (_, name) in REFUSED.into_iter().filter(|(wrong, _)| *wrong == attributes) {
            self.happened(name, answer.status == NOT_DEFINED);
        }
        let owned = after.semaphore(answer.value).is_some_and(|live| live.inherits() && live.owner != 0);
        self.happened(CREATE[0], owned);
        let sum = BINARY + PRIORITY + INHERITANCE;
        self.happened(CREATE[1], attributes == sum && answer.status == INVALID_NUMBER);
    }

    fn saw_next(&mut self, is: &Moment, next: u32) {
        if let Some(links) = is.deciding_links(next) {
            self.happened(CHAINS[links.min(CHAINS.len()) - 1], true);
        }
        let tied = |task: u32| {
            is.working(task) == is.working(next) && task != next && is.own(task) != is.own(next)
        };
        for &task in is.machine.ready.iter().filter(|&&task| tied(task)) {
            let (first, later) = (is.is_boosted(next), is.is_boosted(task));
            self.happened(NEXT[1], first && !later);
            self.happened(NEXT[2], later && !first);
            self.happened(NEXT[3], first && later);
        }
    }

    /// Counts owners that would be next if those lent that do not.
    fn saw_no_lenders(&mut self, is: &Moment, next: u32) {
        let plain = |live: &Semaphore| live.owner != 0 && live.owner != next && !live.inherits();
        for (_, live) in is.machine.live_slots().filter(|(_, live)| plain(live)) {
            if is.machine.is_waiting(live.owner) {
                continue;
            }
            let urgent = |waiter: &&u32| is.working(**waiter) < is.working(next);
            for &waiter in live.queue.iter().filter(urgent) {
                let (_, name) = NO_LENDERS[usize::from(live.order == Order::Priority)];
                self.happened(name, true);
                let only_lent = is.own(waiter) >= is.working(next);
                self.happened(NEXT[0], only_lent && live.order == Order::Priority);
            }
        }
    }

    fn saw_nest(&mut self, is: &Moment, caller: u32, id: u32, status: u32) {
        let Some(live) = is.machine.semaphore(id).filter(|live| live.inherits()) else { return };
        let nested = status == SUCCESSFUL && live.nest > 1;
        self.happened(OBTAIN[0], nested && !live.queue.is_empty());
        let at_end = live.owner == caller && live.nest == u32::MAX;
        self.happened(OBTAIN[1], at_end && status == UNSATISFIED);
    }

    fn saw_wait(&mut self, was: &Moment, is: &Moment, caller: u32, id: u32) {
        let Some(live) = is.machine.semaphore(id).filter(|live| live.inherits()) else { return };
        let lowered = |task: &u32| is.working(*task) < was.working(*task);
        let (ready, ends) = (&is.machine.ready, [is.machine.ready.first(), is.machine.ready.last()]);
        let middle = |task: &&u32| lowered(task) && !ends.contains(&Some(*task));
        self.happened(OBTAIN[2], ready.iter().any(|task| middle(&task)));
        let tasks = 1..=is.machine.tasks.len() as u32;
        let far = |task: &u32| lowered(task) && *task != live.owner && *task != caller;
        self.happened(OBTAIN[3], tasks.clone().any(|task| far(&task)));
        let turns = |moment: &Moment, of: u32| moment.turns(of)[0].clone();
        let elsewhere = is.machine.live_slots().filter(|(other, _)| *other != id);
        let moved = |(of, _): (u32, &Semaphore)| turns(was, of) != turns(is, of);
        self.happened(OBTAIN[4], elsewhere.into_iter().any(moved));
        let lends = |other: &Semaphore| {
            let urgent = |waiter: &u32| is.working(*waiter) < is.own(live.owner);
            other.owner == live.owner && other.inherits() && other.queue.iter().any(urgent)
        };
        let lending = is.machine.live_slots().filter(|(_, other)| lends(other)).count();
        self.happened(OBTAIN[5], lending >= 2 && live.queue.len() == 1);
        let cycle = is.cycle(caller);
        self.happened(OBTAIN[6], cycle.len() == 2);
        self.happened(OBTAIN[7], cycle.len() >= 3);
        let outside = cycle.is_empty() && !is.cycle(live.owner).is_empty();
        self.happened(OBTAIN[8], outside && lowered(&live.owner));
    }

    fn saw_not_released(&mut self, before: &Machine, caller: u32, id: u32, status: u32) {
        let Some(live) = before.semaphore(id).filter(|live| live.inherits()) else { return };
        let refused = status == NOT_OWNER_OF_RESOURCE;
        self.happened(RELEASE[2], refused && live.owner != 0 && caller != 0);
        self.happened(RELEASE[3], refused && live.owner == 0 && caller == 0);
    }

    fn saw_released(&mut self, was: &Moment, is: &Moment, caller: u32, id: u32) {
        let Some(live) = was.machine.semaphore(id) else { return };
        if live.nest > 1 {
            let kept = live.inherits() && was.is_boosted(caller) && is.is_boosted(caller);
            return self.happened(RELEASE[4], kept && !live.queue.is_empty());
        }
        if live.inherits() && was.is_boosted(caller) {
            self.saw_restored(was, is, caller, live);
        }
        let [served, by_own] = was.turns(id);
        let (Some(&first), Some(&own_first)) = (served.first(), by_own.first()) else { return };
        self.happened(RELEASE[0], live.queue[0] != first);
        let past = |&task: &u32| was.is_boosted(task) && was.working(task) < was.working(first);
        self.happened(RELEASE[10], live.order == Order::Fifo && served.iter().any(past));
        let kind = BY_INHERITANCE.into_iter().find(|(sum, _)| *sum == live.attributes());
        kind.into_iter().for_each(|(_, name)| self.happened(name, first != own_first));
        let tie =
            |&task: &u32| was.working(task) == was.working(first) && was.own(task) < was.own(first);
        self.happened(RELEASE[1], live.order == Order::Priority && served[1..].iter().any(tie));
        self.happened(RELEASE[9], live.inherits() && is.is_boosted(first));
    }

    /// Counts what an outermost release left of the boost that its owner had.
    fn saw_restored(&mut self, was: &Moment, is: &Moment, owner: u32, live: &Semaphore) {
        let (before, after) = (was.working(owner), is.working(owner));
        self.happened(RELEASE[5], after == before && !live.queue.is_empty());
        self.happened(RELEASE[6], is.is_boosted(owner) && after > before);
        self.happened(RELEASE[7], !is.is_boosted(owner));
        let handed = was.machine.next_task() == owner && is.machine.next_task() != owner;
        self.happened(RELEASE[8], !is.is_boosted(owner) && handed);
    }

    fn saw_deleted(&mut self, was: &Moment, id: u32) {
        let Some(live) = was.machine.semaphore(id) else { return };
        let [woken, by_own] = was.turns(id);
        self.happened(DELETE[0], woken != live.queue);
        self.happened(DELETE[1], woken != by_own);
    }

    fn saw_flushed(&mut self, was: &Moment, is: &Moment, id: u32) {
        let Some(live) = was.machine.semaphore(id) else { return };
        let [woken, by_own] = was.turns(id);
        self.happened(FLUSH[0], woken != live.queue);
        self.happened(FLUSH[1], woken != by_own);
        let mut after = live.queue.clone();
        after.sort_by_key(|&task| is.working(task));
        self.happened(FLUSH[3], live.order == Order::Priority && woken != after);
        if live.inherits() {
            let inside = woken.iter().any(|&task| was.cycle(task).contains(&live.owner));
            self.happened(FLUSH[2], inside);
            let middle = middle_ended(was, is, &woken);
            self.happened(FLUSH[4], middle);
            let lost = live.owner != 0 && was.is_boosted(live.owner) && !is.is_boosted(live.owner);
            self.happened(FLUSH[5], lost);
        }
    }

    fn saw_ticked(&mut self, was: &Moment, is: &Moment) {
        let ended = |&task: &u32| was.lends_to(task).is_some() && !is.machine.is_waiting(task);
        let woken: Vec<u32> = (1..=was.machine.tasks.len() as u32).filter(ended).collect();
        self.happened(TICK[0], middle_ended(was, is, &woken));
        let lost = |task: u32| {
            was.lends_to(task).is_some_and(|owner| was.is_boosted(owner) && !is.is_boosted(owner))
        };
        self.happened(TICK[1], woken.iter().any(|&task| lost(task)));
        self.happened(TICK[2], woken.iter().any(|&task| !was.cycle(task).is_empty()));
    }
}

/// Whether one of the woken stood in the middle of a chain, which it is the end of now, and another task is next.
fn middle_ended(was: &Moment, is: &Moment, woken: &[u32]) -> bool {
    let middle = |&task: &u32| was.lends_to(task).is_some() && is.is_lent_to(task);
    woken.iter().any(middle) && was.machine.next_task() != is.machine.next_task()
}

/// Whether a PRIORITY queue is stored in another order than that of own priorities, which agrees since arrival decides.
pub fn has_queue_against_priorities(machine: &Machine) -> bool {
    let against = |live: &Semaphore| {
        let sorted = live.queue.is_sorted_by_key(|&task| machine.priority(task));
        live.order == Order::Priority && !sorted
    };
    machine.live_slots().any(|(_, live)| against(live))
}
