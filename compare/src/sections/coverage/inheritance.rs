//! What random runs have to have shown of sections whose semaphore lends.

use crate::model::{Machine, Semaphore, State};
use crate::sections::coverage::Coverage;
use crate::sections::runner::Running;
use crate::sections::{Grant, Input};
use crate::status::*;

const HAPPENINGS: [&str; 8] = [
    "84: section granted at its obtain",
    "84: section granted at a release",
    "84: section granted to one that is not first in its queue",
    "84: skip, wait ended with 6",
    "84: skip, wait ended with 13",
    "84: a section's task is boosted by one that waits",
    "84: a section's task is next by inheritance alone",
    "84: a section's task is not next any more after its release",
];

/// All that has to have happened.
pub fn wanted() -> impl Iterator<Item = &'static str> {
    HAPPENINGS.into_iter()
}

/// The inheritance semaphore of this identifier.
fn lending(machine: &Machine, id: u32) -> Option<&Semaphore> {
    machine.semaphore(id).filter(|live| live.inherits())
}

/// The inheritance semaphore that a task waits on.
fn awaited(machine: &Machine, task: u32) -> Option<&Semaphore> {
    match machine.tasks[task as usize - 1].state {
        State::Waiting { id, .. } => lending(machine, id),
        State::Ready { .. } => None,
    }
}

impl Coverage {
    /// Counts what one event did to sections whose semaphore lends.
    pub fn saw_inheritance(&mut self, input: &Input, before: &Running, after: &Running) {
        for &grant in &after.grants[before.grants.len()..] {
            self.saw_grant(input, before, after, grant);
        }
        for script in &input.scripts {
            self.saw_task(script.task, &before.machine, &after.machine);
        }
    }

    fn saw_grant(&mut self, input: &Input, before: &Running, after: &Running, grant: Grant) {
        let script = input.scripts.iter().find(|script| script.task == grant.task);
        let id = script.map_or(0, |script| script.sections[grant.section].id);
        if lending(&after.machine, id).is_none() {
            return;
        }
        let waited = awaited(&before.machine, grant.task);
        self.happened(HAPPENINGS[0], waited.is_none());
        self.happened(HAPPENINGS[1], waited.is_some());
        self.happened(HAPPENINGS[2], waited.is_some_and(|live| live.queue[0] != grant.task));
    }

    fn saw_task(&mut self, task: u32, before: &Machine, after: &Machine) {
        if let (Some(_), State::Ready { answer }) =
            (awaited(before, task), after.tasks[task as usize - 1].state)
        {
            self.happened(HAPPENINGS[3], answer == TIMEOUT);
            self.happened(HAPPENINGS[4], answer == UNSATISFIED);
        }
        let boosted = |machine: &Machine| machine.working()[task as usize - 1] < machine.priority(task);
        let next_alone = |machine: &Machine| {
            machine.next_task() == task && machine.next_by(&machine.working_with(0)) != task
        };
        self.happened(HAPPENINGS[5], boosted(after));
        self.happened(HAPPENINGS[6], next_alone(after));
        let given = !boosted(after) && !after.is_waiting(task) && after.next_task() != task;
        self.happened(HAPPENINGS[7], next_alone(before) && given);
    }
}
