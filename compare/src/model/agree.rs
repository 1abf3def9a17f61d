//! When tables agree, beyond what their layout already says.

use crate::model::{identifier, Class, Machine, Semaphore, State, Task};
use crate::status::*;

impl Machine {
    /// The rules' agreement of the tables, over a machine read from them.
    pub fn agrees(&self) -> bool {
        if self.tasks.is_empty() {
            return self.slots.is_empty() && self.ready.is_empty();
        }
        !self.slots.is_empty()
            && self.tasks.iter().all(Task::is_in_limits)
            && self.slots.iter().all(|slot| slot.generation <= LAST_GENERATION)
            && self.live_slots().all(|(id, semaphore)| id >= 65536 && self.admits(semaphore))
            && self.queues_hold_waiters()
            && self.sequence_holds_ready()
    }

    /// Each live semaphore with its identifier.
    pub fn live_slots(&self) -> impl Iterator<Item = (u32, &Semaphore)> {
        let numbered = self.slots.iter().enumerate();
        numbered
            .filter_map(|(index, slot)| Some((identifier(slot.generation, index), slot.live.as_ref()?)))
    }

    /// What holds of one live semaphore, its queue's tasks being tasks at all.
    fn admits(&self, semaphore: &Semaphore) -> bool {
        let tasks = 1..=self.tasks.len() as u32;
        semaphore.name != 0
            && semaphore.queue.iter().all(|task| tasks.contains(task))
            && (semaphore.queue.is_empty() || semaphore.count == 0)
            && semaphore.class.allows(semaphore.maximum)
            && semaphore.count <= semaphore.maximum
            && self.holds_together(semaphore)
    }

    fn holds_together(&self, semaphore: &Semaphore) -> bool {
        let unowned = semaphore.owner == 0 && semaphore.nest == 0;
        match semaphore.class {
            Class::Counting | Class::SimpleBinary => unowned,
            Class::Binary if semaphore.count == 1 => unowned,
            Class::Binary => {
                semaphore.count == 0
                    && (1..=self.tasks.len() as u32).contains(&semaphore.owner)
                    && !semaphore.queue.contains(&semaphore.owner)
                    && semaphore.nest >= 1
            }
        }
    }

    /// Queues and waits are the same pairs of a task and an identifier, each once.
    fn queues_hold_waiters(&self) -> bool {
        let mut queued: Vec<(u32, u32)> = Vec::new();
        for (id, semaphore) in self.live_slots() {
            queued.extend(semaphore.queue.iter().map(|&task| (task, id)));
        }
        queued.sort_unstable();
        let waits = (1..).zip(&self.tasks).filter_map(|(number, task)| match task.state {
            State::Waiting { id, .. } => Some((number, id)),
            State::Ready { .. } => None,
        });
        waits.eq(queued)
    }

    /// Each ready task stands in the sequence once, and nothing else does.
    fn sequence_holds_ready(&self) -> bool {
        let mut sequence = self.ready.clone();
        sequence.sort_unstable();
        sequence == self.ready_by_number()
    }

    /// The ready tasks in the order of their numbers, which is that of the sequence at start.
    pub fn ready_by_number(&self) -> Vec<u32> {
        (1..=self.tasks.len() as u32).filter(|&task| !self.is_waiting(task)).collect()
    }
}

impl Task {
    fn is_in_limits(&self) -> bool {
        let endings = [SUCCESSFUL, TIMEOUT, OBJECT_WAS_DELETED, UNSATISFIED];
        let answer_fits = match self.state {
            State::Ready { answer } => endings.contains(&answer),
            State::Waiting { .. } => true,
        };
        answer_fits && (MOST_URGENT..=LEAST_URGENT).contains(&self.priority)
    }
}
