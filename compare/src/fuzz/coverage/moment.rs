//! Tables at one moment, with the priorities that their tasks have and work with.

use crate::model::Machine;

pub struct Moment<'a> {
    pub machine: &'a Machine,
    own: Vec<u32>,
    working: Vec<u32>,
    lenders: Vec<(u32, u32)>,
}

impl<'a> Moment<'a> {
    pub fn of(machine: &'a Machine) -> Self {
        let lenders = machine.lenders().collect();
        Moment { machine, own: machine.working_with(0), working: machine.working(), lenders }
    }

    pub fn own(&self, task: u32) -> u32 {
        self.own[task as usize - 1]
    }

    pub fn working(&self, task: u32) -> u32 {
        self.working[task as usize - 1]
    }

    /// Whether the task works with another number than its own.
    pub fn is_boosted(&self, task: u32) -> bool {
        self.working(task) < self.own(task)
    }

    /// Whether anybody lends to this task.
    pub fn is_lent_to(&self, task: u32) -> bool {
        self.lenders.iter().any(|(_, owner)| *owner == task)
    }

    /// The owner that a task lends to.
    pub fn lends_to(&self, task: u32) -> Option<u32> {
        self.lenders.iter().find(|(waiter, _)| *waiter == task).map(|(_, owner)| *owner)
    }

    /// The tasks of the deadlock that this one is in, from it on; none if its chain does not come back.
    pub fn cycle(&self, task: u32) -> Vec<u32> {
        let mut cycle = vec![task];
        let mut at = task;
        while let Some(owner) = self.lends_to(at) {
            if owner == task {
                return cycle;
            }
            if cycle.contains(&owner) {
                break;
            }
            cycle.push(owner);
            at = owner;
        }
        Vec::new()
    }

    /// The waiters of a semaphore as they are served, and as own priorities would have them.
    pub fn turns(&self, id: u32) -> [Vec<u32>; 2] {
        [&self.working, &self.own].map(|priorities| self.machine.in_turn_by(id, priorities))
    }

    /// The links of the shortest chain that gives a task its working priority, if one link less makes another task next.
    pub fn deciding_links(&self, next: u32) -> Option<usize> {
        if !self.is_boosted(next) {
            return None;
        }
        let lends_all =
            |links: &usize| self.machine.working_with(*links)[next as usize - 1] == self.working(next);
        let links = (1..=self.own.len()).find(lends_all)?;
        let shorter = self.machine.working_with(links - 1);
        (self.machine.next_by(&shorter) != next).then_some(links)
    }
}
