//! Working priorities: what those that wait for a task lend it, and what goes by them.

use crate::model::{Machine, Order, Protocol, Semaphore};

impl Semaphore {
    /// Whether those that wait for it lend their priorities to its owner.
    pub fn inherits(&self) -> bool {
        self.protocol == Protocol::Inheritance
    }
}

impl Machine {
    /// Each waiter on an inheritance semaphore, with the owner that it lends its priority to.
    pub fn lenders(&self) -> impl Iterator<Item = (u32, u32)> + '_ {
        let live = self.slots.iter().filter_map(|slot| slot.live.as_ref());
        live.filter(|live| live.inherits())
            .flat_map(|live| live.queue.iter().map(|&waiter| (waiter, live.owner)))
    }

    /// The working priorities of tasks 1 to N, from chains of at most this many links.
    pub fn working_with(&self, links: usize) -> Vec<u32> {
        let own: Vec<u32> = self.tasks.iter().map(|task| task.priority).collect();
        let lenders: Vec<(u32, u32)> = self.lenders().collect();
        let mut working = own.clone();
        for _ in 0..links {
            let shorter = working;
            working = own.clone();
            for &(waiter, owner) in &lenders {
                let lent = shorter[waiter as usize - 1];
                let owner = &mut working[owner as usize - 1];
                *owner = lent.min(*owner);
            }
            // What one more link leaves as it was, all further ones do.
            if working == shorter {
                break;
            }
        }
        working
    }

    /// The working priorities of tasks 1 to N; a chain has at most N links.
    pub fn working(&self) -> Vec<u32> {
        self.working_with(self.tasks.len())
    }

    /// The ready task that these priorities of tasks 1 to N put first, among equals the one that has been ready longest, or 0.
    pub fn next_by(&self, priorities: &[u32]) -> u32 {
        // Of several least the first is taken.
        self.ready.iter().copied().min_by_key(|&task| priorities[task as usize - 1]).unwrap_or(0)
    }

    pub fn next_task(&self) -> u32 {
        self.next_by(&self.working())
    }

    /// The waiters on a semaphore in the order in which they are served, by these priorities where it is PRIORITY.
    pub fn in_turn_by(&self, id: u32, priorities: &[u32]) -> Vec<u32> {
        let Some(semaphore) = self.semaphore(id) else { return Vec::new() };
        let mut waiters = semaphore.queue.clone();
        if semaphore.order == Order::Priority {
            // The sort is stable: equals stay in the order of their arrival.
            waiters.sort_by_key(|&waiter| priorities[waiter as usize - 1]);
        }
        waiters
    }

    /// The waiters on a semaphore in the order in which they are served now; none where there is no such semaphore.
    pub fn in_turn(&self, id: u32) -> Vec<u32> {
        self.in_turn_by(id, &self.working())
    }
}
