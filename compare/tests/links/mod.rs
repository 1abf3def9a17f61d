//! Working priorities by recursion along owners and waiters, a third way beside the model's and the one in place.
#![allow(dead_code)]

use compare::model::{Machine, Semaphore};

/// Which semaphores lend.
pub type Lends = fn(&Semaphore) -> bool;

pub const INHERITS: Lends = Semaphore::inherits;

/// The words of the request: with no link left its own number, else the least of that and of its waiters' with one link less.
fn by_links(machine: &Machine, lends: Lends, task: u32, links: usize) -> u32 {
    let own = machine.priority(task);
    if links == 0 {
        return own;
    }
    let owned = machine.live_slots().filter(|(_, live)| live.owner == task && lends(live));
    let waiters = owned.flat_map(|(_, live)| &live.queue);
    waiters.map(|&waiter| by_links(machine, lends, waiter, links - 1)).fold(own, u32::min)
}

pub fn all_by_links(machine: &Machine, lends: Lends, links: usize) -> Vec<u32> {
    (1..=machine.tasks.len() as u32).map(|task| by_links(machine, lends, task, links)).collect()
}
