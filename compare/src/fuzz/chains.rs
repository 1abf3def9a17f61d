//! Calls that build chains of inheritance semaphores, close them to cycles, and take them apart.

use crate::call::Call;
use crate::fuzz::rng::Rng;
use crate::model::{Class, Machine, Order, Semaphore};
use crate::status::*;

/// Weights of what a call does: take, wait for an owner, wait elsewhere, close a cycle, nest, release, flush, delete, tick.
const WEIGHTS: [u32; 9] = [22, 32, 12, 5, 5, 12, 6, 3, 4];

/// A call on the chains that there are, if the one drawn can be made; a wait that it begins has this timeout.
pub fn draw_link(rng: &mut Rng, machine: &Machine, timeout: u32) -> Option<Call> {
    let waits = |(caller, id): (u32, u32)| Call::Obtain { caller, id, options: 0, timeout };
    match rng.weighted(&WEIGHTS) {
        0 => take(rng, machine),
        1 => wait_for_owner(rng, machine).map(waits),
        2 => wait_elsewhere(rng, machine, timeout),
        3 => close_cycle(rng, machine).map(waits),
        4 => nest(rng, machine).map(waits),
        5 => release(rng, machine),
        6 => flush(rng, machine),
        7 => delete(rng, machine),
        _ => Some(Call::Tick),
    }
}

fn pick<T: Copy>(rng: &mut Rng, from: &[T]) -> Option<T> {
    (!from.is_empty()).then(|| rng.pick(from))
}

/// The semaphores that pass the test, with their identifiers.
fn such(machine: &Machine, test: impl Fn(&Semaphore) -> bool) -> Vec<(u32, &Semaphore)> {
    machine.live_slots().filter(|(_, live)| test(live)).collect()
}

/// One of those that pass the test.
fn draw_such<'a>(
    rng: &mut Rng,
    machine: &'a Machine,
    test: impl Fn(&Semaphore) -> bool,
) -> Option<(u32, &'a Semaphore)> {
    pick(rng, &such(machine, test))
}

fn is_ready(machine: &Machine, task: u32) -> bool {
    task != 0 && !machine.is_waiting(task)
}

/// A ready task, other than this one.
fn draw_ready(rng: &mut Rng, machine: &Machine, other_than: u32) -> Option<u32> {
    let others = machine.ready.iter().copied().filter(|&task| task != other_than);
    pick(rng, &others.collect::<Vec<u32>>())
}

/// A ready task comes to own a semaphore, mostly an inheritance one and mostly its first.
fn take(rng: &mut Rng, machine: &Machine) -> Option<Call> {
    let owns = |task: u32| machine.live_slots().any(|(_, live)| live.owner == task);
    let without: Vec<u32> = machine.ready.iter().copied().filter(|&task| !owns(task)).collect();
    let caller = if rng.chance(70) { pick(rng, &without) } else { pick(rng, &machine.ready) }?;
    let free = draw_such(rng, machine, |live| live.class == Class::Binary && live.count == 1);
    if let Some((id, _)) = free.filter(|_| rng.chance(60)) {
        return Some(Call::Obtain { caller, id, options: 0, timeout: FOREVER });
    }
    let attributes = rng.pick(&[84, 84, 84, 84, 84, 84, 20, 16]);
    Some(Call::create(caller, rng.between(1, 9), 0, attributes))
}

/// A ready task and a semaphore that it will wait for: half of the owners wait themselves, so that chains grow at both ends.
fn wait_for_owner(rng: &mut Rng, machine: &Machine) -> Option<(u32, u32)> {
    let (waits, any, longer) = (rng.chance(50), rng.chance(12), rng.chance(60));
    let fits = |live: &Semaphore| {
        let grows = !longer || live.queue.is_empty();
        let lends = any || live.inherits();
        live.owner != 0 && lends && grows && machine.is_waiting(live.owner) == waits
    };
    let (id, live) = draw_such(rng, machine, fits)?;
    // One who owns something can be waited for in turn.
    let owners = such(machine, |other| other.inherits() && is_ready(machine, other.owner));
    let owners = owners.into_iter().map(|(_, other)| other.owner).filter(|&task| task != live.owner);
    let owner = pick(rng, &owners.collect::<Vec<u32>>()).filter(|_| longer);
    Some((owner.or_else(|| draw_ready(rng, machine, live.owner))?, id))
}

/// The tasks whose numbers a task works with, its own among them.
fn behind(machine: &Machine, task: u32) -> Vec<u32> {
    let lenders: Vec<(u32, u32)> = machine.lenders().collect();
    let mut found = vec![task];
    let mut at = 0;
    while let Some(&owner) = found.get(at) {
        for &(waiter, _) in lenders.iter().filter(|(_, of)| *of == owner) {
            if !found.contains(&waiter) {
                found.push(waiter);
            }
        }
        at += 1;
    }
    found
}

/// A ready task, mostly one for whom others wait, joins a queue in which nobody lends, mostly a PRIORITY one.
fn wait_elsewhere(rng: &mut Rng, machine: &Machine, timeout: u32) -> Option<Call> {
    let lent = |&task: &u32| behind(machine, task).len() > 1;
    let owners: Vec<u32> = machine.ready.iter().copied().filter(lent).collect();
    let caller = if rng.chance(75) { pick(rng, &owners) } else { pick(rng, &machine.ready) }?;
    let fifo = rng.chance(35);
    let fits = |live: &Semaphore| {
        let kind = (fifo || live.order == Order::Priority) && !live.inherits();
        kind && live.count == 0 && live.owner != caller
    };
    match draw_such(rng, machine, fits) {
        Some((id, _)) => Some(Call::Obtain { caller, id, options: 0, timeout }),
        None => Some(Call::create(caller, 9, 0, rng.pick(&[4, 4, 36, 36, 0]))),
    }
}

/// The owner at the end of a chain waits for a task of that chain.
fn close_cycle(rng: &mut Rng, machine: &Machine) -> Option<(u32, u32)> {
    let mut ends = Vec::new();
    for &caller in &machine.ready {
        let chain = behind(machine, caller);
        let fits =
            |live: &Semaphore| live.inherits() && live.owner != caller && chain.contains(&live.owner);
        ends.extend(such(machine, fits).into_iter().map(|(id, _)| (caller, id)));
    }
    pick(rng, &ends)
}

fn nest(rng: &mut Rng, machine: &Machine) -> Option<(u32, u32)> {
    let (id, live) = draw_such(rng, machine, |live| live.inherits() && is_ready(machine, live.owner))?;
    Some((live.owner, id))
}

/// A release that serves somebody, or that the owner of a nest makes.
fn release(rng: &mut Rng, machine: &Machine) -> Option<Call> {
    let fits = |live: &Semaphore| match live.class {
        Class::Binary => is_ready(machine, live.owner) && (live.nest > 1 || !live.queue.is_empty()),
        _ => !live.queue.is_empty(),
    };
    let (id, live) = draw_such(rng, machine, fits)?;
    Some(Call::Release { caller: live.owner, id })
}

fn flush(rng: &mut Rng, machine: &Machine) -> Option<Call> {
    let least = if rng.chance(70) { 2 } else { 1 };
    let (id, _) = draw_such(rng, machine, |live| live.queue.len() >= least)?;
    Some(Call::Flush { caller: 0, id })
}

fn delete(rng: &mut Rng, machine: &Machine) -> Option<Call> {
    let fits = |live: &Semaphore| live.owner == 0 && live.queue.len() >= 2;
    let (id, _) = draw_such(rng, machine, fits)?;
    Some(Call::Delete { caller: draw_ready(rng, machine, 0)?, id })
}
