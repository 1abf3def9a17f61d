//! Recorded sequences of calls, for measuring.

use crate::call::Call;
use crate::fuzz::generate::Plan;
use crate::fuzz::rng::Rng;
use crate::layout;
use crate::model::Machine;

/// Tables to begin with, and the calls to make on them one after the other.
pub struct Workload {
    pub name: &'static str,
    pub tables: Vec<u8>,
    pub calls: Vec<Call>,
}

/// Attributes of semaphores that are there from the start.
const PLAIN: [u32; 6] = [0, 4, 16, 20, 32, 36];
const WITH_INHERITANCE: [u32; 8] = [0, 4, 16, 20, 32, 36, 84, 84];

// Weights in the order of `KINDS`.
const MIXED: [u32; 9] = [0, 8, 3, 6, 38, 26, 3, 10, 6];
const MOSTLY_TICKS: [u32; 9] = [0, 1, 1, 1, 5, 3, 1, 87, 1];
// A session has no line for the last kind.
const SESSION_TICKS: [u32; 9] = [0, 1, 1, 1, 5, 3, 1, 88, 0];

/// The share of calls, in a hundred, that keep chains in use.
const CHAINS: usize = 40;

/// A small tag, a full machine, a full machine that mostly ticks, all three without inheritance, and a full machine with it.
pub fn all(calls: usize) -> Vec<Workload> {
    let few = vec![3, 2, 2, 1];
    let many: Vec<u32> = (0..32).map(|task| 1 + task % 7).collect();
    vec![
        record("4 tasks, 4 slots, mixed calls", 4, few, MIXED, calls),
        record("32 tasks, 64 slots, mixed calls", 64, many.clone(), MIXED, calls),
        record("32 tasks, 64 slots, mostly ticks", 64, many, MOSTLY_TICKS, calls),
        record_chains("32 tasks, 64 slots, inheritance", calls),
    ]
}

/// A whole session from an unstarted machine: 32 tasks, mostly ticks.
pub fn session_of_ticks(calls: usize) -> Vec<Call> {
    let priorities: Vec<u32> = (0..32).map(|task| 1 + task % 7).collect();
    let mut session = opening(64, &priorities, &PLAIN);
    session.extend(record("", 64, priorities, SESSION_TICKS, calls).calls);
    session
}

/// Tables of 32 tasks and 64 live slots, 30 of the tasks in nine queues of all kinds.
pub fn queues() -> Vec<u8> {
    let priorities = (0..32).map(|task| 1 + task % 7).collect();
    let mut calls = vec![Call::Start { slots: 64, priorities }];
    for slot in 0..64 {
        let attributes = PLAIN[slot as usize % PLAIN.len()];
        calls.push(Call::create(32, 1 + slot % 10, 0, attributes));
    }
    for task in 1..=30 {
        let id = 65536 + 1 + 7 * (task % 9);
        calls.push(Call::Obtain { caller: task, id, options: 0, timeout: task });
    }
    let mut machine = Machine::default();
    for call in &calls {
        machine.call(call);
    }
    layout::write(&machine)
}

fn record(
    name: &'static str,
    slots: u32,
    priorities: Vec<u32>,
    weights: [u32; 9],
    length: usize,
) -> Workload {
    let opening = opening(slots, &priorities, &PLAIN);
    record_plan(name, &opening, &Plan::steady(slots, priorities, weights), length)
}

/// Mixed calls of 32 tasks, of whom many wait for owners that work for them.
fn record_chains(name: &'static str, length: usize) -> Workload {
    let priorities: Vec<u32> = (1..=32).map(|task| 1 + task * 7 % 32).collect();
    let opening = opening(64, &priorities, &WITH_INHERITANCE);
    record_plan(name, &opening, &Plan::steady_chains(64, priorities, MIXED, CHAINS), length)
}

/// The calls that a plan draws on the tables that the opening leaves.
fn record_plan(name: &'static str, opening: &[Call], plan: &Plan, length: usize) -> Workload {
    let mut machine = Machine::default();
    for call in opening {
        machine.call(call);
    }
    let tables = layout::write(&machine);
    let mut rng = Rng::new(length as u64);
    let mut calls = Vec::with_capacity(length);
    for _ in 0..length {
        let call = plan.draw_call(&mut rng, &machine);
        machine.call(&call);
        calls.push(call);
    }
    Workload { name, tables, calls }
}

/// A start, and creates with these attributes in turn for three quarters of the slots.
fn opening(slots: u32, priorities: &[u32], attributes: &[u32]) -> Vec<Call> {
    let mut calls = vec![Call::Start { slots, priorities: priorities.to_vec() }];
    for slot in 0..slots * 3 / 4 {
        let attributes = attributes[slot as usize % attributes.len()];
        calls.push(Call::create(1, 1 + slot % 10, 1, attributes));
    }
    calls
}
