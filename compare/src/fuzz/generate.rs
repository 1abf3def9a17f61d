//! Random calls, weighted so that what matters really occurs.

use crate::call::{Answer, Call};
use crate::fuzz::chains::draw_link;
use crate::fuzz::rng::Rng;
use crate::model::{identifier, Class, Machine, Order, Slot};
use crate::status::*;

/// How one random sequence is drawn.
pub struct Plan {
    pub steps: u64,
    /// How many steps in a hundred edit the tables first.
    pub edits: usize,
    slots: u32,
    priorities: Vec<u32>,
    weights: [u32; 9],
    /// The share of obtains with NO_WAIT, in a hundred.
    polls: usize,
    /// The share of releases that serve the longest FIFO queue, in a hundred.
    served: usize,
    /// The share of calls that build chains of inheritance semaphores or take them apart, in a hundred.
    chains: usize,
    /// The attributes that creates are drawn from.
    attributes: &'static Attributes,
    /// How a timeout is drawn.
    timeout: fn(&mut Rng) -> u32,
}

/// Attributes that create allows, and some that it does not.
struct Attributes {
    allowed: &'static [u32],
    wrong: &'static [u32],
}

/// Ticks left that matter to the rules, the most that tables can hold among them.
pub const TICKS_LEFT: [u32; 9] = [0, 1, 1, 2, 256, 499, 500, u32::MAX - 1, u32::MAX];

/// Weights of the calls, in the order of `KINDS`: mixed, contended, filling, churning, waking many at once.
const WEIGHTS: [[u32; 9]; 5] = [
    [1, 12, 4, 6, 36, 22, 3, 8, 8],
    [1, 4, 2, 1, 55, 18, 2, 7, 10],
    [1, 70, 3, 2, 10, 6, 1, 4, 3],
    [1, 35, 4, 35, 12, 5, 2, 3, 3],
    [1, 12, 1, 12, 52, 4, 8, 8, 2],
];

/// Weights of the calls of a run of grants.
const GRANTING: [u32; 9] = [0, 3, 0, 1, 45, 42, 1, 8, 0];

/// Without inheritance, so that measured sequences stay what they were.
const PLAIN: Attributes = Attributes {
    allowed: &[0, 4, 16, 20, 32, 36],
    wrong: &[1, 2, 3, 8, 5, 48, 52, 64, 128, 0x104, u32::MAX],
};

/// The bit for inheritance is tried with every other sum.
const ALL: Attributes = Attributes {
    allowed: &[0, 4, 16, 20, 32, 36, 84, 84],
    wrong: &[1, 2, 8, 5, 48, 52, 64, 68, 80, 80, 96, 100, 112, 116, 128, 148, 212, 340, 0x104, u32::MAX],
};

impl Plan {
    pub fn draw(rng: &mut Rng) -> Self {
        let any = rng.between(1, 32);
        let tasks = rng.pick(&[1, 2, 3, 4, 8, 32, 32, any]) as usize;
        let any = rng.between(1, 64);
        let slots = rng.pick(&[1, 2, 3, 4, 8, 64, 64, any]);
        // Few priorities for many tasks: equals are the common case.
        let spread = rng.pick(&[1, 2, 2, 3, 3, 255]);
        Plan {
            steps: 400,
            edits: rng.pick(&[0, 2, 5]),
            slots,
            priorities: (0..tasks).map(|_| rng.between(1, spread)).collect(),
            weights: rng.pick(&WEIGHTS),
            polls: rng.pick(&[5, 20]),
            served: 0,
            chains: rng.pick(&[0, 0, 0, 20, 40]),
            attributes: &ALL,
            timeout: draw_timeout,
        }
    }

    /// A sequence that no wait for ever brings to a halt, with weights in the order of `KINDS`.
    pub fn steady(slots: u32, priorities: Vec<u32>, weights: [u32; 9]) -> Self {
        let timeout = |rng: &mut Rng| rng.pick(&[5, 20, 100, 500]);
        let attributes = &PLAIN;
        Plan {
            steps: 0,
            edits: 0,
            slots,
            priorities,
            weights,
            polls: 10,
            served: 0,
            chains: 0,
            attributes,
            timeout,
        }
    }

    /// The same with a share of calls, in a hundred, that keep chains of inheritance semaphores in use.
    pub fn steady_chains(slots: u32, priorities: Vec<u32>, weights: [u32; 9], chains: usize) -> Self {
        // A deadlock lasts as long as the shortest wait in it.
        let timeout = |rng: &mut Rng| rng.pick(&[2, 3, 5, 20]);
        Plan { chains, attributes: &ALL, timeout, ..Plan::steady(slots, priorities, weights) }
    }

    /// Mostly calls that build chains and take them apart, for tasks of many priorities or few.
    pub fn chaining(rng: &mut Rng) -> Self {
        let tasks = rng.pick(&[3, 4, 6, 8, 12, 32]);
        let spread = rng.pick(&[2, 4, 10, 255]);
        Plan {
            steps: 300,
            edits: rng.pick(&[0, 2]),
            slots: rng.pick(&[6, 12, 64]),
            priorities: (0..tasks).map(|_| rng.between(1, spread)).collect(),
            weights: WEIGHTS[0],
            polls: 5,
            served: 0,
            chains: 85,
            attributes: &ALL,
            timeout: draw_timeout,
        }
    }

    /// Obtains and releases on few semaphores.
    pub fn granting(rng: &mut Rng) -> Self {
        let tasks = rng.pick(&[2, 4, 8, 16, 32]);
        Plan {
            steps: 400,
            edits: 0,
            slots: rng.pick(&[1, 1, 2, 3]),
            priorities: (0..tasks).map(|_| rng.between(1, 3)).collect(),
            weights: GRANTING,
            polls: 5,
            served: 40,
            chains: 0,
            attributes: &ALL,
            timeout: draw_timeout,
        }
    }

    /// A start, and a create of a counting or simple binary semaphore with a small count for every slot.
    pub fn opening(&self, rng: &mut Rng) -> Vec<Call> {
        let mut calls = vec![Call::Start { slots: self.slots, priorities: self.priorities.clone() }];
        for slot in 1..=self.slots {
            let attributes = rng.pick(&[0, 4, 32, 36]);
            let count = rng.between(0, if attributes < SIMPLE_BINARY { 3 } else { 1 });
            calls.push(Call::create(1, slot, count, attributes));
        }
        calls
    }

    /// The next call of the sequence.
    pub fn draw_call(&self, rng: &mut Rng, machine: &Machine) -> Call {
        if machine.tasks.is_empty() && rng.chance(70) {
            return self.draw_start(rng);
        }
        // Plans without such a share draw no number for it, so that their calls stay what they were.
        if self.chains > 0 && rng.chance(self.chains) {
            let timeout = (self.timeout)(rng);
            if let Some(call) = draw_link(rng, machine, timeout) {
                return call;
            }
        }
        let kind = rng.weighted(&self.weights);
        self.draw_kind(rng, machine, kind)
    }

    /// A call of the kind at this place in `KINDS`.
    pub fn draw_kind(&self, rng: &mut Rng, machine: &Machine, kind: usize) -> Call {
        match kind {
            0 => self.draw_start(rng),
            1 => self.draw_create(rng, machine),
            2 => Call::Ident { name: draw_name(rng) },
            3 => Call::Delete { caller: draw_caller(rng, machine, 3), id: draw_id(rng, machine) },
            4 => self.draw_obtain(rng, machine),
            5 => self.draw_release(rng, machine),
            6 => Call::Flush { caller: draw_caller(rng, machine, 20), id: draw_id(rng, machine) },
            7 => Call::Tick,
            _ => Call::Task { task: draw_task(rng, machine) },
        }
    }

    fn draw_start(&self, rng: &mut Rng) -> Call {
        let mut slots = self.slots;
        let mut priorities = self.priorities.clone();
        if rng.chance(25) {
            slots = rng.pick(&[0, 1, 64, 65, 256, u32::MAX]);
        }
        if rng.chance(20) {
            let length = rng.pick(&[0, 1, 31, 32, 33, 64, 255, 300]);
            let spread = rng.pick(&[2, 2, 255]);
            priorities = (0..length).map(|_| rng.between(1, spread)).collect();
        }
        if rng.chance(20) && !priorities.is_empty() {
            let place = rng.below(priorities.len());
            priorities[place] = rng.pick(&[0, 1, 255, 256, 257, 65536, u32::MAX]);
        }
        Call::Start { slots, priorities }
    }

    fn draw_obtain(&self, rng: &mut Rng, machine: &Machine) -> Call {
        let id = draw_id(rng, machine);
        let mut caller = draw_caller(rng, machine, 2);
        let owned = binary_owner(machine, id).filter(|_| rng.chance(30));
        caller = owned.unwrap_or(caller);
        let options = match rng.chance(self.polls) {
            true => rng.pick(&[1, 1, 3, u32::MAX]),
            false => rng.pick(&[0, 0, 0, 2, 4, u32::MAX - 1]),
        };
        Call::Obtain { caller, id, options, timeout: (self.timeout)(rng) }
    }

    fn draw_release(&self, rng: &mut Rng, machine: &Machine) -> Call {
        if self.served > 0 && rng.chance(self.served) {
            if let Some(id) = longest_queue(machine) {
                return Call::Release { caller: 0, id };
            }
        }
        let id = draw_id(rng, machine);
        let caller = draw_caller(rng, machine, 20);
        let owner = binary_owner(machine, id).filter(|_| rng.chance(70));
        Call::Release { caller: owner.unwrap_or(caller), id }
    }

    fn draw_create(&self, rng: &mut Rng, machine: &Machine) -> Call {
        let caller = draw_caller(rng, machine, 3);
        let any = rng.word();
        let attributes = match rng.below(100) {
            0 => any,
            1..8 => rng.pick(self.attributes.wrong),
            _ => rng.pick(self.attributes.allowed),
        };
        let count = match attributes & (BINARY + SIMPLE_BINARY) {
            0 => rng.pick(&[0, 0, 1, 2, 3, 11, 12, u32::MAX - 1, u32::MAX, any]),
            _ => rng.pick(&[0, 0, 0, 1, 1, 1, 2, u32::MAX]),
        };
        let maximum = draw_maximum(rng, attributes, count);
        Call::Create { caller, name: draw_name(rng), count, attributes, maximum }
    }
}

/// The counting or simple binary semaphore with the most waiters in a FIFO queue, if there is any.
fn longest_queue(machine: &Machine) -> Option<u32> {
    let live = |(index, slot): (usize, &Slot)| {
        let live = slot.live.as_ref()?;
        let in_turn = live.class != Class::Binary && live.order == Order::Fifo;
        in_turn.then(|| (live.queue.len(), identifier(slot.generation, index)))
    };
    let (length, id) = machine.slots.iter().enumerate().filter_map(live).max()?;
    (length > 0).then_some(id)
}

/// A timeout that matters to the rules, two of three short.
fn draw_timeout(rng: &mut Rng) -> u32 {
    let long = draw_long_timeout(rng);
    rng.pick(&[1, 1, 2, 3, 5, 9, long, long, long])
}

/// A timeout longer than most sequences: at the standard limit and next to it, far above it, and for ever.
pub fn draw_long_timeout(rng: &mut Rng) -> u32 {
    rng.pick(&[STANDARD, STANDARD, 499, 500, 501, 1 << 24, FOREVER - 1, FOREVER, FOREVER])
}

/// How many ticks follow a call at once: none, or `percent` times in a hundred about as many as the standard limit has, if the
/// call began a wait with that limit or for ever.
pub fn draw_ticks(rng: &mut Rng, call: &Call, answer: Answer, percent: usize) -> u32 {
    let long = matches!(call, Call::Obtain { timeout: STANDARD | FOREVER, .. });
    if long && answer.status == WAITING && rng.chance(percent) {
        rng.between(STANDARD_LIMIT - 1, STANDARD_LIMIT + 8)
    } else {
        0
    }
}

/// A maximum, mostly one that create allows: its limits, small ones, the count and what is next to it.
fn draw_maximum(rng: &mut Rng, attributes: u32, count: u32) -> u32 {
    let any = rng.word();
    let (below, above) = (count.wrapping_sub(1), count.wrapping_add(1));
    let seldom = rng.pick(&[0, 2, 12, below, above, u32::MAX - 1, u32::MAX, any]);
    match attributes & (BINARY + SIMPLE_BINARY) {
        0 => rng.pick(&[1, 2, 12, count, count, above, u32::MAX, u32::MAX, u32::MAX, seldom]),
        _ => rng.pick(&[1, 1, 1, 1, 1, 1, 1, 1, seldom]),
    }
}

// Few names, so that several slots bear the same.
fn draw_name(rng: &mut Rng) -> u32 {
    let any = rng.word();
    rng.pick(&[1, 2, 3, 4, 5, 6, 7, 8, 9, 10, 1, 2, 3, 4, 5, 6, 0, u32::MAX, any])
}

/// A caller, an interrupt `interrupts` times in a hundred and mostly a ready task.
pub fn draw_caller(rng: &mut Rng, machine: &Machine, interrupts: usize) -> u32 {
    if rng.chance(interrupts) {
        return 0;
    }
    let tasks = machine.tasks.len() as u32;
    if rng.chance(6) {
        let any = rng.word();
        return rng.pick(&[0, tasks, tasks, tasks + 1, tasks + 1, u32::MAX, any]);
    }
    let ready: Vec<u32> = (1..=tasks).filter(|&task| !machine.is_waiting(task)).collect();
    match ready.is_empty() || rng.chance(5) {
        true => rng.between(0, tasks),
        false => rng.pick(&ready),
    }
}

fn draw_task(rng: &mut Rng, machine: &Machine) -> u32 {
    let tasks = machine.tasks.len() as u32;
    match rng.chance(90) {
        true => rng.between(0, tasks),
        false => rng.pick(&[tasks + 1, 32, 33, 64, u32::MAX]),
    }
}

/// An identifier, mostly of a live semaphore.
pub fn draw_id(rng: &mut Rng, machine: &Machine) -> u32 {
    let is_live = |index: &usize| machine.slots[*index].live.is_some();
    let live: Vec<usize> = (0..machine.slots.len()).filter(is_live).collect();
    if !live.is_empty() && rng.chance(88) {
        // The first few are drawn more often, so that queues grow.
        let few = live.len().min(3);
        let index = if rng.chance(50) { live[rng.below(few)] } else { rng.pick(&live) };
        return identifier(machine.slots[index].generation, index);
    }
    draw_wrong_id(rng, machine)
}

/// A stale or an invented identifier, though it may happen to be right.
fn draw_wrong_id(rng: &mut Rng, machine: &Machine) -> u32 {
    let slots = machine.slots.len();
    let any = rng.word();
    if slots == 0 || rng.chance(20) {
        return rng.pick(&[0, 1, 65536, 65537, u32::MAX, any]);
    }
    let index = rng.below(slots);
    let generation = machine.slots[index].generation;
    let right = identifier(generation, index);
    let past_last = identifier(1, slots);
    let stale = right.wrapping_sub(65536);
    let other_slot = (generation << 16) | rng.pick(&[0, slots as u32 + 1, 255, 256, 257, 65535]);
    rng.pick(&[right, stale, stale, right.wrapping_add(65536), past_last, other_slot])
}

/// The owner of the binary semaphore with this identifier, if that task is ready.
fn binary_owner(machine: &Machine, id: u32) -> Option<u32> {
    let live = machine.semaphore(id)?;
    let ready = live.class == Class::Binary && live.owner != 0 && !machine.is_waiting(live.owner);
    ready.then_some(live.owner)
}
