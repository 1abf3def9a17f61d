//! Random sequences of calls, every answer and every byte compared.

use crate::call::{Answer, Call};
use crate::fuzz::comparison::{Comparison, Difference, Expected, Place};
use crate::fuzz::generate::{draw_ticks, Plan, TICKS_LEFT};
use crate::fuzz::lent::Lent;
use crate::fuzz::rng::Rng;
use crate::history::History;
use crate::layout::{self, *};
use crate::model::{identifier, Class, Machine, Order, State};
use crate::status::*;

/// How often in a hundred a wait with the standard limit or for ever is followed by about as many ticks as that limit has.
const BURSTS: usize = 2;

/// Make the seed of a sequence another one for the runs of grants and of chains behind it.
const GRANTS: u64 = 1 << 63;
const CHAINS: u64 = 1 << 62;

/// A sequence under way: the machine, the bytes that have to be lent then, and the history since the tables were last edited.
struct Sequence<'a, 'b> {
    comparison: &'a mut Comparison<'b>,
    place: Place,
    machine: Machine,
    expected: Vec<u8>,
    lent: Lent,
    history: History,
}

impl<'a, 'b> Sequence<'a, 'b> {
    /// Begins on the tables of this machine.
    fn begin(comparison: &'a mut Comparison<'b>, place: Place, machine: Machine, offset: usize) -> Self {
        let expected = layout::write(&machine);
        let lent = Lent::new(&expected, offset);
        let history = History::begin(&expected);
        Sequence { comparison, place, machine, expected, lent, history }
    }

    fn edit(&mut self, rng: &mut Rng) {
        edit(rng, &self.machine, &mut self.expected);
        self.machine = layout::read(&self.expected).expect("an edit keeps the tables in agreement");
        self.lent.bytes_mut().copy_from_slice(&self.expected);
        self.history = History::begin(&self.expected);
    }

    fn step(&mut self, call: &Call) -> Result<Answer, Box<Difference>> {
        let before = self.machine.clone();
        let answer = self.machine.call(call);
        layout::write_into(&self.machine, &mut self.expected);
        let wanted = Expected { before: Some(&before), answer, bytes: &self.expected };
        self.comparison.step(self.place, call, &mut self.lent, &wanted)?;
        self.comparison.coverage.saw(&before, call, answer, &self.machine);
        self.comparison.account(&mut self.history, self.place, call, answer, self.lent.bytes())?;
        self.place.step += 1;
        Ok(answer)
    }
}

/// Runs one sequence; gives back the machine that it ended in.
pub fn run(comparison: &mut Comparison, seed: u64) -> Result<Machine, Box<Difference>> {
    let mut rng = Rng::new(seed);
    let plan = Plan::draw(&mut rng);
    let place = Place { part: "random sequences", seed, step: 0 };
    let mut sequence = Sequence::begin(comparison, place, Machine::default(), rng.below(4));
    for _ in 0..plan.steps {
        if rng.chance(plan.edits) {
            sequence.edit(&mut rng);
        }
        let call = plan.draw_call(&mut rng, &sequence.machine);
        let answer = sequence.step(&call)?;
        for _ in 0..draw_ticks(&mut rng, &call, answer, BURSTS) {
            sequence.step(&Call::Tick)?;
        }
    }
    Ok(sequence.machine)
}

/// Runs obtains and releases on few semaphores, so that accounts grow long and queues are served: every other time on the machine
/// that was found, else on a small one.
pub fn run_grants(
    comparison: &mut Comparison,
    seed: u64,
    found: &Machine,
) -> Result<(), Box<Difference>> {
    let mut rng = Rng::new(seed ^ GRANTS);
    let place = Place { part: "grants", seed, step: 0 };
    let small = found.tasks.is_empty() || rng.chance(50);
    let (plan, machine) = (Plan::granting(&mut rng), if small { &Machine::default() } else { found });
    let mut sequence = Sequence::begin(comparison, place, machine.clone(), rng.below(4));
    if small {
        plan.opening(&mut rng).iter().try_for_each(|call| sequence.step(call).map(|_| ()))?;
    }
    // Half of the histories begin once more on the way, with several waiters to be found.
    let mut again = rng.chance(50);
    for _ in 0..plan.steps {
        if again && has_long_queue(&sequence.machine) {
            sequence.history = History::begin(&sequence.expected);
            again = false;
        }
        let call = plan.draw_call(&mut rng, &sequence.machine);
        sequence.step(&call)?;
    }
    Ok(())
}

/// Whether four or more wait in a FIFO queue of a semaphore that has an account.
fn has_long_queue(machine: &Machine) -> bool {
    machine.live_slots().any(|(_, live)| {
        live.class != Class::Binary && live.order == Order::Fifo && live.queue.len() >= 4
    })
}

/// Runs calls that build chains of inheritance semaphores and take them apart.
pub fn run_chains(comparison: &mut Comparison, seed: u64) -> Result<(), Box<Difference>> {
    let mut rng = Rng::new(seed ^ CHAINS);
    let plan = Plan::chaining(&mut rng);
    let place = Place { part: "chains", seed, step: 0 };
    let mut sequence = Sequence::begin(comparison, place, Machine::default(), rng.below(4));
    for _ in 0..plan.steps {
        if rng.chance(plan.edits) {
            sequence.edit(&mut rng);
        }
        let call = plan.draw_call(&mut rng, &sequence.machine);
        sequence.step(&call)?;
    }
    Ok(())
}

/// Writes numbers near their ends into tables, which still agree afterwards.
pub fn edit(rng: &mut Rng, machine: &Machine, bytes: &mut [u8]) {
    if machine.tasks.is_empty() {
        return;
    }
    let index = rng.below(machine.slots.len());
    match rng.below(9) {
        0 => edit_every_semaphore(rng, machine, bytes),
        1 => edit_semaphore(rng, machine, index, bytes),
        2 => edit_generation(rng, machine, index, bytes),
        3 => {
            // All free slots at once, so that creates soon run out of them.
            let near_end = rng.between(LAST_GENERATION - 2, LAST_GENERATION);
            for index in (0..machine.slots.len()).filter(|&index| machine.slots[index].live.is_none()) {
                set_word(bytes, slot_at(index) + GENERATION, near_end);
            }
        }
        4 => edit_sequence(rng, machine, bytes),
        5 => edit_queues(rng, machine, bytes),
        6 => edit_protocol(rng, machine, index, bytes),
        _ => edit_task(rng, machine, bytes),
    }
}

fn shuffled(rng: &mut Rng, numbers: &[u32]) -> Vec<u32> {
    let mut shuffled = numbers.to_vec();
    for last in (1..shuffled.len()).rev() {
        shuffled.swap(last, rng.below(last + 1));
    }
    shuffled
}

/// The ready tasks in any order.
fn edit_sequence(rng: &mut Rng, machine: &Machine, bytes: &mut [u8]) {
    set_sequence(bytes, &shuffled(rng, &machine.ready));
}

/// Every queue in any order.
fn edit_queues(rng: &mut Rng, machine: &Machine, bytes: &mut [u8]) {
    for (index, slot) in machine.slots.iter().enumerate() {
        let queue = slot.live.as_ref().map_or(&[][..], |live| &live.queue);
        set_words(bytes, slot_at(index) + QUEUE, &shuffled(rng, queue));
    }
}

/// A binary semaphore lends from now on, or no longer.
fn edit_protocol(rng: &mut Rng, machine: &Machine, index: usize, bytes: &mut [u8]) {
    let live = machine.slots[index].live.as_ref();
    if live.is_some_and(|live| live.class == Class::Binary) {
        set_word(bytes, slot_at(index) + ATTRIBUTES, rng.pick(&[16, 20, 84, 84]));
    }
}

fn edit_every_semaphore(rng: &mut Rng, machine: &Machine, bytes: &mut [u8]) {
    for index in 0..machine.slots.len() {
        edit_semaphore(rng, machine, index, bytes);
    }
}

/// Nest of an owned binary, or count and maximum of a counting semaphore.
fn edit_semaphore(rng: &mut Rng, machine: &Machine, index: usize, bytes: &mut [u8]) {
    let Some(live) = &machine.slots[index].live else { return };
    let number = rng.pick(&[u32::MAX, u32::MAX, u32::MAX - 1, 1, 2, 1 << 16, 1 << 31]);
    if live.owner != 0 {
        set_word(bytes, slot_at(index) + NEST, number);
    } else if live.class == Class::Counting {
        let count = if live.queue.is_empty() { number } else { 0 };
        let next = count.saturating_add(1);
        // Mostly at the count or next to it, so that releases soon reach it.
        let maximum = rng.pick(&[count.max(1), count.max(1), next, u32::MAX]);
        set_word(bytes, slot_at(index) + COUNT, count);
        set_word(bytes, slot_at(index) + MAXIMUM, maximum);
    }
}

/// The generation of one slot, with the identifiers its waiters wait on.
fn edit_generation(rng: &mut Rng, machine: &Machine, index: usize, bytes: &mut [u8]) {
    let generation = rng.pick(&[LAST_GENERATION, LAST_GENERATION - 1, LAST_GENERATION - 2, 255, 256]);
    set_word(bytes, slot_at(index) + GENERATION, generation);
    if let Some(live) = &machine.slots[index].live {
        for &waiter in &live.queue {
            set_word(bytes, task_at(waiter) + WAITS_ON, identifier(generation, index));
        }
    }
}

/// Ticks of a waiting task; answer and priority of a ready one.
fn edit_task(rng: &mut Rng, machine: &Machine, bytes: &mut [u8]) {
    let number = rng.between(1, machine.tasks.len() as u32);
    let at = task_at(number);
    match machine.tasks[number as usize - 1].state {
        State::Waiting { .. } => set_word(bytes, at + TICKS, rng.pick(&TICKS_LEFT)),
        State::Ready { .. } => {
            let endings = [SUCCESSFUL, TIMEOUT, OBJECT_WAS_DELETED, UNSATISFIED];
            set_word(bytes, at + ANSWER, rng.pick(&endings));
            let least = rng.pick(&[3, 3, LEAST_URGENT]);
            set_word(bytes, at + PRIORITY_OF, rng.between(MOST_URGENT, least));
        }
    }
}
