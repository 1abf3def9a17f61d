//! The semaphore manager of docs/RULES.md over structs of its own.

mod agree;
mod inheritance;

use crate::call::{Answer, Call};
use crate::status::*;

/// A machine; without tasks it is one not yet started.
#[derive(Clone, Debug, Default, PartialEq, Eq)]
pub struct Machine {
    pub tasks: Vec<Task>,
    pub slots: Vec<Slot>,
    /// The numbers of the ready tasks, the one that has been ready longest first.
    pub ready: Vec<u32>,
}

#[derive(Clone, Debug, PartialEq, Eq)]
pub struct Task {
    pub priority: u32,
    pub state: State,
}

/// `Ready` keeps how the latest wait ended; `Waiting` with 0 ticks is for ever.
#[derive(Clone, Copy, Debug, PartialEq, Eq)]
pub enum State {
    Ready { answer: u32 },
    Waiting { id: u32, ticks: u32 },
}

#[derive(Clone, Debug, Default, PartialEq, Eq)]
pub struct Slot {
    pub generation: u32,
    pub live: Option<Semaphore>,
}

#[derive(Clone, Copy, Debug, PartialEq, Eq)]
pub enum Class {
    Counting,
    Binary,
    SimpleBinary,
}

#[derive(Clone, Copy, Debug, PartialEq, Eq)]
pub enum Order {
    Fifo,
    Priority,
}

/// Whether the owner works with the priorities of those that wait for it.
#[derive(Clone, Copy, Debug, PartialEq, Eq)]
pub enum Protocol {
    None,
    Inheritance,
}

/// A live semaphore; its queue holds task numbers, the one that has waited longest first.
#[derive(Clone, Debug, PartialEq, Eq)]
pub struct Semaphore {
    pub name: u32,
    pub class: Class,
    pub order: Order,
    pub protocol: Protocol,
    pub count: u32,
    pub owner: u32,
    pub nest: u32,
    /// The count at which a release has nothing left to give.
    pub maximum: u32,
    pub queue: Vec<u32>,
}

/// A call that was not refused: done with its value, or a wait that began.
enum Outcome {
    Done(u32),
    Waits,
}

type Served = Result<Outcome, u32>;

const DONE: Served = Ok(Outcome::Done(0));

/// Class, order and protocol, for the seven sums of attributes that create allows.
pub fn split_attributes(attributes: u32) -> Option<(Class, Order, Protocol)> {
    match attributes {
        0 => Some((Class::Counting, Order::Fifo, Protocol::None)),
        4 => Some((Class::Counting, Order::Priority, Protocol::None)),
        16 => Some((Class::Binary, Order::Fifo, Protocol::None)),
        20 => Some((Class::Binary, Order::Priority, Protocol::None)),
        32 => Some((Class::SimpleBinary, Order::Fifo, Protocol::None)),
        36 => Some((Class::SimpleBinary, Order::Priority, Protocol::None)),
        84 => Some((Class::Binary, Order::Priority, Protocol::Inheritance)),
        _ => None,
    }
}

/// The ticks left of a wait that begins with this timeout, 0 for ever.
fn ticks_of(timeout: u32) -> u32 {
    match timeout {
        STANDARD => STANDARD_LIMIT,
        FOREVER => 0,
        ticks => ticks,
    }
}

/// The identifier of the slot at `index`, whose number is one more.
pub fn identifier(generation: u32, index: usize) -> u32 {
    generation * 65536 + index as u32 + 1
}

impl Semaphore {
    /// The sum of attributes it was created with.
    pub fn attributes(&self) -> u32 {
        let class = match self.class {
            Class::Counting => 0,
            Class::Binary => BINARY,
            Class::SimpleBinary => SIMPLE_BINARY,
        };
        let order = match self.order {
            Order::Fifo => 0,
            Order::Priority => PRIORITY,
        };
        let protocol = match self.protocol {
            Protocol::None => 0,
            Protocol::Inheritance => INHERITANCE,
        };
        class + order + protocol
    }
}

impl Class {
    /// Whether create takes this maximum for a semaphore of the class.
    pub fn allows(self, maximum: u32) -> bool {
        match self {
            Class::Counting => maximum >= 1,
            Class::Binary | Class::SimpleBinary => maximum == 1,
        }
    }
}

impl Machine {
    /// Serves one call on tables that agree.
    pub fn call(&mut self, call: &Call) -> Answer {
        let served = match *call {
            Call::Start { slots, ref priorities } => self.start(slots, priorities),
            Call::Create { caller, name, count, attributes, maximum } => {
                self.create(caller, name, count, attributes, maximum)
            }
            Call::Ident { name } => self.ident(name),
            Call::Delete { caller, id } => self.delete(caller, id),
            Call::Obtain { caller, id, options, timeout } => self.obtain(caller, id, options, timeout),
            Call::Release { caller, id } => self.release(caller, id),
            Call::Flush { caller, id } => self.flush(caller, id),
            Call::Tick => self.tick(),
            Call::Task { task } => self.task(task),
        };
        let (status, value) = match served {
            Ok(Outcome::Done(value)) => (SUCCESSFUL, value),
            Ok(Outcome::Waits) => (WAITING, 0),
            Err(refusal) => (refusal, 0),
        };
        Answer::new(status, value, self.next_task())
    }

    /// The priority of a task, by its number.
    pub fn priority(&self, task: u32) -> u32 {
        self.tasks[task as usize - 1].priority
    }

    pub fn is_waiting(&self, task: u32) -> bool {
        matches!(self.tasks[task as usize - 1].state, State::Waiting { .. })
    }

    /// The index of the slot whose live semaphore has this identifier.
    pub fn find(&self, id: u32) -> Option<usize> {
        let (generation, number) = (id / 65536, (id % 65536) as usize);
        let index = number.checked_sub(1)?;
        let slot = self.slots.get(index)?;
        (slot.live.is_some() && slot.generation == generation).then_some(index)
    }

    /// The live semaphore with this identifier.
    pub fn semaphore(&self, id: u32) -> Option<&Semaphore> {
        self.slots[self.find(id)?].live.as_ref()
    }

    fn live(&mut self, id: u32) -> Result<(usize, &mut Semaphore), u32> {
        let index = self.find(id).ok_or(INVALID_ID)?;
        let semaphore = self.slots[index].live.as_mut().ok_or(INVALID_ID)?;
        Ok((index, semaphore))
    }

    /// The checks of a caller that may be an interrupt.
    fn check_caller(&self, caller: u32) -> Result<(), u32> {
        if caller as usize > self.tasks.len() {
            return Err(INVALID_ID);
        }
        if caller != 0 && self.is_waiting(caller) {
            return Err(INCORRECT_STATE);
        }
        Ok(())
    }

    /// The checks of a caller that has to be a task.
    fn check_task_caller(&self, caller: u32) -> Result<(), u32> {
        if caller == 0 {
            return Err(CALLED_FROM_ISR);
        }
        self.check_caller(caller)
    }

    fn start(&mut self, slots: u32, priorities: &[u32]) -> Served {
        if !self.tasks.is_empty() {
            return Err(INCORRECT_STATE);
        }
        let counts_fit =
            (1..=MOST_TASKS).contains(&priorities.len()) && (1..=MOST_SLOTS as u32).contains(&slots);
        if !counts_fit {
            return Err(INVALID_NUMBER);
        }
        if priorities.iter().any(|priority| !(MOST_URGENT..=LEAST_URGENT).contains(priority)) {
            return Err(INVALID_PRIORITY);
        }
        let ready = State::Ready { answer: SUCCESSFUL };
        self.tasks = priorities.iter().map(|&priority| Task { priority, state: ready }).collect();
        self.slots = vec![Slot::default(); slots as usize];
        self.ready = (1..=priorities.len() as u32).collect();
        DONE
    }

    fn create(&mut self, caller: u32, name: u32, count: u32, attributes: u32, maximum: u32) -> Served {
        self.check_task_caller(caller)?;
        if name == 0 {
            return Err(INVALID_NAME);
        }
        let (class, order, protocol) = split_attributes(attributes).ok_or(NOT_DEFINED)?;
        if !class.allows(maximum) || count > maximum {
            return Err(INVALID_NUMBER);
        }
        let usable = |slot: &Slot| slot.live.is_none() && slot.generation < LAST_GENERATION;
        let index = self.slots.iter().position(usable).ok_or(TOO_MANY)?;
        let held = class == Class::Binary && count == 0;
        let (owner, nest) = if held { (caller, 1) } else { (0, 0) };
        let slot = &mut self.slots[index];
        slot.generation += 1;
        let queue = Vec::new();
        slot.live = Some(Semaphore { name, class, order, protocol, count, owner, nest, maximum, queue });
        Ok(Outcome::Done(identifier(slot.generation, index)))
    }

    fn ident(&self, name: u32) -> Served {
        // A live semaphore's name is never 0, but the paper names that refusal by itself.
        if name == 0 {
            return Err(INVALID_NAME);
        }
        let index = self.first_named(name).ok_or(INVALID_NAME)?;
        Ok(Outcome::Done(identifier(self.slots[index].generation, index)))
    }

    /// How many slots an ident looks at: the number of its match's slot, or S if none matches; 0 for name 0.
    pub fn looked(&self, name: u32) -> u32 {
        if name == 0 {
            return 0;
        }
        self.first_named(name).map_or(self.slots.len(), |index| index + 1) as u32
    }

    fn first_named(&self, name: u32) -> Option<usize> {
        let named = |slot: &Slot| slot.live.as_ref().is_some_and(|live| live.name == name);
        self.slots.iter().position(named)
    }

    fn delete(&mut self, caller: u32, id: u32) -> Served {
        self.check_task_caller(caller)?;
        let woken = self.in_turn(id);
        let (index, semaphore) = self.live(id)?;
        if semaphore.owner != 0 {
            return Err(RESOURCE_IN_USE);
        }
        self.slots[index].live = None;
        self.wake_all(&woken, OBJECT_WAS_DELETED);
        DONE
    }

    fn obtain(&mut self, caller: u32, id: u32, options: u32, timeout: u32) -> Served {
        self.check_task_caller(caller)?;
        let (_, semaphore) = self.live(id)?;
        let binary = semaphore.class == Class::Binary;
        if semaphore.count > 0 {
            semaphore.count -= 1;
            if binary {
                (semaphore.owner, semaphore.nest) = (caller, 1);
            }
            return DONE;
        }
        if binary && semaphore.owner == caller {
            semaphore.nest = semaphore.nest.checked_add(1).ok_or(UNSATISFIED)?;
            return DONE;
        }
        if options & NO_WAIT != 0 {
            return Err(UNSATISFIED);
        }
        semaphore.queue.push(caller);
        self.tasks[caller as usize - 1].state = State::Waiting { id, ticks: ticks_of(timeout) };
        self.ready.retain(|&task| task != caller);
        Ok(Outcome::Waits)
    }

    fn release(&mut self, caller: u32, id: u32) -> Served {
        self.check_caller(caller)?;
        let first = self.in_turn(id).first().copied();
        let (_, semaphore) = self.live(id)?;
        let binary = semaphore.class == Class::Binary;
        // Owner 0 is nobody, so an interrupt never matches it.
        if binary && (caller == 0 || semaphore.owner != caller) {
            return Err(NOT_OWNER_OF_RESOURCE);
        }
        if binary && semaphore.nest > 1 {
            semaphore.nest -= 1;
            return DONE;
        }
        let Some(first) = first else {
            if semaphore.count == semaphore.maximum {
                return Err(UNSATISFIED);
            }
            semaphore.count += 1;
            (semaphore.owner, semaphore.nest) = (0, 0);
            return DONE;
        };
        semaphore.queue.retain(|&queued| queued != first);
        if binary {
            (semaphore.owner, semaphore.nest) = (first, 1);
        }
        self.wake_all(&[first], SUCCESSFUL);
        DONE
    }

    fn flush(&mut self, caller: u32, id: u32) -> Served {
        self.check_caller(caller)?;
        let woken = self.in_turn(id);
        self.live(id)?.1.queue.clear();
        self.wake_all(&woken, UNSATISFIED);
        DONE
    }

    fn tick(&mut self) -> Served {
        for number in 1..=self.tasks.len() as u32 {
            let State::Waiting { id, ticks } = self.tasks[number as usize - 1].state else { continue };
            match ticks {
                0 => {}
                1 => {
                    self.live(id)?.1.queue.retain(|&queued| queued != number);
                    self.wake_all(&[number], TIMEOUT);
                }
                _ => self.tasks[number as usize - 1].state = State::Waiting { id, ticks: ticks - 1 },
            }
        }
        DONE
    }

    fn task(&self, task: u32) -> Served {
        if task == 0 || task as usize > self.tasks.len() {
            return Err(INVALID_ID);
        }
        Ok(Outcome::Done(match self.tasks[task as usize - 1].state {
            State::Ready { answer } => answer,
            State::Waiting { .. } => WAITING,
        }))
    }

    /// Ends the waits of these tasks; they join the end of the ready ones in this order.
    fn wake_all(&mut self, woken: &[u32], answer: u32) {
        for &task in woken {
            self.tasks[task as usize - 1].state = State::Ready { answer };
        }
        self.ready.extend(woken);
    }
}
