//! What the events say of each live semaphore: its grants, its releases, and who waits. No table is read here.

use std::collections::{BTreeMap, BTreeSet};
use std::fmt;

use crate::call::Call;
use crate::history::Event;
use crate::model::{split_attributes, Class, Order};
use crate::status::*;

/// A task that waits, and what it met when it joined.
#[derive(Clone, Copy, Debug, PartialEq, Eq)]
pub struct Waiter {
    pub task: u32,
    /// The tasks that waited before it.
    pub ahead: u64,
    /// Of those, the ones whose waits a tick has ended since.
    pub timed_out: u64,
    /// Whether it waited already when the history began.
    pub found: bool,
    /// The releases that the account had.
    releases: u64,
}

/// The account of a counting or a simple binary semaphore.
#[derive(Clone, Debug, PartialEq, Eq)]
pub struct Account {
    pub class: Class,
    pub order: Order,
    /// The count at the create, or the one found.
    pub initial: u32,
    /// Obtains that answered 0, and waits that ended with 0.
    pub grants: u64,
    /// Releases that answered 0.
    pub releases: u64,
    /// In the order in which they joined.
    waiters: Vec<Waiter>,
}

/// The classes that have accounts, each in both orders.
const KINDS: [&str; 4] =
    ["counting, FIFO", "counting, PRIORITY", "simple binary, FIFO", "simple binary, PRIORITY"];

impl Account {
    /// The place of class and order in `KINDS`.
    pub fn kind(&self) -> usize {
        let class = usize::from(self.class == Class::SimpleBinary);
        2 * class + usize::from(self.order == Order::Priority)
    }

    /// Count and grants are the initial count and the releases.
    pub fn balances(&self, count: u32) -> bool {
        u64::from(count) + self.grants == u64::from(self.initial) + self.releases
    }

    pub fn waiters(&self) -> &[Waiter] {
        &self.waiters
    }

    /// The releases after this task joined.
    pub fn releases_since(&self, waiter: &Waiter) -> u64 {
        self.releases - waiter.releases
    }

    fn join(&mut self, task: u32, ahead: u64, found: bool) {
        self.waiters.push(Waiter { task, ahead, timed_out: 0, found, releases: self.releases });
    }

    /// Takes a task out of those that wait.
    fn leave(&mut self, task: u32, by_tick: bool) {
        let Some(place) = self.waiters.iter().position(|waiter| waiter.task == task) else { return };
        self.waiters.remove(place);
        if by_tick {
            self.waiters[place..].iter_mut().for_each(|behind| behind.timed_out += 1);
        }
    }
}

impl fmt::Display for Account {
    fn fmt(&self, out: &mut fmt::Formatter) -> fmt::Result {
        let Account { initial, grants, releases, .. } = self;
        let kind = KINDS[self.kind()];
        write!(out, "{kind}, initial count {initial}, {releases} releases, {grants} grants")
    }
}

/// The accounts of the live semaphores, by their identifiers.
#[derive(Clone, Debug, Default)]
pub struct Accounts {
    live: BTreeMap<u32, Account>,
    /// The identifier that each waiting task's obtain named, or the one found.
    awaited: BTreeMap<u32, u32>,
    /// Slots where the account closed last had grants.
    closed: BTreeSet<u32>,
}

impl Accounts {
    /// The account of this identifier.
    pub fn of(&self, id: u32) -> Option<&Account> {
        self.live.get(&id)
    }

    pub fn live(&self) -> impl Iterator<Item = (u32, &Account)> {
        self.live.iter().map(|(&id, account)| (id, account))
    }

    /// What this task waits on, with the account and its place there.
    pub fn awaited_by(&self, task: u32) -> Option<(u32, &Account, &Waiter)> {
        let id = *self.awaited.get(&task)?;
        let account = self.live.get(&id)?;
        let waiter = account.waiters.iter().find(|waiter| waiter.task == task)?;
        Some((id, account, waiter))
    }

    /// Whether the account closed last in the slot of this identifier had grants.
    pub fn had_grants_before(&self, id: u32) -> bool {
        self.closed.contains(&(id % 65536))
    }

    /// Opens an account, unless the class is binary with an owner.
    pub fn open(&mut self, id: u32, attributes: u32, initial: u32) {
        let Some((class, order, _)) = split_attributes(attributes) else { return };
        if class != Class::Binary {
            let waiters = Vec::new();
            self.live.insert(id, Account { class, order, initial, grants: 0, releases: 0, waiters });
        }
    }

    /// A task that waits when the history begins; those before it in the queue come first.
    pub fn found(&mut self, task: u32, id: u32, place: u64) {
        self.awaited.insert(task, id);
        if let Some(account) = self.live.get_mut(&id) {
            account.join(task, place, true);
        }
    }

    /// Takes in what happened next.
    pub fn take(&mut self, event: &Event) {
        match (&event.call, event.answer.status) {
            (Call::Start { .. }, SUCCESSFUL) => *self = Accounts::default(),
            (&Call::Create { count, attributes, .. }, SUCCESSFUL) => {
                self.open(event.answer.value, attributes, count);
            }
            (&Call::Obtain { id, .. }, SUCCESSFUL) => self.granted(id),
            (&Call::Obtain { caller, id, .. }, WAITING) => self.joined(caller, id),
            (&Call::Release { id, .. }, SUCCESSFUL) => {
                if let Some(account) = self.live.get_mut(&id) {
                    account.releases += 1;
                }
            }
            _ => {}
        }
        let by_tick = event.call == Call::Tick;
        event.ended.iter().for_each(|&(task, answer)| self.ended(task, answer, by_tick));
        if let (&Call::Delete { id, .. }, SUCCESSFUL) = (&event.call, event.answer.status) {
            self.close(id);
        }
    }

    fn granted(&mut self, id: u32) {
        if let Some(account) = self.live.get_mut(&id) {
            account.grants += 1;
        }
    }

    fn joined(&mut self, task: u32, id: u32) {
        self.awaited.insert(task, id);
        if let Some(account) = self.live.get_mut(&id) {
            account.join(task, account.waiters.len() as u64, false);
        }
    }

    fn ended(&mut self, task: u32, answer: u32, by_tick: bool) {
        let Some(id) = self.awaited.remove(&task) else { return };
        if let Some(account) = self.live.get_mut(&id) {
            account.leave(task, by_tick);
        }
        if answer == SUCCESSFUL {
            self.granted(id);
        }
    }

    fn close(&mut self, id: u32) {
        let slot = id % 65536;
        match self.live.remove(&id) {
            Some(account) if account.grants > 0 => self.closed.insert(slot),
            _ => self.closed.remove(&slot),
        };
    }
}
