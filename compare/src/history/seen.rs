//! What has occurred in histories, and what has to.

use std::collections::BTreeMap;

use crate::call::Call;
use crate::history::accounts::{Account, Accounts, Waiter};
use crate::history::Event;
use crate::model::{Class, Order};
use crate::status::*;

type Names<const COUNT: usize> = [&'static str; COUNT];

// By class and order, as `Account::kind` has them.
const BY_OBTAIN: Names<4> = [
    "account: granted by an obtain, counting, FIFO",
    "account: granted by an obtain, counting, PRIORITY",
    "account: granted by an obtain, simple binary, FIFO",
    "account: granted by an obtain, simple binary, PRIORITY",
];
const BY_RELEASE: Names<4> = [
    "account: granted by a release, counting, FIFO",
    "account: granted by a release, counting, PRIORITY",
    "account: granted by a release, simple binary, FIFO",
    "account: granted by a release, simple binary, PRIORITY",
];
const RAISED: Names<4> = [
    "account: release raised the count, counting, FIFO",
    "account: release raised the count, counting, PRIORITY",
    "account: release raised the count, simple binary, FIFO",
    "account: release raised the count, simple binary, PRIORITY",
];
const REFUSED: Names<4> = [
    "account: release refused with 13 is not counted, counting, FIFO",
    "account: release refused with 13 is not counted, counting, PRIORITY",
    "account: release refused with 13 is not counted, simple binary, FIFO",
    "account: release refused with 13 is not counted, simple binary, PRIORITY",
];
const LONG: Names<4> = [
    "account: the 50th grant, counting, FIFO",
    "account: the 50th grant, counting, PRIORITY",
    "account: the 50th grant, simple binary, FIFO",
    "account: the 50th grant, simple binary, PRIORITY",
];

const OTHERS: Names<3> = [
    "account: deleted with grants in it",
    "account: begun anew in a slot whose last one had grants",
    "account: both sides above 4294967295",
];

/// How waits in FIFO queues end, by the tasks ahead when they joined.
const TURNS: Names<7> = [
    "turn: granted at its last release, 1 or more ahead, counting",
    "turn: granted at its last release, 1 or more ahead, simple binary",
    "turn: granted at its last release, 3 or more ahead",
    "turn: granted at an earlier release, a tick having ended a wait ahead",
    "turn: a tick ended the wait first, 1 or more ahead",
    "turn: a flush ended the wait first, 1 or more ahead",
    "turn: a delete ended the wait first, 1 or more ahead",
];

/// The same of waiters that were there when the history began.
const FOUND: Names<6> = [
    "turn: found waiting, granted at its last release, 1 or more ahead",
    "turn: found waiting, granted at its last release, 3 or more ahead",
    "turn: found waiting, granted at an earlier release, a tick having ended a wait ahead",
    "turn: found waiting, a tick ended the wait first, 1 or more ahead",
    "turn: found waiting, a flush ended the wait first, 1 or more ahead",
    "turn: found waiting, a delete ended the wait first, 1 or more ahead",
];

/// The grants after which an account counts as long.
const MANY_GRANTS: u64 = 50;

/// What has to have happened even where histories begin with a load and are short.
fn after_loads() -> impl Iterator<Item = &'static str> {
    let counted = BY_OBTAIN.into_iter().chain(BY_RELEASE).chain(RAISED).chain(REFUSED);
    counted.chain(TURNS).chain(FOUND)
}

/// How often each thing happened.
#[derive(Default)]
pub struct Seen(BTreeMap<&'static str, u64>);

impl Seen {
    fn happened(&mut self, name: &'static str, it_did: bool) {
        if it_did {
            *self.0.entry(name).or_default() += 1;
        }
    }

    /// What random sequences have to have met and did not.
    pub fn gaps(&self) -> Vec<String> {
        self.missing(after_loads().chain(LONG).chain(OTHERS))
    }

    /// The same of histories that begin with a load and are short.
    pub fn gaps_after_loads(&self) -> Vec<String> {
        self.missing(after_loads())
    }

    fn missing(&self, wanted: impl Iterator<Item = &'static str>) -> Vec<String> {
        let missing = wanted.filter(|name| !self.0.contains_key(name));
        missing.map(|name| format!("never seen: {name}")).collect()
    }

    /// A line for each thing that happened.
    pub fn table(&self) -> String {
        self.0.iter().map(|(name, count)| format!("  {count:>10} {name}\n")).collect()
    }

    /// Counts an event, given the accounts before it.
    pub fn saw(&mut self, accounts: &Accounts, event: &Event) {
        match (&event.call, event.answer.status) {
            (&Call::Create { attributes, .. }, SUCCESSFUL) => {
                let begins = attributes & BINARY == 0;
                self.happened(OTHERS[1], begins && accounts.had_grants_before(event.answer.value));
            }
            (Call::Delete { id, .. }, SUCCESSFUL) => {
                self.happened(OTHERS[0], accounts.of(*id).is_some_and(|account| account.grants > 0));
            }
            (Call::Obtain { id, .. }, SUCCESSFUL) => {
                if let Some(account) = accounts.of(*id) {
                    self.happened(BY_OBTAIN[account.kind()], true);
                    self.granted(account);
                }
            }
            (Call::Release { id, .. }, status) => {
                if let Some(account) = accounts.of(*id) {
                    self.released(account, status, !event.ended.is_empty());
                }
            }
            _ => {}
        }
        for &(task, answer) in &event.ended {
            if let Some((id, account, waiter)) = accounts.awaited_by(task) {
                self.ended(event, id, account, waiter, answer);
            }
        }
    }

    fn granted(&mut self, account: &Account) {
        self.happened(LONG[account.kind()], account.grants + 1 == MANY_GRANTS);
    }

    fn released(&mut self, account: &Account, status: u32, woke: bool) {
        let done = status == SUCCESSFUL;
        self.happened(RAISED[account.kind()], done && !woke);
        self.happened(REFUSED[account.kind()], status == UNSATISFIED);
        let side = u64::from(account.initial) + account.releases + 1;
        self.happened(OTHERS[2], done && side > u64::from(u32::MAX));
    }

    /// Counts a wait that ended, given the account and the waiter before.
    fn ended(&mut self, event: &Event, id: u32, account: &Account, waiter: &Waiter, answer: u32) {
        if answer == SUCCESSFUL {
            self.happened(BY_RELEASE[account.kind()], true);
            self.granted(account);
        }
        if account.order == Order::Priority {
            return;
        }
        let this = matches!(event.call, Call::Release { id: released, .. } if released == id);
        let releases = account.releases_since(waiter) + u64::from(this);
        let (ahead, granted) = (waiter.ahead, answer == SUCCESSFUL);
        let (last, earlier) = (granted && releases == ahead + 1, granted && releases <= ahead);
        let counting = account.class == Class::Counting;
        self.happened(TURNS[0], last && ahead >= 1 && counting);
        self.happened(TURNS[1], last && ahead >= 1 && !counting);
        self.happened(TURNS[2], last && ahead >= 3);
        self.happened(FOUND[0], waiter.found && last && ahead >= 1);
        self.happened(FOUND[1], waiter.found && last && ahead >= 3);
        self.happened(TURNS[3], earlier && waiter.timed_out > 0);
        self.happened(FOUND[2], waiter.found && earlier && waiter.timed_out > 0);
        for (place, ending) in [TIMEOUT, UNSATISFIED, OBJECT_WAS_DELETED].into_iter().enumerate() {
            let first = answer == ending && ahead >= 1;
            self.happened(TURNS[4 + place], first);
            self.happened(FOUND[3 + place], first && waiter.found);
        }
    }
}
