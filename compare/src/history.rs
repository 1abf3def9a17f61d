//! The history of calls and ticks, and the two facts of document 02, No. 7, that have to hold after every event: the count accounts
//! for every grant, and a FIFO queue serves its waiters in turn.

pub mod accounts;
pub mod seen;

use std::fmt;

use crate::call::{Answer, Call};
use crate::history::accounts::{Account, Accounts};
use crate::history::seen::Seen;
use crate::layout::*;
use crate::model::{identifier, Order};
use crate::status::*;

/// One call or tick with its answer, and the tasks whose waits ended at it, each with the answer that it got.
#[derive(Clone, Debug, PartialEq, Eq)]
pub struct Event {
    pub call: Call,
    pub answer: Answer,
    pub ended: Vec<(u32, u32)>,
}

#[derive(Clone, Copy, Debug, PartialEq, Eq)]
pub enum Fact {
    /// The count and the grants are the initial count and the successful releases.
    Account,
    /// A waiter with k tasks ahead is granted by the (k+1)th successful release, unless its wait has ended first.
    Turn,
    /// The tasks ahead of one that joins a FIFO queue are those that the history has waiting there.
    Place,
}

/// A fact that does not hold, and by which numbers.
#[derive(Clone, Debug, PartialEq, Eq)]
pub struct Broken {
    pub fact: Fact,
    pub said: String,
}

impl fmt::Display for Broken {
    fn fmt(&self, out: &mut fmt::Formatter) -> fmt::Result {
        write!(out, "{}", self.said)
    }
}

pub type Checked = Result<(), Broken>;

/// What is said of a semaphore and its account.
fn broken(fact: Fact, id: u32, account: &Account, said: String) -> Checked {
    Err(Broken { fact, said: format!("semaphore {id}, {account}: {said}") })
}

/// A history under way.
pub struct History {
    /// The tasks' answers in the tables that the last event left.
    answers: Vec<u32>,
    accounts: Accounts,
}

impl History {
    /// Begins with the counts and the waiters that these tables have.
    pub fn begin(tables: &[u8]) -> Self {
        let mut accounts = Accounts::default();
        for (id, at) in live_slots(tables) {
            accounts.open(id, word(tables, at + ATTRIBUTES), word(tables, at + COUNT));
        }
        let answers = answers(tables);
        let waiting = (1..).zip(&answers).filter(|(_, &answer)| answer == WAITING);
        let mut found: Vec<(u32, usize, u32)> = waiting
            .filter_map(|(task, _)| {
                let id = word(tables, task_at(task) + WAITS_ON);
                Some((id, place(tables, id, task)?, task))
            })
            .collect();
        found.sort();
        found.into_iter().for_each(|(id, place, task)| accounts.found(task, id, place as u64));
        History { answers, accounts }
    }

    /// The accounts as the events so far have them.
    pub fn accounts(&self) -> &Accounts {
        &self.accounts
    }

    /// Takes in a call, its answer and the tables that it left, counts what happened, and checks the facts.
    pub fn saw(&mut self, call: &Call, answer: Answer, tables: &[u8], seen: &mut Seen) -> Checked {
        let event = self.event(call, answer, tables);
        seen.saw(&self.accounts, &event);
        let endings = self.check_endings(&event);
        self.accounts.take(&event);
        self.check_counts(tables)?;
        endings?;
        self.check_turns()?;
        self.check_place(&event, tables)
    }

    /// The event of a call: a wait has ended if the task's answer was 100 before and is not after.
    fn event(&mut self, call: &Call, answer: Answer, tables: &[u8]) -> Event {
        let after = answers(tables);
        let both = self.answers.iter().zip(&after);
        let ended = (1..).zip(both).filter(|(_, (&was, &is))| was == WAITING && is != WAITING);
        let ended = ended.map(|(task, (_, &is))| (task, is)).collect();
        self.answers = after;
        Event { call: call.clone(), answer, ended }
    }

    /// Every counting or simple binary semaphore that is live has an account, which its count balances.
    fn check_counts(&self, tables: &[u8]) -> Checked {
        let mut live = 0;
        for (id, at) in live_slots(tables) {
            if word(tables, at + ATTRIBUTES) & BINARY != 0 {
                continue;
            }
            live += 1;
            let Some(account) = self.accounts.of(id) else {
                let said = format!("semaphore {id} is live, but the history has no create of it");
                return Err(Broken { fact: Fact::Account, said });
            };
            let count = word(tables, at + COUNT);
            if !account.balances(count) {
                return broken(Fact::Account, id, account, format!("the count is {count}"));
            }
        }
        if live != self.accounts.live().count() {
            let said = format!("{live} semaphores are live, and the history has others");
            return Err(Broken { fact: Fact::Account, said });
        }
        Ok(())
    }

    /// A wait in a FIFO queue is ended by a release of its semaphore, which grants, or by a tick, a flush or a delete, each with its
    /// answer; a call that is refused ends none.
    fn check_endings(&self, event: &Event) -> Checked {
        let done = event.answer.status == SUCCESSFUL;
        for &(task, answer) in &event.ended {
            let Some((id, account, _)) = self.accounts.awaited_by(task) else { continue };
            let ending = match event.call {
                Call::Release { id: released, .. } if released == id => Some(SUCCESSFUL),
                Call::Tick => Some(TIMEOUT),
                Call::Flush { id: flushed, .. } if flushed == id => Some(UNSATISFIED),
                Call::Delete { id: deleted, .. } if deleted == id => Some(OBJECT_WAS_DELETED),
                _ => None,
            };
            if account.order == Order::Fifo && Some(answer) != ending.filter(|_| done) {
                let said = format!("the wait of task {task} ended with {answer}");
                return broken(Fact::Turn, id, account, said);
            }
        }
        Ok(())
    }

    /// Nobody still waits in a FIFO queue after as many releases as there were tasks ahead and one more.
    fn check_turns(&self) -> Checked {
        for (id, account) in self.accounts.live().filter(|(_, account)| account.order == Order::Fifo) {
            for waiter in account.waiters() {
                let (task, ahead, since) = (waiter.task, waiter.ahead, account.releases_since(waiter));
                if since > ahead {
                    let said =
                        format!("task {task} had {ahead} ahead, still waits after {since} releases");
                    return broken(Fact::Turn, id, account, said);
                }
            }
        }
        Ok(())
    }

    /// A task that joined a FIFO queue stands where the history puts it.
    fn check_place(&self, event: &Event, tables: &[u8]) -> Checked {
        let (&Call::Obtain { caller, .. }, WAITING) = (&event.call, event.answer.status) else {
            return Ok(());
        };
        let Some((id, account, waiter)) = self.accounts.awaited_by(caller) else { return Ok(()) };
        let stands = place(tables, id, caller);
        if account.order == Order::Priority || stands == Some(waiter.ahead as usize) {
            return Ok(());
        }
        let ahead = waiter.ahead;
        let said = format!("task {caller} joined with {ahead} ahead, in the tables with {stands:?}");
        broken(Fact::Place, id, account, said)
    }
}

/// The answer of each task.
fn answers(tables: &[u8]) -> Vec<u32> {
    (1..=word(tables, TASKS)).map(|task| word(tables, task_at(task) + ANSWER)).collect()
}

/// The identifiers of the live slots, each with the first of its slot's words.
fn live_slots(tables: &[u8]) -> impl Iterator<Item = (u32, usize)> + '_ {
    let slots = (0..word(tables, SLOTS) as usize).map(|index| (index, slot_at(index)));
    slots
        .filter(|(_, at)| word(tables, at + LIVE) == 1)
        .map(|(index, at)| (identifier(word(tables, at + GENERATION), index), at))
}

/// How many tasks stand before this one in the queue of the semaphore with this identifier.
fn place(tables: &[u8], id: u32, task: u32) -> Option<usize> {
    let (_, at) = live_slots(tables).find(|(live, _)| *live == id)?;
    (0..word(tables, at + QUEUED) as usize).position(|place| word(tables, at + QUEUE + place) == task)
}
