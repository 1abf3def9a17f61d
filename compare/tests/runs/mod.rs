//! Runs of calls on any manager with their history, from any tables.
#![allow(dead_code)]

use compare::call::{Answer, Call, Manager};
use compare::fuzz::generate::Plan;
use compare::fuzz::rng::Rng;
use compare::history::seen::Seen;
use compare::history::{Broken, Checked, Fact, History};
use compare::layout::{self, slot_at, word, COUNT, LENGTH};
use compare::model::Machine;
use compare::status::FOREVER;

pub struct Run<Subject> {
    subject: Subject,
    pub tables: Vec<u8>,
    pub history: History,
    pub seen: Seen,
}

impl<Subject: Manager> Run<Subject> {
    /// Begins with these tables.
    pub fn on(subject: Subject, tables: Vec<u8>) -> Self {
        let history = History::begin(&tables);
        Run { subject, tables, history, seen: Seen::default() }
    }

    /// Begins with a start of so many tasks of one priority, and a create for each slot: count and attributes.
    pub fn started(subject: Subject, tasks: usize, slots: &[[u32; 2]]) -> Self {
        let mut run = Run::on(subject, vec![0; LENGTH]);
        run.done(Call::Start { slots: slots.len() as u32, priorities: vec![5; tasks] }, 0);
        for &[count, attributes] in slots {
            run.done(Call::create(1, 9, count, attributes), 0);
        }
        run
    }

    pub fn call(&mut self, call: &Call) -> (Answer, Checked) {
        let answer = self.subject.call(&mut self.tables, call);
        (answer, self.history.saw(call, answer, &self.tables, &mut self.seen))
    }

    /// A call with this status, after which the facts hold.
    pub fn done(&mut self, call: Call, status: u32) {
        let (answer, checked) = self.call(&call);
        assert_eq!((answer.status, checked), (status, Ok(())), "{call:?}");
    }

    /// An obtain by a task that would wait for ever.
    pub fn obtain(&mut self, caller: u32, id: u32, status: u32) {
        self.obtain_for(caller, id, FOREVER, status);
    }

    pub fn obtain_for(&mut self, caller: u32, id: u32, timeout: u32, status: u32) {
        self.done(Call::Obtain { caller, id, options: 0, timeout }, status);
    }

    /// A release by an interrupt.
    pub fn release(&mut self, id: u32, status: u32) {
        self.done(Call::Release { caller: 0, id }, status);
    }

    /// The tasks that wait for the semaphore, as the history has it, each with those ahead when it joined.
    pub fn waiters(&self, id: u32) -> Vec<(u32, u64)> {
        let account = self.history.accounts().of(id).expect("the semaphore is live");
        account.waiters().iter().map(|waiter| (waiter.task, waiter.ahead)).collect()
    }

    /// Count, grants, initial count and releases.
    pub fn account(&self, id: u32) -> [u64; 4] {
        let account = self.history.accounts().of(id).expect("the semaphore is live");
        let count = word(&self.tables, slot_at((id % 65536) as usize - 1) + COUNT);
        [u64::from(count), account.grants, u64::from(account.initial), account.releases]
    }
}

/// Random calls on the subject alone, until one of these facts does not hold.
pub fn random_run(subject: impl Manager, seed: u64, facts: &[Fact]) -> Result<(), Broken> {
    let mut rng = Rng::new(seed);
    let plan = Plan::granting(&mut rng);
    let mut run = Run::on(subject, vec![0; LENGTH]);
    let mut machine = Machine::default();
    let mut opening = plan.opening(&mut rng).into_iter();
    for _ in 0..plan.steps {
        let call = opening.next().unwrap_or_else(|| plan.draw_call(&mut rng, &machine));
        match run.call(&call).1 {
            Err(broken) if facts.contains(&broken.fact) => return Err(broken),
            _ => {}
        }
        // A wrong subject may leave tables that do not agree; the next call is then drawn for those before.
        machine = layout::read(&run.tables).unwrap_or(machine);
    }
    Ok(())
}
