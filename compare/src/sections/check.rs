//! What the paper says of any run, tested event by event on this project's own runner.

use std::collections::BTreeMap;

use crate::model::{Machine, State};
use crate::sections::coverage::Coverage;
use crate::sections::plain::plain_run;
use crate::sections::refusals::first_refusal;
use crate::sections::runner::{open_sections, Running};
use crate::sections::*;
use crate::status::SUCCESSFUL;

/// Grants as the calls' answers make them, without regard to places.
#[derive(Default)]
struct History {
    /// How many obtains each script task has made.
    obtains: BTreeMap<u32, usize>,
    grants: Vec<Grant>,
}

/// Tests a run's outcome, and counts what occurred in it.
pub fn check(input: &Input, outcome: &Outcome, coverage: &mut Coverage) -> Result<(), String> {
    coverage.handed(input);
    if let Some(refusal) = first_refusal(input) {
        coverage.refused(input, refusal.status);
        return check_refused(input, outcome, refusal.status);
    }
    let (mut running, mut history) = (Running::new(input), History::default());
    for (number, event) in input.events.iter().enumerate() {
        let before = running.clone();
        let made = running.event(event);
        history.saw(input, event, made.as_ref(), &before.machine, &running.machine);
        coverage.event(input, event, made.as_ref(), &before, &running);
        if running.grants.len() > before.grants.len() + 1 {
            return Err(format!("event {number} granted more than one section"));
        }
        check_open(input, &running).map_err(|fault| format!("after event {number}, {fault}"))?;
    }
    if history.grants != running.grants {
        return Err(format!("the answers grant {:?}", history.grants));
    }
    coverage.ended(input, &running);
    check_end(input, outcome, &running)
}

fn check_refused(input: &Input, outcome: &Outcome, status: u32) -> Result<(), String> {
    let stayed = outcome.machine == input.machine && outcome.data == input.data;
    let at_start = outcome.places.iter().all(|&place| place == Place::default());
    let answered = outcome.answer == Answer::new(status, 0, input.machine.next_task());
    match stayed && at_start && answered && outcome.grants.is_empty() {
        true => Ok(()),
        false => Err(format!("the refused run gives {outcome:?}")),
    }
}

/// Open sections have different identifiers, and each task owns its own with nest 1.
fn check_open(input: &Input, running: &Running) -> Result<(), String> {
    let mut ids = Vec::new();
    for grant in open_sections(&input.scripts, &running.places) {
        let script = input.scripts.iter().find(|script| script.task == grant.task);
        let id = script.map_or(0, |script| script.sections[grant.section].id);
        if ids.contains(&id) {
            return Err(format!("two sections of {id} are open"));
        }
        ids.push(id);
        let found =
            running.machine.find(id).and_then(|index| running.machine.slots[index].live.as_ref());
        if !found.is_some_and(|live| live.owner == grant.task && live.nest == 1) {
            return Err(format!("section {grant} is open without its semaphore"));
        }
    }
    Ok(())
}

fn check_end(input: &Input, outcome: &Outcome, running: &Running) -> Result<(), String> {
    let answer = Answer::new(SUCCESSFUL, 0, running.machine.next_task());
    let Running { machine, data, places, grants, .. } = running;
    let same = outcome.answer == answer
        && (&outcome.machine, &outcome.data) == (machine, data)
        && (&outcome.places, &outcome.grants) == (places, grants);
    if !same {
        return Err("the run is not what its events give one by one".into());
    }
    if !machine.agrees() {
        return Err("the tables do not agree".into());
    }
    let plain = plain_run(&input.scripts, input.data.clone(), grants);
    match outcome.open(&input.scripts).is_empty() && plain != *data {
        true => Err(format!("the plain run gives {plain:?}")),
        false => Ok(()),
    }
}

impl History {
    fn saw(
        &mut self,
        input: &Input,
        event: &Event,
        made: Option<&(Call, Answer)>,
        before: &Machine,
        after: &Machine,
    ) {
        let Some((call, answer)) = made else { return };
        if let (Event::Turn(task), Call::Obtain { .. }) = (event, call) {
            let count = self.obtains.entry(*task).or_default();
            *count += 1;
            if answer.status == SUCCESSFUL {
                self.grants.push(Grant { task: *task, section: *count - 1 });
            }
        }
        if !matches!(call, Call::Release { .. }) {
            return;
        }
        for task in input.scripts.iter().map(|script| script.task) {
            let is = after.tasks[task as usize - 1].state;
            if before.is_waiting(task) && is == (State::Ready { answer: SUCCESSFUL }) {
                self.grants.push(Grant { task, section: self.obtains[&task] - 1 });
            }
        }
    }
}
