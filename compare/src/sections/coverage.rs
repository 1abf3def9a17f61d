//! What has occurred in random runs, and what has to.

mod inheritance;

use std::collections::BTreeMap;

use crate::fuzz::coverage::{next_passes_a_lower_equal, Waits};
use crate::model::State;
use crate::sections::read::{self, Fault};
use crate::sections::refusals::REFUSALS;
use crate::sections::runner::{open_sections, Running};
use crate::sections::*;
use crate::status::*;

/// Everything that random runs have to have shown, besides refusals and faults of the file.
const HAPPENINGS: [&str; 65] = [
    "11 before 4",
    "an event of no kind behind all others",
    "33 scripts or more",
    "scripts on a machine not started",
    "no script",
    "no event",
    "turn: obtain granted",
    "turn: obtain waits",
    "turn: obtain waits by timeout 0",
    "turn: obtain waits by timeout 4294967295",
    "turn: load",
    "turn: store",
    "turn: set",
    "turn: add",
    "turn: add that wraps",
    "turn: local 7",
    "turn: release",
    "turn: release of a section without steps",
    "turn of a waiting task",
    "turn of a finished task",
    "turn of a script without sections",
    "call: start done",
    "call: start refused",
    "call: create done",
    "call: create refused",
    "call: create refused with 10",
    "call: ident done",
    "call: ident refused",
    "call: delete done",
    "call: delete refused",
    "call: obtain done",
    "call: obtain waits",
    "call: obtain refused",
    "call: obtain nested",
    "call: release done",
    "call: release refused",
    "call: flush done",
    "call: flush refused",
    "call: tick done",
    "call by an interrupt",
    "call by a waiting task",
    "call of a caller above N",
    "call: delete of a section's semaphore",
    "call: release of an open section's semaphore refused with 23",
    "call: delete of an open section's semaphore refused with 12",
    "create in a slot that a section's identifier named",
    "skip: obtain refused with 4",
    "skip: obtain refused with 4, its slot used again",
    "skip: obtain refused with 13",
    "skip: obtain refused with 13, timeout 0",
    "skip: obtain refused with 13, timeout 4294967295",
    "skip: wait ended with 6",
    "skip: wait by timeout 0 ended at the 500th tick",
    "skip: wait ended with 13 by a flush",
    "skip: two at one event",
    "grant at a release by another script task",
    "grant at a release by someone else",
    "granted run that ends with none open",
    "run that ends with a section open",
    "run that ends with two sections open",
    "granted run of 32 scripts",
    "granted run with two sections of one identifier in a script",
    "granted run at 8 sections, 16 steps and 64 cells",
    "run that finishes all its scripts",
    "run that ends with a next task that is not the lowest of its equals",
];

/// The faults of a file, by their reasons.
const FAULTS: [&str; 7] = [
    read::NO_LINE,
    read::LOCAL_OUT_OF_RANGE,
    read::END_WITHOUT_SECTION,
    read::STEP_WITHOUT_SECTION,
    read::SECTION_WITHOUT_SCRIPT,
    read::SCRIPT_IN_SECTION,
    read::RUN_IN_SECTION,
];

#[derive(Default)]
pub struct Coverage {
    seen: BTreeMap<String, u64>,
    /// The waits of one run.
    waits: Waits,
}

impl Coverage {
    fn happened(&mut self, name: &str, it_did: bool) {
        if it_did {
            match self.seen.get_mut(name) {
                Some(count) => *count += 1,
                None => drop(self.seen.insert(name.into(), 1)),
            }
        }
    }

    /// Counts a file that is no run.
    pub fn faulty(&mut self, fault: &Fault) {
        self.happened(&fault_name(fault.reason), true);
    }

    /// Counts what is handed in, refused or not.
    pub fn handed(&mut self, input: &Input) {
        self.happened("33 scripts or more", input.scripts.len() > MOST_TASKS);
        let unstarted = input.machine.tasks.is_empty();
        self.happened("scripts on a machine not started", unstarted && !input.scripts.is_empty());
        self.happened("no script", input.scripts.is_empty());
        self.happened("no event", input.events.is_empty());
        self.waits = Waits::default();
    }

    /// Counts a refusal that nothing else would have given.
    pub fn refused(&mut self, input: &Input, status: u32) {
        let applies = |refusal: &&refusals::Refusal| (refusal.applies)(input);
        let applying: Vec<_> = REFUSALS.iter().filter(applies).collect();
        if let [only] = applying[..] {
            self.happened(&refusal_name(only.status, only.name), true);
        }
        let both = applying.iter().any(|refusal| refusal.status != status);
        self.happened("11 before 4", both);
        let (last, others) = match input.events.split_last() {
            Some((last, others)) => (last, others),
            None => return,
        };
        let behind = *last == Event::Unknown && !others.is_empty() && !others.contains(&Event::Unknown);
        self.happened("an event of no kind behind all others", behind);
    }

    /// Counts what one event did.
    pub fn event(
        &mut self,
        input: &Input,
        event: &Event,
        made: Option<&(Call, Answer)>,
        before: &Running,
        after: &Running,
    ) {
        match (event, made) {
            (Event::Turn(_), Some((call, answer))) => self.turn_call(call, answer.status, before),
            (Event::Turn(task), None) => self.turn(input, *task, before),
            (_, Some((call, answer))) => self.call(input, call, answer, before, after),
            _ => {}
        }
        self.waits_ended(input, event, before, after);
        self.saw_inheritance(input, before, after);
        let Some((call, answer)) = made else { return };
        let ended = self.waits.saw(call, *answer, &after.machine);
        let scripted = |task: u32| input.scripts.iter().any(|script| script.task == task);
        let ran_out = ended.iter().any(|(task, wait)| scripted(*task) && wait.is_standard_at_end());
        self.happened("skip: wait by timeout 0 ended at the 500th tick", ran_out);
    }

    fn turn_call(&mut self, call: &Call, status: u32, before: &Running) {
        let Call::Obtain { id, timeout, .. } = *call else {
            return self.happened("turn: release", true);
        };
        self.happened("turn: obtain granted", status == SUCCESSFUL);
        self.happened("turn: obtain waits", status == WAITING);
        if let STANDARD | FOREVER = timeout {
            self.happened(&format!("turn: obtain waits by timeout {timeout}"), status == WAITING);
            let name = format!("skip: obtain refused with 13, timeout {timeout}");
            self.happened(&name, status == UNSATISFIED);
        }
        self.happened("skip: obtain refused with 4", status == INVALID_ID);
        let index = (id % 65536) as usize - 1;
        let reused = status == INVALID_ID && before.machine.slots[index].live.is_some();
        self.happened("skip: obtain refused with 4, its slot used again", reused);
        self.happened("skip: obtain refused with 13", status == UNSATISFIED);
    }

    /// A turn without a call: a step, or nothing.
    fn turn(&mut self, input: &Input, task: u32, before: &Running) {
        let Some(index) = input.scripts.iter().position(|script| script.task == task) else { return };
        let (sections, place) = (&input.scripts[index].sections, before.places[index]);
        let Some(section) = sections.get(place.section) else {
            self.happened("turn of a script without sections", sections.is_empty());
            return self.happened("turn of a finished task", !sections.is_empty());
        };
        if place.position == 0 {
            return self.happened("turn of a waiting task", true);
        }
        let locals = &before.data.locals[task as usize - 1];
        let name = match section.steps[place.position - 1] {
            Step::Load { local, .. } => {
                self.happened("turn: local 7", local == 7);
                "turn: load"
            }
            Step::Store { .. } => "turn: store",
            Step::Set { .. } => "turn: set",
            Step::Add { local, other } => {
                let sum = locals[local as usize].checked_add(locals[other as usize]);
                self.happened("turn: add that wraps", sum.is_none());
                "turn: add"
            }
            Step::Unknown => return,
        };
        self.happened(name, true);
    }

    fn call(&mut self, input: &Input, call: &Call, answer: &Answer, before: &Running, after: &Running) {
        let name = crate::call::KINDS[call.kind()];
        let ending = match answer.status {
            SUCCESSFUL => "done",
            WAITING => "waits",
            _ => "refused",
        };
        self.happened(&format!("call: {name} {ending}"), true);
        let caller = Event::Call(call.clone()).caller();
        self.happened("call by an interrupt", caller == Some(0));
        self.happened("call by a waiting task", answer.status == INCORRECT_STATE && name != "start");
        let above = caller.is_some_and(|caller| caller as usize > before.machine.tasks.len());
        self.happened("call of a caller above N", above);
        self.call_of(input, call, answer, before, after);
    }

    /// Counts what a call did to a semaphore that sections have to do with.
    fn call_of(
        &mut self,
        input: &Input,
        call: &Call,
        answer: &Answer,
        before: &Running,
        after: &Running,
    ) {
        let guarded = |test: &dyn Fn(u32) -> bool| {
            input.scripts.iter().flat_map(|script| &script.sections).any(|section| test(section.id))
        };
        let done = answer.status == SUCCESSFUL;
        match *call {
            Call::Obtain { id, .. } => {
                let nest = |running: &Running| {
                    let index = running.machine.find(id)?;
                    Some(running.machine.slots[index].live.as_ref()?.nest)
                };
                self.happened(
                    "call: obtain nested",
                    done && nest(before) > Some(0) && nest(after) > Some(1),
                );
            }
            Call::Delete { id, .. } => {
                let name = "call: delete of a section's semaphore";
                self.happened(name, done && guarded(&|other| other == id));
                let name = "call: delete of an open section's semaphore refused with 12";
                self.happened(name, answer.status == RESOURCE_IN_USE && is_open(input, before, id));
            }
            Call::Release { id, .. } => {
                let name = "call: release of an open section's semaphore refused with 23";
                self.happened(
                    name,
                    answer.status == NOT_OWNER_OF_RESOURCE && is_open(input, before, id),
                );
            }
            Call::Create { .. } => {
                self.happened("call: create refused with 10", answer.status == INVALID_NUMBER);
                let reuses = |other: u32| done && other % 65536 == answer.value % 65536;
                self.happened("create in a slot that a section's identifier named", guarded(&reuses));
            }
            _ => {}
        }
    }

    fn waits_ended(&mut self, input: &Input, event: &Event, before: &Running, after: &Running) {
        let mut skipped = 0;
        for task in input.scripts.iter().map(|script| script.task) {
            let State::Ready { answer } = after.machine.tasks[task as usize - 1].state else { continue };
            if !before.machine.is_waiting(task) {
                continue;
            }
            let granted = answer == SUCCESSFUL;
            let by_turn = matches!(event, Event::Turn(_));
            self.happened("grant at a release by another script task", granted && by_turn);
            self.happened("grant at a release by someone else", granted && !by_turn);
            self.happened("skip: wait ended with 6", answer == TIMEOUT);
            self.happened("skip: wait ended with 13 by a flush", answer == UNSATISFIED);
            skipped += usize::from(!granted);
        }
        self.happened("skip: two at one event", skipped >= 2);
    }

    /// Counts how a run that was not refused ended.
    pub fn ended(&mut self, input: &Input, running: &Running) {
        let open = open_sections(&input.scripts, &running.places).len();
        let granted = !running.grants.is_empty();
        self.happened("granted run that ends with none open", granted && open == 0);
        self.happened("run that ends with a section open", open == 1);
        self.happened("run that ends with two sections open", open >= 2);
        self.happened("granted run of 32 scripts", granted && input.scripts.len() == MOST_TASKS);
        let twice = |script: &Script| {
            let ids: Vec<u32> = script.sections.iter().map(|section| section.id).collect();
            (1..ids.len()).any(|at| ids[..at].contains(&ids[at]))
        };
        let name = "granted run with two sections of one identifier in a script";
        self.happened(name, granted && input.scripts.iter().any(twice));
        let sections = || input.scripts.iter().flat_map(|script| &script.sections);
        let full = input.ids.len() == MOST_CELLS
            && input.scripts.iter().any(|script| script.sections.len() == MOST_SECTIONS)
            && sections().any(|section| section.steps.len() == MOST_STEPS);
        self.happened("granted run at 8 sections, 16 steps and 64 cells", granted && full);
        let empty = |grant: &Grant| {
            let script = input.scripts.iter().find(|script| script.task == grant.task);
            script.is_some_and(|script| script.sections[grant.section].steps.is_empty())
        };
        let name = "turn: release of a section without steps";
        self.happened(name, open == 0 && running.grants.iter().any(empty));
        let finished = |(script, place): (&Script, &Place)| place.section == script.sections.len();
        let all = input.scripts.iter().zip(&running.places).all(finished);
        self.happened("run that finishes all its scripts", granted && all);
        let name = "run that ends with a next task that is not the lowest of its equals";
        self.happened(name, granted && next_passes_a_lower_equal(&running.machine));
    }

    fn wanted() -> impl Iterator<Item = String> {
        let happenings = HAPPENINGS.into_iter().chain(inheritance::wanted()).map(str::to_string);
        // A file's tables come from calls and always agree, so 25 cannot be had by text.
        let by_text = REFUSALS.iter().filter(|refusal| refusal.status != INTERNAL_ERROR);
        let refusals = by_text.map(|refusal| refusal_name(refusal.status, refusal.name));
        happenings.chain(refusals).chain(FAULTS.iter().map(|reason| fault_name(reason)))
    }

    /// What should have occurred and did not.
    pub fn gaps(&self) -> Vec<String> {
        let missing = Self::wanted().filter(|name| !self.seen.contains_key(name));
        missing.map(|name| format!("never seen: {name}")).collect()
    }

    /// A line for each happening with how often it occurred.
    pub fn table(&self) -> String {
        self.seen.iter().map(|(name, count)| format!("  {count:>10} {name}\n")).collect()
    }
}

fn refusal_name(status: u32, name: &str) -> String {
    format!("{status} for {name} alone")
}

fn fault_name(reason: &str) -> String {
    format!("fault: {reason}")
}

/// Whether a section of this identifier is open.
fn is_open(input: &Input, running: &Running, id: u32) -> bool {
    open_sections(&input.scripts, &running.places).iter().any(|grant| {
        let script = input.scripts.iter().find(|script| script.task == grant.task);
        script.is_some_and(|script| script.sections[grant.section].id == id)
    })
}
