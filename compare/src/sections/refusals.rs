//! What a run is refused for, each kind a test of its own over the whole input.

use crate::call::Call;
use crate::model::Semaphore;
use crate::sections::*;
use crate::status::*;

/// A status and the test that gives it.
pub struct Refusal {
    pub status: u32,
    pub name: &'static str,
    pub applies: fn(&Input) -> bool,
}

const fn refusal(status: u32, name: &'static str, applies: fn(&Input) -> bool) -> Refusal {
    Refusal { status, name, applies }
}

/// Every refusal, in the order 25, 11, 4; the first that applies decides.
pub const REFUSALS: [Refusal; 17] = [
    refusal(INTERNAL_ERROR, "tables that do not agree", tables_disagree),
    refusal(NOT_DEFINED, "more than 8 sections", too_many_sections),
    refusal(NOT_DEFINED, "more than 16 steps", too_many_steps),
    refusal(NOT_DEFINED, "more than 64 cells", too_many_cells),
    refusal(NOT_DEFINED, "a local outside 0 to 7", local_out_of_range),
    refusal(NOT_DEFINED, "two scripts for one task", two_scripts_for_one_task),
    refusal(NOT_DEFINED, "a missing cell", missing_cell),
    refusal(NOT_DEFINED, "a cell of another identifier", cell_of_another_identifier),
    refusal(NOT_DEFINED, "a step of no kind", step_of_no_kind),
    refusal(NOT_DEFINED, "an event of no kind", event_of_no_kind),
    refusal(NOT_DEFINED, "a section's semaphore not live", semaphore_not_live),
    refusal(NOT_DEFINED, "a section's semaphore not binary", semaphore_not_binary),
    refusal(NOT_DEFINED, "a section's semaphore owned", semaphore_owned),
    refusal(INVALID_ID, "a script of no task", script_of_no_task),
    refusal(INVALID_ID, "a script of a waiting task", script_of_waiting_task),
    refusal(INVALID_ID, "a turn without a script", turn_without_script),
    refusal(INVALID_ID, "a script task as caller", script_task_calls),
];

/// The first refusal that applies.
pub fn first_refusal(input: &Input) -> Option<&'static Refusal> {
    REFUSALS.iter().find(|refusal| (refusal.applies)(input))
}

fn sections(input: &Input) -> impl Iterator<Item = &Section> {
    input.scripts.iter().flat_map(|script| &script.sections)
}

fn any_step(input: &Input, test: impl Fn(&Section, Step) -> bool) -> bool {
    sections(input).any(|section| section.steps.iter().any(|&step| test(section, step)))
}

/// The cell that a step names.
fn cell_of(step: Step) -> Option<usize> {
    match step {
        Step::Load { cell, .. } | Step::Store { cell, .. } => Some(cell as usize),
        _ => None,
    }
}

fn tables_disagree(input: &Input) -> bool {
    !input.machine.agrees()
}

fn too_many_sections(input: &Input) -> bool {
    input.scripts.iter().any(|script| script.sections.len() > MOST_SECTIONS)
}

fn too_many_steps(input: &Input) -> bool {
    sections(input).any(|section| section.steps.len() > MOST_STEPS)
}

fn too_many_cells(input: &Input) -> bool {
    input.ids.len() > MOST_CELLS
}

fn local_out_of_range(input: &Input) -> bool {
    let outside = |local: u32| local as usize >= LOCALS;
    any_step(input, |_, step| match step {
        Step::Load { local, .. } | Step::Store { local, .. } | Step::Set { local, .. } => outside(local),
        Step::Add { local, other } => outside(local) || outside(other),
        Step::Unknown => false,
    })
}

fn two_scripts_for_one_task(input: &Input) -> bool {
    let task_before = |(index, script): (usize, &Script)| {
        input.scripts[..index].iter().any(|other| other.task == script.task)
    };
    input.scripts.iter().enumerate().any(task_before)
}

fn missing_cell(input: &Input) -> bool {
    any_step(input, |_, step| cell_of(step).is_some_and(|cell| cell >= input.ids.len()))
}

fn cell_of_another_identifier(input: &Input) -> bool {
    any_step(input, |section, step| {
        let owner = cell_of(step).and_then(|cell| input.ids.get(cell));
        owner.is_some_and(|&id| id != section.id)
    })
}

fn step_of_no_kind(input: &Input) -> bool {
    any_step(input, |_, step| step == Step::Unknown)
}

// How a task learns its answer is no event.
fn event_of_no_kind(input: &Input) -> bool {
    input.events.iter().any(|event| matches!(event, Event::Unknown | Event::Call(Call::Task { .. })))
}

fn semaphore_not_live(input: &Input) -> bool {
    sections(input).any(|section| input.machine.semaphore(section.id).is_none())
}

fn semaphore_not_binary(input: &Input) -> bool {
    let other = |live: &Semaphore| !GUARDS.contains(&live.attributes());
    sections(input).any(|section| input.machine.semaphore(section.id).is_some_and(other))
}

fn semaphore_owned(input: &Input) -> bool {
    sections(input)
        .any(|section| input.machine.semaphore(section.id).is_some_and(|live| live.owner != 0))
}

fn script_of_no_task(input: &Input) -> bool {
    let tasks = 1..=input.machine.tasks.len() as u32;
    input.scripts.iter().any(|script| !tasks.contains(&script.task))
}

fn script_of_waiting_task(input: &Input) -> bool {
    let tasks = 1..=input.machine.tasks.len() as u32;
    let waits = |task: u32| tasks.contains(&task) && input.machine.is_waiting(task);
    input.scripts.iter().any(|script| waits(script.task))
}

fn has_script(input: &Input, task: u32) -> bool {
    input.scripts.iter().any(|script| script.task == task)
}

fn turn_without_script(input: &Input) -> bool {
    let turn_of_other = |event: &Event| matches!(*event, Event::Turn(task) if !has_script(input, task));
    input.events.iter().any(turn_of_other)
}

fn script_task_calls(input: &Input) -> bool {
    input.events.iter().filter_map(Event::caller).any(|caller| has_script(input, caller))
}
