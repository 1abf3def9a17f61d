//! Runs made wrong: one refusal of each kind, and broken texts.

use crate::call::Call;
use crate::fuzz::rng::Rng;
use crate::model::{identifier, Machine, Semaphore};
use crate::sections::draw::{draw_number, draw_other, draw_step, usable_ids};
use crate::sections::*;
use crate::session::lines::{break_line, line_of_length};
use crate::status::FOREVER;

/// Lines that are right in some part of a file and wrong in another.
const STRAY: [&str; 19] = [
    "",
    "end",
    "end",
    "run",
    "script 1",
    "script 33",
    "load 0 0",
    "add 1 1",
    "section 65537 0 0",
    "cell 65537 1",
    "local 1 0 5",
    "local 32 7 4294967295",
    "local 33 0 1",
    "local 0 0 1",
    "local 1 8 0",
    "tick",
    "turn 1",
    "start 4 10 20",
    "# a remark",
];

/// Makes a run wrong in one way, or brings it to a limit.
pub fn spoil(rng: &mut Rng, input: &mut Input) {
    let before = input.clone();
    // Not every run can be made wrong in every way, so another way may have to serve.
    for _ in 0..4 {
        spoil_once(rng, input);
        if *input != before {
            return;
        }
    }
}

fn spoil_once(rng: &mut Rng, input: &mut Input) {
    match rng.below(17) {
        0 => add_sections(rng, input),
        1 => add_steps(rng, input),
        2 => add_cells(rng, input),
        3 => put_step(rng, input, draw_local_outside),
        4 => repeat_script(rng, input),
        5 => put_step(rng, input, draw_missing_cell),
        6 => put_foreign_cell(rng, input),
        7 => put_step(rng, input, |_, _, _| Step::Unknown),
        8 => put_event(rng, input, Event::Unknown),
        9 => rename_section(rng, input, |rng, machine| {
            let (any, id) = (rng.word(), usable_ids(machine).first().map_or(0, |id| id + 65536));
            Some(rng.pick(&[0, 65536, 65537 + 63, u32::MAX, any, id]))
        }),
        10 => rename_section(rng, input, |_, machine| {
            find(machine, |live| !GUARDS.contains(&live.attributes()))
        }),
        11 => rename_section(rng, input, |_, machine| find(machine, |live| live.owner != 0)),
        12 => {
            let tasks = input.machine.tasks.len() as u32;
            let task = rng.pick(&[0, tasks + 1, 33, u32::MAX]);
            put_script(rng, input, Script { task, sections: Vec::new() });
        }
        13 => {
            let tasks = 1..=input.machine.tasks.len() as u32;
            let waiting: Vec<u32> = tasks.filter(|&task| input.machine.is_waiting(task)).collect();
            if !waiting.is_empty() {
                let task = rng.pick(&waiting);
                put_script(rng, input, Script { task, sections: Vec::new() });
            }
        }
        14 => {
            let task = draw_other(rng, input, &input.machine);
            put_event(rng, input, Event::Turn(task));
        }
        15 => fill_scripts(rng, input),
        _ => let_script_task_call(rng, input),
    }
}

/// Gives scripts to all tasks that have none, and to one that is no task.
fn fill_scripts(rng: &mut Rng, input: &mut Input) {
    for task in 1..=rng.pick(&[input.machine.tasks.len() as u32 + 1, 33, 33, 40]) {
        if input.scripts.iter().all(|script| script.task != task) {
            input.scripts.push(Script { task, sections: Vec::new() });
        }
    }
}

/// A random section, if there is one, by its script and its place there.
fn pick_section(rng: &mut Rng, input: &Input) -> Option<(usize, usize)> {
    let with: Vec<usize> =
        (0..input.scripts.len()).filter(|&index| !input.scripts[index].sections.is_empty()).collect();
    let script = *with.get(rng.below(with.len().max(1)))?;
    Some((script, rng.below(input.scripts[script].sections.len())))
}

fn find(machine: &Machine, test: impl Fn(&Semaphore) -> bool) -> Option<u32> {
    let index = machine.slots.iter().position(|slot| slot.live.as_ref().is_some_and(&test))?;
    Some(identifier(machine.slots[index].generation, index))
}

fn add_sections(rng: &mut Rng, input: &mut Input) {
    let Some((script, section)) = pick_section(rng, input) else { return };
    let sections = &mut input.scripts[script].sections;
    let copy = sections[section].clone();
    sections.resize(rng.pick(&[MOST_SECTIONS, MOST_SECTIONS + 1, MOST_SECTIONS + 2]), copy);
}

fn add_steps(rng: &mut Rng, input: &mut Input) {
    let Some((script, section)) = pick_section(rng, input) else { return };
    let step = draw_step(rng, input, input.scripts[script].sections[section].id);
    let steps = &mut input.scripts[script].sections[section].steps;
    steps.resize(rng.pick(&[MOST_STEPS, MOST_STEPS + 1, MOST_STEPS + 9]), step);
}

fn add_cells(rng: &mut Rng, input: &mut Input) {
    let count = rng.pick(&[MOST_CELLS, MOST_CELLS + 1, MOST_CELLS + 6]);
    while input.ids.len() < count {
        input.ids.push(rng.pick(&[65537, 65538, 0]));
        input.data.cells.push(draw_number(rng));
    }
}

/// Puts a step into a section, or in the place of one that is there.
fn put_step(rng: &mut Rng, input: &mut Input, draw: fn(&mut Rng, &Input, u32) -> Step) {
    let Some((script, section)) = pick_section(rng, input) else { return };
    let step = draw(rng, input, input.scripts[script].sections[section].id);
    let steps = &mut input.scripts[script].sections[section].steps;
    let at = rng.below(steps.len() + 1);
    if at < steps.len() {
        steps[at] = step;
    } else if steps.len() < MOST_STEPS {
        steps.push(step);
    }
}

fn draw_local_outside(rng: &mut Rng, input: &Input, id: u32) -> Step {
    let outside = rng.pick(&[8, 8, 9, 256, u32::MAX]);
    match draw_step(rng, input, id) {
        Step::Load { cell, .. } => Step::Load { cell, local: outside },
        Step::Store { cell, .. } => Step::Store { cell, local: outside },
        Step::Set { number, .. } => Step::Set { local: outside, number },
        Step::Add { local, .. } if rng.chance(50) => Step::Add { local, other: outside },
        Step::Add { other, .. } => Step::Add { local: outside, other },
        Step::Unknown => Step::Unknown,
    }
}

fn draw_missing_cell(rng: &mut Rng, input: &Input, _: u32) -> Step {
    let count = input.ids.len() as u32;
    let cell = rng.pick(&[count, count, count + 1, count.max(64), u32::MAX]);
    rng.pick(&[Step::Load { cell, local: 0 }, Step::Store { local: 7, cell }])
}

fn put_foreign_cell(rng: &mut Rng, input: &mut Input) {
    if input.ids.len() == MOST_CELLS {
        return;
    }
    let cell = input.ids.len() as u32;
    let ids = usable_ids(&input.machine);
    input.ids.push(if ids.len() > 1 { ids[1] } else { 0 });
    input.data.cells.push(draw_number(rng));
    let Some((script, section)) = pick_section(rng, input) else { return };
    let steps = &mut input.scripts[script].sections[section].steps;
    if steps.len() < MOST_STEPS {
        let step = rng.pick(&[Step::Load { cell, local: 0 }, Step::Store { local: 7, cell }]);
        steps.insert(rng.below(steps.len() + 1), step);
    }
}

fn repeat_script(rng: &mut Rng, input: &mut Input) {
    if input.scripts.is_empty() {
        return;
    }
    let mut copy = input.scripts[rng.below(input.scripts.len())].clone();
    if rng.chance(50) {
        copy.sections.clear();
    }
    put_script(rng, input, copy);
}

fn put_script(rng: &mut Rng, input: &mut Input, script: Script) {
    input.scripts.insert(rng.below(input.scripts.len() + 1), script);
}

/// Puts an event anywhere, half of the time behind all others.
fn put_event(rng: &mut Rng, input: &mut Input, event: Event) {
    let at = if rng.chance(50) { input.events.len() } else { rng.below(input.events.len() + 1) };
    input.events.insert(at, event);
}

/// Gives a section another identifier; without its steps mostly, since their cells would not fit either.
fn rename_section(rng: &mut Rng, input: &mut Input, draw: impl Fn(&mut Rng, &Machine) -> Option<u32>) {
    let Some((script, section)) = pick_section(rng, input) else { return };
    let Some(id) = draw(rng, &input.machine) else { return };
    let section = &mut input.scripts[script].sections[section];
    section.id = id;
    if rng.chance(80) {
        section.steps.clear();
    }
}

fn let_script_task_call(rng: &mut Rng, input: &mut Input) {
    if input.scripts.is_empty() {
        return;
    }
    let caller = input.scripts[rng.below(input.scripts.len())].task;
    let id = rng.pick(&[65537, 65538, 0]);
    let call = match rng.below(5) {
        0 => Call::create(caller, 3, 1, rng.pick(&[0, 48])),
        1 => Call::Delete { caller, id },
        2 => Call::Obtain { caller, id, options: 0, timeout: FOREVER },
        3 => Call::Release { caller, id },
        _ => Call::Flush { caller, id },
    };
    put_event(rng, input, Event::Call(call));
}

/// Breaks a text in one of many ways, a few of which leave it whole.
pub fn break_text(rng: &mut Rng, lines: &mut Vec<Vec<u8>>) {
    let at = rng.below(lines.len() + 1);
    if at == lines.len() || rng.chance(40) {
        return lines.insert(at, rng.pick(&STRAY).into());
    }
    match rng.below(8) {
        0 => drop(lines.remove(at)),
        // The sections of the first script are nobody's then, and the first section does not end.
        1 => remove_first(lines, b"script"),
        2 => remove_first(lines, b"end"),
        3 => lines[at] = lines[(at * 7) % lines.len()].clone(),
        4 => lines.truncate(at),
        5 => lines[at] = line_of_length(rng),
        _ => {
            let line = std::mem::take(&mut lines[at]);
            lines[at] = if line.is_empty() { b"\0".to_vec() } else { break_line(rng, line) };
        }
    }
}

fn remove_first(lines: &mut Vec<Vec<u8>>, word: &[u8]) {
    if let Some(index) = lines.iter().position(|line| line.starts_with(word)) {
        lines.remove(index);
    }
}
