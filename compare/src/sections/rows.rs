//! Scripts, events, places and grants as numbers laid end to end, as a C function takes them.

use crate::sections::*;

/// Numbers of a row of the scripts: a kind and what it takes, 0 behind that.
pub const ROW: usize = 4;

// Kinds of rows of the scripts.
pub const SCRIPT: u32 = 1;
pub const SECTION: u32 = 2;
pub const LOAD: u32 = 3;
pub const STORE: u32 = 4;
pub const SET: u32 = 5;
pub const ADD: u32 = 6;

// Kinds of events.
pub const TURN: u32 = 1;
pub const START: u32 = 2;
pub const CREATE: u32 = 3;
pub const IDENT: u32 = 4;
pub const DELETE: u32 = 5;
pub const OBTAIN: u32 = 6;
pub const RELEASE: u32 = 7;
pub const FLUSH: u32 = 8;
pub const TICK: u32 = 9;

/// A row or an event of this kind is none.
const NO_KIND: u32 = 0;

pub fn step_row(step: Step) -> [u32; ROW] {
    match step {
        Step::Load { cell, local } => [LOAD, cell, local, 0],
        Step::Store { local, cell } => [STORE, local, cell, 0],
        Step::Set { local, number } => [SET, local, number, 0],
        Step::Add { local, other } => [ADD, local, other, 0],
        Step::Unknown => [NO_KIND; ROW],
    }
}

/// The rows of the scripts, a section's steps behind it, a script's sections behind it.
pub fn script_rows(scripts: &[Script]) -> Vec<u32> {
    let mut rows = Vec::new();
    for script in scripts {
        rows.extend([SCRIPT, script.task, 0, 0]);
        for Section { id, options, timeout, steps } in &script.sections {
            rows.extend([SECTION, *id, *options, *timeout]);
            rows.extend(steps.iter().flat_map(|&step| step_row(step)));
        }
    }
    rows
}

/// The scripts that rows say, or nothing if a row is cut short or stands outside of what it belongs to.
pub fn scripts_of(rows: &[u32]) -> Option<Vec<Script>> {
    let mut scripts: Vec<Script> = Vec::new();
    let mut chunks = rows.chunks_exact(ROW);
    for row in &mut chunks {
        if row[0] == SCRIPT {
            scripts.push(Script { task: row[1], sections: Vec::new() });
            continue;
        }
        let sections = &mut scripts.last_mut()?.sections;
        if row[0] == SECTION {
            sections.push(Section { id: row[1], options: row[2], timeout: row[3], steps: Vec::new() });
            continue;
        }
        sections.last_mut()?.steps.push(step_of(row));
    }
    chunks.remainder().is_empty().then_some(scripts)
}

fn step_of(row: &[u32]) -> Step {
    match row[0] {
        LOAD => Step::Load { cell: row[1], local: row[2] },
        STORE => Step::Store { local: row[1], cell: row[2] },
        SET => Step::Set { local: row[1], number: row[2] },
        ADD => Step::Add { local: row[1], other: row[2] },
        _ => Step::Unknown,
    }
}

pub fn event_numbers(events: &[Event]) -> Vec<u32> {
    let mut numbers = Vec::new();
    for event in events {
        match *event {
            Event::Turn(task) => numbers.extend([TURN, task]),
            Event::Call(ref call) => call_numbers(call, &mut numbers),
            Event::Unknown => numbers.push(NO_KIND),
        }
    }
    numbers
}

fn call_numbers(call: &Call, numbers: &mut Vec<u32>) {
    match *call {
        Call::Start { slots, ref priorities } => {
            numbers.extend([START, slots, priorities.len() as u32]);
            numbers.extend(priorities);
        }
        Call::Create { caller, name, count, attributes, maximum } => {
            numbers.extend([CREATE, caller, name, count, attributes, maximum]);
        }
        Call::Ident { name } => numbers.extend([IDENT, name]),
        Call::Delete { caller, id } => numbers.extend([DELETE, caller, id]),
        Call::Obtain { caller, id, options, timeout } => {
            numbers.extend([OBTAIN, caller, id, options, timeout]);
        }
        Call::Release { caller, id } => numbers.extend([RELEASE, caller, id]),
        Call::Flush { caller, id } => numbers.extend([FLUSH, caller, id]),
        Call::Tick => numbers.push(TICK),
        Call::Task { .. } => numbers.push(NO_KIND),
    }
}

/// The events that numbers say; one of no kind, or cut short, ends them.
pub fn events_of(mut numbers: &[u32]) -> Vec<Event> {
    let mut events = Vec::new();
    while !numbers.is_empty() {
        let Some((event, rest)) = event_of(numbers) else {
            events.push(Event::Unknown);
            break;
        };
        events.push(event);
        numbers = rest;
    }
    events
}

/// The first event, and the numbers behind it.
fn event_of(numbers: &[u32]) -> Option<(Event, &[u32])> {
    let (&kind, rest) = numbers.split_first()?;
    let count = match kind {
        TICK => 0,
        TURN | IDENT => 1,
        DELETE | RELEASE | FLUSH => 2,
        OBTAIN => 4,
        CREATE => 5,
        START => 2 + *rest.get(1)? as usize,
        _ => return None,
    };
    let (taken, rest) = rest.split_at_checked(count)?;
    let call = match (kind, taken) {
        (TURN, &[task]) => return Some((Event::Turn(task), rest)),
        (START, &[slots, _, ref priorities @ ..]) => {
            Call::Start { slots, priorities: priorities.to_vec() }
        }
        (CREATE, &[caller, name, count, attributes, maximum]) => {
            Call::Create { caller, name, count, attributes, maximum }
        }
        (IDENT, &[name]) => Call::Ident { name },
        (DELETE, &[caller, id]) => Call::Delete { caller, id },
        (OBTAIN, &[caller, id, options, timeout]) => Call::Obtain { caller, id, options, timeout },
        (RELEASE, &[caller, id]) => Call::Release { caller, id },
        (FLUSH, &[caller, id]) => Call::Flush { caller, id },
        _ => Call::Tick,
    };
    Some((Event::Call(call), rest))
}

/// Section and position of each script, in their order.
pub fn place_numbers(places: &[Place]) -> Vec<u32> {
    places.iter().flat_map(|place| [place.section as u32, place.position as u32]).collect()
}

/// How many grants there are, then task and section of each.
pub fn grant_numbers(grants: &[Grant]) -> Vec<u32> {
    let pairs = grants.iter().flat_map(|grant| [grant.task, grant.section as u32]);
    std::iter::once(grants.len() as u32).chain(pairs).collect()
}

/// The locals of all 32 tasks, eight by eight.
pub fn local_numbers(locals: &Locals) -> Vec<u32> {
    locals.concat()
}
