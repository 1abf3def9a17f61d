//! Random runs as text, weighted so that what matters really occurs.

use crate::call::Call;
use crate::fuzz::generate::{draw_long_timeout, draw_ticks, Plan};
use crate::fuzz::rng::Rng;
use crate::model::{identifier, Machine, Semaphore};
use crate::sections::runner::{open_sections, Running};
use crate::sections::spoil::{break_text, spoil};
use crate::sections::write::{cell_lines, event_line, input_lines, local_lines, script_lines};
use crate::sections::*;
use crate::session::lines::line_of;
use crate::status::{greatest_maximum, FOREVER, STANDARD};

/// Lines of the first part that are skipped there, whatever they would be later.
const SKIPPED: [&str; 8] =
    ["", "tick tock", "create 1", "cell 65537", "section 65537 0 0", "end", "load 0 0", "run "];

/// Weights of the events: turns, ticks, obtain, release, flush, delete, create, ident, start, any call.
const WEIGHTS: [[u32; 10]; 4] = [
    [70, 6, 6, 6, 2, 2, 3, 1, 1, 3],
    [50, 8, 12, 12, 4, 4, 4, 1, 1, 4],
    [45, 30, 8, 6, 3, 2, 2, 1, 1, 2],
    [50, 4, 8, 8, 4, 12, 12, 1, 0, 1],
];

/// How often in a hundred a section's wait with the standard limit or for ever is followed by about as many ticks as that limit has.
const BURSTS: usize = 8;

/// The text of a random run; the same seed gives the same text.
pub fn random_run(seed: u64) -> Vec<u8> {
    let mut rng = Rng::new(seed);
    let (mut session, machine) = draw_session(&mut rng);
    let mut input = Input { machine, ..Input::default() };
    draw_cells(&mut rng, &mut input);
    draw_scripts(&mut rng, &mut input);
    input.events = draw_events(&mut rng, &input);
    for chance in [30, 6] {
        if rng.chance(chance) {
            spoil(&mut rng, &mut input);
        }
    }
    session.extend(draw_order(&mut rng, &input));
    let mut lines: Vec<Vec<u8>> = session.into_iter().map(String::into_bytes).collect();
    if rng.chance(12) {
        break_text(&mut rng, &mut lines);
    }
    let mut text = lines.join(&b'\n');
    if !text.is_empty() && rng.chance(50) {
        text.push(b'\n');
    }
    text
}

/// Cells, locals and scripts may stand in any order.
fn draw_order(rng: &mut Rng, input: &Input) -> Vec<String> {
    if rng.chance(80) {
        return input_lines(input);
    }
    let mut blocks: Vec<Vec<String>> = input.scripts.iter().map(script_lines).collect();
    let cells = cell_lines(input);
    let (first, second) = cells.split_at(rng.below(cells.len() + 1));
    blocks.insert(rng.below(blocks.len() + 1), second.to_vec());
    blocks.insert(rng.below(blocks.len() + 1), local_lines(&input.data));
    blocks.insert(0, first.to_vec());
    blocks.push(vec!["run".into()]);
    blocks.push(input.events.iter().map(event_line).collect());
    blocks.concat()
}

/// The session's lines and the machine that they leave.
fn draw_session(rng: &mut Rng) -> (Vec<String>, Machine) {
    let (mut lines, mut machine) = (Vec::new(), Machine::default());
    for call in draw_setup(rng) {
        lines.extend(line_of(&call));
        machine.call(&call);
    }
    if rng.chance(10) {
        let plan = Plan::draw(rng);
        for _ in 0..1 + rng.below(6) {
            let call = plan.draw_call(rng, &machine);
            lines.extend(line_of(&call));
            machine.call(&call);
        }
    }
    while rng.chance(8) {
        lines.insert(rng.below(lines.len() + 1), rng.pick(&SKIPPED).into());
    }
    (lines, machine)
}

/// A start, semaphores for sections, and sometimes others and a task that waits.
fn draw_setup(rng: &mut Rng) -> Vec<Call> {
    if rng.chance(2) {
        return Vec::new();
    }
    let tasks = rng.pick(&[1, 2, 2, 3, 3, 4, 4, 5, 6, 32]);
    let guarded = rng.pick(&[1, 1, 1, 2, 2, 3]);
    let (other, waits) = (rng.chance(40), rng.chance(25));
    let slots = guarded + u32::from(other) + u32::from(waits) + rng.below(3) as u32;
    let spread = rng.pick(&[1, 3, 255]);
    let priorities = (0..tasks).map(|_| rng.between(1, spread)).collect();
    let mut calls = vec![Call::Start { slots, priorities }];
    for name in 1..=guarded {
        if rng.chance(15) {
            let id = identifier(1, name as usize - 1);
            calls.extend([Call::create(1, 9, 1, 0), Call::Delete { caller: 1, id }]);
        }
        calls.push(Call::create(rng.between(1, tasks), name, 1, rng.pick(&[16, 20, 84, 84])));
    }
    if other {
        let kinds = [(0, 16), (0, 20), (1, 32), (0, 36), (2, 0), (1, 4), (0, 84), (0, 84)];
        let (count, attributes) = rng.pick(&kinds);
        calls.push(Call::create(tasks, 4, count, attributes));
    }
    if waits {
        let id = identifier(1, (guarded + u32::from(other)) as usize);
        calls.push(Call::create(1, 5, 0, rng.pick(&[0, 4, 32])));
        let timeout = rng.pick(&[FOREVER, STANDARD, 2, 5]);
        calls.push(Call::Obtain { caller: tasks, id, options: 0, timeout });
    }
    calls
}

/// The identifiers that a section may have.
pub fn usable_ids(machine: &Machine) -> Vec<u32> {
    let fits = |live: &Semaphore| GUARDS.contains(&live.attributes()) && live.owner == 0;
    let slots = machine.slots.iter().enumerate();
    let usable = slots.filter(|(_, slot)| slot.live.as_ref().is_some_and(fits));
    usable.map(|(index, slot)| identifier(slot.generation, index)).collect()
}

pub fn ready_tasks(machine: &Machine) -> Vec<u32> {
    (1..=machine.tasks.len() as u32).filter(|&task| !machine.is_waiting(task)).collect()
}

pub fn draw_number(rng: &mut Rng) -> u32 {
    let any = rng.word();
    rng.pick(&[0, 1, 1, 2, 7, 10, 100, u32::MAX, u32::MAX - 1, 1 << 31, any])
}

fn draw_cells(rng: &mut Rng, input: &mut Input) {
    let ids = usable_ids(&input.machine);
    let full = rng.chance(8) && !ids.is_empty();
    let count = if full { MOST_CELLS } else { rng.below(ids.len() * 3 + 1) };
    for _ in 0..count {
        let any = rng.word();
        let id = if rng.chance(5) { rng.pick(&[0, 65536, any]) } else { rng.pick(&ids) };
        input.ids.push(id);
        input.data.cells.push(draw_number(rng));
    }
    while rng.chance(50) {
        let task = rng.below(input.machine.tasks.len().max(1)).max(rng.pick(&[0, 0, 0, 31]));
        input.data.locals[task][rng.below(LOCALS)] = draw_number(rng);
    }
}

fn draw_scripts(rng: &mut Rng, input: &mut Input) {
    let mut ready = ready_tasks(&input.machine);
    let most = rng.pick(&[1, 2, 2, 3, 3, 4, 5, 32]).min(ready.len());
    let count = if rng.chance(2) { 0 } else { most };
    let sections = if count > 6 { rng.pick(&[1, 2]) } else { rng.pick(&[1, 1, 2, 2, 3, 4, 8]) };
    let ids = usable_ids(&input.machine);
    for _ in 0..count {
        let task = ready.swap_remove(rng.below(ready.len()));
        let fewer = rng.below(sections + 1);
        let count = if ids.is_empty() { 0 } else { rng.pick(&[sections, sections, fewer]) };
        let sections = (0..count).map(|_| draw_section(rng, input, &ids)).collect();
        input.scripts.push(Script { task, sections });
    }
}

fn draw_section(rng: &mut Rng, input: &Input, ids: &[u32]) -> Section {
    // The first is drawn more often, so that sections meet.
    let id = if rng.chance(50) { ids[0] } else { rng.pick(ids) };
    let count = if rng.chance(3) { MOST_STEPS } else { rng.pick(&[0, 1, 2, 2, 3, 4]) };
    let steps = (0..count).map(|_| draw_step(rng, input, id)).collect();
    let options = rng.pick(&[0, 0, 0, 0, 2, u32::MAX - 1, 1, 3]);
    let long = draw_long_timeout(rng);
    Section { id, options, timeout: rng.pick(&[1, 1, 2, 3, long, long, long]), steps }
}

/// A step that a section of this identifier may take.
pub fn draw_step(rng: &mut Rng, input: &Input, id: u32) -> Step {
    let is_own = |cell: &u32| input.ids[*cell as usize] == id;
    let cells: Vec<u32> = (0..input.ids.len() as u32).filter(is_own).collect();
    let few = rng.pick(&[2, 3, LOCALS]);
    let (local, other) = (rng.below(few) as u32, rng.below(few) as u32);
    if cells.is_empty() || rng.chance(35) {
        let number = draw_number(rng);
        return if rng.chance(40) { Step::Set { local, number } } else { Step::Add { local, other } };
    }
    let cell = rng.pick(&cells);
    if rng.chance(50) {
        Step::Load { cell, local }
    } else {
        Step::Store { local, cell }
    }
}

fn draw_events(rng: &mut Rng, input: &Input) -> Vec<Event> {
    let (plan, weights) = (Plan::draw(rng), rng.pick(&WEIGHTS));
    let mut running = Running::new(input);
    let mut events = Vec::new();
    let mut add = |running: &mut Running, event: Event| {
        let made = running.event(&event);
        events.push(event);
        made
    };
    for _ in 0..rng.pick(&[0, 2, 10, 20, 20, 40, 40, 60]) {
        let event = draw_event(rng, &plan, &weights, input, &running);
        let turn = matches!(event, Event::Turn(_));
        let made = add(&mut running, event).filter(|_| turn);
        let Some((call, answer)) = made else { continue };
        for _ in 0..draw_ticks(rng, &call, answer, BURSTS) {
            add(&mut running, Event::Call(Call::Tick));
        }
    }
    // Half of the runs close what is open, and some finish what can be finished.
    let (drain, finish) = (rng.chance(50), rng.chance(30));
    for _ in 0..150 {
        let open = open_sections(&input.scripts, &running.places);
        let active = active_scripts(input, &running);
        match open.first() {
            Some(grant) if drain => add(&mut running, Event::Turn(grant.task)),
            _ if finish && !active.is_empty() => {
                let index = active[rng.below(active.len().min(3))];
                add(&mut running, Event::Turn(input.scripts[index].task))
            }
            _ => break,
        };
    }
    events
}

fn draw_event(
    rng: &mut Rng,
    plan: &Plan,
    weights: &[u32; 10],
    input: &Input,
    running: &Running,
) -> Event {
    let kind = rng.weighted(weights);
    let turns = !active_scripts(input, running).is_empty() || rng.chance(20);
    if kind == 0 && turns && !input.scripts.is_empty() {
        return Event::Turn(draw_turn(rng, input, running));
    }
    let machine = &running.machine;
    let caller = draw_other(rng, input, machine);
    let id = draw_section_id(rng, input);
    let owner = machine.find(id).and_then(|index| machine.slots[index].live.as_ref());
    let owner = owner.map_or(0, |live| live.owner);
    Event::Call(match kind {
        1 => Call::Tick,
        2 => {
            let timeout = rng.pick(&[1, 1, 2, 2, 3, 3, STANDARD, FOREVER]);
            let caller = if owner != 0 && rng.chance(30) { owner } else { caller };
            Call::Obtain { caller, id, options: rng.pick(&[0, 0, 0, 1]), timeout }
        }
        3 => Call::Release { caller: if rng.chance(80) { owner } else { caller }, id },
        4 => Call::Flush { caller: rng.pick(&[0, caller]), id },
        5 => Call::Delete { caller, id },
        6 => {
            let kinds = [(2, 0), (1, 16), (1, 20), (0, 16), (1, 32), (2, 4), (1, 84), (0, 84), (1, 80)];
            let (count, attributes) = rng.pick(&kinds);
            let greatest = greatest_maximum(attributes);
            let maximum = rng.pick(&[greatest, greatest, greatest, 0, 1, 2, 12]);
            Call::Create { caller, name: rng.between(0, 4), count, attributes, maximum }
        }
        7 => Call::Ident { name: rng.between(0, 5) },
        8 => Call::Start { slots: rng.between(0, 3), priorities: vec![1; rng.below(4)] },
        _ => plan.draw_call(rng, machine),
    })
    .replace_caller(input, caller)
}

impl Event {
    /// A call that a script task would make goes to someone else, and `task` is no event.
    fn replace_caller(mut self, input: &Input, other: u32) -> Self {
        let scripted = |task: u32| input.scripts.iter().any(|script| script.task == task);
        if let Event::Call(
            Call::Create { caller, .. }
            | Call::Delete { caller, .. }
            | Call::Obtain { caller, .. }
            | Call::Release { caller, .. }
            | Call::Flush { caller, .. },
        ) = &mut self
        {
            if scripted(*caller) {
                *caller = other;
            }
        }
        match self {
            Event::Call(Call::Task { .. }) => Event::Call(Call::Tick),
            event => event,
        }
    }
}

/// The scripts whose turn does something.
fn active_scripts(input: &Input, running: &Running) -> Vec<usize> {
    let acts = |index: &usize| {
        let script = &input.scripts[*index];
        running.places[*index].section < script.sections.len()
            && !running.machine.is_waiting(script.task)
    };
    (0..input.scripts.len()).filter(acts).collect()
}

/// A script's task, mostly one whose turn does something.
fn draw_turn(rng: &mut Rng, input: &Input, running: &Running) -> u32 {
    let active = active_scripts(input, running);
    // The first of them go ahead, so that they meet inside their sections.
    match active.is_empty() || rng.chance(10) {
        true => input.scripts[rng.below(input.scripts.len())].task,
        false => input.scripts[active[rng.below(active.len().min(4))]].task,
    }
}

/// Someone who has no script: mostly a ready task, if there is one.
pub fn draw_other(rng: &mut Rng, input: &Input, machine: &Machine) -> u32 {
    let tasks = machine.tasks.len() as u32;
    let scripted = |task: u32| input.scripts.iter().any(|script| script.task == task);
    let all: Vec<u32> = (1..=tasks).filter(|&task| !scripted(task)).collect();
    let ready: Vec<u32> = all.iter().copied().filter(|&task| !machine.is_waiting(task)).collect();
    match rng.below(100) {
        0..88 if !ready.is_empty() => rng.pick(&ready),
        88..94 if !all.is_empty() => rng.pick(&all),
        94..97 => rng.pick(&[tasks + 1, u32::MAX]),
        _ => 0,
    }
}

/// A section's identifier, sometimes with another generation.
fn draw_section_id(rng: &mut Rng, input: &Input) -> u32 {
    let ids: Vec<u32> = input.scripts.iter().flat_map(|script| &script.sections).map(|s| s.id).collect();
    match ids.is_empty() {
        true => rng.pick(&[0, 65537, 65538]),
        false => rng.pick(&ids).wrapping_add(rng.pick(&[0, 0, 0, 0, 0, 0, 0, 65536])),
    }
}
