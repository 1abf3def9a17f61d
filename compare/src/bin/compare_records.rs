//! A caller that keeps its own task records and their sequence, with the library's two functions over them,
//! beside the independent manager: it is told which waits have begun and ended, in order and how, and what each task
//! works with, and chooses the next task itself.

use std::env;
use std::process::ExitCode;

use compare::fuzz::generate::Plan;
use compare::fuzz::rng::Rng;
use compare::model::{Machine, State, Task};
use compare::status::WAITING;

const USAGE: &str = "usage: compare_records [SEED]";
const SEQUENCES: u64 = 2000;
const LISTS: u64 = 200_000;

#[repr(C)]
#[derive(Clone, Copy, Debug, PartialEq, Eq)]
struct Record {
    priority: u32,
    answer: u32,
    awaited: u32,
    ticks: u32,
}

unsafe extern "C" {
    fn mast_next_task(
        tasks: *const Record,
        count: usize,
        ready: *const u32,
        ready_count: usize,
        working: *const u32,
        working_count: usize,
    ) -> u32;
    fn mast_wake_task(task: *mut Record, answer: u32);
}

// In both each pointer is that of a slice or a reference, which nobody else holds meanwhile.

fn next_task(tasks: &[Record], ready: &[u32], working: &[u32]) -> u32 {
    let [ready_count, working_count] = [ready, working].map(<[u32]>::len);
    unsafe {
        mast_next_task(
            first(tasks),
            tasks.len(),
            first(ready),
            ready_count,
            first(working),
            working_count,
        )
    }
}

/// The number that a task goes by: the slice's where it reaches so far, else its record's; nothing of no record.
fn number_of(tasks: &[Record], working: &[u32], task: u32) -> Option<u32> {
    let index = (task as usize).checked_sub(1)?;
    let own = tasks.get(index)?.priority;
    Some(working.get(index).copied().unwrap_or(own))
}

/// What the next task has to be.
fn wanted_next(tasks: &[Record], ready: &[u32], working: &[u32]) -> u32 {
    let candidates = ready.iter().filter_map(|&task| Some((number_of(tasks, working, task)?, task)));
    // Of several least the first is taken.
    let chosen = candidates.filter(|(number, _)| *number < 256).min_by_key(|(number, _)| *number);
    chosen.map_or(0, |(_, task)| task)
}

/// C passes a null pointer for nothing, and so does this.
fn first<T>(items: &[T]) -> *const T {
    if items.is_empty() {
        std::ptr::null()
    } else {
        items.as_ptr()
    }
}

fn wake_task(task: &mut Record, answer: u32) {
    unsafe { mast_wake_task(task, answer) }
}

fn record_of(task: &Task) -> Record {
    let (answer, awaited, ticks) = match task.state {
        State::Ready { answer } => (answer, 0, 0),
        State::Waiting { id, ticks } => (WAITING, id, ticks),
    };
    Record { priority: task.priority, answer, awaited, ticks }
}

/// What a comparison has to have seen, each at least once.
const WANTED: [&str; 16] = [
    "next is not the lowest of its equals",
    "a sequence with 0 in it",
    "a sequence with a number above the count",
    "a sequence with a number twice",
    "next waits by its answer",
    "an empty slice of working priorities",
    "a slice shorter than the records",
    "a slice as long as the records",
    "a slice longer than the records",
    "next is another than by the records' priorities",
    "next lies behind a shorter slice, and another before its end has a greater number there",
    "next works with 0",
    "next works with 255",
    "a ready task that works with 256 is passed over",
    "a ready task that works with 4294967295 is passed over",
    "next is boosted in the tables of calls",
];

#[derive(Default)]
struct Seen {
    woken: u64,
    counts: [u64; WANTED.len()],
}

impl Seen {
    fn happened(&mut self, place: usize, it_did: bool) {
        self.counts[place] += u64::from(it_did);
    }

    fn add(&mut self, tasks: &[Record], ready: &[u32], working: &[u32], next: u32) {
        let number = |task: u32| number_of(tasks, working, task);
        let lower = |&task: &u32| task < next && number(task) == number(next);
        self.happened(0, next != 0 && ready.iter().any(lower));
        self.happened(1, ready.contains(&0));
        self.happened(2, ready.iter().any(|&task| task as usize > tasks.len()));
        let again = |(place, task): (usize, &u32)| ready[..place].contains(task);
        self.happened(3, ready.iter().enumerate().any(again));
        let chosen = tasks.get((next as usize).wrapping_sub(1));
        self.happened(4, chosen.is_some_and(|task| task.answer == WAITING));
        self.happened(5, working.is_empty() && !tasks.is_empty());
        self.happened(6, !working.is_empty() && working.len() < tasks.len());
        self.happened(7, !working.is_empty() && working.len() == tasks.len());
        self.happened(8, !tasks.is_empty() && working.len() > tasks.len());
        self.happened(9, next != 0 && next != wanted_next(tasks, ready, &[]));
        let behind = next as usize > working.len();
        let greater = |&task: &u32| task as usize <= working.len() && number(task) > number(next);
        self.happened(10, behind && ready.iter().any(greater));
        self.happened(11, number(next) == Some(0));
        self.happened(12, number(next) == Some(255));
        let passed_over = |wanted: u32| ready.iter().any(|&task| number(task) == Some(wanted));
        self.happened(13, passed_over(256));
        self.happened(14, passed_over(u32::MAX));
    }

    fn all(&self) -> bool {
        self.woken > 0 && self.counts.iter().all(|&count| count > 0)
    }
}

/// The caller's own sequence: who began to wait leaves it, who no longer waits joins its end.
fn follow(own: &mut Vec<u32>, machine: &Machine) {
    own.retain(|&number| !machine.is_waiting(number));
    let joined: Vec<u32> =
        machine.ready.iter().copied().filter(|number| !own.contains(number)).collect();
    own.extend(joined);
}

/// The same sequence with numbers put in that change nothing: no task's, and those of tasks that come earlier.
fn puffed(rng: &mut Rng, ready: &[u32], count: u32) -> Vec<u32> {
    let mut puffed = Vec::new();
    for place in 0..=ready.len() {
        while rng.chance(15) {
            let earlier = ready[..place].last().copied().unwrap_or(0);
            puffed.push(rng.pick(&[0, count + 1, count + 32, u32::MAX, earlier]));
        }
        puffed.extend(ready.get(place));
    }
    puffed
}

/// Working priorities of tables in slices of other lengths: what lies behind the records has no effect.
fn slices(rng: &mut Rng, working: &[u32]) -> [Vec<u32>; 4] {
    let short = working[..rng.below(working.len().max(1))].to_vec();
    let behind = (0..1 + rng.below(3)).map(|_| draw_working(rng));
    [Vec::new(), short, working.to_vec(), working.iter().copied().chain(behind).collect()]
}

/// The library's choice, by these working priorities, compared.
fn choose(tasks: &[Record], ready: &[u32], working: &[u32], seen: &mut Seen) -> Result<u32, String> {
    let (next, wanted) = (next_task(tasks, ready, working), wanted_next(tasks, ready, working));
    if next != wanted {
        return Err(format!(
            "next {next} of {tasks:?} in sequence {ready:?} with {working:?} is not {wanted}"
        ));
    }
    seen.add(tasks, ready, working, next);
    Ok(next)
}

/// One sequence of calls.
fn sequence(seed: u64, seen: &mut Seen) -> Result<(), String> {
    let mut rng = Rng::new(seed);
    let plan = if seed % 2 == 0 { Plan::draw(&mut rng) } else { Plan::chaining(&mut rng) };
    let mut machine = Machine::default();
    let mut own: Vec<Record> = Vec::new();
    let mut ready: Vec<u32> = Vec::new();
    for step in 0..plan.steps {
        let call = plan.draw_call(&mut rng, &machine);
        let answer = machine.call(&call);
        let wanted: Vec<Record> = machine.tasks.iter().map(record_of).collect();
        own.resize(wanted.len(), Record { priority: 0, answer: 0, awaited: 0, ticks: 0 });
        for (index, now) in wanted.iter().enumerate() {
            if own[index].answer == WAITING && now.answer != WAITING {
                wake_task(&mut own[index], now.answer);
                seen.woken += 1;
            } else {
                own[index] = *now;
            }
        }
        if own != wanted {
            return Err(format!("seed {seed}, step {step}, {call:?}: {own:?} is not {wanted:?}"));
        }
        follow(&mut ready, &machine);
        if ready != machine.ready {
            return Err(format!("seed {seed}, step {step}: {ready:?} is not {:?}", machine.ready));
        }
        let said = |failure: String| format!("seed {seed}, step {step}, {call:?}: {failure}");
        next_of_tables(&mut rng, &machine, &own, &ready, answer.next, seen).map_err(said)?;
    }
    Ok(())
}

/// The next task of a caller's own records and sequence, which by the machine's working priorities has to be its next task.
fn next_of_tables(
    rng: &mut Rng,
    machine: &Machine,
    own: &[Record],
    ready: &[u32],
    next: u32,
    seen: &mut Seen,
) -> Result<(), String> {
    let working = machine.working();
    for given in [ready.to_vec(), puffed(rng, ready, own.len() as u32)] {
        for slice in slices(rng, &working) {
            let chosen = choose(own, &given, &slice, seen)?;
            if slice.len() >= own.len() && chosen != next {
                return Err(format!("next {chosen} with {slice:?} is not the manager's {next}"));
            }
        }
    }
    seen.happened(15, next != 0 && working[next as usize - 1] < machine.priority(next));
    Ok(())
}

/// A number that matters: of a few, at an end, or any.
fn number(rng: &mut Rng, few: &[u32]) -> u32 {
    match rng.below(8) {
        0 => rng.word(),
        1 => rng.pick(&[0, u32::MAX]),
        _ => rng.pick(few),
    }
}

/// A working priority of any kind: the ends of what can be chosen, and what is never chosen.
fn draw_working(rng: &mut Rng) -> u32 {
    number(rng, &[0, 1, 2, 3, 254, 255, 255, 256, 256, u32::MAX])
}

/// A sequence of ready tasks of the list, some more than once, some not at all, with numbers that are no task's.
fn draw_ready(rng: &mut Rng, tasks: &[Record]) -> Vec<u32> {
    let count = tasks.len() as u32;
    // Now and then those too that wait by their answer: the sequence alone counts.
    let any = rng.chance(20);
    let named = |(number, task): (u32, &Record)| (any || task.answer != WAITING).then_some(number);
    let ready: Vec<u32> = (1..).zip(tasks).filter_map(named).collect();
    let foreign = rng.pick(&[0, 10, 50]);
    let length = rng.below(2 * ready.len() + 3);
    let draw = |rng: &mut Rng| match ready.is_empty() || rng.chance(foreign) {
        true => rng.pick(&[0, 0, count + 1, count + 1, count + 32, 1 << 31, u32::MAX]),
        false => rng.pick(&ready),
    };
    (0..length).map(|_| draw(rng)).collect()
}

/// One list of any records, of any length, with any sequence of its ready ones and any working priorities.
fn list(seed: u64, seen: &mut Seen) -> Result<(), String> {
    let mut rng = Rng::new(seed);
    let most = rng.pick(&[1, 3, 33, 200]);
    let draw = |rng: &mut Rng| Record {
        priority: number(rng, &[1, 2, 3, 254, 255, 256, 257]),
        answer: number(rng, &[0, 6, 7, 13, 99, 100, 100, 101]),
        awaited: number(rng, &[0, 65537]),
        ticks: number(rng, &[0, 1]),
    };
    let mut tasks: Vec<Record> = (0..rng.below(most)).map(|_| draw(&mut rng)).collect();
    let ready = draw_ready(&mut rng, &tasks);
    let working: Vec<u32> = (0..tasks.len()).map(|_| draw_working(&mut rng)).collect();
    for slice in slices(&mut rng, &working) {
        choose(&tasks, &ready, &slice, seen).map_err(|failure| format!("seed {seed}: {failure}"))?;
    }
    if !tasks.is_empty() {
        let index = rng.below(tasks.len());
        let answer = number(&mut rng, &[0, 6, 7, 13]);
        let mut wanted = tasks.clone();
        wanted[index] = Record { answer, awaited: 0, ticks: 0, ..wanted[index] };
        wake_task(&mut tasks[index], answer);
        if tasks != wanted {
            return Err(format!("seed {seed}, woken at {index}: {tasks:?} is not {wanted:?}"));
        }
    }
    Ok(())
}

fn run(seed: u64) -> Result<Seen, String> {
    let mut seen = Seen::default();
    for each in 0..LISTS {
        list(seed.wrapping_add(each), &mut seen)?;
    }
    for each in 0..SEQUENCES {
        sequence(seed.wrapping_add(each), &mut seen)?;
    }
    Ok(seen)
}

fn main() -> ExitCode {
    let Some(seed) = env::args().nth(1).map_or(Some(1), |text| text.parse().ok()) else {
        eprintln!("{USAGE}");
        return ExitCode::from(2);
    };
    match run(seed) {
        Ok(seen) => {
            let woken = seen.woken;
            println!("{LISTS} lists and {SEQUENCES} sequences with {woken} waits ended, no difference");
            for (name, count) in WANTED.iter().zip(seen.counts) {
                println!("  {count:>10} {name}");
            }
            if seen.all() {
                return ExitCode::SUCCESS;
            }
            println!("one of these has to be seen and was not");
        }
        Err(difference) => println!("{difference}"),
    }
    ExitCode::FAILURE
}
