//! Sessions as text: random ones with broken lines of every kind, and long replays.

use crate::call::Call;
use crate::fuzz::generate::{draw_ticks, Plan};
use crate::fuzz::rng::Rng;
use crate::fuzz::workload;
use crate::model::Machine;
use crate::session::{parse_line, LONGEST_LINE};

/// How often in a hundred a wait with the standard limit or for ever is followed by about as many ticks as that limit has, if there is
/// room for them.
const BURSTS: usize = 20;

/// The line that says this call; `task` has none.
pub fn line_of(call: &Call) -> Option<String> {
    Some(match call {
        Call::Start { slots, priorities } => {
            let numbers: String = priorities.iter().map(|priority| format!(" {priority}")).collect();
            format!("start {slots}{numbers}")
        }
        Call::Create { caller, name, count, attributes, maximum } => {
            format!("create {caller} {name} {count} {attributes} {maximum}")
        }
        Call::Ident { name } => format!("ident {name}"),
        Call::Delete { caller, id } => format!("delete {caller} {id}"),
        Call::Obtain { caller, id, options, timeout } => {
            format!("obtain {caller} {id} {options} {timeout}")
        }
        Call::Release { caller, id } => format!("release {caller} {id}"),
        Call::Flush { caller, id } => format!("flush {caller} {id}"),
        Call::Tick => "tick".into(),
        Call::Task { .. } => return None,
    })
}

/// A replay of that many lines with 32 tasks, mostly ticks.
pub fn replay_of_ticks(lines: usize) -> Vec<u8> {
    let mut text = Vec::new();
    for line in workload::session_of_ticks(lines).iter().filter_map(line_of).take(lines) {
        text.extend_from_slice(line.as_bytes());
        text.push(b'\n');
    }
    text
}

/// A random session; every other one has no newline at its end. A long one has room for the ticks of the standard limit.
pub fn random_session(seed: u64, lines: usize) -> Vec<u8> {
    let mut rng = Rng::new(seed);
    let plan = Plan::draw(&mut rng);
    let mut machine = Machine::default();
    let mut text = Vec::new();
    let mut ticks = 0usize;
    for left in (0..lines).rev() {
        let line = match ticks {
            0 => draw_line(&mut rng, &plan, &machine),
            _ => b"tick".to_vec(),
        };
        ticks = ticks.saturating_sub(1);
        // Later lines are drawn for the machine that this one leaves.
        if let Some(call) = parse_line(&line) {
            let answer = machine.call(&call);
            let burst = draw_ticks(&mut rng, &call, answer, BURSTS) as usize;
            ticks += if burst <= left { burst } else { 0 };
        }
        text.extend_from_slice(&line);
        text.push(b'\n');
    }
    if rng.chance(50) {
        text.pop();
    }
    text
}

fn draw_line(rng: &mut Rng, plan: &Plan, machine: &Machine) -> Vec<u8> {
    let Some(line) = line_of(&plan.draw_call(rng, machine)) else { return b"tick".to_vec() };
    match rng.below(100) {
        0..75 => line.into_bytes(),
        75..78 => line_of_length(rng),
        78..80 => (0..rng.below(40)).map(|_| any_byte(rng)).collect(),
        _ => break_line(rng, line.into_bytes()),
    }
}

/// A `start` of 255, 256 or 257 bytes, sometimes much more.
pub fn line_of_length(rng: &mut Rng) -> Vec<u8> {
    let length = rng.pick(&[LONGEST_LINE - 1, LONGEST_LINE, LONGEST_LINE + 1, 300, 70_000]);
    let mut line = if length.is_multiple_of(2) { b"start 64".to_vec() } else { b"start 4".to_vec() };
    while line.len() < length {
        line.extend_from_slice(b" 7");
    }
    line
}

fn any_byte(rng: &mut Rng) -> u8 {
    match rng.word() as u8 {
        b'\n' => b'\r',
        byte => byte,
    }
}

/// Breaks a line in one of many ways, a few of which leave it whole.
pub fn break_line(rng: &mut Rng, mut line: Vec<u8>) -> Vec<u8> {
    let at = rng.below(line.len() + 1);
    let space = line.iter().position(|&byte| byte == b' ').unwrap_or(line.len());
    match rng.below(14) {
        0 => line.clear(),
        1 => line.insert(0, b' '),
        2 => line.push(b' '),
        3 => line.insert(space, b' '),
        4 => line.push(b'\r'),
        5 => line.insert(at, rng.pick(b"\0\t\r\x7f\x80\xff+-._")),
        6 => line.insert(at, any_byte(rng)),
        7 => line.insert((space + 1).min(line.len()), b'0'),
        8 => line.truncate(at),
        9 => line.extend_from_slice(rng.pick(&[&b" 1"[..], b" 0", b" 00", b" 4294967295"])),
        10 => line.extend_from_slice(rng.pick(&[
            &b" 4294967296"[..],
            b" 18446744073709551616",
            b"0",
            b"99999",
        ])),
        11 => line[0] = line[0].to_ascii_uppercase(),
        // A number too few, as a create without its maximum.
        12 => line.truncate(line.iter().rposition(|&byte| byte == b' ').unwrap_or(0)),
        _ => line.splice(..space, *b"task").for_each(drop),
    }
    line
}
