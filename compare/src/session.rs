//! The session: lines in, `status value next` out, from an unstarted machine.

pub mod lines;

use crate::call::{Answer, Call};
use crate::inplace::agreement::serve;
use crate::inplace::{words_mut, Words};
use crate::layout::LENGTH;

/// The longest line, without its newline.
pub const LONGEST_LINE: usize = 256;

/// A session under way, fed in chunks of any size.
pub struct Session {
    tables: Vec<u8>,
    /// The start of a line whose newline has not come; one byte over the longest is kept at most.
    begun: Vec<u8>,
}

/// The whole output for a whole input.
pub fn run_session(input: &[u8]) -> Vec<u8> {
    let mut output = Vec::with_capacity(input.len());
    let mut session = Session::new();
    session.feed(input, &mut output);
    session.finish(&mut output);
    output
}

impl Default for Session {
    fn default() -> Self {
        Session::new()
    }
}

impl Session {
    pub fn new() -> Self {
        Session { tables: vec![0; LENGTH], begun: Vec::with_capacity(LONGEST_LINE + 1) }
    }

    /// Appends the answers of all lines that end in this chunk.
    pub fn feed(&mut self, chunk: &[u8], output: &mut Vec<u8>) {
        let mut rest = chunk;
        while let Some(end) = rest.iter().position(|&byte| byte == b'\n') {
            if self.begun.is_empty() {
                answer_line(tables(&mut self.tables), &rest[..end], output);
            } else {
                self.keep(&rest[..end]);
                self.finish(output);
            }
            rest = &rest[end + 1..];
        }
        self.keep(rest);
    }

    /// Answers a last line that has no newline.
    pub fn finish(&mut self, output: &mut Vec<u8>) {
        if !self.begun.is_empty() {
            answer_line(tables(&mut self.tables), &self.begun, output);
            self.begun.clear();
        }
    }

    // A line already too long stays too long, so the rest of it is not kept.
    fn keep(&mut self, part: &[u8]) {
        let room = LONGEST_LINE + 1 - self.begun.len();
        self.begun.extend_from_slice(&part[..part.len().min(room)]);
    }
}

fn tables(bytes: &mut [u8]) -> &mut Words {
    words_mut(bytes).expect("a session's tables have the layout's length")
}

fn answer_line(tables: &mut Words, line: &[u8], output: &mut Vec<u8>) {
    match parse_line(line) {
        Some(call) => print_answer(serve(tables, &call), output),
        None => output.extend_from_slice(b"bad\n"),
    }
}

/// The call that a line says, or nothing if the line is bad.
pub fn parse_line(line: &[u8]) -> Option<Call> {
    if line.len() > LONGEST_LINE {
        return None;
    }
    let end = line.iter().position(|&byte| byte == b' ').unwrap_or(line.len());
    let (word, rest) = line.split_at(end);
    match word {
        b"tick" => numbers(rest).map(|[]| Call::Tick),
        b"obtain" => numbers(rest).map(|[caller, id, options, timeout]| Call::Obtain {
            caller,
            id,
            options,
            timeout,
        }),
        b"release" => numbers(rest).map(|[caller, id]| Call::Release { caller, id }),
        b"create" => numbers(rest).map(|[caller, name, count, attributes, maximum]| Call::Create {
            caller,
            name,
            count,
            attributes,
            maximum,
        }),
        b"ident" => numbers(rest).map(|[name]| Call::Ident { name }),
        b"delete" => numbers(rest).map(|[caller, id]| Call::Delete { caller, id }),
        b"flush" => numbers(rest).map(|[caller, id]| Call::Flush { caller, id }),
        b"start" => parse_start(rest),
        _ => None,
    }
}

fn parse_start(rest: &[u8]) -> Option<Call> {
    let (slots, mut rest) = number(rest)?;
    let mut priorities = Vec::new();
    while !rest.is_empty() {
        let (priority, after) = number(rest)?;
        priorities.push(priority);
        rest = after;
    }
    Some(Call::Start { slots, priorities })
}

/// Exactly `COUNT` numbers, each with a space before it, and nothing after them.
pub fn numbers<const COUNT: usize>(mut rest: &[u8]) -> Option<[u32; COUNT]> {
    let mut found = [0; COUNT];
    for place in &mut found {
        (*place, rest) = number(rest)?;
    }
    rest.is_empty().then_some(found)
}

/// A space and a number in decimal, and what follows them.
fn number(bytes: &[u8]) -> Option<(u32, &[u8])> {
    let rest = bytes.strip_prefix(b" ")?;
    let end = rest.iter().position(|byte| !byte.is_ascii_digit()).unwrap_or(rest.len());
    let (digits, after) = rest.split_at(end);
    if digits.is_empty() || (digits[0] == b'0' && digits.len() > 1) {
        return None;
    }
    let mut number: u32 = 0;
    for &digit in digits {
        number = number.checked_mul(10)?.checked_add(u32::from(digit - b'0'))?;
    }
    Some((number, after))
}

/// Appends the answer's line.
pub fn print_answer(answer: Answer, output: &mut Vec<u8>) {
    print_number(answer.status, output);
    output.push(b' ');
    print_number(answer.value, output);
    output.push(b' ');
    print_number(answer.next, output);
    output.push(b'\n');
}

fn print_number(mut number: u32, output: &mut Vec<u8>) {
    let mut digits = [0; 10];
    let mut first = digits.len();
    loop {
        first -= 1;
        digits[first] = b'0' + (number % 10) as u8;
        number /= 10;
        if number == 0 {
            break;
        }
    }
    output.extend_from_slice(&digits[first..]);
}
