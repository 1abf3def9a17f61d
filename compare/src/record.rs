//! Calls with the answers and the bytes that they must give, written down for a board that has no Rust.
//!
//! Words of four bytes, low byte first. An entry begins with its kind:
//! a call's place in `KINDS`, five numbers of the call (for a start: slots, how many priorities, and those after the five; for an
//! ident: the name, and how many slots it looks at), then status, value, next and the sum over the tables after the call; or `LEND`,
//! or `WRITE`, or `END` with the number of calls. An ident is one entry for both functions that make it. What the entries of the ITRON
//! calls are is in record/itron.rs.

mod itron;

use std::io::{self, Write};

use crate::call::{Answer, Call, Manager};
use crate::itron::seen::Seen;
use crate::layout::Model;

/// The tables now lie at this offset from a word and have this length; what they held stays, and bytes that are new are 0.
pub const LEND: u32 = 16;
/// Where to write into the tables, how many bytes, and the bytes, filled up to whole words.
pub const WRITE: u32 = 17;
pub const END: u32 = 18;

/// Calls between two moves of the tables to another alignment.
const CALLS_IN_PLACE: u64 = 50;
/// Bytes that are the same and yet written again, to save an entry.
const GAP: usize = 12;

/// The model as a manager that writes down whatever is asked of it.
pub struct Recorder<W: Write> {
    out: W,
    /// The bytes that the board's tables hold now.
    held: Vec<u8>,
    /// The entries that the board's list has now.
    list: Vec<u32>,
    /// The codes of the ITRON calls.
    pub seen: Seen,
    calls: u64,
    /// The calls that were made on tables or a list that disagree.
    damaged: u64,
    failed: Option<io::Error>,
}

impl<W: Write> Recorder<W> {
    pub fn new(out: W) -> Self {
        let (held, list, seen) = (Vec::new(), Vec::new(), Seen::default());
        Recorder { out, held, list, seen, calls: 0, damaged: 0, failed: None }
    }

    /// Ends the record; how many calls it has, and how many of them on damaged tables or lists.
    pub fn finish(mut self) -> io::Result<(u64, u64)> {
        self.words(&[END, self.calls as u32]);
        self.out.flush()?;
        match self.failed {
            Some(error) => Err(error),
            None => Ok((self.calls, self.damaged)),
        }
    }

    fn bytes(&mut self, bytes: &[u8]) {
        // The first failure is kept for the end: a manager has no other way to say it.
        if self.failed.is_none() {
            self.failed = self.out.write_all(bytes).err();
        }
    }

    fn words(&mut self, words: &[u32]) {
        for word in words {
            self.bytes(&word.to_le_bytes());
        }
    }

    /// Brings the board's tables to these bytes.
    fn lend(&mut self, tables: &[u8]) {
        if self.calls.is_multiple_of(CALLS_IN_PLACE) || tables.len() != self.held.len() {
            let offset = (self.calls / CALLS_IN_PLACE % 4) as u32;
            self.words(&[LEND, offset, tables.len() as u32]);
            self.held.resize(tables.len(), 0);
        }
        let mut from = 0;
        while let Some(start) = difference(&self.held, tables, from) {
            let mut end = start + 1;
            while let Some(next) = difference(&self.held, tables, end).filter(|next| next - end < GAP) {
                end = next + 1;
            }
            self.words(&[WRITE, start as u32, (end - start) as u32]);
            self.bytes(&tables[start..end]);
            self.bytes(&[0; 3][..(end - start).next_multiple_of(4) - (end - start)]);
            from = end;
        }
    }
}

/// The first place from `from` on where two slices of one length differ.
fn difference(one: &[u8], other: &[u8], from: usize) -> Option<usize> {
    let rest = one[from..].iter().zip(&other[from..]);
    Some(from + rest.into_iter().position(|(a, b)| a != b)?)
}

/// FNV-1a, with 32 bits: no single byte can differ unseen.
fn sum(bytes: &[u8]) -> u32 {
    bytes.iter().fold(0x811C_9DC5, |sum, &byte| (sum ^ u32::from(byte)).wrapping_mul(0x0100_0193))
}

/// The five numbers of a call on these tables.
fn numbers(call: &Call, tables: &mut [u8]) -> [u32; 5] {
    match *call {
        Call::Start { slots, ref priorities } => [slots, priorities.len() as u32, 0, 0, 0],
        Call::Create { caller, name, count, attributes, maximum } => {
            [caller, name, count, attributes, maximum]
        }
        Call::Ident { name } => [name, Model.ident_looked(tables, name).1, 0, 0, 0],
        Call::Delete { caller, id } | Call::Release { caller, id } | Call::Flush { caller, id } => {
            [caller, id, 0, 0, 0]
        }
        Call::Obtain { caller, id, options, timeout } => [caller, id, options, timeout, 0],
        Call::Tick => [0; 5],
        Call::Task { task } => [task, 0, 0, 0, 0],
    }
}

impl<W: Write> Manager for Recorder<W> {
    fn call(&mut self, tables: &mut [u8], call: &Call) -> Answer {
        self.lend(tables);
        let numbers = numbers(call, tables);
        let answer = Model.call(tables, call);
        self.words(&[call.kind() as u32]);
        self.words(&numbers);
        if let Call::Start { priorities, .. } = call {
            self.words(priorities);
        }
        self.words(&[answer.status, answer.value, answer.next, sum(tables)]);
        self.held.copy_from_slice(tables);
        self.calls += 1;
        self.damaged += u64::from(answer == Answer::DISAGREE);
        answer
    }

    fn ident_looked(&mut self, tables: &mut [u8], name: u32) -> (Answer, u32) {
        // The entry of the call has the count already.
        Model.ident_looked(tables, name)
    }
}
