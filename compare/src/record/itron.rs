//! The ITRON calls in a record. An entry is `LIST`, or `FIRST` and a call's place in `SERVICES`, its five numbers, what it gives in
//! five (code, next, exinf, wtsk, semcnt; of a Classic delete status, next and three zeros), and the sums over the tables and over the
//! list after it; or `CODE` in the same form, with a task's answer first of the five numbers and its code first of what it gives.

use std::io::Write;

use crate::call::Answer;
use crate::itron::{Given, Itron, Service};
use crate::layout::Model;
use crate::record::{sum, Recorder};
use crate::state::Keeper;

/// The list now begins so many words from a place aligned to 8 and has so many entries, which follow.
pub const LIST: u32 = 19;
pub const FIRST: u32 = 32;
pub const CODE: u32 = 40;

/// The five numbers of a call, signed ones as their 32 bits.
fn numbers(service: &Service) -> [u32; 5] {
    let (caller, semid) = (service.caller(), service.semid().unwrap_or(0));
    match *service {
        Service::CreSem { sematr, isemcnt, maxsem, .. } => {
            [caller, semid, sematr, isemcnt as u32, maxsem as u32]
        }
        Service::TwaiSem { tmout, .. } => [caller, semid, tmout as u32, 0, 0],
        Service::Delete { id, .. } => [caller, id, 0, 0, 0],
        _ => [caller, semid, 0, 0, 0],
    }
}

fn given_numbers(given: Given) -> [u32; 5] {
    match given {
        Given::Code { code, next } => [code as u32, next, 0, 0, 0],
        Given::Reference { code, next, exinf, wtsk, semcnt } => {
            [code as u32, next, exinf as u32, wtsk as u32, semcnt as u32]
        }
        Given::Classic(Answer { status, next, .. }) => [status, next, 0, 0, 0],
    }
}

impl<W: Write> Recorder<W> {
    /// Brings the board's list to these entries, at one of two places, so at both alignments to 8.
    fn lend_list(&mut self, list: &[u32]) {
        if self.list != list {
            self.words(&[LIST, (self.calls % 2) as u32, list.len() as u32]);
            self.words(list);
            self.list = list.to_vec();
        }
    }

    fn entry(&mut self, kind: u32, numbers: [u32; 5], given: [u32; 5], tables: &[u8]) {
        self.words(&[kind]);
        self.words(&numbers);
        self.words(&given);
        let entries: Vec<u8> = self.list.iter().flat_map(|entry| entry.to_le_bytes()).collect();
        self.words(&[sum(tables), sum(&entries)]);
        self.calls += 1;
    }
}

impl<W: Write> Keeper for Recorder<W> {
    fn save(&mut self, tables: &[u8], file: &mut [u8]) -> Answer {
        Model.save(tables, file)
    }

    /// What is loaded is written into the board's tables before the next call.
    fn load(&mut self, tables: &mut [u8], file: &[u8]) -> Answer {
        Model.load(tables, file)
    }
}

impl<W: Write> Itron for Recorder<W> {
    fn serve(&mut self, tables: &mut [u8], list: &mut [u32], service: &Service) -> Given {
        self.lend(tables);
        self.lend_list(list);
        let given = Model.serve(tables, list, service);
        self.held.copy_from_slice(tables);
        self.list.copy_from_slice(list);
        self.entry(FIRST + service.kind() as u32, numbers(service), given_numbers(given), tables);
        self.damaged += u64::from(given == Given::disagree(service));
        self.seen.answered(service, given);
        given
    }

    fn code(&mut self, answer: u32) -> i32 {
        let code = Model.code(answer);
        self.seen.turned(code);
        let held = self.held.clone();
        self.entry(CODE, [answer, 0, 0, 0, 0], [code as u32, 0, 0, 0, 0], &held);
        code
    }
}
