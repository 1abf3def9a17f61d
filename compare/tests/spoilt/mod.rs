//! Wrong variants of the ITRON calls, and whether the comparison finds them.
#![allow(dead_code)]

use compare::call::{Answer, Call, Manager};
use compare::inplace::agreement::Tested;
use compare::itron::comparison::Comparison;
use compare::itron::limits::limits;
use compare::itron::round::round;
use compare::itron::*;
use compare::state::comparison::Compared;
use compare::state::Keeper;

pub fn rounds(comparison: &mut Comparison, rounds: u64) -> Compared {
    (0..rounds).try_for_each(|seed| round(comparison, seed))
}

/// The in-place variant with one thing wrong in its calls with a list, or in the codes of answers.
pub struct Wrong<Spoilt>(pub Spoilt, pub fn(u32) -> i32);

impl<Spoilt> Manager for Wrong<Spoilt> {
    fn call(&mut self, tables: &mut [u8], call: &Call) -> Answer {
        Tested.call(tables, call)
    }

    fn ident_looked(&mut self, tables: &mut [u8], name: u32) -> (Answer, u32) {
        Tested.ident_looked(tables, name)
    }
}

impl<Spoilt> Keeper for Wrong<Spoilt> {
    fn save(&mut self, tables: &[u8], file: &mut [u8]) -> Answer {
        Tested.save(tables, file)
    }

    fn load(&mut self, tables: &mut [u8], file: &[u8]) -> Answer {
        Tested.load(tables, file)
    }
}

impl<Spoilt: FnMut(&mut [u8], &mut [u32], Service) -> Given> Itron for Wrong<Spoilt> {
    fn serve(&mut self, tables: &mut [u8], list: &mut [u32], service: &Service) -> Given {
        (self.0)(tables, list, *service)
    }

    fn code(&mut self, answer: u32) -> i32 {
        (self.1)(answer)
    }
}

pub fn right(tables: &mut [u8], list: &mut [u32], service: Service) -> Given {
    Tested.serve(tables, list, &service)
}

/// What the call would give, without giving it.
pub fn would(tables: &[u8], list: &[u32], service: Service) -> i32 {
    right(&mut tables.to_vec(), &mut list.to_vec(), service).code()
}

/// The same answer with another code.
pub fn coded(given: Given, code: i32) -> Given {
    match given {
        Given::Code { next, .. } => Given::Code { code, next },
        Given::Reference { next, exinf, wtsk, semcnt, .. } => {
            Given::Reference { code, next, exinf, wtsk, semcnt }
        }
        Given::Classic(answer) => Given::Classic(Answer { status: code as u32, ..answer }),
    }
}

/// What random rounds say of a wrong variant, which they find.
pub fn found(spoilt: impl FnMut(&mut [u8], &mut [u32], Service) -> Given) -> String {
    let mut subject = Wrong(spoilt, |answer| Tested.code(answer));
    rounds(&mut Comparison::new(&mut subject), 60).expect_err("the comparison finds it")
}

/// The same of one that is wrong on a list that agrees: the ends of ranges alone find it too.
pub fn found_both_ways(spoilt: impl FnMut(&mut [u8], &mut [u32], Service) -> Given + Copy) -> String {
    let mut subject = Wrong(spoilt, |answer| Tested.code(answer));
    limits(&mut Comparison::new(&mut subject)).expect_err("the ends of ranges find it");
    found(spoilt)
}

/// The wrong variant as it is, once the paper's own cases have found it.
pub fn found_by_cases<Spoilt>(spoilt: Spoilt) -> Spoilt
where
    Spoilt: FnMut(&mut [u8], &mut [u32], Service) -> Given + Copy,
{
    let mut subject = Wrong(spoilt, |answer| Tested.code(answer));
    cases::run(&mut subject).expect_err("the paper's cases find it");
    spoilt
}
