//! The ITRON calls of document 02, No. 5: the same tables, and a list that maps semids to identifiers.

pub mod cases;
pub mod comparison;
pub mod damage;
pub mod facade;
pub mod generate;
pub mod lent;
pub mod limits;
pub mod round;
pub mod seen;

use crate::call::Answer;
use crate::state::Keeper;

// Document 02's numbers; a wait that begins is 100, as in document 01.
pub const E_OK: i32 = 0;
pub const E_SYS: i32 = -5;
pub const E_NOMEM: i32 = -10;
pub const E_RSATR: i32 = -24;
pub const E_PAR: i32 = -33;
pub const E_ID: i32 = -35;
pub const E_NOEXS: i32 = -52;
pub const E_OBJ: i32 = -63;
pub const E_CTX: i32 = -69;
pub const E_QOVR: i32 = -73;
pub const E_DLT: i32 = -81;
pub const E_TMOUT: i32 = -85;
pub const E_RLWAI: i32 = -86;
pub const WAITING_CODE: i32 = 100;

/// The entries of a list, whatever S is.
pub const ENTRIES: usize = 64;
/// The greatest maximum of a semaphore that a list may have.
pub const MOST_MAPPED: u32 = 2_147_483_647;

/// One call on tables and list, with its numbers as handed in.
#[derive(Clone, Copy, Debug, PartialEq, Eq)]
pub enum Service {
    CreSem {
        caller: u32,
        semid: u32,
        sematr: u32,
        isemcnt: i32,
        maxsem: i32,
    },
    DelSem {
        caller: u32,
        semid: u32,
    },
    SigSem {
        caller: u32,
        semid: u32,
    },
    WaiSem {
        caller: u32,
        semid: u32,
    },
    PreqSem {
        caller: u32,
        semid: u32,
    },
    TwaiSem {
        caller: u32,
        semid: u32,
        tmout: i32,
    },
    RefSem {
        caller: u32,
        semid: u32,
    },
    /// Classic delete, with the list.
    Delete {
        caller: u32,
        id: u32,
    },
}

/// The names of the calls, in the order of `Service::kind`.
pub const SERVICES: [&str; 8] = [
    "cre_sem",
    "del_sem",
    "sig_sem",
    "wai_sem",
    "preq_sem",
    "twai_sem",
    "ref_sem",
    "delete with the list",
];

impl Service {
    /// The call's place in `SERVICES`.
    pub fn kind(&self) -> usize {
        match self {
            Service::CreSem { .. } => 0,
            Service::DelSem { .. } => 1,
            Service::SigSem { .. } => 2,
            Service::WaiSem { .. } => 3,
            Service::PreqSem { .. } => 4,
            Service::TwaiSem { .. } => 5,
            Service::RefSem { .. } => 6,
            Service::Delete { .. } => 7,
        }
    }

    pub fn caller(&self) -> u32 {
        match *self {
            Service::CreSem { caller, .. }
            | Service::DelSem { caller, .. }
            | Service::SigSem { caller, .. }
            | Service::WaiSem { caller, .. }
            | Service::PreqSem { caller, .. }
            | Service::TwaiSem { caller, .. }
            | Service::RefSem { caller, .. }
            | Service::Delete { caller, .. } => caller,
        }
    }

    /// The semid that the call names; Classic delete names none.
    pub fn semid(&self) -> Option<u32> {
        match *self {
            Service::CreSem { semid, .. }
            | Service::DelSem { semid, .. }
            | Service::SigSem { semid, .. }
            | Service::WaiSem { semid, .. }
            | Service::PreqSem { semid, .. }
            | Service::TwaiSem { semid, .. }
            | Service::RefSem { semid, .. } => Some(semid),
            Service::Delete { .. } => None,
        }
    }
}

/// What a call gives back besides tables and list.
#[derive(Clone, Copy, Debug, PartialEq, Eq)]
pub enum Given {
    Code { code: i32, next: u32 },
    Reference { code: i32, next: u32, exinf: i32, wtsk: i32, semcnt: i32 },
    Classic(Answer),
}

impl Given {
    /// The code, or the status of a Classic delete.
    pub fn code(&self) -> i32 {
        match *self {
            Given::Code { code, .. } | Given::Reference { code, .. } => code,
            Given::Classic(answer) => answer.status as i32,
        }
    }

    /// What `service` gives where tables or list do not agree.
    pub fn disagree(service: &Service) -> Given {
        match service {
            Service::Delete { .. } => Given::Classic(Answer::DISAGREE),
            Service::RefSem { .. } => {
                Given::Reference { code: E_SYS, next: 0, exinf: 0, wtsk: 0, semcnt: 0 }
            }
            _ => Given::Code { code: E_SYS, next: 0 },
        }
    }
}

/// A manager that also serves the calls with a list.
pub trait Itron: Keeper {
    fn serve(&mut self, tables: &mut [u8], list: &mut [u32], service: &Service) -> Given;
    /// The code of a task's answer.
    fn code(&mut self, answer: u32) -> i32;
}
