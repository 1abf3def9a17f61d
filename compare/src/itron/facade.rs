//! The calls over the model: each refuses by its own rules, and then makes the Classic call that it stands on.

use crate::call::{Answer, Call};
use crate::itron::*;
use crate::layout::{self, Model};
use crate::model::{Class, Machine, Semaphore};
use crate::status::{
    FOREVER, MOST_SLOTS, NO_WAIT, OBJECT_WAS_DELETED, PRIORITY, SUCCESSFUL, TIMEOUT, TOO_MANY,
    UNSATISFIED, WAITING,
};

/// The live semaphore with this identifier, if a list may have it.
fn mappable(machine: &Machine, id: u32) -> Option<&Semaphore> {
    let live = machine.semaphore(id)?;
    (live.class == Class::Counting && live.maximum <= MOST_MAPPED).then_some(live)
}

/// Whether the list is one of 64 entries, 0 behind S, that maps to live counting semaphores, none twice.
pub fn list_agrees(machine: &Machine, list: &[u32]) -> bool {
    if list.len() != MOST_SLOTS {
        return false;
    }
    let (of_semids, behind) = list.split_at(machine.slots.len());
    let mut mapped: Vec<u32> = of_semids.iter().copied().filter(|&id| id != 0).collect();
    let all_mappable = mapped.iter().all(|&id| mappable(machine, id).is_some());
    mapped.sort_unstable();
    let twice = mapped.windows(2).any(|pair| pair[0] == pair[1]);
    all_mappable && !twice && behind.iter().all(|&id| id == 0)
}

/// A code of a call that is not refused, or the refusal.
type Served = Result<i32, i32>;

/// Tables and list that agree.
struct Scanner<'a> {
    machine: &'a mut Machine,
    list: &'a mut [u32],
}

impl Scanner<'_> {
    fn check_caller(&self, caller: u32, interrupt_may: bool) -> Result<(), i32> {
        match caller {
            0 if interrupt_may => Ok(()),
            0 => Err(E_CTX),
            _ if caller as usize > self.machine.tasks.len() => Err(E_ID),
            _ if self.machine.is_waiting(caller) => Err(E_CTX),
            _ => Ok(()),
        }
    }

    /// The place of a semid in the list.
    fn place(&self, semid: u32) -> Result<usize, i32> {
        match semid as usize {
            number if (1..=self.machine.slots.len()).contains(&number) => Ok(number - 1),
            _ => Err(E_ID),
        }
    }

    /// The identifier that a semid is mapped to.
    fn mapped(&self, semid: u32) -> Result<u32, i32> {
        let id = self.list[self.place(semid)?];
        if id == 0 {
            return Err(E_NOEXS);
        }
        Ok(id)
    }

    fn cre_sem(&mut self, caller: u32, semid: u32, sematr: u32, isemcnt: i32, maxsem: i32) -> Served {
        self.check_caller(caller, false)?;
        let place = self.place(semid)?;
        if self.list[place] != 0 {
            return Err(E_OBJ);
        }
        let attributes = match sematr {
            0 => 0,
            1 => PRIORITY,
            _ => return Err(E_RSATR),
        };
        if isemcnt < 0 || maxsem < 1 || isemcnt > maxsem {
            return Err(E_PAR);
        }
        let (count, maximum) = (isemcnt.unsigned_abs(), maxsem.unsigned_abs());
        let made = self.machine.call(&Call::Create { caller, name: semid, count, attributes, maximum });
        match made.status {
            TOO_MANY => Err(E_NOMEM),
            status => {
                assert_eq!(status, SUCCESSFUL, "nothing else is left to refuse");
                self.list[place] = made.value;
                Ok(E_OK)
            }
        }
    }

    fn del_sem(&mut self, caller: u32, semid: u32) -> Served {
        self.check_caller(caller, false)?;
        let (place, id) = (self.place(semid)?, self.mapped(semid)?);
        let deleted = self.machine.call(&Call::Delete { caller, id });
        assert_eq!(deleted.status, SUCCESSFUL, "a counting semaphore has no owner");
        self.list[place] = 0;
        Ok(E_OK)
    }

    fn sig_sem(&mut self, caller: u32, semid: u32) -> Served {
        self.check_caller(caller, true)?;
        let id = self.mapped(semid)?;
        match self.machine.call(&Call::Release { caller, id }).status {
            UNSATISFIED => Err(E_QOVR),
            SUCCESSFUL => Ok(E_OK),
            status => unreachable!("a release of a mapped semaphore gives {status}"),
        }
    }

    /// Takes one of a mapped semaphore, with how to wait as tmout says it.
    fn take(&mut self, caller: u32, semid: u32, tmout: i32) -> Served {
        self.check_caller(caller, false)?;
        self.place(semid)?;
        let (options, timeout) = match tmout {
            ..=-2 => return Err(E_PAR),
            -1 => (0, FOREVER),
            0 => (NO_WAIT, 0),
            ticks => (0, ticks.unsigned_abs()),
        };
        let id = self.mapped(semid)?;
        match self.machine.call(&Call::Obtain { caller, id, options, timeout }).status {
            UNSATISFIED => Err(E_TMOUT),
            WAITING => Ok(WAITING_CODE),
            SUCCESSFUL => Ok(E_OK),
            status => unreachable!("an obtain of a mapped semaphore gives {status}"),
        }
    }

    /// Whether a task waits, and the count.
    fn ref_sem(&self, caller: u32, semid: u32) -> Result<(i32, i32), i32> {
        self.check_caller(caller, true)?;
        let id = self.mapped(semid)?;
        let live = mappable(self.machine, id).expect("a list that agrees maps to such");
        let count = i32::try_from(live.count).expect("a count is at most its maximum");
        Ok((i32::from(!live.queue.is_empty()), count))
    }

    fn delete(&mut self, caller: u32, id: u32) -> Answer {
        let answer = self.machine.call(&Call::Delete { caller, id });
        if answer.status == SUCCESSFUL {
            self.list.iter_mut().filter(|entry| **entry == id).for_each(|entry| *entry = 0);
        }
        answer
    }

    fn serve(&mut self, service: &Service) -> Given {
        let served = match *service {
            Service::CreSem { caller, semid, sematr, isemcnt, maxsem } => {
                self.cre_sem(caller, semid, sematr, isemcnt, maxsem)
            }
            Service::DelSem { caller, semid } => self.del_sem(caller, semid),
            Service::SigSem { caller, semid } => self.sig_sem(caller, semid),
            Service::WaiSem { caller, semid } => self.take(caller, semid, -1),
            Service::PreqSem { caller, semid } => self.take(caller, semid, 0),
            Service::TwaiSem { caller, semid, tmout } => self.take(caller, semid, tmout),
            Service::RefSem { caller, semid } => return self.reference(caller, semid),
            Service::Delete { caller, id } => return Given::Classic(self.delete(caller, id)),
        };
        let code = served.unwrap_or_else(|refusal| refusal);
        Given::Code { code, next: self.machine.next_task() }
    }

    fn reference(&self, caller: u32, semid: u32) -> Given {
        let (code, (wtsk, semcnt)) = match self.ref_sem(caller, semid) {
            Ok(found) => (E_OK, found),
            Err(refusal) => (refusal, (0, 0)),
        };
        Given::Reference { code, next: self.machine.next_task(), exinf: 0, wtsk, semcnt }
    }
}

/// Serves one call on a machine whose list agrees with it.
pub fn serve(machine: &mut Machine, list: &mut [u32], service: &Service) -> Given {
    Scanner { machine, list }.serve(service)
}

impl Itron for Model {
    fn serve(&mut self, tables: &mut [u8], list: &mut [u32], service: &Service) -> Given {
        let machine = layout::read(tables).filter(|machine| list_agrees(machine, list));
        let Some(mut machine) = machine else { return Given::disagree(service) };
        let given = serve(&mut machine, list, service);
        layout::write_into(&machine, tables);
        given
    }

    fn code(&mut self, answer: u32) -> i32 {
        match answer {
            SUCCESSFUL => E_OK,
            WAITING => WAITING_CODE,
            TIMEOUT => E_TMOUT,
            OBJECT_WAS_DELETED => E_DLT,
            UNSATISFIED => E_RLWAI,
            _ => E_SYS,
        }
    }
}
