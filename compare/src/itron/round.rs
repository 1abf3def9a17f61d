//! One round: ITRON and Classic calls mixed on the same tables from an unstarted machine, then damage, then a load.

use crate::call::Call;
use crate::fuzz::generate::Plan;
use crate::fuzz::rng::Rng;
use crate::fuzz::sequence::edit;
use crate::itron::comparison::Comparison;
use crate::itron::damage::{damaged, Base};
use crate::itron::facade::list_agrees;
use crate::itron::generate::{draw, draw_kind};
use crate::itron::lent::{Lending, PLACES};
use crate::itron::{Service, ENTRIES, MOST_MAPPED, SERVICES, WAITING_CODE};
use crate::layout::{self, LENGTH};
use crate::model::{identifier, Class, Machine};
use crate::state::comparison::Compared;
use crate::state::write::write;
use crate::status::{STANDARD_LIMIT, SUCCESSFUL};

const STEPS: usize = 200;
const STEPS_AFTER_LOAD: usize = 36;
/// How many steps in a hundred are Classic calls, map a Classic semaphore by hand, and mend a list that disagrees.
const CLASSIC: usize = 30;
const BY_HAND: usize = 1;
const MENDS: usize = 25;
/// How many waits for ever in a hundred are followed by more ticks than the standard limit.
const BURSTS: usize = 1;

struct Round<'a, 'b> {
    comparison: &'a mut Comparison<'b>,
    rng: Rng,
    plan: Plan,
    lent: Lending,
    machine: Machine,
    /// How the list came to disagree, if it does.
    broken: Option<Broken>,
}

#[derive(Clone, Copy, PartialEq)]
enum Broken {
    ByDelete,
    ByEdit,
}

/// Plays the round of a seed.
pub fn round(comparison: &mut Comparison, seed: u64) -> Compared {
    let mut rng = Rng::new(seed);
    let plan = Plan::draw(&mut rng);
    let lent = Lending::blank(rng.below(PLACES));
    // What the round before has mended is not this one's.
    comparison.seen.mended(false);
    let mut round = Round { comparison, rng, plan, lent, machine: Machine::default(), broken: None };
    round.play().map_err(|said| format!("difference in round {seed}: {said}"))
}

impl Round<'_, '_> {
    fn play(&mut self) -> Compared {
        self.before_start()?;
        for _ in 0..STEPS {
            self.step()?;
        }
        self.mend();
        let (bytes, list) = (self.lent.tables.bytes().to_vec(), self.lent.list.entries().to_vec());
        let base = Base { machine: &self.machine, bytes: &bytes, list: &list };
        damaged(self.comparison, &mut self.rng, &base)?;
        self.after_load(&list)
    }

    /// An unstarted machine has an empty list; any other does not agree.
    fn before_start(&mut self) -> Compared {
        let blank = Machine::default();
        let any = self.rng.word() | 1;
        for first in [0, self.rng.pick(&[1, 65537, any])] {
            let mut list = vec![0; ENTRIES];
            list[self.rng.below(ENTRIES)] = first;
            for kind in 0..SERVICES.len() {
                let service = draw_kind(&mut self.rng, &blank, &list, kind);
                let mut lent = Lending::new(&[0; LENGTH], &list, 0);
                self.comparison.serve(&mut lent, &service)?;
            }
        }
        Ok(())
    }

    fn step(&mut self) -> Compared {
        if self.rng.chance(self.plan.edits) {
            self.edit();
        }
        if self.rng.chance(BY_HAND) {
            self.map_by_hand();
        }
        if self.broken.is_some() && self.rng.chance(MENDS) {
            self.mend();
        }
        if self.machine.tasks.is_empty() || self.rng.chance(CLASSIC) {
            return self.classic();
        }
        let service = draw(&mut self.rng, &self.machine, self.lent.list.entries());
        let given = self.comparison.serve(&mut self.lent, &service)?;
        let broken_by_delete = self.broken == Some(Broken::ByDelete);
        self.comparison.seen.after_plain_delete(broken_by_delete, given.code());
        self.look_again();
        self.let_time_pass(&service, given.code())
    }

    /// Now and then more ticks than the standard limit, behind a call that began a wait for ever.
    fn let_time_pass(&mut self, service: &Service, code: i32) -> Compared {
        let for_ever = matches!(service, Service::WaiSem { .. } | Service::TwaiSem { tmout: -1, .. });
        if !for_ever || code != WAITING_CODE || !self.rng.chance(BURSTS) {
            return Ok(());
        }
        for _ in 0..=STANDARD_LIMIT {
            self.comparison.call(&mut self.lent, &Call::Tick)?;
        }
        self.look_again();
        self.comparison.seen.outlasted(self.machine.is_waiting(service.caller()));
        Ok(())
    }

    fn classic(&mut self) -> Compared {
        let call = self.plan.draw_call(&mut self.rng, &self.machine);
        let answer = self.comparison.call(&mut self.lent, &call)?;
        if let (Call::Delete { id, .. }, SUCCESSFUL) = (&call, answer.status) {
            let mapped = self.lent.list.entries().contains(id);
            self.comparison.seen.deleted_plainly(mapped);
            self.broken = self.broken.or(mapped.then_some(Broken::ByDelete));
        }
        self.look_again();
        Ok(())
    }

    fn look_again(&mut self) {
        self.machine = self.lent.machine().expect("calls keep the tables in agreement");
        let agrees = list_agrees(&self.machine, self.lent.list.entries());
        assert!(agrees || self.broken.is_some(), "only a plain delete and edits part list and tables");
        // An edit may take a slot's generation back, and a later create give a deleted identifier once more.
        assert!(!agrees || self.broken.is_none() || self.plan.edits > 0, "calls alone mend no list");
        if agrees {
            self.broken = None;
        }
    }

    /// Numbers near their ends in the tables, which still agree; the list may not.
    fn edit(&mut self) {
        let mut bytes = self.lent.tables.bytes().to_vec();
        edit(&mut self.rng, &self.machine, &mut bytes);
        self.lent.tables.bytes_mut().copy_from_slice(&bytes);
        self.machine = layout::read(&bytes).expect("an edit keeps the tables in agreement");
        let agrees = list_agrees(&self.machine, self.lent.list.entries());
        self.broken = match agrees {
            true => None,
            false => self.broken.or(Some(Broken::ByEdit)),
        };
    }

    /// Clears the entries whose semaphore is gone or no longer one for a list.
    fn mend(&mut self) {
        for place in 0..ENTRIES {
            let mut alone = vec![0; ENTRIES];
            alone[place] = self.lent.list.entries()[place];
            if !list_agrees(&self.machine, &alone) {
                self.lent.list.entries_mut()[place] = 0;
            }
        }
        self.comparison.seen.mended(self.broken == Some(Broken::ByDelete));
        self.broken = None;
    }

    /// Puts a semaphore that Classic create made into a free entry.
    fn map_by_hand(&mut self) {
        let list = self.lent.list.entries_mut();
        let numbered = self.machine.slots.iter().enumerate();
        let fitting = numbered.filter_map(|(index, slot)| {
            let live = slot.live.as_ref()?;
            let fits = live.class == Class::Counting && live.maximum <= MOST_MAPPED;
            Some(identifier(slot.generation, index)).filter(|id| fits && !list.contains(id))
        });
        let (fitting, slots): (Vec<u32>, _) = (fitting.collect(), self.machine.slots.len());
        let Some(place) = list[..slots].iter().position(|&id| id == 0) else { return };
        if !fitting.is_empty() {
            list[place] = self.rng.pick(&fitting);
        }
    }

    /// The state saved and loaded: with an empty list, and with the one of before, which still agrees.
    fn after_load(&mut self, list: &[u32]) -> Compared {
        if self.machine.tasks.is_empty() {
            return Ok(());
        }
        let file = write(&self.machine);
        for list in [vec![0; ENTRIES], list.to_vec()] {
            self.lent = Lending::new(&[0; LENGTH], &list, self.rng.below(PLACES));
            self.broken = None;
            self.comparison.load(&mut self.lent, &file)?;
            self.look_again();
            for _ in 0..STEPS_AFTER_LOAD {
                if self.rng.chance(CLASSIC) {
                    self.classic()?;
                    continue;
                }
                let service = draw(&mut self.rng, &self.machine, self.lent.list.entries());
                let given = self.comparison.serve(&mut self.lent, &service)?;
                self.comparison.seen.after_load(&list, &service, given.code());
                self.look_again();
            }
        }
        Ok(())
    }
}
