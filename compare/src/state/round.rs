//! One round: tables by random calls, their file saved and loaded, in edition 1 loaded alone, and every refusal.

use crate::call::Call;
use crate::fuzz::damage::bases;
use crate::fuzz::generate::Plan;
use crate::fuzz::lent::Lent;
use crate::fuzz::mutate::mutate;
use crate::fuzz::rng::Rng;
use crate::fuzz::sequence::edit;
use crate::layout::{self, LENGTH};
use crate::model::Machine;
use crate::state::comparison::{Compared, Comparison};
use crate::state::seen::{loads, saves};
use crate::state::write::{write, write_in};
use crate::state::{CONTENTS, EDITION, LONGEST, OLD_EDITION};
use crate::status::{greatest_maximum, FOREVER, SUCCESSFUL};

/// In as many seeds each of the tables that are not drawn at random comes once.
const BASES_EVERY: u64 = 40;
/// The place of obtain in `KINDS`.
const OBTAIN: usize = 4;

/// Started tables with their file of an edition, and an unstarted machine to load on.
pub struct Round<'a, 'b> {
    pub comparison: &'a mut Comparison<'b>,
    pub rng: Rng,
    pub plan: Plan,
    pub machine: Machine,
    pub tables: Vec<u8>,
    pub edition: u32,
    pub file: Vec<u8>,
    pub blank: Lent,
}

/// Makes the tables of a seed and compares all that can be done with their file.
pub fn round(comparison: &mut Comparison, seed: u64) -> Compared {
    let mut rng = Rng::new(seed);
    let plan = Plan::draw(&mut rng);
    let machine = match started_bases().into_iter().nth((seed % BASES_EVERY) as usize) {
        Some(base) => base,
        None => draw_machine(&mut rng, &plan),
    };
    comparison.seen.drew(&machine);
    let (tables, file) = (layout::write(&machine), write(&machine));
    let blank = Lent::new(&[0; LENGTH], rng.below(4));
    let mut round = Round { comparison, rng, plan, machine, tables, edition: EDITION, file, blank };
    let compared = round.saves().and_then(|()| round.each_edition());
    compared.map_err(|said| format!("difference in round {seed}, edition {}: {said}", round.edition))
}

fn started_bases() -> Vec<Machine> {
    let started = bases().into_iter().filter(|base| !base.tasks.is_empty());
    started.chain([two_queues()]).collect()
}

/// Five tasks wait for ever for a counting semaphore and five for a simple binary one, in FIFO queues; two are ready.
fn two_queues() -> Machine {
    let mut calls = vec![Call::Start { slots: 2, priorities: vec![4; 12] }];
    calls.extend([0, 32].map(|attributes| Call::create(12, 9, 0, attributes)));
    let wait = |caller| Call::Obtain { caller, id: 65537 + caller % 2, options: 0, timeout: FOREVER };
    calls.extend((1..=10).map(wait));
    let mut machine = Machine::default();
    calls.iter().for_each(|call| _ = machine.call(call));
    machine
}

/// A started machine by random calls and by edits that keep agreement.
fn draw_machine(rng: &mut Rng, plan: &Plan) -> Machine {
    let mut machine = Machine::default();
    let mut left: u32 = rng.pick(&[0, 10, 30, 100, 200, 400, 400]);
    while machine.tasks.is_empty() || left > 0 {
        if rng.chance(plan.edits) {
            let mut bytes = layout::write(&machine);
            edit(rng, &machine, &mut bytes);
            machine = layout::read(&bytes).expect("an edit keeps the tables in agreement");
        }
        let call = plan.draw_call(rng, &machine);
        machine.call(&call);
        left = left.saturating_sub(1);
    }
    // Half of them with many waiters, to whatever queues there are.
    let more = if rng.chance(50) { rng.below(60) } else { 0 };
    for _ in 0..more {
        let call = plan.draw_kind(rng, &machine, OBTAIN);
        machine.call(&call);
    }
    machine
}

impl Round<'_, '_> {
    fn each_edition(&mut self) -> Compared {
        for edition in [EDITION, OLD_EDITION] {
            self.turn_to(edition);
            self.loads()?;
            self.damaged_files()?;
        }
        Ok(())
    }

    /// The round's file in this edition, and the tables that it gives.
    fn turn_to(&mut self, edition: u32) {
        (self.edition, self.comparison.edition) = (edition, edition);
        self.file = write_in(edition, &self.machine);
        if edition == OLD_EDITION {
            let live = self.machine.slots.iter_mut().filter_map(|slot| slot.live.as_mut());
            live.for_each(|live| live.maximum = greatest_maximum(live.attributes()));
            self.tables = layout::write(&self.machine);
            self.comparison.seen.drew_old(&self.machine);
        }
    }

    fn saves(&mut self) -> Compared {
        let length = self.file.len();
        let short = self.rng.below(length);
        let rooms = [length, length + 1, length + 3, LONGEST, LONGEST + 100, 4096];
        let too_short = [length - 1, length - 4, CONTENTS, CONTENTS - 1, 1, 0, short];
        let tables = Lent::new(&self.tables, self.rng.below(4));
        for room in rooms.into_iter().chain(too_short) {
            self.save(saves::STARTED, &tables, room)?;
        }
        let unstarted = Lent::new(&[0; LENGTH], 0);
        self.save(saves::UNSTARTED, &unstarted, LONGEST)?;
        self.save(saves::UNSTARTED, &unstarted, CONTENTS)?;
        self.save(saves::UNSTARTED_SHORT, &unstarted, CONTENTS - 1)?;
        self.save(saves::UNSTARTED_SHORT, &unstarted, 0)?;
        for _ in 0..10 {
            let (damaged, done) = self.damaged_tables();
            let compared = self.save(saves::DAMAGED, &damaged, LONGEST);
            let compared =
                compared.and_then(|()| self.save(saves::DAMAGED_SHORT, &damaged, CONTENTS - 1));
            compared.map_err(|said| format!("{said}; {done}"))?;
        }
        for length in self.other_lengths() {
            let mut bytes = self.tables.clone();
            bytes.resize(length, 0);
            self.save(saves::LENGTH, &Lent::new(&bytes, 0), LONGEST)?;
        }
        Ok(())
    }

    /// One save into a buffer of random bytes.
    fn save(&mut self, part: &'static str, tables: &Lent, room: usize) -> Compared {
        let bytes: Vec<u8> = (0..room).map(|_| self.rng.word() as u8).collect();
        let mut file = Lent::new(&bytes, self.rng.below(4));
        let answer = self.comparison.save(part, tables, &mut file)?;
        if part != saves::STARTED || answer.status != SUCCESSFUL {
            return Ok(());
        }
        // The same again without the writer over lent memory.
        let length = answer.value as usize;
        if file.bytes()[..length] != self.file || file.bytes()[length..] != bytes[length..] {
            return Err(format!(
                "save, {part}, room {room}: not the file, or the bytes behind it changed"
            ));
        }
        Ok(())
    }

    fn loads(&mut self) -> Compared {
        let file = self.file.clone();
        let granting = Plan::granting(&mut self.rng);
        for offset in 0..4 {
            let mut tables = Lent::new(&[0; LENGTH], offset);
            let lent = Lent::new(&file, 3 - offset);
            self.comparison.load(loads::RIGHT, &mut tables, lent.bytes())?;
            if tables.bytes() != self.tables {
                return Err(format!("load, {}: not the tables saved", loads::RIGHT));
            }
            // Every other time mostly obtains and releases, so that the waiters found are served.
            let (plan, steps) = if offset % 2 == 0 { (&self.plan, 15) } else { (&granting, 60) };
            self.comparison.go_on(loads::RIGHT, &mut self.rng, plan, &mut tables, steps)?;
        }
        let wrong = self.wrong_files();
        let mut started = vec![Lent::new(&self.tables, self.rng.below(4))];
        started.extend(started_bases()[..2].iter().map(|base| Lent::new(&layout::write(base), 0)));
        for mut tables in started {
            self.refused([loads::STARTED, loads::STARTED_WRONG], &mut tables, &wrong)?;
        }
        for _ in 0..10 {
            let (mut damaged, done) = self.damaged_tables();
            self.refused([loads::DAMAGED, loads::DAMAGED_WRONG], &mut damaged, &wrong)
                .map_err(|said| format!("{said}; {done}"))?;
        }
        for at in [0, 7, 11, LENGTH / 2, LENGTH - 1, self.rng.below(LENGTH)] {
            let mut bytes = vec![0; LENGTH];
            bytes[at] = 1 << self.rng.below(8);
            let mut damaged = Lent::new(&bytes, 0);
            self.refused([loads::DAMAGED, loads::DAMAGED_WRONG], &mut damaged, &wrong)?;
        }
        for length in self.other_lengths() {
            self.comparison.load(loads::LENGTH, &mut Lent::new(&vec![0; length], 0), &file)?;
        }
        Ok(())
    }

    /// The file saved and some wrong ones, on tables that refuse every file.
    fn refused(
        &mut self,
        [right, wrong]: [&'static str; 2],
        tables: &mut Lent,
        files: &[Vec<u8>],
    ) -> Compared {
        self.comparison.load(right, tables, &self.file)?;
        for file in files {
            self.comparison.load(wrong, tables, file)?;
        }
        Ok(())
    }

    fn wrong_files(&mut self) -> Vec<Vec<u8>> {
        let mut altered = self.file.clone();
        altered[self.rng.below(CONTENTS)] ^= 1;
        vec![Vec::new(), altered, self.file[..self.file.len() - 1].to_vec()]
    }

    /// The tables with a little damage, which they may survive, and what it was.
    fn damaged_tables(&mut self) -> (Lent, String) {
        let mut bytes = self.tables.clone();
        let times = self.rng.pick(&[1, 1, 2]);
        let done: Vec<String> =
            (0..times).map(|_| mutate(&mut self.rng, &self.machine, &mut bytes)).collect();
        (Lent::new(&bytes, self.rng.below(4)), done.join("; then "))
    }

    fn other_lengths(&mut self) -> [usize; 9] {
        let any = self.rng.below(LENGTH);
        [0, 1, 4, 8, any, LENGTH - 4, LENGTH - 1, LENGTH + 1, LENGTH + 4]
    }
}
