//! A round's file damaged in every way, each time loaded on an unstarted machine.

use crate::fuzz::lent::Lent;
use crate::fuzz::mutate::mutate;
use crate::fuzz::rng::Rng;
use crate::inplace::state::file_of;
use crate::layout::{set_word, word, LENGTH};
use crate::state::comparison::Compared;
use crate::state::round::Round;
use crate::state::seen::{loads, saves};
use crate::state::sheet::{wrapped, Sheet};
use crate::state::{slot_numbers, BODIES, LONGEST, OLD_EDITION, TASK_NUMBERS};
use crate::status::{MOST_SLOTS, MOST_TASKS, SUCCESSFUL};

/// How many calls follow a damaged file that was loaded and saved again, and how often in a hundred.
const CALLS_AFTER: usize = 4;
const GOES_ON: usize = 2;

impl Round<'_, '_> {
    pub fn damaged_files(&mut self) -> Compared {
        self.every_byte()?;
        self.every_cut()?;
        self.lengthened()?;
        self.every_word()?;
        self.exchanged()?;
        self.put_together()?;
        self.resized()?;
        self.of_damaged_tables()?;
        self.random_files()
    }

    /// Loads one damaged file, and at times goes on if it is valid all the same.
    fn load_damaged(
        &mut self,
        part: &'static str,
        file: &[u8],
        damage: impl Fn() -> String,
    ) -> Compared {
        let lent = Lent::new(file, self.rng.below(4));
        self.load_on_blank(part, lent.bytes()).map_err(|said| format!("{said}; {}", damage()))
    }

    fn load_on_blank(&mut self, part: &'static str, file: &[u8]) -> Compared {
        let answer = self.comparison.load(part, &mut self.blank, file)?;
        if answer.status == SUCCESSFUL {
            if self.rng.chance(GOES_ON) {
                self.save_again(file)?;
                let (rng, plan) = (&mut self.rng, &self.plan);
                self.comparison.go_on(part, rng, plan, &mut self.blank, CALLS_AFTER)?;
            }
            self.blank.bytes_mut().fill(0);
        }
        Ok(())
    }

    /// The tables loaded from a file are saved as that file; from one of edition 1 as a longer file, which says the same.
    fn save_again(&mut self, file: &[u8]) -> Compared {
        let old = word(file, 0) == OLD_EDITION;
        let mut again = Lent::new(&vec![0; if old { LONGEST } else { file.len() }], 0);
        self.comparison.save(saves::LOADED, &self.blank, &mut again)?;
        let said = file_of(self.blank.bytes(), OLD_EDITION).filter(|_| old);
        match said.as_deref().unwrap_or(again.bytes()) == file {
            true => Ok(()),
            false => Err(format!("save, {}: not the file that was loaded", saves::LOADED)),
        }
    }

    fn every_byte(&mut self) -> Compared {
        let mut file = self.file.clone();
        for at in 0..file.len() {
            let any = self.rng.between(1, 255) as u8;
            for mask in [1, 0x80, 0xff, any] {
                file[at] ^= mask;
                self.load_damaged(loads::BYTE, &file, || format!("byte {at}, xor {mask}"))?;
                file[at] ^= mask;
            }
        }
        Ok(())
    }

    /// Cut at every length, with the rest of the file still lying behind in memory.
    fn every_cut(&mut self) -> Compared {
        let whole = self.file.clone();
        for length in 0..whole.len() {
            self.load_on_blank(loads::CUT, &whole[..length])?;
        }
        Ok(())
    }

    fn lengthened(&mut self) -> Compared {
        for more in 1..=8 {
            let any: Vec<u8> = (0..more).map(|_| self.rng.word() as u8).collect();
            for behind in [vec![0; more], any, self.file[..more].to_vec()] {
                let file = [&self.file[..], &behind].concat();
                self.load_damaged(loads::LONGER, &file, || format!("bytes {behind:?} behind it"))?;
            }
        }
        Ok(())
    }

    fn every_word(&mut self) -> Compared {
        let mut file = self.file.clone();
        let length = file.len() as u32;
        for at in 0..file.len() / 4 {
            let was = word(&file, at);
            let values = [0, 1, 4, 55, 56, 57, 0x7fff_ffff, 0xffff_ffff, 0xffff_fff0, length];
            let near = [was.wrapping_sub(4), was.wrapping_add(4), was.wrapping_sub(1), was ^ 65536];
            for value in values.into_iter().chain(near).filter(|&value| value != was) {
                set_word(&mut file, at, value);
                self.load_damaged(loads::WORD, &file, || {
                    format!("word {at} was {was}, set to {value}")
                })?;
            }
            set_word(&mut file, at, was);
        }
        Ok(())
    }

    /// Each word exchanged with its neighbour, with the same number of the next record, and with any.
    fn exchanged(&mut self) -> Compared {
        let file = self.file.clone();
        let words = file.len() / 4;
        for one in 0..words {
            let any = self.rng.below(words);
            for other in [one + 1, one + TASK_NUMBERS, one + slot_numbers(self.edition), any] {
                if other >= words || word(&file, one) == word(&file, other) {
                    continue;
                }
                let mut exchanged = file.clone();
                set_word(&mut exchanged, one, word(&file, other));
                set_word(&mut exchanged, other, word(&file, one));
                let damage = || format!("words {one} and {other} exchanged");
                self.load_damaged(loads::EXCHANGED, &exchanged, damage)?;
            }
        }
        Ok(())
    }

    /// The bodies with other counts, misplaced, and with a length whose sums pass over 4294967295.
    fn put_together(&mut self) -> Compared {
        let sheet = Sheet::of(self.edition, &self.machine);
        for (name, recounted) in sheet.recounted() {
            self.load_damaged(loads::RECOUNTED, &recounted.file(), || name.clone())?;
        }
        for (name, misplaced) in sheet.misplaced() {
            self.load_damaged(loads::MISPLACED, &misplaced.file(), || name.clone())?;
        }
        for index in 0..BODIES {
            let record = 4 * slot_numbers(self.edition) as u32;
            for back in [1, 4, 16, record, self.rng.between(1, self.file.len() as u32)] {
                let file = wrapped(&self.file, index, back);
                let damage = || format!("the length of body {} is {back} below zero", index + 1);
                self.load_damaged(loads::WRAPPED, &file, damage)?;
            }
        }
        Ok(())
    }

    /// A body longer or shorter by some numbers, with a table of contents that says so.
    fn resized(&mut self) -> Compared {
        for _ in 0..40 {
            let mut sheet = Sheet::of(self.edition, &self.machine);
            let index = self.rng.below(BODIES);
            let body = sheet.body(index);
            let count = self.rng.pick(&[1, 1, 2, TASK_NUMBERS, slot_numbers(self.edition)]);
            let at = self.rng.below(body.len() + 1);
            let longer = self.rng.chance(50) || body.len() < at + count;
            if longer {
                let number = self.rng.pick(&[0, 0, 1, 2, 32]);
                body.splice(at..at, vec![number; count]).for_each(drop);
            } else {
                body.drain(at..at + count);
            }
            let damage = || format!("{count} numbers at {at} of body {}, more: {longer}", index + 1);
            self.load_damaged(loads::RESIZED, &sheet.file(), damage)?;
        }
        Ok(())
    }

    /// Files that are all right but for the tables in them.
    fn of_damaged_tables(&mut self) -> Compared {
        for _ in 0..150 {
            let mut bytes = self.tables.clone();
            let times = self.rng.pick(&[1, 1, 1, 2, 3]);
            let done: Vec<String> =
                (0..times).map(|_| mutate(&mut self.rng, &self.machine, &mut bytes)).collect();
            match file_of(&bytes, self.edition) {
                Some(file) if file != self.file => {
                    self.load_damaged(loads::TABLES, &file, || done.join("; then "))?;
                }
                _ => {}
            }
        }
        Ok(())
    }

    fn random_files(&mut self) -> Compared {
        for _ in 0..20 {
            let any = self.rng.below(LONGEST + 100);
            let length = self.rng.pick(&[any, self.file.len(), LENGTH]);
            // Small numbers in whole words pass the first tests of a reader more often.
            let words = self.rng.chance(50);
            let byte = |at: usize| if words && at % 4 != 3 { 0 } else { self.rng.word() as u8 };
            let file: Vec<u8> = (0..length).map(byte).collect();
            self.load_damaged(loads::RANDOM, &file, || format!("{length} random bytes"))?;
            let sheet = Sheet::new(self.edition, random_bodies(self.edition, &mut self.rng));
            self.load_damaged(loads::BODIES, &sheet.file(), || format!("{sheet:?}"))?;
        }
        Ok(())
    }
}

/// Bodies of lengths that fit each other, of small numbers.
fn random_bodies(edition: u32, rng: &mut Rng) -> [Vec<u32>; BODIES] {
    let (tasks, slots) = (1 + rng.below(MOST_TASKS), 1 + rng.below(MOST_SLOTS));
    let most = rng.pick(&[1, 2, 33]);
    let mut numbers = |count: usize| (0..count).map(|_| rng.between(0, most)).collect::<Vec<u32>>();
    let (task_numbers, slot_numbers) =
        (numbers(tasks * TASK_NUMBERS), numbers(slots * slot_numbers(edition)));
    let mut queues = Vec::new();
    for _ in 0..slots {
        let queue = numbers(1);
        let length = queue[0] as usize % 3;
        queues.push(length as u32);
        queues.extend(numbers(length));
    }
    let ready = numbers(tasks);
    [task_numbers, slot_numbers, queues, ready]
}
