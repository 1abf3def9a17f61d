//! The library's C functions, behind safe wrappers over lent bytes.

mod itron;

use crate::call::{Answer, Call, Manager};
use crate::sections::lent::Lent;
use crate::state::Keeper;

#[repr(C)]
struct MastAnswer {
    status: u32,
    value: u32,
    next: u32,
}

unsafe extern "C" {
    fn mast_start(
        tables: *mut u8,
        length: usize,
        slots: u32,
        priorities: *const u32,
        count: usize,
    ) -> MastAnswer;
    fn mast_create(
        tables: *mut u8,
        length: usize,
        caller: u32,
        name: u32,
        count: u32,
        attributes: u32,
        maximum: u32,
    ) -> MastAnswer;
    fn mast_ident(tables: *const u8, length: usize, name: u32) -> MastAnswer;
    fn mast_ident_looked(tables: *const u8, length: usize, name: u32, looked: *mut u32) -> MastAnswer;
    fn mast_delete(tables: *mut u8, length: usize, caller: u32, id: u32) -> MastAnswer;
    fn mast_obtain(
        tables: *mut u8,
        length: usize,
        caller: u32,
        id: u32,
        options: u32,
        timeout: u32,
    ) -> MastAnswer;
    fn mast_release(tables: *mut u8, length: usize, caller: u32, id: u32) -> MastAnswer;
    fn mast_flush(tables: *mut u8, length: usize, caller: u32, id: u32) -> MastAnswer;
    fn mast_tick(tables: *mut u8, length: usize) -> MastAnswer;
    fn mast_task(tables: *const u8, length: usize, task: u32) -> MastAnswer;
    fn mast_save(tables: *const u8, length: usize, file: *mut u8, room: usize) -> MastAnswer;
    fn mast_load(tables: *mut u8, length: usize, file: *const u8, file_length: usize) -> MastAnswer;
    fn mast_run(
        tables: *mut u8,
        length: usize,
        scripts: *const u32,
        script_numbers: usize,
        events: *const u32,
        event_numbers: usize,
        ids: *const u32,
        id_count: usize,
        cells: *mut u32,
        cell_count: usize,
        locals: *mut u32,
        local_count: usize,
        places: *mut u32,
        place_numbers: usize,
        grants: *mut u32,
        grant_numbers: usize,
    ) -> MastAnswer;
}

impl From<MastAnswer> for Answer {
    fn from(answer: MastAnswer) -> Self {
        Answer::new(answer.status, answer.value, answer.next)
    }
}

// In every wrapper the pointer and the length are those of one slice, which nobody else holds meanwhile.

pub fn start(tables: &mut [u8], slots: u32, priorities: &[u32]) -> Answer {
    // Without priorities C passes a null pointer, and so does this.
    let first = if priorities.is_empty() { std::ptr::null() } else { priorities.as_ptr() };
    unsafe { mast_start(tables.as_mut_ptr(), tables.len(), slots, first, priorities.len()) }.into()
}

pub fn create(
    tables: &mut [u8],
    caller: u32,
    name: u32,
    count: u32,
    attributes: u32,
    maximum: u32,
) -> Answer {
    unsafe { mast_create(tables.as_mut_ptr(), tables.len(), caller, name, count, attributes, maximum) }
        .into()
}

pub fn ident(tables: &[u8], name: u32) -> Answer {
    unsafe { mast_ident(tables.as_ptr(), tables.len(), name) }.into()
}

/// No search looks at so many slots, so a count that is not written is not taken for one.
const UNWRITTEN: u32 = 0xA5A5_5A5A;

pub fn ident_looked(tables: &mut [u8], name: u32) -> (Answer, u32) {
    // The count between two guards, which a wider write would change.
    let mut numbers = [!UNWRITTEN, UNWRITTEN, !UNWRITTEN];
    let place = numbers.as_mut_ptr().wrapping_add(1);
    let answer = unsafe { mast_ident_looked(tables.as_mut_ptr(), tables.len(), name, place) };
    let [before, looked, after] = numbers;
    assert!([before, after] == [!UNWRITTEN; 2], "numbers beside the count were written");
    (answer.into(), looked)
}

pub fn delete(tables: &mut [u8], caller: u32, id: u32) -> Answer {
    unsafe { mast_delete(tables.as_mut_ptr(), tables.len(), caller, id) }.into()
}

pub fn obtain(tables: &mut [u8], caller: u32, id: u32, options: u32, timeout: u32) -> Answer {
    unsafe { mast_obtain(tables.as_mut_ptr(), tables.len(), caller, id, options, timeout) }.into()
}

pub fn release(tables: &mut [u8], caller: u32, id: u32) -> Answer {
    unsafe { mast_release(tables.as_mut_ptr(), tables.len(), caller, id) }.into()
}

pub fn flush(tables: &mut [u8], caller: u32, id: u32) -> Answer {
    unsafe { mast_flush(tables.as_mut_ptr(), tables.len(), caller, id) }.into()
}

pub fn tick(tables: &mut [u8]) -> Answer {
    unsafe { mast_tick(tables.as_mut_ptr(), tables.len()) }.into()
}

pub fn task(tables: &[u8], task: u32) -> Answer {
    unsafe { mast_task(tables.as_ptr(), tables.len(), task) }.into()
}

// Without a file C passes a null pointer, and so do these.

pub fn save(tables: &[u8], file: &mut [u8]) -> Answer {
    let first = if file.is_empty() { std::ptr::null_mut() } else { file.as_mut_ptr() };
    unsafe { mast_save(tables.as_ptr(), tables.len(), first, file.len()) }.into()
}

pub fn load(tables: &mut [u8], file: &[u8]) -> Answer {
    let first = if file.is_empty() { std::ptr::null() } else { file.as_ptr() };
    unsafe { mast_load(tables.as_mut_ptr(), tables.len(), first, file.len()) }.into()
}

/// Numbers between two guards, which a write outside of what is lent would change.
struct Guarded {
    numbers: Vec<u32>,
    guard: u32,
}

impl Guarded {
    const WIDTH: usize = 4;

    fn new(numbers: &[u32], guard: u32) -> Self {
        let guards = [guard; Self::WIDTH];
        Guarded { numbers: [&guards, numbers, &guards].concat(), guard }
    }

    fn middle(&mut self) -> &mut [u32] {
        let end = self.numbers.len() - Self::WIDTH;
        &mut self.numbers[Self::WIDTH..end]
    }

    fn put_back(mut self, numbers: &mut [u32]) {
        numbers.copy_from_slice(self.middle());
        let (guard, end) = (self.guard, self.numbers.len() - Self::WIDTH);
        let mut around = self.numbers[..Self::WIDTH].iter().chain(&self.numbers[end..]);
        assert!(around.all(|&number| number == guard), "numbers outside of what is lent were written");
    }
}

/// A run on what is lent.
pub fn run(lent: &mut Lent) -> Answer {
    let guarded = |numbers: &[u32]| Guarded::new(numbers, 0xA5A5_5A5A);
    let (mut cells, mut locals) = (guarded(&lent.cells), guarded(&lent.locals));
    let (mut places, mut grants) = (guarded(&lent.places), guarded(&lent.grants));
    let (cell, local) = (cells.middle(), locals.middle());
    let (place, grant) = (places.middle(), grants.middle());
    let answer = unsafe {
        mast_run(
            lent.tables.as_mut_ptr(),
            lent.tables.len(),
            lent.scripts.as_ptr(),
            lent.scripts.len(),
            lent.events.as_ptr(),
            lent.events.len(),
            lent.ids.as_ptr(),
            lent.ids.len(),
            cell.as_mut_ptr(),
            cell.len(),
            local.as_mut_ptr(),
            local.len(),
            place.as_mut_ptr(),
            place.len(),
            grant.as_mut_ptr(),
            grant.len(),
        )
    };
    cells.put_back(&mut lent.cells);
    locals.put_back(&mut lent.locals);
    places.put_back(&mut lent.places);
    grants.put_back(&mut lent.grants);
    answer.into()
}

/// The library as a manager.
pub struct Library;

impl Manager for Library {
    fn call(&mut self, tables: &mut [u8], call: &Call) -> Answer {
        match *call {
            Call::Start { slots, ref priorities } => start(tables, slots, priorities),
            Call::Create { caller, name, count, attributes, maximum } => {
                create(tables, caller, name, count, attributes, maximum)
            }
            Call::Ident { name } => ident(tables, name),
            Call::Delete { caller, id } => delete(tables, caller, id),
            Call::Obtain { caller, id, options, timeout } => {
                obtain(tables, caller, id, options, timeout)
            }
            Call::Release { caller, id } => release(tables, caller, id),
            Call::Flush { caller, id } => flush(tables, caller, id),
            Call::Tick => tick(tables),
            Call::Task { task: number } => task(tables, number),
        }
    }

    fn ident_looked(&mut self, tables: &mut [u8], name: u32) -> (Answer, u32) {
        ident_looked(tables, name)
    }
}

impl Keeper for Library {
    fn save(&mut self, tables: &[u8], file: &mut [u8]) -> Answer {
        save(tables, file)
    }

    fn load(&mut self, tables: &mut [u8], file: &[u8]) -> Answer {
        load(tables, file)
    }
}
