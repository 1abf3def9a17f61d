//! The library's ITRON functions of include/mastclover_itron.h.

use crate::call::Answer;
use crate::ffi::{Library, MastAnswer};
use crate::itron::{Given, Itron, Service};

#[repr(C)]
struct MastCoded {
    code: i32,
    next: u32,
}

#[repr(C)]
struct MastReference {
    code: i32,
    next: u32,
    exinf: i32,
    wtsk: i32,
    semcnt: i32,
}

unsafe extern "C" {
    fn mast_cre_sem(
        tables: *mut u8,
        length: usize,
        list: *mut u32,
        entries: usize,
        caller: u32,
        semid: u32,
        sematr: u32,
        isemcnt: i32,
        maxsem: i32,
    ) -> MastCoded;
    fn mast_del_sem(
        tables: *mut u8,
        length: usize,
        list: *mut u32,
        entries: usize,
        caller: u32,
        semid: u32,
    ) -> MastCoded;
    fn mast_sig_sem(
        tables: *mut u8,
        length: usize,
        list: *const u32,
        entries: usize,
        caller: u32,
        semid: u32,
    ) -> MastCoded;
    fn mast_wai_sem(
        tables: *mut u8,
        length: usize,
        list: *const u32,
        entries: usize,
        caller: u32,
        semid: u32,
    ) -> MastCoded;
    fn mast_preq_sem(
        tables: *mut u8,
        length: usize,
        list: *const u32,
        entries: usize,
        caller: u32,
        semid: u32,
    ) -> MastCoded;
    fn mast_twai_sem(
        tables: *mut u8,
        length: usize,
        list: *const u32,
        entries: usize,
        caller: u32,
        semid: u32,
        tmout: i32,
    ) -> MastCoded;
    fn mast_ref_sem(
        tables: *const u8,
        length: usize,
        list: *const u32,
        entries: usize,
        caller: u32,
        semid: u32,
    ) -> MastReference;
    fn mast_delete_mapped(
        tables: *mut u8,
        length: usize,
        list: *mut u32,
        entries: usize,
        caller: u32,
        id: u32,
    ) -> MastAnswer;
    fn mast_itron_code(answer: u32) -> i32;
}

impl From<MastCoded> for Given {
    fn from(MastCoded { code, next }: MastCoded) -> Self {
        Given::Code { code, next }
    }
}

impl From<MastReference> for Given {
    fn from(MastReference { code, next, exinf, wtsk, semcnt }: MastReference) -> Self {
        Given::Reference { code, next, exinf, wtsk, semcnt }
    }
}

impl Itron for Library {
    fn serve(&mut self, tables: &mut [u8], list: &mut [u32], service: &Service) -> Given {
        // Each pointer and its length are those of one slice, which nobody else holds meanwhile. Those lent to be
        // read are writable all the same, so that a write is seen.
        let (bytes, length) = (tables.as_mut_ptr(), tables.len());
        let (list, entries) = (list.as_mut_ptr(), list.len());
        unsafe {
            match *service {
                Service::CreSem { caller, semid, sematr, isemcnt, maxsem } => {
                    mast_cre_sem(bytes, length, list, entries, caller, semid, sematr, isemcnt, maxsem)
                        .into()
                }
                Service::DelSem { caller, semid } => {
                    mast_del_sem(bytes, length, list, entries, caller, semid).into()
                }
                Service::SigSem { caller, semid } => {
                    mast_sig_sem(bytes, length, list, entries, caller, semid).into()
                }
                Service::WaiSem { caller, semid } => {
                    mast_wai_sem(bytes, length, list, entries, caller, semid).into()
                }
                Service::PreqSem { caller, semid } => {
                    mast_preq_sem(bytes, length, list, entries, caller, semid).into()
                }
                Service::TwaiSem { caller, semid, tmout } => {
                    mast_twai_sem(bytes, length, list, entries, caller, semid, tmout).into()
                }
                Service::RefSem { caller, semid } => {
                    mast_ref_sem(bytes, length, list, entries, caller, semid).into()
                }
                Service::Delete { caller, id } => {
                    let answer = mast_delete_mapped(bytes, length, list, entries, caller, id);
                    Given::Classic(Answer::from(answer))
                }
            }
        }
    }

    fn code(&mut self, answer: u32) -> i32 {
        unsafe { mast_itron_code(answer) }
    }
}
