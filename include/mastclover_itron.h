/*
 * mastclover_itron.h - the semaphore calls of ITRON 3.0 over the tables of mastclover.h.
 *
 * For firmware that is written against cre_sem, del_sem, sig_sem, wai_sem, preq_sem, twai_sem and
 * ref_sem. Tasks, ticks and the next task are those of mastclover.h: mast_start begins, with S slots
 * (1 to 64) and N tasks (1 to 32) of priorities 1, the most urgent, to 255; mast_tick is the clock; and
 * calls of both headers may be made on the same tables.
 *
 *     static uint8_t tables[MAST_TABLES_LENGTH];               (all zeros: not started yet)
 *     static uint32_t list[MAST_ITRON_ENTRIES];                (all zeros: no semaphore yet)
 *     static const uint32_t priorities[] = { 10, 20 };         (task 1 and task 2)
 *
 *     mast_start(tables, sizeof tables, 4, priorities, 2);
 *     mast_coded made = mast_cre_sem(tables, sizeof tables, list, MAST_ITRON_ENTRIES,
 *                                    1, 3, MAST_TA_TFIFO, 0, 10);       (task 1 makes semid 3)
 *     mast_coded got = mast_twai_sem(tables, sizeof tables, list, MAST_ITRON_ENTRIES, 1, 3, 50);
 *
 * Link with libmastclover.a; these functions are an object of their own in it. examples/scanner.c is a
 * belt scanner with two tasks.
 *
 * The list. A semid is a number from 1 to S. The list says which semaphore of the tables it is: entry
 * semid - 1 is its identifier, or 0 for none. The list is lent beside the tables, has 64 entries
 * whatever S is, and begins with all of them 0. In every call `list` points to `entries` numbers,
 * aligned as uint32_t; it is not NULL and does not overlap the tables.
 * A semid may be used again after mast_del_sem; its new semaphore has another identifier. The Classic
 * name of a semaphore made here is its semid, so mast_ident finds it, unless a lower slot has a live
 * semaphore of that name. The firmware may set an entry to 0 itself (the semaphore then lives on without
 * a semid, with its slot and its waiters), or to an identifier that the list may have, as of a semaphore
 * that mast_ident found.
 * Whenever the tables are set to 0, to start afresh or to load, set the whole list to 0 too: entries
 * are not in the state file. An old list is not always noticed, since identifiers are then given again
 * and a semid could stand for another semaphore. The semaphores of a loaded file keep their slots and
 * names: give them their semids back by mast_ident, or delete them by mast_delete, before mast_cre_sem
 * of the same semid; otherwise it makes a second one, or there is no slot left.
 *
 * Agreement. The seven calls first test tables and list. The tables must not be damaged (mastclover.h
 * says more). The list must have 64 entries, each 0 or the identifier of a live counting semaphore with
 * a maximum of at most 2147483647, none twice, and 0 behind entry S - 1. Otherwise the code is MAST_E_SYS
 * (with mast_delete_mapped the status MAST_INTERNAL_ERROR), no byte and no entry has changed, and the
 * next task is 0. It says that `length` or `entries` is another number (`entries` counts entries, not
 * bytes), that something else wrote to tables or list, that the list is older than the tables, or that a
 * semaphore of the list was deleted without it: restart, or clear the entry.
 * Delete a semaphore that is in the list by mast_del_sem or mast_delete_mapped. mast_delete does not
 * know the list, nor does a MAST_EVENT_DELETE of mast_run: the identifier never comes back on these
 * tables, so the list that has it does not agree again until that entry is set to 0. The other calls of
 * mastclover.h, and mast_run without such an event, leave the list in agreement.
 *
 * Answers. Each of the seven answers a code and the next task. A code below 0 is a refusal, and a
 * refusal has changed nothing. MAST_E_OK is 0. MAST_WAITING, which ITRON does not have, says that the
 * caller now waits: as with mast_obtain it must not make calls before it is ready again, and the
 * firmware switches to `next`. How its wait ended it asks when it is ready, and only after MAST_WAITING
 * (a call that did not wait leaves the ending of an older wait there):
 *
 *     mast_answer ended = mast_task(tables, sizeof tables, task);
 *     int32_t code = ended.status == MAST_SUCCESSFUL ? mast_itron_code(ended.value) : MAST_E_SYS;
 *
 * MAST_E_OK (it has the semaphore), MAST_E_TMOUT, MAST_E_DLT, or MAST_E_RLWAI (mast_flush).
 *
 * Callers. `caller` is the number of the calling task, or 0 for an interrupt, which may call
 * mast_sig_sem and mast_ref_sem. The codes of the seven in the order in which they are tested:
 *     MAST_E_SYS    tables or list do not agree
 *     MAST_E_CTX    caller 0, but for mast_sig_sem and mast_ref_sem; a caller that waits
 *     MAST_E_ID     a caller above N; then a semid outside 1 to S
 * and then those that the call names below. Before mast_start N and S are 0, so caller 0 gets MAST_E_CTX,
 * or from mast_sig_sem and mast_ref_sem MAST_E_ID, and every other caller MAST_E_ID.
 * No call may be interrupted by another one on the same tables or list: if handlers make calls, mask
 * interrupts around each call, around the switch to `next`, and around your own accesses to the list.
 *
 * What differs from the manual of RTEMS ITRON: the caller is an argument; the packets T_CSEM and T_RSEM
 * are arguments and a struct; exinf is not taken, and 0 when told; no call blocks, MAST_WAITING tells of
 * the wait; one unit of tmout is one mast_tick, not a millisecond; a semid is unsigned, so a negative one
 * is above S; MAST_E_SYS is given, MAST_E_NOMEM when the slots have run out, MAST_E_CTX to any caller that
 * waits and by mast_cre_sem and mast_del_sem to an interrupt, MAST_E_ID to a caller above N; E_OACV and the
 * EN_ codes are not; a wait is ended by mast_flush in place of rel_wai, for all waiters.
 */
#ifndef MASTCLOVER_ITRON_H
#define MASTCLOVER_ITRON_H

#include "mastclover.h"

#ifdef __cplusplus
extern "C" {
#endif

/* The entries of the list; no other number is accepted. */
#define MAST_ITRON_ENTRIES 64

/* The greatest maximum of a semaphore in the list, also of one that mast_create made. */
#define MAST_ITRON_MAXIMUM_COUNT 2147483647

/* Codes, with the names and numbers of ITRON (E_OK and so on). */
#define MAST_E_OK 0
#define MAST_E_SYS (-5)    /* tables or list do not agree; of mast_itron_code: no task's answer */
#define MAST_E_NOMEM (-10) /* no free slot with a generation below 65535; mast_create takes slots too */
#define MAST_E_RSATR (-24) /* sematr other than 0 or 1 */
#define MAST_E_PAR (-33)   /* isemcnt, maxsem or tmout out of its range */
#define MAST_E_ID (-35)    /* no such task; semid outside 1 to S */
#define MAST_E_NOEXS (-52) /* semid has no semaphore */
#define MAST_E_OBJ (-63)   /* semid has a semaphore already */
#define MAST_E_CTX (-69)   /* an interrupt may not make this call; the caller is waiting */
#define MAST_E_QOVR (-73)  /* the count is at its maximum */
#define MAST_E_DLT (-81)   /* a task's answer only: the semaphore was deleted */
#define MAST_E_TMOUT (-85) /* a poll found count 0; a task's answer: its ticks ran out */
#define MAST_E_RLWAI (-86) /* a task's answer only: flushed */

/* sematr of mast_cre_sem. */
#define MAST_TA_TFIFO 0 /* waiters are served by arrival */
#define MAST_TA_TPRI 1  /* by working priority at that moment, equals by arrival */

/*
 * tmout of mast_twai_sem; any number above 0 is so many ticks of mast_tick. These are not the timeouts
 * of mast_obtain, where 0 is the standard limit.
 */
#define MAST_TMO_FEVR (-1) /* for ever */
#define MAST_TMO_POL 0     /* not at all */

/* What each call answers: its code, and the task that should run now; 0 if none, and with MAST_E_SYS. */
typedef struct {
    int32_t code;
    uint32_t next;
} mast_coded;

/* Of mast_ref_sem besides: exinf 0, wtsk 1 if a task waits, else 0, and the count; all 0 when refused. */
typedef struct {
    int32_t code;
    uint32_t next;
    int32_t exinf;
    int32_t wtsk;
    int32_t semcnt;
} mast_reference;

/*
 * Makes a counting semaphore for semid, with the count isemcnt and the maximum maxsem.
 * MAST_E_OBJ if semid has one; MAST_E_RSATR; MAST_E_PAR if isemcnt is below 0, maxsem below 1, or
 * isemcnt above maxsem; MAST_E_NOMEM.
 */
mast_coded mast_cre_sem(uint8_t *tables, size_t length, uint32_t *list, size_t entries, uint32_t caller,
                       uint32_t semid, uint32_t sematr, int32_t isemcnt, int32_t maxsem);

/*
 * Deletes semid's semaphore; its waiters get MAST_E_DLT, in the order in which they would have been
 * served. semid has none afterwards. MAST_E_NOEXS.
 */
mast_coded mast_del_sem(uint8_t *tables, size_t length, uint32_t *list, size_t entries, uint32_t caller,
                       uint32_t semid);

/*
 * Gives one back: a waiter gets it, the first in its order (MAST_TA_TFIFO or MAST_TA_TPRI), or the count
 * goes up by one. MAST_E_NOEXS; MAST_E_QOVR if the count is at its maximum. An interrupt may call it.
 */
mast_coded mast_sig_sem(uint8_t *tables, size_t length, const uint32_t *list, size_t entries,
                       uint32_t caller, uint32_t semid);

/* Takes one, or waits for ever. MAST_E_NOEXS; MAST_WAITING if a wait begins. */
mast_coded mast_wai_sem(uint8_t *tables, size_t length, const uint32_t *list, size_t entries,
                       uint32_t caller, uint32_t semid);

/* Takes one, or does not wait. MAST_E_NOEXS; MAST_E_TMOUT if the count is 0. */
mast_coded mast_preq_sem(uint8_t *tables, size_t length, const uint32_t *list, size_t entries,
                        uint32_t caller, uint32_t semid);

/*
 * Takes one, or waits for tmout ticks: the wait ends with the tmout-th mast_tick. MAST_TMO_FEVR waits
 * for ever, as mast_wai_sem; MAST_TMO_POL does not wait, as mast_preq_sem. MAST_E_PAR if tmout is -2
 * or less; MAST_E_NOEXS; MAST_E_TMOUT if it is MAST_TMO_POL and the count 0; MAST_WAITING.
 */
mast_coded mast_twai_sem(uint8_t *tables, size_t length, const uint32_t *list, size_t entries,
                        uint32_t caller, uint32_t semid, int32_t tmout);

/*
 * Tells of semid's semaphore. exinf, wtsk and semcnt are 0 when it is refused. MAST_E_NOEXS. An
 * interrupt may call it.
 */
mast_reference mast_ref_sem(const uint8_t *tables, size_t length, const uint32_t *list, size_t entries,
                            uint32_t caller, uint32_t semid);

/*
 * mast_delete, with its answers, for tables that have a list: done, it sets the entry of that
 * identifier, if there is one, to 0. Any identifier may be given, in the list or not. Refused, nothing
 * has changed. MAST_INTERNAL_ERROR, before all else, if tables or list do not agree.
 */
mast_answer mast_delete_mapped(uint8_t *tables, size_t length, uint32_t *list, size_t entries,
                               uint32_t caller, mast_id id);

/*
 * A task's answer, the value of mast_task, as a code: 0 and 100 stay, 6, 7 and 13 are MAST_E_TMOUT,
 * MAST_E_DLT and MAST_E_RLWAI, and any other number is MAST_E_SYS.
 */
int32_t mast_itron_code(uint32_t answer);

#ifdef __cplusplus
}
#endif

#endif
