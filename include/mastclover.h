/*
 * mastclover.h - a semaphore manager with the rules of RTEMS Classic, for one processor.
 *
 * The manager keeps tasks and semaphores in memory that the caller lends; it has no state of its
 * own, allocates nothing and calls only memcpy, memmove and memset. It does not switch tasks
 * either: every call says in `next` which task should run now, and the firmware switches to it.
 *
 *     static uint8_t tables[MAST_TABLES_LENGTH];               (all zeros: not started yet)
 *     static const uint32_t priorities[] = { 10, 20 };         (task 1 and task 2)
 *
 *     mast_answer answer = mast_start(tables, sizeof tables, 4, priorities, 2);
 *     answer = mast_create(tables, sizeof tables, 1, 77, 1, MAST_BINARY_SEMAPHORE | MAST_PRIORITY, 1);
 *     mast_id bus = answer.value;
 *     answer = mast_obtain(tables, sizeof tables, 2, bus, MAST_WAIT, MAST_NO_TIMEOUT);
 *
 * Link with libmastclover.a: `make lib` builds it for x86-64 Linux, `make lib TARGET=cortex-m4` (or
 * another line of tools/targets/table.txt) for a board; docs/TARGETS.md has the code and stack.
 * mastclover_itron.h has the semaphore calls of ITRON 3.0 over the same tables.
 *
 * Tasks are numbered 1 to N in the order of their priorities at start, N at most 32. Priority 1 is
 * the most urgent, 255 the least. A task is ready, or waits on one semaphore.
 *
 * Working priorities. A semaphore with MAST_INHERIT_PRIORITY lends the urgency of its waiters to its
 * owner, so that a task of middling priority does not run while a more urgent one waits for a less
 * urgent one. A task's working priority is the least number among its own priority and those of all
 * tasks that wait on such semaphores it owns, and so on along a chain of owners, each link such a
 * semaphore. A waiter on any other semaphore lends nothing. The next task, and every queue with
 * MAST_PRIORITY, goes by working priorities at that moment. Nothing of this is stored: when a wait ends
 * or the semaphore is released for the last time, the owner goes by what it then has, its own priority
 * or what it inherits by another semaphore. Without such semaphores a working priority is the task's own.
 *
 * Equals. Of ready tasks of one working priority the one that has been ready longest goes first. The
 * tables keep the ready tasks in a sequence: 1 to N at start; a task that begins to wait leaves it, and
 * one whose wait ends joins its end. mast_delete and mast_flush wake in the order in which the waiters
 * would have been served, mast_tick in the order of the tasks' numbers. A call that begins or ends no
 * wait moves nobody, so a task that polls keeps its turn, and a task whose working priority changes
 * keeps its place.
 *
 * Callers. `caller` is the number of the task that makes the call. An interrupt is caller 0; it may
 * call mast_release and mast_flush. mast_start, mast_ident, mast_ident_looked, mast_tick, mast_task,
 * mast_save, mast_load and mast_run have no caller and may be called from anywhere. A call must not be
 * interrupted by another one on the same tables: mask interrupts around each call, and around the
 * switch to `next`, if handlers make calls too. examples/first.c shows both.
 *
 * Waiting. mast_obtain never blocks. MAST_WAITING says that the caller now waits: it must not make
 * calls before it is ready again. How its wait ended is then the value of mast_task:
 * MAST_SUCCESSFUL (it has the semaphore), MAST_TIMEOUT, MAST_OBJECT_WAS_DELETED or MAST_UNSATISFIED
 * (flushed).
 *
 * Upgrading. A timeout of 0 used to wait for ever, and a task that had it by accident hung. Now 0 is
 * the standard limit, 500 ticks, and 4294967295, which was that many ticks, is for ever. Source that
 * says MAST_NO_TIMEOUT still waits for ever once it is compiled anew; an object from before hands over
 * 0 and waits 500 ticks, so compile all of it with this header and link this library. A literal 0, or
 * one that is computed or left in cleared memory, now waits 500 ticks at the most, and ends with
 * MAST_TIMEOUT if nothing ends the wait before; so too in the rows and events of mast_run. Where for
 * ever is meant say MAST_NO_TIMEOUT, keep it in a uint32_t, and compare with MAST_NO_TIMEOUT, not with
 * 0. MAST_NO_WAIT and the calls of mastclover_itron.h are as they were. Tables and state files from
 * before stay valid: 0 ticks left is for ever there, as it was.
 * Queues are stored in the order of arrival. With MAST_PRIORITY they used to be stored in the order of
 * priorities. Tables and state files from before stay valid, and their waiters are served in the same
 * order; but a firmware or a desk that reads a queue out of them no longer finds who is served next at
 * its front. Files with a semaphore of MAST_INHERIT_PRIORITY are refused by a library from before.
 * mast_next_task of mastrecords.h takes two arguments more.
 *
 * Identifiers are generation * 65536 + slot, with slots from 1. A slot's generation goes up by one
 * with each create, so the identifier of a deleted semaphore is never given again, and a slot freed
 * at generation 65535 is not used again; mast_load alone goes back to the time of its file.
 *
 * Refusals. Every status but MAST_SUCCESSFUL and MAST_WAITING is a refusal: no byte of the tables
 * has changed. Each call names its statuses in the order in which they are tested.
 *
 * The tables. Words of four bytes, high byte first, at any alignment:
 *     word 0              N, the number of tasks
 *     word 1              S, the number of slots
 *     words 2 to 129      four for each of 32 tasks: priority, answer, identifier waited on, ticks
 *                         left
 *     words 130 to 2753   41 for each of 64 slots: generation, live (0 or 1), name, attributes,
 *                         count, owner, nest, maximum, queue length, and 32 of the queue (task
 *                         numbers, in the order of arrival)
 *     word 2754           how many tasks are ready
 *     words 2755 to 2786  the sequence of the ready tasks (task numbers, the longest ready first)
 * What lies beyond N, S or the length of a queue or the sequence is 0, and so is a free slot but for
 * its generation.
 * Every call tests the whole of the tables first: MAST_INTERNAL_ERROR says that the memory has
 * another length, or that a number is out of its limits or contradicts another, so something else
 * wrote to it. The call has then changed nothing.
 *
 * The state file. mast_save writes the tables of a started machine as a file to keep or to send home,
 * and mast_load reads it on a machine that is not started. It is a table of contents and four bodies,
 * all of numbers of four bytes, high byte first; offsets, from the file's start, and lengths are in
 * bytes:
 *     contents            edition 2, the number of bodies 4, then kind, offset and length of each
 *                         body: 14 numbers, so the first body is at byte 56
 *     body of kind 1      four for each of N tasks: priority, answer, identifier waited on or 0,
 *                         ticks left
 *     body of kind 2      eight for each of S slots: generation, live (0 or 1), name, attributes,
 *                         count, owner, nest, maximum
 *     body of kind 3      for each of S slots: queue length, then as many task numbers, in the order
 *                         of arrival
 *     body of kind 4      the sequence of the ready tasks (task numbers, the longest ready first)
 * The bodies stand in this order without gaps, and nothing follows the last. The lengths of the first
 * two say N and S, that of the last how many tasks are ready; the whole is 56 + 20 * N + 36 * S bytes.
 * mast_load accepts exactly the files that mast_save writes of some started tables that are not
 * damaged, byte for byte, whether or not calls could lead to such tables, and those of edition 1, and
 * gives back those tables. Edition 1, which mast_save does not write, has 1 as its first number and
 * no maximum, so seven numbers a slot: live slots get MAST_MAXIMUM_COUNT if counting and 1 if not, and
 * the tables so made must not be damaged either.
 */
#ifndef MASTCLOVER_H
#define MASTCLOVER_H

#include <stddef.h>
#include <stdint.h>

#ifdef __cplusplus
extern "C" {
#endif

/* The length in bytes of the tables; no other length is accepted. */
#define MAST_TABLES_LENGTH 11148

/* The length in bytes of the longest state file, that of 32 tasks and 64 slots. */
#define MAST_STATE_MAXIMUM 3000

/* The limits of mast_start. */
#define MAST_MAXIMUM_TASKS 32
#define MAST_MAXIMUM_SLOTS 64
#define MAST_MINIMUM_PRIORITY 1   /* the most urgent, as in RTEMS */
#define MAST_MAXIMUM_PRIORITY 255

/* The greatest maximum of mast_create: as high as a count goes. */
#define MAST_MAXIMUM_COUNT 4294967295u

/* Statuses, with the names and numbers of RTEMS (RTEMS_SUCCESSFUL and so on). */
#define MAST_SUCCESSFUL 0             /* done; a task's answer: it got it, or never waited */
#define MAST_INVALID_NAME 3           /* name 0, or no live semaphore has the name */
#define MAST_INVALID_ID 4             /* no live semaphore has the identifier; no such task; mast_run */
#define MAST_TOO_MANY 5               /* no slot is left for another semaphore */
#define MAST_TIMEOUT 6                /* a task's answer only: its ticks ran out */
#define MAST_OBJECT_WAS_DELETED 7     /* a task's answer only: the semaphore was deleted */
#define MAST_INVALID_SIZE 8           /* a buffer too short for the state file; no valid one */
#define MAST_INVALID_NUMBER 10        /* a maximum not allowed, a count above it; N or S out of limits */
#define MAST_NOT_DEFINED 11           /* attributes that are not offered; mast_run */
#define MAST_RESOURCE_IN_USE 12       /* the binary semaphore has an owner */
#define MAST_UNSATISFIED 13           /* not to be had, at its maximum; a task's answer: flushed */
#define MAST_INCORRECT_STATE 14       /* the caller is waiting; already started, or not started yet */
#define MAST_CALLED_FROM_ISR 18       /* an interrupt (caller 0) may not make this call */
#define MAST_INVALID_PRIORITY 19      /* a priority outside 1 to 255 */
#define MAST_NOT_OWNER_OF_RESOURCE 23 /* only its owner may release a binary semaphore */
#define MAST_INTERNAL_ERROR 25        /* the tables are damaged or have the wrong length */
#define MAST_WAITING 100              /* not of RTEMS: the caller now waits, or still does */

/*
 * Attributes of mast_create: one order and one class, added, and MAST_INHERIT_PRIORITY if wanted, only
 * with MAST_BINARY_SEMAPHORE and MAST_PRIORITY. Anything else is MAST_NOT_DEFINED.
 */
#define MAST_DEFAULT_ATTRIBUTES 0       /* FIFO, counting */
#define MAST_FIFO 0                     /* waiters are served by arrival */
#define MAST_PRIORITY 4                 /* by working priority at that moment, equals by arrival */
#define MAST_COUNTING_SEMAPHORE 0       /* a count up to its maximum, released by anyone */
#define MAST_BINARY_SEMAPHORE 16        /* has an owner, who may nest and who alone may release */
#define MAST_SIMPLE_BINARY_SEMAPHORE 32 /* a count of 0 or 1, no owner, released by anyone */
#define MAST_INHERIT_PRIORITY 64        /* the owner is as urgent as its most urgent waiter, or more */

/* Options of mast_obtain. Only bit 0 has an effect. */
#define MAST_DEFAULT_OPTIONS 0
#define MAST_WAIT 0
#define MAST_NO_WAIT 1

/* Timeouts of mast_obtain that are no number of ticks. */
#define MAST_STANDARD_TIMEOUT 0      /* the standard limit, 500 ticks */
#define MAST_NO_TIMEOUT 4294967295u  /* for ever: say it where RTEMS has RTEMS_NO_TIMEOUT */

/* A status or a task's answer; a semaphore's identifier; its name, any number but 0. */
typedef uint32_t mast_status;
typedef uint32_t mast_id;
typedef uint32_t mast_name;

/* Four characters as a name, as rtems_build_name makes it; a constant. */
#define mast_build_name(c1, c2, c3, c4)                                           \
    ((mast_name)(unsigned char)(c1) << 24 | (mast_name)(unsigned char)(c2) << 16 | \
     (mast_name)(unsigned char)(c3) << 8 | (mast_name)(unsigned char)(c4))

/*
 * What every call gives back. `value` is 0 unless a call says otherwise. `next` is the task to run:
 * of the ready tasks the most urgent by working priority, among equals the one that has been ready
 * longest, or 0 if no task is ready. With MAST_INTERNAL_ERROR both are 0.
 */
typedef struct {
    mast_status status;
    uint32_t value;
    uint32_t next;
} mast_answer;

/*
 * In every call `tables` points to `length` bytes that the caller lends for the time of the call;
 * it is not NULL.
 */

/*
 * Starts the machine with `slots` semaphore slots (1 to 64) and `count` tasks (1 to 32), whose
 * priorities (1 to 255) `priorities` points to: the first is task 1's. All tasks are ready, in the
 * sequence of their numbers.
 * `priorities` may be NULL only when `count` is 0; it must not overlap the tables. To start afresh,
 * set all bytes to 0 first.
 *
 *   MAST_INTERNAL_ERROR    the tables are damaged or have the wrong length
 *   MAST_INCORRECT_STATE   already started
 *   MAST_INVALID_NUMBER    `count` or `slots` out of limits
 *   MAST_INVALID_PRIORITY  a priority out of limits
 *   MAST_SUCCESSFUL
 */
mast_answer mast_start(uint8_t *tables, size_t length, uint32_t slots, const uint32_t *priorities,
                       size_t count);

/*
 * Makes a semaphore in the lowest free slot whose generation is below 65535, the only ones that are
 * used again; its identifier is the value. Several may have the same name. `count` is how often it
 * can be obtained at first. `maximum` is the count at which mast_release is refused: 1 to
 * MAST_MAXIMUM_COUNT for a counting semaphore, and 1 for both others. A binary semaphore made with
 * count 0 is owned by the caller, once. Not from an interrupt.
 *
 *   MAST_INTERNAL_ERROR    the tables are damaged or have the wrong length
 *   MAST_CALLED_FROM_ISR   caller 0
 *   MAST_INVALID_ID        no such caller
 *   MAST_INCORRECT_STATE   the caller is waiting
 *   MAST_INVALID_NAME      name 0
 *   MAST_NOT_DEFINED       attributes other than one order and one class, or MAST_INHERIT_PRIORITY
 *                          without MAST_BINARY_SEMAPHORE and MAST_PRIORITY
 *   MAST_INVALID_NUMBER    a maximum that the class does not allow, or a count above the maximum
 *   MAST_TOO_MANY          no free slot with a generation below 65535
 *   MAST_SUCCESSFUL        value: the identifier
 */
mast_answer mast_create(uint8_t *tables, size_t length, uint32_t caller, mast_name name,
                        uint32_t count, uint32_t attributes, uint32_t maximum);

/*
 * Finds the live semaphore of that name in the lowest slot; its identifier is the value. From
 * anywhere. Changes nothing.
 *
 *   MAST_INTERNAL_ERROR    the tables are damaged or have the wrong length
 *   MAST_INVALID_NAME      name 0, or no live semaphore has it
 *   MAST_SUCCESSFUL        value: the identifier
 */
mast_answer mast_ident(const uint8_t *tables, size_t length, mast_name name);

/*
 * As mast_ident, with the same answer, and in `*looked` how many slots the search looked at: the number
 * of the match's slot, or the number of slots if none matches; 0 with MAST_INTERNAL_ERROR, with name 0
 * and before mast_start. The search looks at slots 1, 2, 3 .. in turn, at none after its match and at
 * none twice; the test for MAST_INTERNAL_ERROR before it and the choice of `next` behind it are not
 * counted. `looked` is not NULL and points outside of the tables; the number is always written.
 */
mast_answer mast_ident_looked(const uint8_t *tables, size_t length, mast_name name, uint32_t *looked);

/*
 * Deletes a semaphore. All its waiters become ready with answer MAST_OBJECT_WAS_DELETED, in the order
 * in which they would have been served: by arrival, with MAST_PRIORITY by the working priorities before
 * the call. Not from an interrupt. For tables with a list of mastclover_itron.h there is
 * mast_delete_mapped.
 *
 *   MAST_INTERNAL_ERROR    the tables are damaged or have the wrong length
 *   MAST_CALLED_FROM_ISR   caller 0
 *   MAST_INVALID_ID        no such caller
 *   MAST_INCORRECT_STATE   the caller is waiting
 *   MAST_INVALID_ID        no live semaphore has the identifier
 *   MAST_RESOURCE_IN_USE   a binary semaphore that has an owner, even if that is the caller
 *   MAST_SUCCESSFUL
 */
mast_answer mast_delete(uint8_t *tables, size_t length, uint32_t caller, mast_id id);

/*
 * Obtains a semaphore. With a count above 0 the count goes down by one, and a binary semaphore gets
 * the caller as its owner. The owner of a binary semaphore obtains it once more, to be released as
 * often. Otherwise MAST_NO_WAIT refuses and MAST_WAIT queues the caller, which then waits for
 * `timeout` ticks at the most, 500 ticks with MAST_STANDARD_TIMEOUT, or for ever with MAST_NO_TIMEOUT;
 * with MAST_NO_WAIT the timeout has no effect. A simple binary semaphore makes even the task that
 * holds it wait. While the caller waits on a semaphore with MAST_INHERIT_PRIORITY, it lends its working
 * priority to the owner. A deadlock is not noticed; only mast_tick and mast_flush end it. Not from an
 * interrupt.
 *
 *   MAST_INTERNAL_ERROR    the tables are damaged or have the wrong length
 *   MAST_CALLED_FROM_ISR   caller 0
 *   MAST_INVALID_ID        no such caller
 *   MAST_INCORRECT_STATE   the caller is waiting
 *   MAST_INVALID_ID        no live semaphore has the identifier
 *   MAST_UNSATISFIED       not to be had and MAST_NO_WAIT, or the caller owns it at nest 4294967295
 *   MAST_SUCCESSFUL        the caller has it
 *   MAST_WAITING           the caller waits; mast_task will say how that ends
 */
mast_answer mast_obtain(uint8_t *tables, size_t length, uint32_t caller, mast_id id,
                        uint32_t options, uint32_t timeout);

/*
 * Releases a semaphore. A binary semaphore obtained more than once is released once. Otherwise a
 * waiter, if there is one, gets it and becomes ready with answer MAST_SUCCESSFUL: the one that arrived
 * first, with MAST_PRIORITY of those with the least working priority at this moment. Without a waiter
 * the count goes up by one. What the caller inherited by this semaphore it has no longer after its last
 * release. Also from an interrupt, as caller 0, but for binary semaphores.
 *
 *   MAST_INTERNAL_ERROR    the tables are damaged or have the wrong length
 *   MAST_INVALID_ID        no such caller
 *   MAST_INCORRECT_STATE   the caller is waiting
 *   MAST_INVALID_ID        no live semaphore has the identifier
 *   MAST_NOT_OWNER_OF_RESOURCE  a binary semaphore that the caller does not own; caller 0 owns none
 *   MAST_UNSATISFIED       the count is at the maximum that create was given
 *   MAST_SUCCESSFUL
 */
mast_answer mast_release(uint8_t *tables, size_t length, uint32_t caller, mast_id id);

/*
 * Wakes all waiters of a semaphore with answer MAST_UNSATISFIED, in the order in which they would have
 * been served: by arrival, with MAST_PRIORITY by the working priorities before the call. Its count,
 * owner and nest stay. Also from an interrupt, as caller 0.
 *
 *   MAST_INTERNAL_ERROR    the tables are damaged or have the wrong length
 *   MAST_INVALID_ID        no such caller
 *   MAST_INCORRECT_STATE   the caller is waiting
 *   MAST_INVALID_ID        no live semaphore has the identifier
 *   MAST_SUCCESSFUL        also if nobody waited
 */
mast_answer mast_flush(uint8_t *tables, size_t length, uint32_t caller, mast_id id);

/*
 * One tick of the clock, usually from its interrupt. Every wait but one for ever loses one tick;
 * one that had a single tick left ends with answer MAST_TIMEOUT. If several end, they end in the order
 * of the tasks' numbers.
 *
 *   MAST_INTERNAL_ERROR    the tables are damaged or have the wrong length
 *   MAST_SUCCESSFUL
 */
mast_answer mast_tick(uint8_t *tables, size_t length);

/*
 * A task's answer: MAST_WAITING while it waits, otherwise how its latest wait ended, which is
 * MAST_SUCCESSFUL, MAST_TIMEOUT, MAST_OBJECT_WAS_DELETED or MAST_UNSATISFIED. A task that has never
 * waited has MAST_SUCCESSFUL; an obtain that did not wait leaves the answer as it was. From
 * anywhere. Changes nothing.
 *
 *   MAST_INTERNAL_ERROR    the tables are damaged or have the wrong length
 *   MAST_INVALID_ID        no such task; 0 is none
 *   MAST_SUCCESSFUL        value: the task's answer
 */
mast_answer mast_task(const uint8_t *tables, size_t length, uint32_t task);

/*
 * Writes the state file of the tables to the front of the `room` bytes that `file` points to; its
 * length is the value. The bytes behind it keep their contents. MAST_STATE_MAXIMUM bytes are room for
 * any. `file` may be NULL only when `room` is 0; it must not overlap the tables. From anywhere. Changes
 * no byte of the tables, and no byte of `file` unless the answer is MAST_SUCCESSFUL.
 *
 *   MAST_INTERNAL_ERROR    the tables are damaged or have the wrong length
 *   MAST_INCORRECT_STATE   not started
 *   MAST_INVALID_SIZE      `room` is less than the file's length
 *   MAST_SUCCESSFUL        value: the file's length in bytes
 */
mast_answer mast_save(const uint8_t *tables, size_t length, uint8_t *file, size_t room);

/*
 * Reads the state file of `file_length` bytes that `file` points to: the machine is started, with the
 * tables of the file, and `next` is their next task. `file` is only read; it may be NULL only when
 * `file_length` is 0, and must not overlap the tables. To load over a started machine, set all bytes of
 * the tables to 0 first. From anywhere.
 * Loading goes back in history: identifiers given out after the save are void, though a later create
 * may give the same numbers again, and semaphores deleted after the save are there again. Keep no
 * identifier of a later time.
 *
 *   MAST_INTERNAL_ERROR    the tables are damaged or have the wrong length
 *   MAST_INCORRECT_STATE   already started
 *   MAST_INVALID_SIZE      the bytes are no state file of undamaged, started tables; `next` is 0
 *   MAST_SUCCESSFUL        the tables are those of the file
 */
mast_answer mast_load(uint8_t *tables, size_t length, const uint8_t *file, size_t file_length);

/*
 * Guarded sections, run. A section is what a task does between the obtain and the release of one
 * binary semaphore: steps on shared cells and on the task's own locals. mast_run takes the turns of
 * tasks with such sections by the calls above, among calls by others and ticks, and reports which
 * sections were granted, in order. Once none is open, cells and locals are what the granted
 * sections give when each is run whole, in the order of their grants.
 *
 * Scripts are rows of MAST_ROW numbers, laid end to end: a kind, then what the kind takes, then
 * numbers that are not looked at. A script's sections follow it, and a section's steps follow that.
 *     MAST_SCRIPT  task                     the script of a task; one each
 *     MAST_SECTION id, options, timeout     how its obtain waits is as in mast_obtain
 *     MAST_LOAD    cell, local              the cell's number into the local
 *     MAST_STORE   local, cell              the local's number into the cell
 *     MAST_SET     local, number            the number into the local
 *     MAST_ADD     local, other             other becomes other + local modulo 4294967296
 *
 * Events are a kind and its numbers each, laid end to end; a start's priorities stand behind their
 * count, all other numbers in the order of the calls' arguments:
 *     MAST_EVENT_TURN     task              the task's obtain, its next step or its release
 *     MAST_EVENT_START    slots, count, then as many priorities
 *     MAST_EVENT_CREATE   caller, name, count, attributes, maximum
 *     MAST_EVENT_IDENT    name
 *     MAST_EVENT_DELETE   caller, id (for tables with a list: see mastclover_itron.h)
 *     MAST_EVENT_OBTAIN   caller, id, options, timeout
 *     MAST_EVENT_RELEASE  caller, id
 *     MAST_EVENT_FLUSH    caller, id
 *     MAST_EVENT_TICK
 *
 * Cells, a script's sections, steps and locals count from 0, tasks from 1.
 */
#define MAST_ROW 4
#define MAST_SCRIPT 1
#define MAST_SECTION 2
#define MAST_LOAD 3
#define MAST_STORE 4
#define MAST_SET 5
#define MAST_ADD 6

#define MAST_EVENT_TURN 1
#define MAST_EVENT_START 2
#define MAST_EVENT_CREATE 3
#define MAST_EVENT_IDENT 4
#define MAST_EVENT_DELETE 5
#define MAST_EVENT_OBTAIN 6
#define MAST_EVENT_RELEASE 7
#define MAST_EVENT_FLUSH 8
#define MAST_EVENT_TICK 9

/* The limits of mast_run. */
#define MAST_MAXIMUM_SECTIONS 8 /* of a script */
#define MAST_MAXIMUM_STEPS 16   /* of a section */
#define MAST_MAXIMUM_CELLS 64

/* Numbers: the locals of all 32 tasks, eight each; places and grants of any run that is not refused. */
#define MAST_LOCALS 256
#define MAST_PLACES 64
#define MAST_GRANTS 513

/*
 * Runs `event_numbers` numbers of events on the tables, or refuses them all before the first. What
 * is lent must not overlap; each pointer but `tables` may be NULL, only when its length is 0.
 *
 *   scripts, events    as above; read only
 *   ids                the identifier that each cell belongs to, as many as cells; read only
 *   cells              the shared numbers
 *   locals             MAST_LOCALS numbers: local l of task q is number (q - 1) * 8 + l
 *   places             two numbers for each script, in their order: its section, and its position
 *                      there: 0 the obtain, not yet made or waited for; p from 1 the section's p-th
 *                      step comes next; one more than its steps the release. A finished script
 *                      stands at the number of its sections and 0. MAST_PLACES numbers are enough
 *                      for 32 scripts, and more are refused: with less than two numbers for each
 *                      script by MAST_NOT_DEFINED, with room for them by MAST_INVALID_ID
 *   grants             how many sections were granted, then the task and the section of each, in
 *                      order, as far as there is room. MAST_GRANTS numbers are enough for all
 *
 *   MAST_INTERNAL_ERROR    the tables are damaged or have the wrong length
 *   MAST_NOT_DEFINED       a limit is passed; numbers of scripts that are no whole rows, a step
 *                          outside of a section or a section outside of a script; not MAST_LOCALS
 *                          locals; not as many identifiers as cells; no room for a place of each
 *                          script; more than 4294967295 numbers of events; a local above 7; two
 *                          scripts for one task; a cell that is missing or belongs to another
 *                          identifier than its section's; what is no step or no event; a section's
 *                          identifier that is not a live semaphore with attributes
 *                          MAST_BINARY_SEMAPHORE, alone, with MAST_PRIORITY, or with that and
 *                          MAST_INHERIT_PRIORITY, and no owner
 *   MAST_INVALID_ID        a script's task that is no ready task; a turn of a task without a
 *                          script; an event whose caller is a script's task
 *   MAST_SUCCESSFUL        the events are run
 *
 * A refused run changes neither tables nor cells nor locals; the places of the scripts, one for each
 * whole row of kind MAST_SCRIPT, are set to 0 and the count of the grants to 0, as far as there is
 * room. Numbers behind the places and grants stay.
 */
mast_answer mast_run(uint8_t *tables, size_t length, const uint32_t *scripts,
                     size_t script_numbers, const uint32_t *events, size_t event_numbers,
                     const uint32_t *ids, size_t id_count, uint32_t *cells, size_t cell_count,
                     uint32_t *locals, size_t local_count, uint32_t *places, size_t place_numbers,
                     uint32_t *grants, size_t grant_numbers);

#ifdef __cplusplus
}
#endif

#endif
