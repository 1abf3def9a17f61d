/*
 * mastrecords.h - for firmware that keeps its tasks' records itself: the next task of a list of them,
 * their sequence and their working priorities, and a task woken where its record stands. Link with
 * libmastrecords.a (`make records`), which needs nothing else; statuses are those of mastclover.h.
 */
#ifndef MASTRECORDS_H
#define MASTRECORDS_H

#include <stddef.h>
#include <stdint.h>

#ifdef __cplusplus
extern "C" {
#endif

/* A task: it waits exactly while its answer is 100 (MAST_WAITING), and is ready otherwise. */
typedef struct {
    uint32_t priority; /* its own, 1 to 255, 1 the most urgent */
    uint32_t answer;   /* how its latest wait ended */
    uint32_t awaited;  /* the identifier that it waits on, 0 for a ready task */
    uint32_t ticks;    /* the ticks left of its wait, 0 for a ready task or a wait for ever */
} mast_task_record;

/*
 * The task to run: of the ready ones the most urgent, among equals the one that stands first in
 * `ready`, or 0 if there is none. `ready` is the sequence of the ready tasks' numbers, the longest
 * ready first, which you keep: take a task out when it begins to wait, and put it at the end when its
 * wait ends. Tasks are counted from 1, and there may be any number of them. A number in `ready` that is
 * no task's, 0 or above `count`, is passed over; a task that is not in `ready`, or that goes by a number
 * above 255, is never chosen. `ready` alone says who is ready: the records' answers are not looked at.
 * `working` has the tasks' working priorities, the first of them task 1's, which you work out from who
 * waits on what and who owns it (mastclover.h says how): task q goes by working[q - 1], or by the
 * priority of its record where `working` is too short to have it. With `working_count` 0 every task
 * goes by its own priority.
 * `tasks` may be NULL only when `count` is 0, `ready` only when `ready_count` is, and `working` only when
 * `working_count` is.
 */
uint32_t mast_next_task(const mast_task_record *tasks, size_t count, const uint32_t *ready,
                        size_t ready_count, const uint32_t *working, size_t working_count);

/*
 * Ends the wait of one task: its record gets this answer, one of the endings of a wait (0, 6, 7 or 13),
 * and waits on nothing. Its priority stays. Put its number at the end of your `ready` then: until it
 * stands there, mast_next_task does not choose it. `task` is not NULL.
 */
void mast_wake_task(mast_task_record *task, uint32_t answer);

#ifdef __cplusplus
}
#endif

#endif
