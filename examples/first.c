/*
 * The smallest firmware: two tasks with stacks of their own, a clock and a radio. It shows the two
 * things that a board adds to the library: interrupts are masked around each call, and the
 * processor is switched to the task that the answer names in `next`, to the idle loop if it is 0.
 */
#define _XOPEN_SOURCE 700 /* ucontext stands for a board's switch of stacks */
#include <stdio.h>
#include <ucontext.h>

#include "mastclover.h"

/* On a Cortex-M these are __disable_irq() and __enable_irq(). Nothing interrupts this program. */
#define MASK() ((void)0)
#define UNMASK() ((void)0)

enum { IDLE, RADIO, LOGGER, TASKS = LOGGER };
enum { BUFFERS = 8 }; /* the radio has no room for more frames, so no more are counted */

static uint8_t tables[MAST_TABLES_LENGTH]; /* all zeros: not started */
static ucontext_t contexts[TASKS + 1];     /* registers and stack: the idle loop's, each task's */
static char stacks[TASKS][65536];
static uint32_t running = IDLE;
static uint32_t frames, entries;

/* Saves what runs now and goes on with `next`; comes back when that is switched to again. */
static void switch_to(uint32_t next)
{
    uint32_t before = running;
    if (next != before) {
        running = next;
        swapcontext(&contexts[before], &contexts[next]);
    }
}

/* Returns when the semaphore is obtained or the wait has ended otherwise, with that status. */
static uint32_t obtain(uint32_t self, uint32_t id, uint32_t timeout)
{
    mast_answer answer;
    MASK();
    answer = mast_obtain(tables, sizeof tables, self, id, MAST_WAIT, timeout);
    switch_to(answer.next);
    if (answer.status == MAST_WAITING)
        answer.status = mast_task(tables, sizeof tables, self).value;
    UNMASK();
    return answer.status;
}

static void release(uint32_t self, uint32_t id)
{
    MASK();
    switch_to(mast_release(tables, sizeof tables, self, id).next);
    UNMASK();
}

/* A task begins masked, since the switch to it was made so. */
static void radio(void)
{
    UNMASK();
    for (;;) {
        uint32_t status = obtain(RADIO, frames, 2);
        printf("radio: %s\n", status == MAST_SUCCESSFUL ? "a frame" : "no frame for two ticks");
        release(RADIO, entries);
    }
}

static void logger(void)
{
    UNMASK();
    for (;;) {
        obtain(LOGGER, entries, MAST_NO_TIMEOUT);
        printf("logger: an entry\n");
    }
}

/* Handlers run masked. They switch on their way out, as a board's handler does. */
static void clock_interrupt(void)
{
    printf("clock\n");
    switch_to(mast_tick(tables, sizeof tables).next);
}

static void radio_interrupt(void)
{
    printf("radio's interrupt\n");
    switch_to(mast_release(tables, sizeof tables, 0, frames).next);
}

static void prepare(uint32_t task, void (*body)(void))
{
    getcontext(&contexts[task]);
    contexts[task].uc_stack.ss_sp = stacks[task - 1];
    contexts[task].uc_stack.ss_size = sizeof stacks[task - 1];
    makecontext(&contexts[task], body, 0);
}

int main(void)
{
    static const uint32_t priorities[TASKS] = { 10, 20 };
    uint32_t next;
    MASK();
    next = mast_start(tables, sizeof tables, 2, priorities, TASKS).next;
    frames = mast_create(tables, sizeof tables, RADIO, mast_build_name('F', 'R', 'M', 'S'), 0,
                         MAST_COUNTING_SEMAPHORE | MAST_FIFO, BUFFERS).value;
    entries = mast_create(tables, sizeof tables, RADIO, mast_build_name('E', 'N', 'T', 'R'), 0,
                          MAST_COUNTING_SEMAPHORE | MAST_FIFO, MAST_MAXIMUM_COUNT).value;
    prepare(RADIO, radio);
    prepare(LOGGER, logger);
    switch_to(next);
    UNMASK();
    /* The idle loop: it runs while no task is ready. A board waits here for its interrupts. */
    radio_interrupt();
    clock_interrupt();
    clock_interrupt();
    printf("idle\n");
    return 0;
}
