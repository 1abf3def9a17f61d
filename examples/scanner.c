/*
 * A belt scanner, written against ITRON 3.0: the reader reads the label of each bag that passes the
 * light barrier, the writer sends the labels to the host. first.c is the program to read before this
 * one, for masking and for the switch to the task that is next.
 *
 * The first part gives a firmware the calls that its manual names, over mastclover_itron.h. The second
 * is that firmware's tasks, which know nothing of tables and list. The third is its interrupts, which
 * make calls as caller 0.
 *
 *     BARRIER  the light barrier's interrupt signals each bag; up to 4 are counted while the reader is busy
 *     LABELS   the reader signals each label that it has read; there is room for 3
 *     PARKED   never signalled; who waits on it has finished
 */
#define _XOPEN_SOURCE 700 /* ucontext stands for a board's switch of stacks */
#include <stdio.h>
#include <stdlib.h>
#include <ucontext.h>

#include "mastclover_itron.h"

/* On a Cortex-M these are __disable_irq() and __enable_irq(). Nothing interrupts this program. */
#define MASK() ((void)0)
#define UNMASK() ((void)0)

enum { IDLE, READER, WRITER, TASKS = WRITER };
enum { BARRIER = 1, LABELS, PARKED, SEMAPHORES = PARKED };

/* ---- the calls of the manual */

typedef int32_t ER, INT, TMO, BOOL_ID;
typedef uint32_t ID, ATR;
typedef struct { void *exinf; ATR sematr; INT isemcnt, maxsem; } T_CSEM; /* exinf is not looked at */
typedef struct { void *exinf; BOOL_ID wtsk; INT semcnt; } T_RSEM;

static uint8_t tables[MAST_TABLES_LENGTH];    /* all zeros: not started */
static uint32_t list[MAST_ITRON_ENTRIES];     /* all zeros: no semid has a semaphore */
#define LENT tables, sizeof tables, list, MAST_ITRON_ENTRIES

static ucontext_t contexts[TASKS + 1]; /* registers and stack: the idle loop's, each task's */
static char stacks[TASKS][65536];
static uint32_t running = IDLE;
static unsigned ticks; /* since power on */

/* Saves what runs now and goes on with `next`; comes back when that is switched to again. */
static void switch_to(uint32_t next)
{
    uint32_t before = running;
    if (next != before) {
        running = next;
        swapcontext(&contexts[before], &contexts[next]);
    }
}

/* Damaged tables, a list that was written to, a semaphore that is not there: nothing to go on with. */
static void heed(int32_t code)
{
    if (code == MAST_E_SYS) {
        printf("scanner: the tables or the list are not as they should be\n");
        exit(EXIT_FAILURE);
    }
}

/* A call ends when its task runs again, a wait with the code that the task's answer stands for. */
static ER ended(mast_coded answer)
{
    uint32_t self = running;
    heed(answer.code);
    switch_to(answer.next);
    if (answer.code == MAST_WAITING) {
        mast_answer how = mast_task(tables, sizeof tables, self);
        answer.code = how.status == MAST_SUCCESSFUL ? mast_itron_code(how.value) : MAST_E_SYS;
        heed(answer.code);
    }
    UNMASK();
    return answer.code;
}

static ER cre_sem(ID semid, const T_CSEM *pk_csem)
{
    MASK();
    return ended(mast_cre_sem(LENT, running, semid, pk_csem->sematr, pk_csem->isemcnt, pk_csem->maxsem));
}

static ER del_sem(ID semid)
{
    MASK();
    return ended(mast_del_sem(LENT, running, semid));
}

static ER sig_sem(ID semid)
{
    MASK();
    return ended(mast_sig_sem(LENT, running, semid));
}

static ER wai_sem(ID semid)
{
    MASK();
    return ended(mast_wai_sem(LENT, running, semid));
}

static ER preq_sem(ID semid)
{
    MASK();
    return ended(mast_preq_sem(LENT, running, semid));
}

static ER twai_sem(ID semid, TMO tmout)
{
    MASK();
    return ended(mast_twai_sem(LENT, running, semid, tmout));
}

static ER ref_sem(T_RSEM *pk_rsem, ID semid)
{
    mast_reference found;
    MASK();
    found = mast_ref_sem(LENT, running, semid);
    heed(found.code);
    pk_rsem->exinf = NULL;
    pk_rsem->wtsk = found.wtsk;
    pk_rsem->semcnt = found.semcnt;
    UNMASK();
    return found.code;
}

/* ---- the firmware's tasks */

static const char *name_of(ER code)
{
    switch (code) {
    case MAST_E_OK: return "E_OK";
    case MAST_E_NOEXS: return "E_NOEXS";
    case MAST_E_OBJ: return "E_OBJ";
    case MAST_E_QOVR: return "E_QOVR";
    case MAST_E_DLT: return "E_DLT";
    case MAST_E_TMOUT: return "E_TMOUT";
    case MAST_E_RLWAI: return "E_RLWAI";
    default: return "another code";
    }
}

static ER say(const char *who, const char *what, ER code)
{
    printf("%2u %-9s %-32s %s\n", ticks, who, what, name_of(code));
    return code;
}

static void say_state(const char *who, const char *semaphore, ID semid)
{
    T_RSEM state;
    if (say(who, semaphore, ref_sem(&state, semid)) == MAST_E_OK)
        printf("%2u %-9s   semcnt %ld, wtsk %ld\n", ticks, who, (long)state.semcnt, (long)state.wtsk);
}

static const T_CSEM of_barrier = { NULL, MAST_TA_TFIFO, 0, 4 };
static const T_CSEM of_labels = { NULL, MAST_TA_TPRI, 0, 3 };
static const T_CSEM of_parked = { NULL, MAST_TA_TFIFO, 0, 1 };

/* The writer waits on LABELS, and learns from E_DLT that the shift is over. The semid is free again. */
static void close_shift(void)
{
    say("reader", "deletes the labels", del_sem(LABELS));
    say("reader", "signals a label", sig_sem(LABELS));
    say("reader", "makes them for the next shift", cre_sem(LABELS, &of_labels));
    say("reader", "makes them twice", cre_sem(LABELS, &of_labels));
}

/* The more urgent one makes the semaphores. A task begins masked, since the switch to it was made so. */
static void reader(void)
{
    UNMASK();
    say("reader", "makes barrier", cre_sem(BARRIER, &of_barrier));
    say("reader", "makes labels", cre_sem(LABELS, &of_labels));
    say("reader", "makes parked", cre_sem(PARKED, &of_parked));
    while (say("reader", "a bag", wai_sem(BARRIER)) == MAST_E_OK)
        say("reader", "signals a label", sig_sem(LABELS));
    close_shift();
    for (;;)
        wai_sem(PARKED);
}

/* Sends all labels that there are in one packet, since a packet takes long. */
static void send_packet(void)
{
    int labels = 1;
    while (say("writer", "polls for another label", preq_sem(LABELS)) == MAST_E_OK)
        labels++;
    printf("%2u writer    sends a packet, labels: %d\n", ticks, labels);
}

static void writer(void)
{
    ER code;
    UNMASK();
    while ((code = say("writer", "a label within 2 ticks", twai_sem(LABELS, 2))) != MAST_E_DLT) {
        if (code == MAST_E_OK) {
            send_packet();
        } else {
            say_state("writer", "looks at the barrier", BARRIER);
            say_state("writer", "looks at the labels", LABELS);
        }
    }
    for (;;)
        wai_sem(PARKED);
}

/* ---- interrupts; handlers run masked, and switch on their way out, as a board's do */

enum { INTERRUPT = 0 }; /* the caller of a call that an interrupt makes */

static void bags_pass(int bags)
{
    mast_coded answer = { MAST_E_OK, IDLE };
    for (; bags > 0; bags--) {
        answer = mast_sig_sem(LENT, INTERRUPT, BARRIER);
        heed(answer.code);
        say("barrier", "a bag passes", answer.code);
    }
    switch_to(answer.next);
}

static void clock_interrupt(void)
{
    mast_answer answer = mast_tick(tables, sizeof tables);
    ticks++;
    heed(answer.status == MAST_SUCCESSFUL ? MAST_E_OK : MAST_E_SYS);
    switch_to(answer.next);
}

/* Classic calls work on the same semaphores, whose identifiers the list has: a flush gives E_RLWAI. */
static void stop_button(void)
{
    mast_answer answer = mast_flush(tables, sizeof tables, INTERRUPT, list[BARRIER - 1]);
    printf("%2u button    stop\n", ticks);
    heed(answer.status == MAST_SUCCESSFUL ? MAST_E_OK : MAST_E_SYS);
    switch_to(answer.next);
}

static void prepare(uint32_t task, void (*body)(void))
{
    getcontext(&contexts[task]);
    contexts[task].uc_stack.ss_sp = stacks[task - 1];
    contexts[task].uc_stack.ss_size = sizeof stacks[task - 1];
    makecontext(&contexts[task], body, 0);
}

int main(void)
{
    static const uint32_t priorities[TASKS] = { 10, 20 };
    uint32_t next;
    MASK();
    next = mast_start(tables, sizeof tables, SEMAPHORES, priorities, TASKS).next;
    prepare(READER, reader);
    prepare(WRITER, writer);
    switch_to(next);
    UNMASK();
    /* The idle loop: it runs while no task is ready. A board waits here for its interrupts. */
    bags_pass(1);
    clock_interrupt();
    clock_interrupt();
    clock_interrupt();
    bags_pass(6);
    stop_button();
    printf("%2u scanner   both tasks are parked\n", ticks);
    return 0;
}
