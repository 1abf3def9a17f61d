/*
 * Waits with each kind of timeout, as a C program does, and holds answers and ticks left to what the header says of timeouts and of
 * upgrading. Prints what is not so and ends with status 1, or says how many things were looked at.
 */
#include <stdio.h>
#include <string.h>

#include "mastclover_itron.h"

enum { STANDARD = 1, FOREVER, LONGEST, SHORT, TASKS = SHORT };

#define LIMIT 500    /* ticks */
#define TICKS_AT 20  /* the byte of the tables where task 1's ticks left begin */
#define TASK_BYTES 16

static uint8_t tables[MAST_TABLES_LENGTH]; /* all zeros: not started */
static unsigned looked_at, wrong;

static void expect(const char *what, uint32_t number, uint32_t wanted)
{
    looked_at++;
    if (number == wanted)
        return;
    wrong++;
    printf("%s: %u and not %u\n", what, (unsigned)number, (unsigned)wanted);
}

static uint32_t answer_of(uint32_t task)
{
    return mast_task(tables, sizeof tables, task).value;
}

static uint32_t ticks_left(uint32_t task)
{
    const uint8_t *at = tables + TICKS_AT + TASK_BYTES * (task - 1);
    return (uint32_t)at[0] << 24 | (uint32_t)at[1] << 16 | (uint32_t)at[2] << 8 | at[3];
}

static void tick(unsigned times)
{
    while (times-- > 0)
        mast_tick(tables, sizeof tables);
}

static void start(void)
{
    static const uint32_t priorities[] = { 10, 20, 30, 40 };
    memset(tables, 0, sizeof tables);
    mast_start(tables, sizeof tables, 1, priorities, TASKS);
}

static mast_status obtain(uint32_t task, uint32_t options, uint32_t timeout)
{
    return mast_obtain(tables, sizeof tables, task, 65537, options, timeout).status;
}

/* The four tasks wait on a semaphore that nobody releases. */
static void begin(uint32_t standard)
{
    start();
    mast_create(tables, sizeof tables, STANDARD, 77, 0, MAST_DEFAULT_ATTRIBUTES, MAST_MAXIMUM_COUNT);
    expect("NO_WAIT, the standard limit", obtain(SHORT, MAST_NO_WAIT, MAST_STANDARD_TIMEOUT), MAST_UNSATISFIED);
    expect("NO_WAIT, no timeout", obtain(SHORT, MAST_NO_WAIT, MAST_NO_TIMEOUT), MAST_UNSATISFIED);
    expect("the standard limit", obtain(STANDARD, MAST_WAIT, standard), MAST_WAITING);
    expect("no timeout", obtain(FOREVER, MAST_WAIT, MAST_NO_TIMEOUT), MAST_WAITING);
    expect("one tick less than for ever", obtain(LONGEST, MAST_WAIT, MAST_NO_TIMEOUT - 1), MAST_WAITING);
    expect("one tick", obtain(SHORT, MAST_WAIT, 1), MAST_WAITING);
}

static void tick_to_the_limit(const char *what)
{
    printf("%s\n", what);
    expect("ticks of the standard limit", ticks_left(STANDARD), LIMIT);
    expect("ticks of no timeout", ticks_left(FOREVER), 0);
    expect("ticks of the longest", ticks_left(LONGEST), MAST_NO_TIMEOUT - 1);
    tick(1);
    expect("one tick after the first", answer_of(SHORT), MAST_TIMEOUT);
    tick(LIMIT - 2);
    expect("the standard limit after 499", answer_of(STANDARD), MAST_WAITING);
    tick(1);
    expect("the standard limit after 500", answer_of(STANDARD), MAST_TIMEOUT);
    tick(LIMIT);
    expect("no timeout after 1000", answer_of(FOREVER), MAST_WAITING);
    expect("ticks of the longest after 1000", ticks_left(LONGEST), MAST_NO_TIMEOUT - 1 - 2 * LIMIT);
}

static void load_what_was_saved(void)
{
    static uint8_t file[MAST_STATE_MAXIMUM];
    uint32_t length;
    begin(MAST_STANDARD_TIMEOUT);
    length = mast_save(tables, sizeof tables, file, sizeof file).value;
    memset(tables, 0, sizeof tables);
    expect("load", mast_load(tables, sizeof tables, file, length).status, MAST_SUCCESSFUL);
    tick_to_the_limit("after a load");
}

/* wai_sem, and twai_sem with -1, wait for ever; 0 does not wait there. */
static void wait_by_itron(void)
{
    static uint32_t list[MAST_ITRON_ENTRIES];
    start();
    mast_cre_sem(tables, sizeof tables, list, MAST_ITRON_ENTRIES, STANDARD, 1, MAST_TA_TFIFO, 0, 1);
    expect("wai_sem", (uint32_t)mast_wai_sem(tables, sizeof tables, list, MAST_ITRON_ENTRIES, FOREVER, 1).code, MAST_WAITING);
    expect("twai_sem, -1", (uint32_t)mast_twai_sem(tables, sizeof tables, list, MAST_ITRON_ENTRIES, LONGEST, 1, MAST_TMO_FEVR).code, MAST_WAITING);
    expect("twai_sem, 0", (uint32_t)mast_twai_sem(tables, sizeof tables, list, MAST_ITRON_ENTRIES, SHORT, 1, 0).code, (uint32_t)MAST_E_TMOUT);
    expect("twai_sem, 500", (uint32_t)mast_twai_sem(tables, sizeof tables, list, MAST_ITRON_ENTRIES, STANDARD, 1, LIMIT).code, MAST_WAITING);
    tick(LIMIT - 1);
    expect("twai_sem, 500", answer_of(STANDARD), MAST_WAITING);
    tick(1);
    expect("twai_sem, 500", answer_of(STANDARD), MAST_TIMEOUT);
    tick(LIMIT);
    expect("wai_sem", answer_of(FOREVER), MAST_WAITING);
    expect("twai_sem, -1", answer_of(LONGEST), MAST_WAITING);
}

int main(void)
{
    begin(0);
    tick_to_the_limit("a literal 0");
    begin(MAST_STANDARD_TIMEOUT);
    tick_to_the_limit("the standard limit");
    load_what_was_saved();
    wait_by_itron();
    printf("%u looked at, %u wrong\n", looked_at, wrong);
    return wrong != 0;
}
