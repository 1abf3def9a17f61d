/* Prints the most stack that each C function takes: runs it on a painted stack of its own and looks how far the paint is gone. */
#include <stdio.h>
#include <string.h>
#include <ucontext.h>

#include "mastclover_itron.h"

enum { STACK = 65536, PAINT = 0xA5 };
enum function {
    START, CREATE, IDENT, IDENT_LOOKED, DELETE, OBTAIN, RELEASE, FLUSH, TICK, TASK, RUN, SAVE, LOAD,
    CRE_SEM, DEL_SEM, SIG_SEM, WAI_SEM, PREQ_SEM, TWAI_SEM, REF_SEM, DELETE_MAPPED, ITRON_CODE, FUNCTIONS
};

static unsigned char stack[STACK];
static uint8_t tables[MAST_TABLES_LENGTH];
static ucontext_t here, there;

static const char *const names[FUNCTIONS] = {
    "start", "create", "ident", "ident_looked", "delete", "obtain", "release", "flush", "tick", "task", "run", "save", "load",
    "cre_sem", "del_sem", "sig_sem", "wai_sem", "preq_sem", "twai_sem", "ref_sem", "delete_mapped", "itron_code",
};
static size_t most[FUNCTIONS];
static int ran;

/* The call to be made: a context's entry takes no arguments. Only a create has the fifth number, its maximum. */
static enum function function;
static uint32_t a, b, c, d, e;

/* Tasks 2 and 3 take turns in sections on identifier 65537, among every other call. */
static void run_sections(void)
{
    static const uint32_t scripts[] = {
        MAST_SCRIPT, 2, 0, 0, MAST_SECTION, 65537, MAST_WAIT, 5, MAST_SET, 0, 7, 0, MAST_STORE, 0, 0, 0,
        MAST_SCRIPT, 3, 0, 0, MAST_SECTION, 65537, MAST_WAIT, MAST_NO_TIMEOUT, MAST_LOAD, 0, 1, 0, MAST_ADD, 1, 1, 0,
    };
    static const uint32_t events[] = {
        MAST_EVENT_TURN, 2, MAST_EVENT_TURN, 3, MAST_EVENT_START, 1, 2, 3, 4, MAST_EVENT_TURN, 2, MAST_EVENT_TICK,
        MAST_EVENT_CREATE, 1, 9, 0, MAST_PRIORITY, 3, MAST_EVENT_OBTAIN, 4, 65538, MAST_WAIT, 2, MAST_EVENT_OBTAIN, 5, 65538, MAST_WAIT, 1,
        MAST_EVENT_OBTAIN, 6, 65538, MAST_WAIT, 2,
        MAST_EVENT_IDENT, 9, MAST_EVENT_TICK, MAST_EVENT_FLUSH, 0, 65538, MAST_EVENT_RELEASE, 1, 65538, MAST_EVENT_DELETE, 1, 65538,
        MAST_EVENT_TURN, 2, MAST_EVENT_TURN, 2, MAST_EVENT_TURN, 3, MAST_EVENT_TURN, 3, MAST_EVENT_TURN, 3,
    };
    static const uint32_t ids[] = { 65537 };
    static uint32_t cells[1], locals[MAST_LOCALS], places[MAST_PLACES], grants[MAST_GRANTS];
    mast_run(tables, sizeof tables, scripts, sizeof scripts / sizeof *scripts, events, sizeof events / sizeof *events, ids, 1, cells, 1,
             locals, MAST_LOCALS, places, MAST_PLACES, grants, MAST_GRANTS);
    ran = grants[0] == 2 && cells[0] == 7 && locals[17] == 14;
}

/* A file of the tables, and a machine that is not started. */
static uint8_t file[MAST_STATE_MAXIMUM], other[MAST_TABLES_LENGTH];
static mast_answer answered;
static uint32_t looked;

static uint32_t list[MAST_ITRON_ENTRIES];
static int32_t code;
#define LENT tables, sizeof tables, list, MAST_ITRON_ENTRIES

static void call(void)
{
    static const uint32_t priorities[MAST_MAXIMUM_TASKS] = {
        1, 2, 3, 3, 2, 1, 9, 8, 7, 7, 7, 7, 7, 7, 7, 7, 7, 7, 7, 7, 7, 7, 7, 7, 7, 7, 7, 7, 7, 7, 7, 7,
    };
    switch (function) {
    case START: mast_start(tables, sizeof tables, a, priorities, b); break;
    case CREATE: mast_create(tables, sizeof tables, a, b, c, d, e); break;
    case IDENT: mast_ident(tables, sizeof tables, a); break;
    case IDENT_LOOKED: mast_ident_looked(tables, sizeof tables, a, &looked); break;
    case DELETE: mast_delete(tables, sizeof tables, a, b); break;
    case OBTAIN: mast_obtain(tables, sizeof tables, a, b, c, d); break;
    case RELEASE: mast_release(tables, sizeof tables, a, b); break;
    case FLUSH: mast_flush(tables, sizeof tables, a, b); break;
    case TICK: mast_tick(tables, sizeof tables); break;
    case TASK: mast_task(tables, sizeof tables, a); break;
    case RUN: run_sections(); break;
    case SAVE: answered = mast_save(tables, sizeof tables, file, sizeof file); break;
    case LOAD: answered = mast_load(other, sizeof other, file, a); break;
    default: break;
    }
}

/* Apart from the others, since what this one keeps for itself counts too, and its calls have more numbers. */
static void call_itron(void)
{
    switch (function) {
    case CRE_SEM: code = mast_cre_sem(LENT, a, b, MAST_TA_TPRI, (int32_t)c, (int32_t)d).code; break;
    case DEL_SEM: code = mast_del_sem(LENT, a, b).code; break;
    case SIG_SEM: code = mast_sig_sem(LENT, a, b).code; break;
    case WAI_SEM: code = mast_wai_sem(LENT, a, b).code; break;
    case PREQ_SEM: code = mast_preq_sem(LENT, a, b).code; break;
    case TWAI_SEM: code = mast_twai_sem(LENT, a, b, (int32_t)c).code; break;
    case REF_SEM: code = mast_ref_sem(LENT, a, b).code; break;
    case DELETE_MAPPED: code = (int32_t)mast_delete_mapped(LENT, a, b).status; break;
    case ITRON_CODE: code = mast_itron_code(a); break;
    default: break;
    }
}

static void run(enum function which, uint32_t w, uint32_t x, uint32_t y, uint32_t z)
{
    size_t left = 0;
    function = which;
    a = w, b = x, c = y, d = z;
    memset(stack, PAINT, sizeof stack);
    getcontext(&there);
    there.uc_stack.ss_sp = stack;
    there.uc_stack.ss_size = sizeof stack;
    there.uc_link = &here;
    makecontext(&there, which < CRE_SEM ? call : call_itron, 0);
    swapcontext(&here, &there);
    while (left < sizeof stack && stack[left] == PAINT)
        left++;
    if (sizeof stack - left > most[which])
        most[which] = sizeof stack - left;
}

/* Each call with a semid above S, and a delete of no identifier; whether all were refused. */
static int refuse_itron(void)
{
    enum function which;
    for (which = CRE_SEM; which <= REF_SEM; which++) {
        run(which, 1, 5, 1, 3);
        if (code != MAST_E_ID)
            return 0;
    }
    run(DELETE_MAPPED, 1, 5, 0, 0);
    return code == MAST_INVALID_ID;
}

/* Semids 4 to 2 of eight tasks, with waiters of different urgency, each call done and refused; whether all went as it should. */
static int run_itron(void)
{
    uint32_t semid, task;
    memset(tables, 0, sizeof tables);
    run(START, 4, 8, 0, 0);
    for (semid = 4; semid >= 2; semid--) {
        run(CRE_SEM, 1, semid, 1, 3);
        run(CRE_SEM, 1, semid, 1, 3);
        run(PREQ_SEM, 1, semid, 0, 0);
        run(PREQ_SEM, 1, semid, 0, 0);
        for (task = 2; task <= 7; task++)
            run(task % 2 == 0 ? WAI_SEM : TWAI_SEM, task, semid, 5, 0);
        run(SIG_SEM, 0, semid, 0, 0);
        run(REF_SEM, 0, semid, 0, 0);
        if (code != MAST_E_OK || !refuse_itron())
            return 0;
        if (semid == 3)
            run(DELETE_MAPPED, 1, list[2], 0, 0);
        else
            run(DEL_SEM, 1, semid, 0, 0);
        if (code != MAST_E_OK || list[semid - 1] != 0)
            return 0;
    }
    run(ITRON_CODE, MAST_OBJECT_WAS_DELETED, 0, 0, 0);
    return code == MAST_E_DLT;
}

/*
 * 32 tasks with an inheritance semaphore each, 65536 and the task's number, in chains as long as there can be: from 2 on task k waits on
 * that of task k + 1, and the last on a queue or on that of task 2, which is a cycle. Task 1 waits behind all of them, or beside one, since
 * a queue of one is served without a look at priorities. Whether all went as it should.
 */
static int run_chain(void)
{
    enum { LAST = MAST_MAXIMUM_TASKS, QUEUE = 65536 + LAST + 1 };
    uint32_t task;
    memset(tables, 0, sizeof tables);
    run(START, MAST_MAXIMUM_SLOTS, LAST, 0, 0);
    e = 1;
    for (task = 1; task <= LAST; task++)
        run(CREATE, task, 7, 0, MAST_BINARY_SEMAPHORE | MAST_PRIORITY | MAST_INHERIT_PRIORITY);
    run(CREATE, 1, 8, 0, MAST_PRIORITY);
    for (task = 2; task < LAST - 1; task++)
        run(OBTAIN, task, 65536 + task + 1, MAST_WAIT, MAST_NO_TIMEOUT);
    for (task = 0; task < 3; task++) {
        run(OBTAIN, LAST - 1, QUEUE, MAST_WAIT, 1);
        run(OBTAIN, 1, QUEUE, MAST_WAIT, 1);
        run(task == 0 ? RELEASE : task == 1 ? TICK : DELETE, task == 2 ? LAST : 0, QUEUE, 0, 0);
        run(TASK, LAST - 1, 0, 0, 0);
        run(TICK, 0, 0, 0, 0);
    }
    run(OBTAIN, LAST - 1, 65536 + LAST, MAST_WAIT, MAST_NO_TIMEOUT);
    run(OBTAIN, 1, 65538, MAST_WAIT, 1);
    run(IDENT, 7, 0, 0, 0);
    run(IDENT_LOOKED, 7, 0, 0, 0);
    run(TASK, LAST, 0, 0, 0);
    run(SAVE, 0, 0, 0, 0);
    memset(other, 0, sizeof other);
    run(LOAD, answered.value, 0, 0, 0);
    run(CRE_SEM, LAST, 1, 0, 3);
    run(PREQ_SEM, LAST, 1, 0, 0);
    run(REF_SEM, 0, 1, 0, 0);
    run(TICK, 0, 0, 0, 0);
    run(TWAI_SEM, LAST, 1, 1, 0);
    run(TWAI_SEM, 1, 1, 1, 0);
    run(SIG_SEM, 0, 1, 0, 0);
    run(SIG_SEM, 0, 1, 0, 0);
    run(WAI_SEM, LAST, 1, 0, 0);
    run(SIG_SEM, 0, 1, 0, 0);
    run(DEL_SEM, LAST, 1, 0, 0);
    if (code != MAST_E_OK)
        return 0;
    run(OBTAIN, LAST, 65538, MAST_WAIT, MAST_NO_TIMEOUT);
    run(OBTAIN, 1, 65539, MAST_WAIT, MAST_NO_TIMEOUT);
    run(FLUSH, 0, 65539, 0, 0);
    return answered.status == MAST_SUCCESSFUL && mast_task(tables, sizeof tables, 1).value == MAST_UNSATISFIED;
}

/* Whether the file saved was loaded, after one that is a byte short. */
static int run_state(void)
{
    uint32_t length;
    run(SAVE, 0, 0, 0, 0);
    length = answered.value;
    run(LOAD, length - 1, 0, 0, 0);
    run(LOAD, length, 0, 0, 0);
    return answered.status == MAST_SUCCESSFUL && memcmp(tables, other, sizeof tables) == 0;
}

int main(void)
{
    uint32_t i, round;
    run(START, 4, 8, 0, 0);
    for (round = 0; round < 4; round++) {
        uint32_t id = (round + 1) * 65536 + 1;
        e = round == 1 ? 1 : MAST_MAXIMUM_COUNT;
        run(CREATE, 1, 7, round % 2, round == 1 ? MAST_BINARY_SEMAPHORE | MAST_PRIORITY : MAST_PRIORITY);
        run(IDENT, 7, 0, 0, 0);
        run(IDENT_LOOKED, 7, 0, 0, 0);
        for (i = 2; i <= 8; i++)
            run(OBTAIN, i, id, i == 8 ? MAST_NO_WAIT : MAST_WAIT, i == 3 ? 1 : MAST_NO_TIMEOUT);
        run(TASK, 3, 0, 0, 0);
        run(TICK, 0, 0, 0, 0);
        run(RELEASE, round == 1 ? 2 : 1, id, 0, 0);
        run(FLUSH, 0, id, 0, 0);
        run(RELEASE, round == 1 ? 4 : 1, id, 0, 0);
        run(START, 4, 8, 0, 0);
        run(DELETE, 1, id, 0, 0);
    }
    memset(tables, 0, sizeof tables);
    run(START, 4, 8, 0, 0);
    e = 1;
    run(CREATE, 1, 7, 1, MAST_BINARY_SEMAPHORE | MAST_PRIORITY);
    run(RUN, 0, 0, 0, 0);
    if (!ran) {
        fprintf(stderr, "the run of sections did not come to its end\n");
        return 1;
    }
    if (!run_state()) {
        fprintf(stderr, "the file saved was not loaded\n");
        return 1;
    }
    if (!run_itron()) {
        fprintf(stderr, "the ITRON calls did not come to their end\n");
        return 1;
    }
    if (!run_chain()) {
        fprintf(stderr, "the chain did not come to its end\n");
        return 1;
    }
    for (i = 0; i < FUNCTIONS; i++)
        printf("mast_%-13s %5zu bytes\n", names[i], most[i]);
    return 0;
}
