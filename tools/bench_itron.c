/* Prints what an ITRON call takes, by how many semids are in use, beside a call that tests the tables alone: ref_sem beside mast_task. */
#include <stdio.h>
#include <string.h>
#include <time.h>

#include "mastclover_itron.h"

enum { ROUNDS = 20, CALLS = 20000, SLOTS = 64 };

static uint8_t tables[MAST_TABLES_LENGTH];
static uint32_t list[MAST_ITRON_ENTRIES];

static double now(void)
{
    struct timespec t;
    clock_gettime(CLOCK_MONOTONIC, &t);
    return t.tv_sec * 1e9 + t.tv_nsec;
}

/* 32 tasks and 64 counting semaphores, of which the first `used` have a semid. */
static void make(uint32_t used)
{
    uint32_t priorities[32], i;
    memset(tables, 0, sizeof tables);
    memset(list, 0, sizeof list);
    for (i = 0; i < 32; i++)
        priorities[i] = i % 7 + 1;
    mast_start(tables, sizeof tables, SLOTS, priorities, 32);
    for (i = 1; i <= used; i++)
        mast_cre_sem(tables, sizeof tables, list, MAST_ITRON_ENTRIES, 1, i, MAST_TA_TFIFO, 1, 10);
    for (; i <= SLOTS; i++)
        mast_create(tables, sizeof tables, 1, i, 1, MAST_COUNTING_SEMAPHORE, 10);
}

static double refer(void)
{
    double began = now();
    int i;
    for (i = 0; i < CALLS; i++)
        mast_ref_sem(tables, sizeof tables, list, MAST_ITRON_ENTRIES, 1, 1);
    return now() - began;
}

static double test(void)
{
    double began = now();
    int i;
    for (i = 0; i < CALLS; i++)
        mast_task(tables, sizeof tables, 1);
    return now() - began;
}

/* Whether semid 1 is there just where some are in use: a call refused too early would be measured for another. */
static int made(uint32_t used)
{
    int32_t code = mast_ref_sem(tables, sizeof tables, list, MAST_ITRON_ENTRIES, 1, 1).code;
    return code == (used == 0 ? MAST_E_NOEXS : MAST_E_OK);
}

int main(void)
{
    uint32_t used;
    for (used = 0; used <= SLOTS; used += 16) {
        double call = 1e18, alone = 1e18;
        int round;
        make(used);
        if (!made(used)) {
            fprintf(stderr, "ref_sem is not served as it should be with %u semids in use\n", used);
            return 1;
        }
        for (round = 0; round < ROUNDS; round++) {
            double taken = refer();
            call = taken < call ? taken : call;
            taken = test();
            alone = taken < alone ? taken : alone;
        }
        printf("%2u semids in use: ref_sem %.0f ns, mast_task %.0f ns, ratio %.2f\n", used, call / CALLS, alone / CALLS, call / alone);
    }
    return 0;
}
