/* Prints the nanoseconds that the test for 25 takes on full tables: an ident of name 0 does little else. */
#include <stdio.h>
#include <time.h>

#include "mastclover.h"

enum { ROUNDS = 20, CALLS = 20000 };

static uint8_t tables[MAST_TABLES_LENGTH];

static double now(void)
{
    struct timespec t;
    clock_gettime(CLOCK_MONOTONIC, &t);
    return t.tv_sec * 1e9 + t.tv_nsec;
}

int main(void)
{
    static const uint32_t attributes[] = { 0, 4, 16, 20, 32, 36, 84 };
    uint32_t priorities[32], i;
    double best = 1e18;
    int round;
    for (i = 0; i < 32; i++)
        priorities[i] = i % 7 + 1;
    mast_start(tables, sizeof tables, 64, priorities, 32);
    for (i = 0; i < 64; i++)
        mast_create(tables, sizeof tables, 1, i % 10 + 1, 1, attributes[i % 7], i % 7 < 2 ? MAST_MAXIMUM_COUNT : 1);
    for (round = 0; round < ROUNDS; round++) {
        double began = now();
        for (i = 0; i < CALLS; i++)
            mast_ident(tables, sizeof tables, 0);
        if (now() - began < best)
            best = now() - began;
    }
    printf("%.0f\n", best / CALLS);
    return 0;
}
