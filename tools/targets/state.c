/*
 * Saves machines to state files and loads them again on the library of this processor, at all four alignments, and compares every
 * answer and every byte: a file with one that is written here by hand, loaded tables with the saved ones, and what is refused with
 * what stood there. Of the files with one byte damaged those are read that tables give, and saving those tables gives them back. A file
 * of edition 1 is loaded too, and damaged. Says how many comparisons there were and how many differ, and what replay.c says of stack and
 * time. Ends with status 0 only if none differs.
 */
#include "mastclover.h"
#include "processor.h"
#include "painted.h"

enum { LENGTH = 168, LONGEST = MAST_STATE_MAXIMUM, READABLE = 24, GUARD = 8, GUARD_BYTE = 0xA5, SHOWN = 5 };
/* Of edition 1; and where edition 2 has slot 1's maximum, of which the other says nothing. */
enum { OLD_LENGTH = 160, OLD_READABLE = 20, MAXIMUM_AT = 116, MAXIMUM_BYTES = 4 };

/* What start_small() leaves: four bytes to a number, high byte first. */
static const uint8_t by_hand[LENGTH] = {
    /* edition 2, four bodies */
    0, 0, 0, 2, 0, 0, 0, 4,
    /* the kind, offset and length of each */
    0, 0, 0, 1, 0, 0, 0, 56, 0, 0, 0, 32,
    0, 0, 0, 2, 0, 0, 0, 88, 0, 0, 0, 64,
    0, 0, 0, 3, 0, 0, 0, 152, 0, 0, 0, 12,
    0, 0, 0, 4, 0, 0, 0, 164, 0, 0, 0, 4,
    /* tasks: priority, answer, identifier waited on, ticks left */
    0, 0, 0, 10, 0, 0, 0, 100, 0, 1, 0, 1, 0, 0, 3, 231,
    0, 0, 0, 20, 0, 0, 0, 0, 0, 0, 0, 0, 0, 0, 0, 0,
    /* slots: generation, live, name, attributes, count, owner, nest, maximum */
    0, 0, 0, 1, 0, 0, 0, 1, 1, 2, 3, 4, 0, 0, 0, 4, 0, 0, 0, 0, 0, 0, 0, 0, 0, 0, 0, 0, 0, 1, 0, 12,
    0, 0, 0, 2, 0, 0, 0, 1, 0, 0, 0, 9, 0, 0, 0, 20, 0, 0, 0, 0, 0, 0, 0, 2, 0, 0, 0, 2, 0, 0, 0, 1,
    /* queues: task 1, nobody */
    0, 0, 0, 1, 0, 0, 0, 1, 0, 0, 0, 0,
    /* ready: task 2 */
    0, 0, 0, 2,
};

/* The same machine as edition 1 wrote it. */
static const uint8_t old_by_hand[OLD_LENGTH] = {
    /* edition 1, four bodies */
    0, 0, 0, 1, 0, 0, 0, 4,
    /* the kind, offset and length of each */
    0, 0, 0, 1, 0, 0, 0, 56, 0, 0, 0, 32,
    0, 0, 0, 2, 0, 0, 0, 88, 0, 0, 0, 56,
    0, 0, 0, 3, 0, 0, 0, 144, 0, 0, 0, 12,
    0, 0, 0, 4, 0, 0, 0, 156, 0, 0, 0, 4,
    /* tasks: priority, answer, identifier waited on, ticks left */
    0, 0, 0, 10, 0, 0, 0, 100, 0, 1, 0, 1, 0, 0, 3, 231,
    0, 0, 0, 20, 0, 0, 0, 0, 0, 0, 0, 0, 0, 0, 0, 0,
    /* slots: generation, live, name, attributes, count, owner, nest */
    0, 0, 0, 1, 0, 0, 0, 1, 1, 2, 3, 4, 0, 0, 0, 4, 0, 0, 0, 0, 0, 0, 0, 0, 0, 0, 0, 0,
    0, 0, 0, 2, 0, 0, 0, 1, 0, 0, 0, 9, 0, 0, 0, 20, 0, 0, 0, 0, 0, 0, 0, 2, 0, 0, 0, 2,
    /* queues: task 1, nobody */
    0, 0, 0, 1, 0, 0, 0, 1, 0, 0, 0, 0,
    /* ready: task 2 */
    0, 0, 0, 2,
};

/* ---- comparing */

static uint32_t comparisons, differences;

static void expect(int holds, const char *what)
{
    comparisons++;
    if (holds || differences++ >= SHOWN)
        return;
    say("difference: ");
    say(what);
    say("\n");
}

static int same(const uint8_t *a, const uint8_t *b, size_t length)
{
    for (size_t at = 0; at < length; at++)
        if (a[at] != b[at])
            return 0;
    return 1;
}

static int all(const uint8_t *bytes, size_t length, uint8_t byte)
{
    for (size_t at = 0; at < length; at++)
        if (bytes[at] != byte)
            return 0;
    return 1;
}

/* ---- the two calls, each on a painted stack */

enum { SAVE, LOAD, KINDS };
static const char *const names[KINDS] = { "mast_save", "mast_load" };
static cost most[KINDS];

static int kind;
static uint8_t *lent, *file;
static size_t file_length;
static mast_answer answer;

static void make_call(void)
{
    STACK_POINTER(called_at);
    if (kind == SAVE)
        answer = mast_save(lent, MAST_TABLES_LENGTH, file, file_length);
    else
        answer = mast_load(lent, MAST_TABLES_LENGTH, file, file_length);
}

/* Makes the call on these tables and so many bytes of the file. */
static void call(int which, uint8_t *tables, size_t length)
{
    kind = which;
    lent = tables;
    file_length = length;
    call_painted(make_call, &most[which]);
}

static void answers(uint32_t status, uint32_t value, uint32_t next, const char *what)
{
    expect(answer.status == status && answer.value == value && answer.next == next, what);
}

/* ---- the machines */

/* The tables of a machine, and others to load it into. */
static uint8_t memory[2][3 + MAST_TABLES_LENGTH], file_memory[3 + LONGEST + GUARD];
static uint8_t *tables, *loaded;

static void align(size_t shift)
{
    tables = memory[0] + shift;
    loaded = memory[1] + (shift + 2) % 4;
    file = file_memory + (shift + 3) % 4;
    memset(tables, 0, MAST_TABLES_LENGTH);
    memset(loaded, 0, MAST_TABLES_LENGTH);
    memset(file, GUARD_BYTE, LONGEST + GUARD);
}

/* Task 1 waits in slot 1; in slot 2, used before, task 2 owns a semaphore twice. */
static void start_small(void)
{
    static const uint32_t priorities[] = { 10, 20 };
    const size_t length = MAST_TABLES_LENGTH;
    uint32_t id;
    expect(mast_start(tables, length, 2, priorities, 2).status == MAST_SUCCESSFUL, "start");
    expect(mast_create(tables, length, 1, 0x01020304, 0, MAST_PRIORITY, 65548).value == 65537, "create");
    id = mast_create(tables, length, 2, 9, 1, MAST_SIMPLE_BINARY_SEMAPHORE, 1).value;
    expect(mast_delete(tables, length, 2, id).status == MAST_SUCCESSFUL, "delete");
    id = mast_create(tables, length, 2, 9, 0, MAST_BINARY_SEMAPHORE | MAST_PRIORITY, 1).value;
    expect(mast_obtain(tables, length, 2, id, MAST_WAIT, MAST_NO_TIMEOUT).status == MAST_SUCCESSFUL, "obtain");
    expect(mast_obtain(tables, length, 1, 65537, MAST_WAIT, 1000).status == MAST_WAITING, "wait");
    expect(mast_tick(tables, length).next == 2, "tick");
}

/* As many tasks and slots as there can be, all of them ready and live. */
static void start_largest(void)
{
    static uint32_t priorities[MAST_MAXIMUM_TASKS];
    for (uint32_t task = 0; task < MAST_MAXIMUM_TASKS; task++)
        priorities[task] = 1 + task % 4;
    mast_start(tables, MAST_TABLES_LENGTH, MAST_MAXIMUM_SLOTS, priorities, MAST_MAXIMUM_TASKS);
    for (uint32_t slot = 1; slot <= MAST_MAXIMUM_SLOTS; slot++)
        mast_create(tables, MAST_TABLES_LENGTH, 1, slot, 0, MAST_PRIORITY, slot);
}

/* All of them wait in the last slot's queue. */
static void wait_all(void)
{
    for (uint32_t task = 1; task <= MAST_MAXIMUM_TASKS; task++)
        mast_obtain(tables, MAST_TABLES_LENGTH, task, 65536 + MAST_MAXIMUM_SLOTS, MAST_WAIT, task);
}

/* ---- what is tried on them */

static void save_and_load(size_t length, uint32_t next)
{
    memset(loaded, 0, MAST_TABLES_LENGTH);
    call(SAVE, tables, length + GUARD);
    answers(MAST_SUCCESSFUL, length, next, "the answer of a save");
    expect(all(file + length, GUARD, GUARD_BYTE), "the bytes behind a file");
    call(LOAD, loaded, length);
    answers(MAST_SUCCESSFUL, 0, next, "the answer of a load");
    expect(same(tables, loaded, MAST_TABLES_LENGTH), "the tables that are loaded");
}

/* Nothing changes; `loaded` is not started. */
static void refuse_saves(void)
{
    call(SAVE, tables, LENGTH - 1);
    answers(MAST_INVALID_SIZE, 0, 2, "a save to a buffer too short by a byte");
    answer = mast_save(tables, MAST_TABLES_LENGTH, NULL, 0);
    answers(MAST_INVALID_SIZE, 0, 2, "a save to no buffer");
    call(SAVE, loaded, LENGTH);
    answers(MAST_INCORRECT_STATE, 0, 0, "a save of a machine that is not started");
    tables[0] ^= 1;
    call(SAVE, tables, LENGTH);
    answers(MAST_INTERNAL_ERROR, 0, 0, "a save of damaged tables");
    tables[0] ^= 1;
    expect(all(file, LENGTH + GUARD, GUARD_BYTE), "the bytes of a buffer when a save is refused");
}

static void refuse_loads(void)
{
    call(LOAD, loaded, LENGTH - 1);
    answers(MAST_INVALID_SIZE, 0, 0, "a load of a file that is cut by a byte");
    call(LOAD, loaded, LENGTH + 1);
    answers(MAST_INVALID_SIZE, 0, 0, "a load of a file with a byte too many");
    answer = mast_load(loaded, MAST_TABLES_LENGTH, NULL, 0);
    answers(MAST_INVALID_SIZE, 0, 0, "a load of no file");
    expect(all(loaded, MAST_TABLES_LENGTH, 0), "the tables when a file is refused");
    loaded[0] ^= 1;
    call(LOAD, loaded, LENGTH);
    answers(MAST_INTERNAL_ERROR, 0, 0, "a load over damaged tables");
    loaded[0] ^= 1;
    expect(all(loaded, MAST_TABLES_LENGTH, 0), "the damaged tables when a load is refused");
}

/* Each byte in turn: the file is refused, or it is what is written from the tables that it gives. */
static void load_damaged(void)
{
    uint32_t read = 0;
    for (size_t at = 0; at < LENGTH; at++) {
        file[at] ^= 1;
        call(LOAD, loaded, LENGTH);
        if (answer.status == MAST_SUCCESSFUL) {
            read++;
            file[at] ^= 2;
            call(SAVE, loaded, LENGTH);
            answers(MAST_SUCCESSFUL, LENGTH, 2, "the answer of a save after a damaged file was loaded");
            expect(file[at] == (by_hand[at] ^ 1), "a damaged byte, saved");
        } else {
            answers(MAST_INVALID_SIZE, 0, 0, "a load of a damaged file");
            expect(all(loaded, MAST_TABLES_LENGTH, 0), "the tables when a damaged file is refused");
        }
        file[at] ^= 1;
        expect(same(file, by_hand, LENGTH), "the other bytes of a damaged file");
        memset(loaded, 0, MAST_TABLES_LENGTH);
    }
    /* By hand too: both priorities' low bytes, task 1's ticks, both names, slot 1's maximum, two bytes of slot 2's generation, and its nest. */
    expect(read == READABLE, "how many damaged files are read");
}

/* Edition 1 is read as well: a counting semaphore gets the greatest maximum, and all else is what edition 2 has. */
static void load_old(void)
{
    memmove(file, old_by_hand, OLD_LENGTH);
    call(LOAD, loaded, OLD_LENGTH - 1);
    answers(MAST_INVALID_SIZE, 0, 0, "a load of an edition 1 file that is cut by a byte");
    call(LOAD, loaded, OLD_LENGTH + 1);
    answers(MAST_INVALID_SIZE, 0, 0, "a load of an edition 1 file with a byte too many");
    expect(all(loaded, MAST_TABLES_LENGTH, 0), "the tables when an edition 1 file is refused");
    call(LOAD, loaded, OLD_LENGTH);
    answers(MAST_SUCCESSFUL, 0, 2, "the answer of a load of edition 1");
    expect(same(file, old_by_hand, OLD_LENGTH), "the bytes of an edition 1 file that is loaded");
    call(SAVE, loaded, LENGTH);
    answers(MAST_SUCCESSFUL, LENGTH, 2, "the answer of a save after edition 1 was loaded");
    expect(all(file + MAXIMUM_AT, MAXIMUM_BYTES, 0xFF), "the maximum of a counting semaphore of edition 1");
    memmove(file + MAXIMUM_AT, by_hand + MAXIMUM_AT, MAXIMUM_BYTES);
    expect(same(file, by_hand, LENGTH), "the other bytes of a file saved after edition 1 was loaded");
    memset(loaded, 0, MAST_TABLES_LENGTH);
}

/* Each byte of it in turn; what else is in the file is the same in both editions, and so is what is read. */
static void load_damaged_old(void)
{
    uint32_t read = 0;
    memmove(file, old_by_hand, OLD_LENGTH);
    for (size_t at = 0; at < OLD_LENGTH; at++) {
        file[at] ^= 1;
        call(LOAD, loaded, OLD_LENGTH);
        file[at] ^= 1;
        if (answer.status == MAST_SUCCESSFUL) {
            read++;
            memset(loaded, 0, MAST_TABLES_LENGTH);
            continue;
        }
        answers(MAST_INVALID_SIZE, 0, 0, "a load of a damaged edition 1 file");
        expect(all(loaded, MAST_TABLES_LENGTH, 0), "the tables when a damaged edition 1 file is refused");
    }
    expect(read == OLD_READABLE, "how many damaged edition 1 files are read");
}

static void try_small(void)
{
    start_small();
    refuse_saves();
    save_and_load(LENGTH, 2);
    expect(same(file, by_hand, LENGTH), "the bytes of a file");
    call(LOAD, loaded, LENGTH);
    answers(MAST_INCORRECT_STATE, 0, 2, "a load over a machine that is started");
    expect(same(tables, loaded, MAST_TABLES_LENGTH), "the tables of that machine");
    memset(loaded, 0, MAST_TABLES_LENGTH);
    refuse_loads();
    load_damaged();
    load_old();
    load_damaged_old();
}

static void try_largest(void)
{
    start_largest();
    save_and_load(LONGEST, 1);
    wait_all();
    save_and_load(LONGEST, 0);
}

__attribute__((used)) void begin(void)
{
    start_clock();
    for (size_t shift = 0; shift < 4; shift++) {
        align(shift);
        try_small();
        align(shift);
        try_largest();
    }
    say_costs(names, most, KINDS);
    say("state file: ");
    say_number(comparisons);
    say(" comparisons, ");
    say_number(differences);
    say(" differences\n");
    leave(differences != 0);
}
