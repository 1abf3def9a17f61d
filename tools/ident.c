/*
 * Asks for semaphores by name, as a C program does, and holds the answers and the slots looked at to what the header says. Prints what
 * is not so and ends with status 1, or says how many questions were asked.
 */
#include <stdio.h>
#include <string.h>

#include "mastclover.h"

enum { SLOTS = 5, UNWRITTEN = 4711 };

#define RADIO mast_build_name('R', 'A', 'D', 'I')
#define CLOCK mast_build_name('C', 'L', 'O', 'C')
#define FLASH mast_build_name('F', 'L', 'S', 'H')
#define NOBODY mast_build_name('N', 'O', 'N', 'E')

static uint8_t tables[MAST_TABLES_LENGTH]; /* all zeros: not started */
static unsigned asked, wrong;

static int same(mast_answer one, mast_answer other)
{
    return one.status == other.status && one.value == other.value && one.next == other.next;
}

/* Asks by both functions; `count` is how many slots the search looks at. */
static void ask(const char *what, size_t length, mast_name name, mast_answer answer, uint32_t count)
{
    static uint8_t before[MAST_TABLES_LENGTH];
    uint32_t looked = UNWRITTEN;
    mast_answer plain, counted;
    memcpy(before, tables, sizeof tables);
    plain = mast_ident(tables, length, name);
    counted = mast_ident_looked(tables, length, name, &looked);
    asked++;
    if (same(plain, answer) && same(counted, answer) && looked == count && memcmp(before, tables, sizeof tables) == 0)
        return;
    wrong++;
    printf("%s: status %u, value %u, next %u, %u slots looked at\n", what, (unsigned)counted.status, (unsigned)counted.value,
           (unsigned)counted.next, (unsigned)looked);
}

static mast_answer found(mast_id id)
{
    const mast_answer answer = { MAST_SUCCESSFUL, id, 1 };
    return answer;
}

static mast_id create(mast_name name)
{
    return mast_create(tables, sizeof tables, 1, name, 0, MAST_COUNTING_SEMAPHORE | MAST_FIFO, MAST_MAXIMUM_COUNT).value;
}

static void ask_of_three(const mast_answer none)
{
    const mast_id radio = create(RADIO), clock = create(CLOCK), flash = create(FLASH);
    ask("the first slot", sizeof tables, RADIO, found(radio), 1);
    ask("the second slot", sizeof tables, CLOCK, found(clock), 2);
    ask("the third slot", sizeof tables, FLASH, found(flash), 3);
    ask("no such name", sizeof tables, NOBODY, none, SLOTS);
    ask("name 0", sizeof tables, 0, none, 0);
    mast_delete(tables, sizeof tables, 1, radio);
    ask("behind a free slot", sizeof tables, FLASH, found(flash), 3);
    ask("a deleted one", sizeof tables, RADIO, none, SLOTS);
    ask("the lower of two", sizeof tables, FLASH, found(create(FLASH)), 1);
}

int main(void)
{
    static const uint32_t priorities[] = { 10, 20 };
    const mast_answer unstarted = { MAST_INVALID_NAME, 0, 0 }, none = { MAST_INVALID_NAME, 0, 1 }, damaged = { MAST_INTERNAL_ERROR, 0, 0 };
    ask("before the start", sizeof tables, RADIO, unstarted, 0);
    mast_start(tables, sizeof tables, SLOTS, priorities, 2);
    ask("no semaphore", sizeof tables, RADIO, none, SLOTS);
    ask_of_three(none);
    ask("too short", sizeof tables - 1, FLASH, damaged, 0);
    tables[3] ^= 1;
    ask("damaged", sizeof tables, FLASH, damaged, 0);
    tables[3] ^= 1;
    ask("mended", sizeof tables, CLOCK, found(65536 + 2), 2);
    printf("%u idents, %u wrong\n", asked, wrong);
    return wrong != 0;
}
