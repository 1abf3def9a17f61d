/*
 * Makes the calls that compare's `record` wrote down, from standard input, on the library of this processor, and compares each
 * answer, a sum over the tables' bytes after it and the bytes around them; of an ITRON call the same of its list too. An ident is made
 * by both of its functions, and the slots that it looked at are compared. Says how many calls there were, how many differ, and the most
 * stack of each function, for which every call runs on a painted stack of its own, and on a board the most time of each. Ends with status
 * 0 only if no call differs.
 */
#include "mastclover_itron.h"
#include "processor.h"
#include "painted.h"

enum { START, CREATE, IDENT, DELETE, OBTAIN, RELEASE, FLUSH, TICK, TASK, KINDS, LEND = 16, WRITE, END, LIST, FIRST_ITRON = 32 };
/* The functions: one for each kind of call, the ident that counts, which has no entry of its own, and those of the ITRON calls. */
enum { IDENT_LOOKED = KINDS, CRE_SEM, DEL_SEM, SIG_SEM, WAI_SEM, PREQ_SEM, TWAI_SEM, REF_SEM, DELETE_MAPPED, ITRON_CODE, FUNCTIONS };
enum { GUARD = 64, MOST_BYTES = 12000, MOST_PRIORITIES = 512, GUARD_BYTE = 0xA5, SHOWN = 5 };

static const char *const names[FUNCTIONS] = {
    "mast_start", "mast_create", "mast_ident", "mast_delete", "mast_obtain", "mast_release", "mast_flush", "mast_tick", "mast_task",
    "mast_ident_looked", "mast_cre_sem", "mast_del_sem", "mast_sig_sem", "mast_wai_sem", "mast_preq_sem", "mast_twai_sem",
    "mast_ref_sem", "mast_delete_mapped", "mast_itron_code",
};

/* ---- the record */

static uint32_t word(void)
{
    static uint8_t read[BUFFER];
    static long at, end;
    uint32_t found = 0;
    for (int byte = 0; byte < 4; byte++) {
        if (at == end) {
            at = 0;
            end = read_some(read, sizeof read);
            if (end <= 0)
                refuse("the record has no end\n");
        }
        found |= (uint32_t)read[at++] << 8 * byte;
    }
    return found;
}

/* ---- the lent tables, between guards */

static uint8_t memory[GUARD + 4 + MOST_BYTES + GUARD] __attribute__((aligned(8)));
static uint8_t *tables;
static size_t length;

static void lend(uint32_t offset, uint32_t bytes)
{
    uint8_t *place = memory + GUARD + offset;
    size_t kept = length < bytes ? length : bytes;
    if (offset > 3 || bytes > MOST_BYTES)
        refuse("the record lends more than there is\n");
    memmove(place, tables, kept);
    memset(place + kept, 0, bytes - kept);
    memset(memory, GUARD_BYTE, (size_t)(place - memory));
    memset(place + bytes, GUARD_BYTE, (size_t)(memory + sizeof memory - (place + bytes)));
    tables = place;
    length = bytes;
}

static void write_bytes(uint32_t at, uint32_t count)
{
    if (at > length || count > length - at)
        refuse("the record writes beside the tables\n");
    for (uint32_t done = 0, four = 0; done < count; done++, four >>= 8) {
        if (done % 4 == 0)
            four = word();
        tables[at + done] = (uint8_t)four;
    }
}

static uint32_t sum(const uint8_t *bytes, size_t count)
{
    uint32_t found = 0x811C9DC5;
    for (size_t at = 0; at < count; at++)
        found = (found ^ bytes[at]) * 0x01000193;
    return found;
}

/* ---- the lent list, between guards */

enum { GUARD_WORDS = 8, MOST_ENTRIES = 160 };
static const uint32_t guard_word = 0xA5A5A5A5;
static uint32_t list_memory[GUARD_WORDS + 1 + MOST_ENTRIES + GUARD_WORDS] __attribute__((aligned(8)));
static uint32_t *list;
static size_t entries;

static void lend_list(uint32_t shift, uint32_t count)
{
    if (shift > 1 || count > MOST_ENTRIES)
        refuse("the record lends a longer list than there is\n");
    memset(list_memory, GUARD_BYTE, sizeof list_memory);
    list = list_memory + GUARD_WORDS + shift;
    entries = count;
    for (size_t at = 0; at < entries; at++)
        list[at] = word();
}

static int list_guards_hold(void)
{
    for (const uint32_t *at = list_memory; at < list; at++)
        if (*at != guard_word)
            return 0;
    for (int at = 0; at < GUARD_WORDS; at++)
        if (list[entries + at] != guard_word)
            return 0;
    return 1;
}

/* How many slots an ident looked at, between two words that no call may write; what it holds before is no count. */
static uint32_t looked[3];
static const uint32_t unwritten = 0xA5A55A5A;

static int guards_hold(void)
{
    const uint8_t *after = tables + length;
    if (looked[0] != unwritten || looked[2] != unwritten || !list_guards_hold())
        return 0;
    for (const uint8_t *at = memory; at < tables; at++)
        if (*at != GUARD_BYTE)
            return 0;
    for (int at = 0; at < GUARD; at++)
        if (after[at] != GUARD_BYTE)
            return 0;
    return 1;
}

/* ---- one call, on a painted stack */

static uint32_t kind, a, b, c, d, e;
static uint32_t priorities[MOST_PRIORITIES];
static mast_answer answer;
static mast_coded code;
static mast_reference reference;
static cost most[FUNCTIONS];

static void make_call(void)
{
    STACK_POINTER(called_at);
    switch (kind) {
    case CRE_SEM: code = mast_cre_sem(tables, length, list, entries, a, b, c, (int32_t)d, (int32_t)e); break;
    case DEL_SEM: code = mast_del_sem(tables, length, list, entries, a, b); break;
    case SIG_SEM: code = mast_sig_sem(tables, length, list, entries, a, b); break;
    case WAI_SEM: code = mast_wai_sem(tables, length, list, entries, a, b); break;
    case PREQ_SEM: code = mast_preq_sem(tables, length, list, entries, a, b); break;
    case TWAI_SEM: code = mast_twai_sem(tables, length, list, entries, a, b, (int32_t)c); break;
    case REF_SEM: reference = mast_ref_sem(tables, length, list, entries, a, b); break;
    case DELETE_MAPPED: answer = mast_delete_mapped(tables, length, list, entries, a, b); break;
    case ITRON_CODE: code.code = mast_itron_code(a); break;
    case START: answer = mast_start(tables, length, a, b == 0 ? NULL : priorities, b); break;
    case CREATE: answer = mast_create(tables, length, a, b, c, d, e); break;
    case IDENT: answer = mast_ident(tables, length, a); break;
    case IDENT_LOOKED: answer = mast_ident_looked(tables, length, a, &looked[1]); break;
    case DELETE: answer = mast_delete(tables, length, a, b); break;
    case OBTAIN: answer = mast_obtain(tables, length, a, b, c, d); break;
    case RELEASE: answer = mast_release(tables, length, a, b); break;
    case FLUSH: answer = mast_flush(tables, length, a, b); break;
    case TICK: answer = mast_tick(tables, length); break;
    default: answer = mast_task(tables, length, a); break;
    }
}

/*
 * What is compared of a call: its answer, the sum over the tables after it, and what an ident counted. Of an ITRON call its code, the next
 * task and what ref_sem tells, and the sums over tables and list.
 */
enum { STATUS, VALUE, NEXT, SUM, LOOKED, NUMBERS = 7 };

static void find_classic(uint32_t found[NUMBERS])
{
    const uint32_t numbers[NUMBERS] = { answer.status, answer.value, answer.next, sum(tables, length),
                                        kind == IDENT_LOOKED ? looked[1] : 0, 0, 0 };
    memmove(found, numbers, sizeof numbers);
}

static void find_itron(uint32_t found[NUMBERS])
{
    mast_reference all = { code.code, code.next, 0, 0, 0 };
    if (kind == REF_SEM) {
        all = reference;
    } else if (kind == DELETE_MAPPED) {
        all.code = (int32_t)answer.status;
        all.next = answer.next;
        all.exinf = (int32_t)answer.value;
    }
    const uint32_t numbers[NUMBERS] = { (uint32_t)all.code, all.next, (uint32_t)all.exinf, (uint32_t)all.wtsk, (uint32_t)all.semcnt,
                                        sum(tables, length), sum((const uint8_t *)list, entries * 4) };
    memmove(found, numbers, sizeof numbers);
}

static void say_numbers(const char *who, const uint32_t numbers[NUMBERS])
{
    say(who);
    for (int at = 0; at < NUMBERS; at++) {
        say(" ");
        say_number(numbers[at]);
    }
    say("\n");
}

/* Calls the function that `kind` says; whether it did as recorded. */
static int as_recorded(uint32_t calls, const uint32_t recorded[NUMBERS])
{
    static int shown;
    uint32_t found[NUMBERS];
    looked[0] = looked[1] = looked[2] = unwritten;
    code.next = 0; /* the code of an answer has none */
    call_painted(make_call, &most[kind]);
    if (kind < CRE_SEM)
        find_classic(found);
    else
        find_itron(found);
    int same = guards_hold();
    for (int at = 0; at < NUMBERS; at++)
        same = same && found[at] == recorded[at];
    if (!same && shown++ < SHOWN) {
        say("difference in call ");
        say_number(calls);
        say(", ");
        say(names[kind]);
        say(guards_hold() ? "\n" : ": bytes outside of what is lent were written\n");
        say(kind < CRE_SEM ? "  status value next sum looked\n" : "  code next exinf wtsk semcnt sum sum of the list\n");
        say_numbers("  recorded:", recorded);
        say_numbers("  found:   ", found);
    }
    return same;
}

/* Makes the call whose kind was just read; whether it was as recorded. */
static int replay(uint32_t calls)
{
    uint32_t recorded[NUMBERS] = { 0 };
    a = word(), b = word(), c = word(), d = word(), e = word();
    if (kind == START) {
        if (b > MOST_PRIORITIES)
            refuse("the record has too many priorities\n");
        for (uint32_t at = 0; at < b; at++)
            priorities[at] = word();
    }
    for (int at = STATUS; at < (kind < CRE_SEM ? LOOKED : NUMBERS); at++)
        recorded[at] = word();
    int same = as_recorded(calls, recorded);
    if (kind == IDENT) {
        kind = IDENT_LOOKED;
        recorded[LOOKED] = b;
        same = as_recorded(calls, recorded) && same;
    }
    return same;
}

__attribute__((used)) void begin(void)
{
    uint32_t calls = 0, differences = 0;
    tables = memory + GUARD;
    lend_list(0, 0);
    start_clock();
    for (kind = word(); kind != END; kind = word()) {
        if (kind == LEND) {
            uint32_t offset = word();
            lend(offset, word());
        } else if (kind == WRITE) {
            uint32_t at = word();
            write_bytes(at, word());
        } else if (kind == LIST) {
            uint32_t shift = word();
            lend_list(shift, word());
        } else if (kind < KINDS || (kind >= FIRST_ITRON && kind - FIRST_ITRON < FUNCTIONS - CRE_SEM)) {
            if (kind >= FIRST_ITRON)
                kind = kind - FIRST_ITRON + CRE_SEM;
            calls++;
            differences += !replay(calls);
        } else {
            refuse("the record has an entry of no known kind\n");
        }
    }
    if (word() != calls)
        refuse("the record ends with another number of calls\n");
    say_costs(names, most, FUNCTIONS);
    say_number(calls);
    say(" calls, ");
    say_number(differences);
    say(" differences\n");
    leave(differences != 0);
}
