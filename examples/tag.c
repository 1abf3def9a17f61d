/*
 * A tag with three tasks: the radio hears packets, the logger writes them to flash, the display shows
 * them. All three use one bus. first.c is the program to read before this one.
 *
 * The tasks are small state machines that run to the end of a step on one stack, so that the switch
 * to a task is a call: after each step the one that the manager named last, `next`, takes its turn.
 * With no task ready the tag sleeps until an interrupt, which here comes from a list. On a board
 * handlers break in anywhere, so a task masks interrupts around each call.
 *
 *     packets  counting        the radio's interrupt releases it once for each packet, of which it keeps 4
 *     entries  counting        released once for each entry to be logged, by the radio and the sensor
 *     redraw   simple binary   the radio asks for a redraw; asking twice is once
 *     bus      binary          owned by the task that uses the bus, with priority inheritance
 *     flash    simple binary   the flash's interrupt says that a write is done
 *     halt     counting        never released; who waits on it has finished
 *
 * Priority inheritance: in the middle of a picture the display, the least urgent, holds the bus. An entry
 * for the logger comes, and then a packet, for which the radio needs the bus. While the radio waits, the
 * display goes by the radio's priority, so that the logger does not go before it. With the order
 * MAST_PRIORITY alone the logger would go first, and the radio would wait for both.
 */
#include <stdio.h>
#include <stdlib.h>

#include "mastclover.h"

/* On a Cortex-M these are __disable_irq() and __enable_irq(). Nothing interrupts this program. */
#define MASK() ((void)0)
#define UNMASK() ((void)0)

#define INTERRUPT 0      /* the caller of a call made by an interrupt */
#define SLOTS 6
#define FLASH_TIMEOUT 3  /* ticks */
#define PACKETS 4        /* a packet more is lost, and `packets` does not count it */

enum { RADIO = 1, LOGGER, DISPLAY, TASKS = DISPLAY };

struct task {
    const char *name;
    uint32_t number;
    void (*step)(struct task *self);
    int state;
    int waiting;
    mast_status answer; /* how its latest obtain ended, waited for or not */
};

static void radio_step(struct task *self);
static void logger_step(struct task *self);
static void display_step(struct task *self);

static struct task tasks[TASKS] = {
    { "radio", RADIO, radio_step, 0, 0, MAST_SUCCESSFUL },
    { "logger", LOGGER, logger_step, 0, 0, MAST_SUCCESSFUL },
    { "display", DISPLAY, display_step, 0, 0, MAST_SUCCESSFUL },
};
static const uint32_t priorities[TASKS] = { 10, 20, 30 };

/* All zeros: a machine not yet started. */
static uint8_t tables[MAST_TABLES_LENGTH];

static uint32_t next;  /* the task whose turn it is, or 0 */
static unsigned ticks; /* since power on */

static mast_id packets, entries, redraw, bus, flash, halt;

enum event { CLOCK, PACKET, SENSOR, FLASH_READY, BATTERY_LOW };
static void interrupt(enum event event);

static const char *status_name(mast_status status)
{
    switch (status) {
    case MAST_SUCCESSFUL: return "successful";
    case MAST_INVALID_ID: return "invalid id";
    case MAST_TIMEOUT: return "timeout";
    case MAST_OBJECT_WAS_DELETED: return "object was deleted";
    case MAST_UNSATISFIED: return "unsatisfied";
    case MAST_WAITING: return "waiting";
    default: return "another status";
    }
}

static void say(const char *who, const char *what)
{
    printf("%2u %-9s %s\n", ticks, who, what);
}

static void say_status(const char *who, const char *what, mast_status status)
{
    printf("%2u %-9s %s: %s\n", ticks, who, what, status_name(status));
}

/* Every answer names the task to switch to; damaged tables leave nothing to go on with. */
static mast_answer heed(mast_answer answer)
{
    if (answer.status == MAST_INTERNAL_ERROR) {
        say("tag", "the tables are damaged");
        exit(EXIT_FAILURE);
    }
    next = answer.next;
    return answer;
}

/* A call that cannot be refused unless the firmware is wrong. */
static mast_answer expect(mast_answer answer)
{
    heed(answer);
    if (answer.status != MAST_SUCCESSFUL) {
        say_status("tag", "unexpected status", answer.status);
        exit(EXIT_FAILURE);
    }
    return answer;
}

static mast_id create(const struct task *self, mast_name name, uint32_t count, uint32_t attributes, uint32_t maximum)
{
    mast_answer answer;
    MASK();
    answer = expect(mast_create(tables, sizeof tables, self->number, name, count, attributes, maximum));
    UNMASK();
    return answer.value;
}

/* mast_ident does the same for those who don't ask how many slots were looked at. */
static mast_id ident(const struct task *self, mast_name name)
{
    mast_answer answer;
    uint32_t looked;
    MASK();
    answer = expect(mast_ident_looked(tables, sizeof tables, name, &looked));
    UNMASK();
    printf("%2u %-9s found its semaphore by name, looking at %u of %u slots\n", ticks, self->name, (unsigned)looked, SLOTS);
    return answer.value;
}

/* The step has to end after this: the task may be waiting. Its next step finds the answer. */
static void obtain(struct task *self, mast_id id, uint32_t timeout)
{
    mast_answer answer;
    MASK();
    answer = heed(mast_obtain(tables, sizeof tables, self->number, id, MAST_WAIT, timeout));
    UNMASK();
    self->answer = answer.status;
    self->waiting = answer.status == MAST_WAITING;
}

static mast_status release(const struct task *self, mast_id id)
{
    mast_answer answer;
    MASK();
    answer = heed(mast_release(tables, sizeof tables, self->number, id));
    UNMASK();
    return answer.status;
}

static void delete_semaphore(const struct task *self, mast_id id)
{
    MASK();
    expect(mast_delete(tables, sizeof tables, self->number, id));
    UNMASK();
}

/* The radio is the most urgent task and runs first, so it makes them; redraw is found by name. */
static void create_semaphores(const struct task *self)
{
    const uint32_t counting = MAST_COUNTING_SEMAPHORE | MAST_FIFO;
    const uint32_t simple = MAST_SIMPLE_BINARY_SEMAPHORE | MAST_FIFO;
    const uint32_t binary = MAST_BINARY_SEMAPHORE | MAST_PRIORITY | MAST_INHERIT_PRIORITY;

    packets = create(self, mast_build_name('P', 'K', 'T', 'S'), 0, counting, PACKETS);
    entries = create(self, mast_build_name('E', 'N', 'T', 'R'), 0, counting, MAST_MAXIMUM_COUNT);
    create(self, mast_build_name('D', 'R', 'A', 'W'), 0, simple, 1);
    bus = create(self, mast_build_name('B', 'U', 'S', ' '), 1, binary, 1);
    flash = create(self, mast_build_name('F', 'L', 'S', 'H'), 0, simple, 1);
    halt = create(self, mast_build_name('H', 'A', 'L', 'T'), 0, counting, 1);
}

/* Deleting what the others wait on tells them to finish; its identifier is never valid again. */
static void close_down(const struct task *self)
{
    delete_semaphore(self, redraw);
    delete_semaphore(self, entries);
    say_status(self->name, "asks for one more redraw", release(self, redraw));
}

static void radio_step(struct task *self)
{
    enum { BOOT, LISTEN, HEARD, FETCH, DONE };

    switch (self->state) {
    case BOOT:
        create_semaphores(self);
        say(self->name, "made the semaphores");
        self->state = LISTEN;
        break;
    case LISTEN:
        self->state = HEARD;
        obtain(self, packets, MAST_NO_TIMEOUT);
        break;
    case HEARD:
        if (self->answer == MAST_SUCCESSFUL) {
            say(self->name, "heard a packet");
            self->state = FETCH;
            obtain(self, bus, MAST_NO_TIMEOUT);
            say_status(self->name, "obtains the bus", self->answer);
        } else {
            say(self->name, "closes down");
            close_down(self);
            self->state = DONE;
        }
        break;
    case FETCH:
        say_status(self->name, "has read the packet and releases the bus", release(self, bus));
        /* A redraw already asked for is as good, so a refusal is no error. */
        say_status(self->name, "asks for a redraw", release(self, redraw));
        say_status(self->name, "asks for an entry", release(self, entries));
        self->state = LISTEN;
        break;
    case DONE:
        obtain(self, halt, MAST_NO_TIMEOUT);
        break;
    }
}

/* Takes the bus for itself, whether its caller has it already or not: an owner may nest. */
static void draw_text(struct task *self)
{
    obtain(self, bus, MAST_NO_TIMEOUT);
    say_status(self->name, "draws with the bus obtained twice", self->answer);
    release(self, bus);
}

static void display_step(struct task *self)
{
    enum { BOOT, IDLE, ASKED, DRAW, FINISH, DONE };
    static unsigned pictures;

    switch (self->state) {
    case BOOT:
        redraw = ident(self, mast_build_name('D', 'R', 'A', 'W'));
        self->state = IDLE;
        break;
    case IDLE:
        self->state = ASKED;
        obtain(self, redraw, MAST_NO_TIMEOUT);
        break;
    case ASKED:
        if (self->answer == MAST_SUCCESSFUL) {
            self->state = DRAW;
            obtain(self, bus, MAST_STANDARD_TIMEOUT);
            say_status(self->name, "obtains the bus", self->answer);
        } else {
            say(self->name, "goes dark");
            self->state = DONE;
        }
        break;
    case DRAW:
        /* The logger needs the bus for a few ticks: past the standard limit the picture is given up. */
        if (self->answer != MAST_SUCCESSFUL) {
            say(self->name, "gives up the picture");
            self->state = IDLE;
            break;
        }
        draw_text(self);
        self->state = FINISH;
        /* In the middle of the first picture handlers break in. This program has to call them itself. */
        if (pictures++ == 0) {
            interrupt(SENSOR);
            interrupt(PACKET);
        }
        break;
    case FINISH:
        say_status(self->name, "has drawn the rest and releases the bus", release(self, bus));
        self->state = IDLE;
        break;
    case DONE:
        obtain(self, halt, MAST_NO_TIMEOUT);
        break;
    }
}

static void logger_step(struct task *self)
{
    enum { IDLE, ASKED, WRITE, WRITTEN, DONE };

    switch (self->state) {
    case IDLE:
        self->state = ASKED;
        obtain(self, entries, MAST_NO_TIMEOUT);
        break;
    case ASKED:
        if (self->answer == MAST_SUCCESSFUL) {
            self->state = WRITE;
            obtain(self, bus, MAST_NO_TIMEOUT);
            say_status(self->name, "obtains the bus", self->answer);
        } else {
            say(self->name, "closes the log");
            self->state = DONE;
        }
        break;
    case WRITE:
        say(self->name, "starts a write and awaits the flash");
        self->state = WRITTEN;
        obtain(self, flash, FLASH_TIMEOUT);
        break;
    case WRITTEN:
        say(self->name, self->answer == MAST_SUCCESSFUL ? "wrote an entry" : "drops the entry");
        self->state = IDLE;
        say_status(self->name, "releases the bus", release(self, bus));
        break;
    case DONE:
        obtain(self, halt, MAST_NO_TIMEOUT);
        break;
    }
}

/* What comes while no task is ready. */
static const enum event day[] = {
    PACKET, FLASH_READY,              /* the picture waits for the logger's bus; in its middle come two more */
    CLOCK, CLOCK, CLOCK, FLASH_READY, /* the flash is late once */
    BATTERY_LOW,
};

/* A handler runs masked, so it makes its calls as they are. */
static mast_status release_from_interrupt(mast_id id)
{
    return heed(mast_release(tables, sizeof tables, INTERRUPT, id)).status;
}

static void interrupt(enum event event)
{
    switch (event) {
    case CLOCK:
        ticks++;
        expect(mast_tick(tables, sizeof tables));
        break;
    case PACKET:
        say_status("interrupt", "a packet", release_from_interrupt(packets));
        break;
    case SENSOR:
        say_status("interrupt", "the sensor has an entry", release_from_interrupt(entries));
        break;
    case FLASH_READY:
        say_status("interrupt", "the flash is ready", release_from_interrupt(flash));
        break;
    case BATTERY_LOW:
        say("interrupt", "the battery is low");
        expect(mast_flush(tables, sizeof tables, INTERRUPT, packets));
        break;
    }
}

/* The switch: a step of the task that is next. One that waited first learns how that ended. */
static void switch_to(uint32_t number)
{
    struct task *task = &tasks[number - 1];
    if (task->waiting) {
        MASK();
        task->answer = expect(mast_task(tables, sizeof tables, task->number)).value;
        UNMASK();
        task->waiting = 0;
        say_status(task->name, "wakes", task->answer);
    }
    task->step(task);
}

int main(void)
{
    size_t event;

    expect(mast_start(tables, sizeof tables, SLOTS, priorities, TASKS));
    for (event = 0; event <= sizeof day / sizeof day[0]; event++) {
        while (next != 0) {
            switch_to(next);
        }
        if (event < sizeof day / sizeof day[0]) {
            interrupt(day[event]);
        }
    }
    say("tag", "all tasks are asleep");
    return EXIT_SUCCESS;
}
