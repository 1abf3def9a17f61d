/*
 * The smallest firmware over the library, for any Cortex-M, without a C library: start-up, a clock, and two tasks with stacks of
 * their own. The radio is the more urgent task: it sleeps, hears a packet and releases `packets`; the display obtains `packets` and
 * draws. Copy it, and put your tasks in the place of these.
 *
 * - Every call's answer names the task to run, `next`. PendSV, the least urgent interrupt, switches to it.
 * - A call must not be interrupted by another one on the same tables, so interrupts are masked around each: see mask() and heed().
 * - Task 0 is nobody: while no task is ready, `next` is 0 and the idle loop runs, which is what start() becomes.
 *
 * It prints by semihosting, to a debugger or an emulator; without one put your own in the place of say() and stop(). To link it:
 *
 *     arm-none-eabi-gcc -mcpu=cortex-m4 -mthumb -Os -ffreestanding -nostdlib -Iinclude -T board.ld board.c libmastclover.a
 */
#include "mastclover.h"

#ifndef CLOCK
#define CLOCK 16000000 /* of the processor, per second */
#endif
#define TICKS 10       /* per second, by SysTick; a Cortex-M0 without it has a timer of its own that can call clock_tick() */

enum { IDLE, RADIO, DISPLAY, TASKS = DISPLAY };

/* In bytes. docs/TARGETS.md has what each call takes; a switch adds 68 bytes, and the task's own functions come on top. */
enum { TASK_STACK = 2976, IDLE_STACK = 2784, HANDLER_STACK = 2720 };
#define UNTOUCHED 0x5AFE57AC /* stands at the far end of each stack */

static uint8_t tables[MAST_TABLES_LENGTH]; /* all zeros: not started yet */
static const uint32_t priorities[TASKS] = { 10, 20 };
static uint32_t packets, never;

/* Not set to zero at start-up, which has a stack already. */
#define STACK __attribute__((section(".stacks"), aligned(8)))
static uint32_t task_stacks[TASKS][TASK_STACK / 4] STACK;
static uint32_t idle_stack[IDLE_STACK / 4] STACK;
static uint32_t handler_stack[HANDLER_STACK / 4] STACK;

static uint32_t *stack_pointers[TASKS + 1];
static volatile uint32_t running, next;

/* ---- the processor */

#define REGISTER(address) (*(volatile uint32_t *)(address))
#define SYSTICK_CONTROL REGISTER(0xE000E010)
#define SYSTICK_RELOAD REGISTER(0xE000E014)
#define SYSTICK_COUNT REGISTER(0xE000E018)
#define INTERRUPT_CONTROL REGISTER(0xE000ED04)
#define PRIORITIES_OF_SYSTEM_HANDLERS REGISTER(0xE000ED20)
#define PEND_SWITCH (1u << 28)

static uint32_t semihost(uint32_t operation, uint32_t argument)
{
    register uint32_t r0 __asm__("r0") = operation;
    register uint32_t r1 __asm__("r1") = argument;
    __asm__ volatile("bkpt 0xAB" : "+r"(r0) : "r"(r1) : "memory");
    return r0;
}

static void say(const char *text)
{
    semihost(0x04, (uint32_t)(uintptr_t)text);
}

__attribute__((noreturn)) static void stop(const char *why, int well)
{
    say(why);
    semihost(0x18, well ? 0x20026 : 0x20023);
    for (;;)
        ;
}

/* ---- calls */

/* Masks interrupts, and says whether they were masked already. */
static uint32_t mask(void)
{
    uint32_t masked;
    __asm__ volatile("mrs %0, primask\n cpsid i" : "=r"(masked) : : "memory");
    return masked;
}

/* Has the task that an answer names run, as soon as interrupts are as they were before the call. */
static mast_answer heed(uint32_t masked, mast_answer answer)
{
    if (answer.status == MAST_INTERNAL_ERROR)
        stop("the tables are damaged\n", 0);
    next = answer.next;
    if (next != running)
        INTERRUPT_CONTROL = PEND_SWITCH;
    __asm__ volatile("msr primask, %0\n isb" : : "r"(masked) : "memory");
    return answer;
}

static mast_answer expect(mast_answer answer)
{
    if (answer.status != MAST_SUCCESSFUL)
        stop("a call was refused\n", 0);
    return answer;
}

static uint32_t create(uint32_t caller, uint32_t name, uint32_t count, uint32_t attributes, uint32_t maximum)
{
    uint32_t masked = mask();
    return expect(heed(masked, mast_create(tables, sizeof tables, caller, name, count, attributes, maximum))).value;
}

/* How the obtain ended, waited for or not. If it waits, the switch comes with heed(), and the task goes on here when it is ready. */
static uint32_t obtain(uint32_t caller, uint32_t id, uint32_t timeout)
{
    uint32_t masked = mask();
    uint32_t status = heed(masked, mast_obtain(tables, sizeof tables, caller, id, MAST_WAIT, timeout)).status;
    if (status != MAST_WAITING)
        return status;
    masked = mask();
    return expect(heed(masked, mast_task(tables, sizeof tables, caller))).value;
}

static void release(uint32_t caller, uint32_t id)
{
    uint32_t masked = mask();
    expect(heed(masked, mast_release(tables, sizeof tables, caller, id)));
}

static void delete_semaphore(uint32_t caller, uint32_t id)
{
    uint32_t masked = mask();
    expect(heed(masked, mast_delete(tables, sizeof tables, caller, id)));
}

/* ---- the tasks */

/* Nobody releases `never`, so an obtain of it ends when its ticks have run out. */
static void sleep(uint32_t caller, uint32_t ticks)
{
    if (obtain(caller, never, ticks) != MAST_TIMEOUT)
        stop("a sleep ended too soon\n", 0);
}

__attribute__((noreturn)) static void radio(void)
{
    for (int heard = 0; heard < 3; heard++) {
        say("radio: sleeps 3 ticks\n");
        sleep(RADIO, 3);
        say("radio: heard a packet\n");
        release(RADIO, packets);
    }
    say("radio: closes down\n");
    delete_semaphore(RADIO, packets);
    for (;;)
        obtain(RADIO, never, MAST_NO_TIMEOUT);
}

static int stacks_held(void)
{
    return task_stacks[0][0] == UNTOUCHED && task_stacks[1][0] == UNTOUCHED && idle_stack[0] == UNTOUCHED && handler_stack[0] == UNTOUCHED;
}

__attribute__((noreturn)) static void display(void)
{
    while (obtain(DISPLAY, packets, MAST_NO_TIMEOUT) == MAST_SUCCESSFUL)
        say("display: draws\n");
    say("display: goes dark\n");
    if (!stacks_held())
        stop("board: a stack is too small\n", 0);
    stop("board: done\n", 1);
}

/* ---- interrupts */

void reset(void);
void clock_tick(void);
void switch_tasks(void);
void unexpected(void);
uint32_t *switch_stacks(uint32_t *now);
void start(void);

void clock_tick(void)
{
    uint32_t masked = mask();
    expect(heed(masked, mast_tick(tables, sizeof tables)));
}

/* Gives the stack pointer of the task to run for that of the one that ran. */
uint32_t *switch_stacks(uint32_t *now)
{
    stack_pointers[running] = now;
    running = next;
    return stack_pointers[running];
}

/*
 * PendSV: the processor has saved r0 to r3, r12, lr, pc and psr on the task's stack; r4 to r11 go below them. Tasks that compute with
 * floats in registers need those saved as well.
 */
__attribute__((naked)) void switch_tasks(void)
{
    __asm__ volatile(".syntax unified\n mrs r0, psp\n subs r0, #32\n mov r1, r0\n stmia r1!, {r4-r7}\n"
                     "mov r4, r8\n mov r5, r9\n mov r6, r10\n mov r7, r11\n stmia r1!, {r4-r7}\n"
                     "push {r3, lr}\n bl switch_stacks\n pop {r2, r3}\n"
                     "mov r1, r0\n adds r1, #16\n ldmia r1!, {r4-r7}\n mov r8, r4\n mov r9, r5\n mov r10, r6\n mov r11, r7\n"
                     "ldmia r0!, {r4-r7}\n msr psp, r1\n bx r3\n");
}

void unexpected(void)
{
    stop("an interrupt that nobody expects\n", 0);
}

/* Where the processor finds its first stack, the start and its interrupts; those of your device follow. */
__attribute__((section(".vectors"), used)) static const struct {
    uint32_t *stack;
    void (*handlers[15])(void);
} vectors = {
    handler_stack + HANDLER_STACK / 4,
    { reset, unexpected, unexpected, unexpected, unexpected, unexpected, 0, 0, 0, 0, unexpected, unexpected, 0, switch_tasks, clock_tick },
};

/* ---- start-up */

__attribute__((used)) static uint32_t *const idle_top = idle_stack + IDLE_STACK / 4;

/* From here on the handlers alone use the first stack: start() runs on the idle loop's, as the tasks do on theirs. */
__attribute__((naked)) void reset(void)
{
    __asm__ volatile(".syntax unified\n ldr r0, =idle_top\n ldr r0, [r0]\n msr psp, r0\n movs r0, #2\n msr control, r0\n isb\n bl start\n .ltorg\n");
}

/* What a task finds on its stack when it is switched to for the first time. */
static void prepare(uint32_t task, void (*run)(void))
{
    uint32_t *top = task_stacks[task - 1] + TASK_STACK / 4;
    *--top = 0x01000000; /* psr: Thumb */
    *--top = (uint32_t)(uintptr_t)run;
    stack_pointers[task] = top - 14; /* lr, r12, r3 to r0, r11 to r4: any */
}

static void set_memory(void)
{
    extern uint32_t data_kept[], data_start[], data_end[], bss_start[], bss_end[];
    const uint32_t *kept = data_kept;
    for (uint32_t *word = data_start; word < data_end; word++)
        *word = *kept++;
    for (uint32_t *word = bss_start; word < bss_end; word++)
        *word = 0;
    task_stacks[0][0] = task_stacks[1][0] = idle_stack[0] = handler_stack[0] = UNTOUCHED;
}

/* Makes what the tasks share, on the radio's behalf, lets the clock run and becomes the idle loop. */
__attribute__((noreturn, used)) void start(void)
{
    uint32_t masked = mask();
    set_memory();
    prepare(RADIO, radio);
    prepare(DISPLAY, display);
    PRIORITIES_OF_SYSTEM_HANDLERS = 0x00FF0000; /* PendSV least urgent, SysTick most */
    expect(heed(1, mast_start(tables, sizeof tables, 2, priorities, TASKS)));
    packets = create(RADIO, 1, 0, MAST_COUNTING_SEMAPHORE | MAST_FIFO, MAST_MAXIMUM_COUNT);
    never = create(RADIO, 2, 0, MAST_COUNTING_SEMAPHORE | MAST_FIFO, 1);
    SYSTICK_RELOAD = CLOCK / TICKS - 1;
    SYSTICK_COUNT = 0;
    SYSTICK_CONTROL = 7; /* on, with its interrupt, by the processor's clock */
    say("board: started\n");
    __asm__ volatile("msr primask, %0\n isb" : : "r"(masked) : "memory"); /* the first switch comes here */
    for (;;)
        __asm__ volatile("wfi");
}

/* ---- what the library needs of a C library */

void *memcpy(void *to, const void *from, size_t length);
void *memmove(void *to, const void *from, size_t length);
void *memset(void *to, int byte, size_t length);

void *memmove(void *to, const void *from, size_t length)
{
    uint8_t *t = to;
    const uint8_t *f = from;
    if (t < f)
        for (size_t at = 0; at < length; at++)
            t[at] = f[at];
    else
        while (length-- > 0)
            t[length] = f[length];
    return to;
}

void *memcpy(void *to, const void *from, size_t length)
{
    return memmove(to, from, length);
}

void *memset(void *to, int byte, size_t length)
{
    uint8_t *t = to;
    while (length-- > 0)
        *t++ = (uint8_t)byte;
    return to;
}
