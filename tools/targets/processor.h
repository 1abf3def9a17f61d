/*
 * What replay.c and state.c have of a processor and of what runs it: reading, saying and leaving, by three system calls of Linux, with
 * BOARD defined by the semihosting of a Cortex-M, whose clock is read as well, or by functions that node gives; a call on another
 * stack; and memcpy and the like.
 */
#include <stddef.h>
#include <stdint.h>

__attribute__((unused)) static long read_some(void *place, long most);
static void say(const char *text);
__attribute__((noreturn)) static void leave(int status);
static void start_clock(void);
static uint32_t clock(void);
static uint32_t counts_since(uint32_t earlier);
void call_on(void (*function)(void), void *top);
void begin(void);

#if defined(__arm__)
#define STACK_POINTER(place) __asm__ volatile("mov %0, sp" : "=r"(place))
#if defined(__thumb__)
#define MODE ".thumb\n"
#else
#define MODE ".arm\n"
#endif
__asm__(".syntax unified\n" MODE ".text\n"
        ".globl call_on\n.type call_on, %function\ncall_on:\n"
        "push {r4, lr}\nmov r4, sp\nmov sp, r1\nblx r0\nmov sp, r4\npop {r4, pc}\n");
#elif defined(__riscv)
#define STACK_POINTER(place) __asm__ volatile("mv %0, sp" : "=r"(place))
__asm__(".text\n"
        ".globl call_on\ncall_on: addi sp, sp, -16\nsw ra, 12(sp)\nsw s0, 8(sp)\nmv s0, sp\nmv sp, a1\njalr a0\n"
        "mv sp, s0\nlw s0, 8(sp)\nlw ra, 12(sp)\naddi sp, sp, 16\nret\n");
#else
/* No function of a WebAssembly module chooses the stack of another: nothing is painted there. */
#define STACK_POINTER(place) ((place) = 0)
void call_on(void (*function)(void), void *top)
{
    (void)top;
    function();
}
#endif

#if defined(BOARD)

enum { BUFFER = 4096 };

static long semihost(long operation, const void *argument)
{
    register long r0 __asm__("r0") = operation;
    register const void *r1 __asm__("r1") = argument;
    __asm__ volatile("bkpt 0xAB" : "+r"(r0) : "r"(r1) : "memory");
    return r0;
}

static long read_some(void *place, long most)
{
    static long file;
    static const char name[] = "calls.record";
    if (file == 0) {
        long open[] = { (long)name, 1, sizeof name - 1 };
        file = semihost(0x01, open);
    }
    long read[] = { file, (long)place, most };
    return file < 0 ? file : most - semihost(0x06, read);
}

static void say(const char *text)
{
    semihost(0x04, text);
}

static void leave(int status)
{
    semihost(0x18, (void *)(status == 0 ? 0x20026L : 0x20023L));
    for (;;)
        ;
}

static void fault(void)
{
    say("the processor refused an instruction or an address\n");
    leave(2);
}

/* SysTick counts down, with 24 bits; under -icount time goes by instructions, and a loop of known length tells how many one count is. */
#define SYSTICK ((volatile uint32_t *)0xE000E010)
enum { LOOPS = 100000 };
static uint32_t counts_in_loops;

static uint32_t clock(void)
{
    return SYSTICK[2];
}

static uint32_t counts_since(uint32_t earlier)
{
    return (earlier - SYSTICK[2]) & 0xFFFFFF;
}

static void start_clock(void)
{
    uint32_t left = LOOPS, earlier;
    SYSTICK[1] = 0xFFFFFF;
    SYSTICK[2] = 0;
    SYSTICK[0] = 5;
    earlier = clock();
    __asm__ volatile(".balign 4\n1: subs %0, #1\n bne 1b" : "+l"(left) : : "cc");
    counts_in_loops = counts_since(earlier);
}

static uint32_t first_stack[1024] __attribute__((aligned(8)));
__attribute__((section(".vectors"), used)) static const struct {
    uint32_t *stack;
    void (*handlers[15])(void);
} vectors = { first_stack + 1024, { begin, fault, fault, fault, fault, fault } };

#else

/* No clock is read here. */
static const uint32_t counts_in_loops = 0;

static void start_clock(void)
{
}

static uint32_t clock(void)
{
    return 0;
}

static uint32_t counts_since(uint32_t earlier)
{
    return earlier;
}

#if defined(__wasm__)

void node_say(const char *text);
__attribute__((noreturn)) void node_leave(int status);

static void say(const char *text)
{
    node_say(text);
}

static void leave(int status)
{
    node_leave(status);
}

#else

long system_call(long number, long a, long b, long c);

#if defined(__arm__)
enum { EXIT = 1, READ = 3, SAY = 4 };
__asm__(".globl _start\n.type _start, %function\n_start: bl begin\n"
        ".globl system_call\n.type system_call, %function\nsystem_call:\n"
        "push {r7, lr}\nmov r7, r0\nmov r0, r1\nmov r1, r2\nmov r2, r3\nsvc 0\npop {r7, pc}\n");
#else
enum { EXIT = 93, READ = 63, SAY = 64 };
__asm__(".globl _start\n_start: call begin\n"
        ".globl system_call\nsystem_call: mv a7, a0\nmv a0, a1\nmv a1, a2\nmv a2, a3\necall\nret\n");
#endif
enum { BUFFER = 65536 };

static long read_some(void *place, long most)
{
    return system_call(READ, 0, (long)place, most);
}

static long length_of(const char *text)
{
    long length = 0;
    while (text[length] != 0)
        length++;
    return length;
}

static void say(const char *text)
{
    system_call(SAY, 1, (long)text, length_of(text));
}

static void leave(int status)
{
    system_call(EXIT, status, 0, 0);
    for (;;)
        ;
}

#endif
#endif

/* ---- what is said */

/* By subtraction: the smallest processors have no division. */
static void say_number(uint32_t number)
{
    static const uint32_t powers[] = { 1000000000, 100000000, 10000000, 1000000, 100000, 10000, 1000, 100, 10, 1 };
    char digits[11];
    int written = 0;
    for (int at = 0; at < 10; at++) {
        char digit = '0';
        for (; number >= powers[at]; number -= powers[at])
            digit++;
        if (digit != '0' || written > 0 || at == 9)
            digits[written++] = digit;
    }
    digits[written] = 0;
    say(digits);
}

static void refuse(const char *why)
{
    say(why);
    leave(2);
}

/* ---- what the library needs of a C library */

void *memcpy(void *to, const void *from, size_t length);
void *memmove(void *to, const void *from, size_t length);
void *memset(void *to, int byte, size_t length);

void *memmove(void *to, const void *from, size_t length)
{
    uint8_t *t = to;
    const uint8_t *f = from;
    if (t < f)
        for (size_t at = 0; at < length; at++)
            t[at] = f[at];
    else
        while (length-- > 0)
            t[length] = f[length];
    return to;
}

void *memcpy(void *to, const void *from, size_t length)
{
    return memmove(to, from, length);
}

void *memset(void *to, int byte, size_t length)
{
    uint8_t *t = to;
    while (length-- > 0)
        *t++ = (uint8_t)byte;
    return to;
}
