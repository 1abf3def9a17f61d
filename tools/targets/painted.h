/*
 * Calls on a painted stack, which tells how deep each went, and on a board how long it took. What makes the call says first, by
 * STACK_POINTER(called_at), where the function that it calls begins.
 */
enum { STACK = 6144 };

/* What the calls of a function took at most: bytes of stack, and counts of the clock. */
typedef struct {
    uint32_t stack, counts;
} cost;

static uint32_t stack[STACK / 4] __attribute__((aligned(16)));
static uintptr_t called_at;

static void call_painted(void (*make_call)(void), cost *most)
{
    size_t left = 0;
    uint32_t earlier, counts, depth;
    uintptr_t deepest;
    for (size_t at = 0; at < STACK / 4; at++)
        stack[at] = 0xA5A5A5A5;
    earlier = clock();
    call_on(make_call, stack + STACK / 4);
    counts = counts_since(earlier);
    if (counts > most->counts)
        most->counts = counts;
    while (left < STACK / 4 && stack[left] == 0xA5A5A5A5)
        left++;
    if (left == 0)
        refuse("a call took more stack than there is\n");
    deepest = (uintptr_t)(stack + left);
    depth = deepest < called_at ? called_at - deepest : 0; /* none if the caller's own frame is all that was written */
    if (depth > most->stack)
        most->stack = depth;
}

static void say_of(const char *what, uint32_t number)
{
    say(what);
    say(" ");
    say_number(number);
    say("\n");
}

/* The most stack of each function, and on a board its most counts, without the "mast_" of its name. */
static void say_costs(const char *const names[], const cost most[], int functions)
{
    for (int each = 0; each < functions; each++)
        say_of(names[each], most[each].stack);
    say_of("counts in loops", counts_in_loops);
    for (int each = 0; counts_in_loops != 0 && each < functions; each++)
        say_of(names[each] + sizeof "mast", most[each].counts);
}
