/* stack.c: the deepest use of the stack of every call at V=256, N=2,048, held
   to what the header says of it; with an argument it is only printed. Each call
   runs on a painted stack of its own; what is no longer painted was used. */
#include "shape.h"

#include <stdio.h>
#include <string.h>
#include <ucontext.h>

enum { STACK_BYTES = 1 << 20, PAINT = 0xa5 };
enum { N = KN_MAX_NODES, LAST = N - 1 };

static uint8_t stack[STACK_BYTES];
static uint8_t *base; /* of the frame that makes the call */
static ucontext_t host, guest;

static struct shape s;
static kn_answer answer;

/* ---- The calls ---- */

static void call_open(void)
{
    static struct shape other;
    static uint8_t tops[KN_MAX_VARS * KN_CELL_BYTES];
    answer = kn_open(KN_MAX_VARS, N, tops, sizeof tops, other.store,
                     sizeof other.store);
}

static void call_bind(void) { answer = kn_bind(s.store, s.len, 0, 1); }
static void call_look(void) { answer = kn_look(s.store, s.len, 0); }
static void call_set(void) { answer = kn_set(s.store, s.len, 0, 1); }
static void call_here(void) { answer = kn_here(s.store, s.len); }

static void call_wind(void)
{
    answer = kn_wind(s.store, s.len, s.trace, sizeof s.trace, 1, 2);
}

static void go(uint32_t a)
{
    answer = kn_goto(s.store, s.len, s.trace, sizeof s.trace, a);
}

static void call_goto_top(void) { go(0); }
static void call_goto_last(void) { go(LAST); }
static void call_goto_across(void) { go(LAST / 2); }

static void call_back(void)
{
    answer = kn_back(s.store, s.len, s.trace, sizeof s.trace);
}

static void call_peek_top(void)
{
    answer = kn_peek(s.store, s.len, 0, SHAPE_UNBOUND_BY_NODES);
}

static void call_peek_last(void)
{
    answer = kn_peek(s.store, s.len, LAST, SHAPE_UNBOUND_BY_NODES);
}

static void call_far_top(void) { answer = kn_far(s.store, s.len, LAST, 0); }
static void call_far_across(void) { answer = kn_far(s.store, s.len, LAST, LAST / 2); }

static void call_tell(void)
{
    answer.code = kn_tell(s.store, s.len, LAST / 2).code;
    answer.moves = 0;
}

static void call_begin(void) { answer = kn_begin(s.store, s.len, LAST / 2); }
static void call_step(void) { answer = kn_step(s.store, s.len); }
static void call_drop(void) { answer = kn_drop(s.store, s.len); }

/* ---- The stores they run on ---- */

static void chain(void) { shape_chain(&s, N, N); }
static void chain_with_room(void) { shape_chain(&s, N, N - 1); }
static void fork_of_two(void) { shape_fork(&s, N, N); }

static void chain_at_top(void)
{
    shape_chain(&s, N, N);
    shape_focus(&s, 0);
}

static void chain_in_a_walk(void)
{
    shape_chain(&s, N, N);
    kn_begin(s.store, s.len, 0);
}

/* The step is to leave all, the wind last. */
static void line_to_leave(void)
{
    shape_line(&s, N, N);
    kn_begin(s.store, s.len, 0);
}

/* The wind was handed over; the step is to enter all. */
static void line_to_enter(void)
{
    shape_line(&s, N, N);
    shape_focus(&s, 0);
    kn_begin(s.store, s.len, LAST);
    kn_step(s.store, s.len);
}

struct row {
    const char *name;
    void (*prepare)(void), (*call)(void);
    uint32_t moves;
};

static const struct row rows[] = {
    { "open", chain, call_open, 0 },
    { "bind", chain_with_room, call_bind, 0 },
    { "wind", chain_with_room, call_wind, 0 },
    { "look", chain, call_look, 0 },
    { "peek, top from the chain's end", chain, call_peek_top, 0 },
    { "peek, chain's end from the top", chain_at_top, call_peek_last, 0 },
    { "set", chain, call_set, 0 },
    { "here", chain, call_here, 0 },
    { "far, from the chain's end to the top", chain, call_far_top, 0 },
    { "far, across", fork_of_two, call_far_across, 0 },
    { "tell, of the chain's middle from its end", chain, call_tell, 0 },
    { "goto, 2,047 left", chain, call_goto_top, LAST },
    { "goto, 2,047 entered", chain_at_top, call_goto_last, LAST },
    { "goto, half left, half entered", fork_of_two, call_goto_across, LAST },
    { "back", chain, call_back, 1 },
    { "begin", chain, call_begin, 0 },
    { "step, 2,047 left, to a wind", line_to_leave, call_step, LAST },
    { "step, 2,047 entered, done", line_to_enter, call_step, LAST },
    { "drop", chain_in_a_walk, call_drop, 0 }
};

/* ---- Measuring ---- */

static void (*job)(void);
static int held;

static void on_painted_stack(void)
{
    base = __builtin_frame_address(0);
    job();
}

static size_t depth_of(void (*call)(void))
{
    const uint8_t *low = stack;

    memset(stack, PAINT, sizeof stack);
    getcontext(&guest);
    guest.uc_stack.ss_sp = stack;
    guest.uc_stack.ss_size = sizeof stack;
    guest.uc_link = &host;
    makecontext(&guest, on_painted_stack, 0);
    job = call;
    swapcontext(&host, &guest);
    while (*low == PAINT)
        low++;
    return (size_t)(base - low);
}

static int measure(const struct row *row)
{
    size_t depth, most = KN_STACK_SIZE(row->moves + 1);

    row->prepare();
    depth = depth_of(row->call);
    printf("stack %6lu  %s\n", (unsigned long)depth, row->name);
    if (answer.code != KN_DONE || answer.moves != row->moves) {
        printf("FAIL: code %u, moves %u\n", (unsigned)answer.code,
               (unsigned)answer.moves);
        return 0;
    }
    if (held && depth > most)
        printf("FAIL: more than %lu bytes of stack\n", (unsigned long)most);
    return !held || depth <= most;
}

int main(int argc, char **argv)
{
    unsigned i;
    int good = 1;

    (void)argv;
    held = argc == 1;
    for (i = 0; i < sizeof rows / sizeof rows[0]; i++)
        good &= measure(&rows[i]);
    return !good;
}
