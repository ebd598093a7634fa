/*
 * kestrelnib.h - a binding store for the scripts on a monitor board.
 *
 * A store lives in one buffer that you lend to each call. It holds variables
 * and environments, both numbered from 0. Environment 0 is the top; every
 * other one is a binding of one variable or a wind, and has one parent. One
 * environment is the focus. Values are 32-bit signed numbers.
 *
 * Link with libkestrelnib.a. The library allocates nothing, keeps nothing
 * between calls, and needs memcpy, memmove and memset at most.
 *
 * Your one duty: buffers lent to one call don't overlap.
 *
 * Buffers.  A buffer is a pointer and its length in bytes, at any alignment.
 *   A length of 0 is allowed with any pointer, NULL too. A store buffer may be
 *   longer than the store: bytes past the size are never read or written. A
 *   buffer is lent until the call returns: a call from an interrupt or another
 *   thread may meanwhile use another store and trace, not these.
 *
 * Answers.  Every call takes every input. Each call lists its refusals: the
 *   first that applies, in this order, is given. Beside a refusal's code all
 *   other numbers are 0, and no byte of store or trace has changed.
 *
 * Numbers.  vars, nodes, x, a and b are 32-bit: one that is too large is
 *   refused and never cut off. p and q are 16-bit and every one is good: C
 *   converts a larger number before the call. In store, top cells and trace
 *   numbers are little endian.
 *
 * Memory.  KN_SIZE bytes of store, KN_TRACE_SIZE of trace, KN_STACK_SIZE of
 *   stack. Stack by depth: goto, back and step take 48 bytes for each
 *   environment that they leave or enter, and at most 256 more; any other call
 *   takes at most 256. At the limits 29,964 + 10,235 + 98,512 = 138,711 bytes
 *   in all; one trace and one stack can serve several stores in turn. No call
 *   needs more than 100 KiB of stack. (Measured on x86-64: docs/FIGURES.md.)
 *
 * Time.  Every call but open first reads the whole store; that is how damage
 *   is found. So time grows with vars + nodes: on an x86-64 PC, the 30 KB of
 *   a store at the limits take about 1 microsecond with only the top made, and
 *   about 5 with 2,047 environments in one line, the focus at its end. Look
 *   and peek then climb to the binding that decides, tell to the binding that
 *   it tells, far to where two ways to the top meet, and goto and back move.
 *   A step climbs at most once from the walk's target and once from the focus,
 *   and moves.
 *
 * After DAMAGED.  The call changed nothing, and every call will say the same
 *   of these bytes. See first that pointer and length are those of the open.
 *   If they are, something else wrote into the store, and nothing in it can be
 *   trusted: open it anew and start its scripts again. Environment numbers
 *   kept from before mean nothing then, and no postlude of a wind that was in
 *   will be told: bring what it guards to a safe state yourself. Damage that
 *   happens to leave a good store can't be noticed.
 *
 * Example: a direction bound around a place, left, and entered again.
 *
 *     static uint8_t store[KN_SIZE(1, 4)], trace[KN_TRACE_SIZE(4)];
 *     uint8_t tops[KN_CELL_BYTES];
 *     kn_top_value(tops, 0, 1);
 *     kn_answer r = kn_open(1, 4, tops, sizeof tops, store, sizeof store);
 *     r = kn_bind(store, sizeof store, 0, -1);
 *     r = kn_wind(store, sizeof store, trace, sizeof trace, 10, 11);
 *     uint32_t place = (uint32_t)kn_here(store, sizeof store).out;
 *     r = kn_goto(store, sizeof store, trace, sizeof trace, 0);
 *     int32_t up = kn_look(store, sizeof store, 0).out;
 *     r = kn_goto(store, sizeof store, trace, sizeof trace, place);
 *     int32_t down = kn_look(store, sizeof store, 0).out;
 *     kn_event e = kn_event_read(trace, 0);
 *
 * Then up is 1, down is -1, r says: code 0, out 2, moves 2, events 1, and e
 * says: KN_ENTERING, thunk 10, place 1.
 *
 * Walk: from there to the top, with each thunk run between the moves.
 *
 *     r = kn_begin(store, sizeof store, 0);
 *     if (r.code == KN_DONE)
 *         r = kn_step(store, sizeof store);
 *     for (; r.events == 1; r = kn_step(store, sizeof store))
 *         run(r.event, r.thunk);
 *
 * Then run, which is yours, was called once, with KN_LEAVING and 11 and the
 * focus at 1, and r says: code 0, out 0, moves 1, events 0.
 *
 * Tell: the nearest binding from the place up, past any wind.
 *
 *     kn_env env = kn_tell(store, sizeof store, place);
 *     while (env.kind == KN_ENV_WIND)
 *         env = kn_tell(store, sizeof store, env.parent);
 *
 * Then env says: code 0, KN_ENV_BINDING, first 0, state 1, value -1, parent 0.
 */
#ifndef KESTRELNIB_H
#define KESTRELNIB_H

#include <stddef.h>
#include <stdint.h>

#ifdef __cplusplus
extern "C" {
#endif

/* ---- Limits and sizes --------------------------------------------------- */

enum kn_constant {
    KN_MAX_VARS     = 256,  /* variables of a store: 1 to this             */
    KN_MAX_NODES    = 2048, /* environments, the top counted: 1 to this    */
    KN_HEADER_BYTES = 12,
    KN_CELL_BYTES   = 5,    /* state (0 unbound, 1 value), value (4)       */
    KN_NODE_BYTES   = 14,
    KN_EVENT_BYTES  = 5     /* what (1), thunk (2), place (2)              */
};

/* Bytes of a store. */
#define KN_SIZE(vars, nodes)                   \
    ((size_t)KN_HEADER_BYTES                   \
     + (size_t)KN_CELL_BYTES * (size_t)(vars)  \
     + (size_t)KN_NODE_BYTES * (size_t)(nodes))

/* Bytes of a trace that has room for every call's events: no call moves an
   environment twice, and the top never. */
#define KN_TRACE_SIZE(nodes) ((size_t)KN_EVENT_BYTES * ((size_t)(nodes) - 1))

/* Bytes of stack that the deepest call needs, its caller's frame not counted. */
#define KN_STACK_SIZE(nodes) ((size_t)256 + (size_t)48 * ((size_t)(nodes) - 1))

/* ---- Answers ------------------------------------------------------------ */

enum kn_code {
    KN_DONE           = 0,
    KN_SETUP          = 1, /* open: a number out of range, top cells not as
                              described, or the buffer too short           */
    KN_DAMAGED        = 2, /* any other call: these bytes are no store     */
    KN_NO_VARIABLE    = 3, /* x is not below vars                          */
    KN_NO_ENVIRONMENT = 4, /* a or b is not made                           */
    KN_UNBOUND        = 5, /* look, peek or set finds no value             */
    KN_FULL           = 6, /* bind or wind with no environment of room     */
    KN_TRACE_ROOM     = 7, /* more events than the trace has room for      */
    KN_TOP            = 8, /* back with the focus at the top               */
    KN_LINE           = 9, /* the card program's; no call here gives it    */
    KN_WALKING        = 10, /* bind, wind, goto, back or begin in a walk   */
    KN_NOT_WALKING    = 11  /* step or drop outside a walk                 */
};

typedef struct kn_answer {
    int32_t  out;    /* look, peek: the value; far: how far; else an
                        environment's number                                */
    uint16_t code;
    uint16_t moves;  /* goto, back, step: environments left and entered     */
    uint16_t events; /* wind, goto, back: events written to the trace; step:
                        1 for an event handed over, 0 for done              */
    uint16_t by;     /* look, peek: the environment whose binding decides
                        the value, 0 for the top value; else 0              */
    uint16_t thunk;  /* step with an event: the thunk's number; else 0      */
    uint16_t event;  /* step with an event: KN_LEAVING or KN_ENTERING; else
                        0, so see first that events is 1                    */
} kn_answer;

/* What an environment is: kn_tell's answer. */
enum kn_env_kind {
    KN_ENV_TOP     = 1,
    KN_ENV_BINDING = 2,
    KN_ENV_WIND    = 3
};

typedef struct kn_env {
    int32_t  value;  /* binding with a value: its own; else 0               */
    uint16_t code;
    uint16_t kind;   /* KN_ENV_TOP, KN_ENV_BINDING or KN_ENV_WIND           */
    uint16_t parent; /* its parent's number; of the top 0                   */
    uint16_t first;  /* binding: its variable; wind: its prelude; else 0    */
    uint16_t second; /* wind: its postlude; else 0                          */
    uint16_t state;  /* binding: 1 where it has a value; else 0             */
} kn_env;

/* ---- The trace ---------------------------------------------------------- */

/* Events stand from the buffer's start, KN_EVENT_BYTES each: what happens
   (1 byte), the thunk's number (2), the place where it is to run (2). Its room
   is the length divided by KN_EVENT_BYTES, rounded down; bytes after the
   written events keep their contents. Running the thunks, in order, is up to
   you. */
enum kn_what {
    KN_LEAVING  = 0, /* thunk: the postlude                                */
    KN_ENTERING = 1  /* thunk: the prelude                                 */
};

/* Both are told at the wind's parent: the wind has been left by then, or is
   not yet entered. A thunk that keeps its place and is resumed there moves
   nothing. */
typedef struct kn_event {
    uint16_t what, thunk, place;
} kn_event;

/* Event i of a trace, from 0; there are as many as the answer's events. */
static inline kn_event kn_event_read(const uint8_t *trace, size_t i)
{
    const uint8_t *from = trace + i * KN_EVENT_BYTES;
    kn_event e;

    e.what = from[0];
    e.thunk = (uint16_t)(from[1] | from[2] << 8);
    e.place = (uint16_t)(from[3] | from[4] << 8);
    return e;
}

/* ---- Top cells ---------------------------------------------------------- */

/* Top values are handed to open as cells of KN_CELL_BYTES, one a variable:
   state, then the value. These write the cell of x. */

static inline void kn_top_value(uint8_t *tops, size_t x, int32_t v)
{
    uint8_t *cell = tops + x * KN_CELL_BYTES;
    uint32_t bits = (uint32_t)v;

    cell[0] = 1;
    cell[1] = (uint8_t)bits;
    cell[2] = (uint8_t)(bits >> 8);
    cell[3] = (uint8_t)(bits >> 16);
    cell[4] = (uint8_t)(bits >> 24);
}

static inline void kn_top_none(uint8_t *tops, size_t x)
{
    size_t at = x * KN_CELL_BYTES, end = at + KN_CELL_BYTES;

    while (at < end)
        tops[at++] = 0;
}

/* ---- Opening ------------------------------------------------------------ */

/* Writes a new store: only the top is made and is the focus. The top values
   come as vars top cells, tops_len = vars * KN_CELL_BYTES exactly. Answers 0.
   Refusals: SETUP. */
kn_answer kn_open(uint32_t vars, uint32_t nodes,
                  const uint8_t *tops, size_t tops_len,
                  uint8_t *store, size_t store_len);

/* ---- Making environments ------------------------------------------------ */

/* Both make a child of the focus, which becomes the focus, and answer its
   number: the lowest not yet made. No environment is freed. */

/* Binds x to v. Refusals: DAMAGED, WALKING, NO_VARIABLE, FULL. */
kn_answer kn_bind(uint8_t *store, size_t store_len, uint32_t x, int32_t v);

/* A wind with prelude p and postlude q; writes one event, entering p.
   Refusals: DAMAGED, WALKING, FULL, TRACE_ROOM. */
kn_answer kn_wind(uint8_t *store, size_t store_len,
                  uint8_t *trace, size_t trace_len, uint16_t p, uint16_t q);

/* ---- Values ------------------------------------------------------------- */

/* The value of x in an environment is that of the nearest binding of x on
   the way to the top, itself first; else the top value. Look and peek answer
   the value, and in by the number of that binding's environment: 0 where the
   top value decides. */

/* The value at the focus. Refusals: DAMAGED, NO_VARIABLE, UNBOUND. */
kn_answer kn_look(const uint8_t *store, size_t store_len, uint32_t x);

/* The value at a, with nothing moved.
   Refusals: DAMAGED, NO_VARIABLE, NO_ENVIRONMENT, UNBOUND. */
kn_answer kn_peek(const uint8_t *store, size_t store_len,
                  uint32_t a, uint32_t x);

/* Changes the binding (or top value) that decides x at the focus. Answers
   the focus. Refusals: DAMAGED, NO_VARIABLE, UNBOUND. */
kn_answer kn_set(uint8_t *store, size_t store_len, uint32_t x, int32_t v);

/* ---- Places ------------------------------------------------------------- */

/* Answers the focus. Refusals: DAMAGED. */
kn_answer kn_here(const uint8_t *store, size_t store_len);

/* Answers how far apart a and b are, with nothing moved: the number of
   environments on the way from one of the two to the top and not on the
   other's, the top left out. As many moves would take the focus from the one
   to the other, and no fewer. Where a is b it is 0; where one of the two is
   the top it is the other's depth, found without a climb.
   Refusals: DAMAGED, NO_ENVIRONMENT if either is not made. */
kn_answer kn_far(const uint8_t *store, size_t store_len,
                 uint32_t a, uint32_t b);

/* What the environment a is, with nothing moved: a binding with its variable
   and its own value, as it is now, which is what peek finds at a; a wind with
   its thunks; or the top. From a parent to the next, this is the way up.
   Refusals: DAMAGED, NO_ENVIRONMENT. */
kn_env kn_tell(const uint8_t *store, size_t store_len, uint32_t a);

/* Moves the focus to a by the shortest way and writes an event for each wind
   left or entered. Answers a, the moves and the events.
   Refusals: DAMAGED, WALKING, NO_ENVIRONMENT, TRACE_ROOM. */
kn_answer kn_goto(uint8_t *store, size_t store_len,
                  uint8_t *trace, size_t trace_len, uint32_t a);

/* Goto the focus's parent. Refusals: DAMAGED, WALKING, TRACE_ROOM, TOP. */
kn_answer kn_back(uint8_t *store, size_t store_len,
                  uint8_t *trace, size_t trace_len);

/* ---- Walks -------------------------------------------------------------- */

/* A goto whose thunks run between its moves: begin, then steps until one says
   done. The store's bytes hold the walk, and no trace is needed. During a walk
   look, peek, set, here, far and tell do as ever, with the focus where the
   walk stands; bind, wind, goto, back and a second begin are refused. A walk
   of so many events is done at one step more; its steps together make goto's
   moves and hand over goto's events, in their order. All three calls answer
   the focus. */

/* Begins a walk to a; nothing is moved.
   Refusals: DAMAGED, WALKING, NO_ENVIRONMENT. */
kn_answer kn_begin(uint8_t *store, size_t store_len, uint32_t a);

/* Moves up to the walk's next event and hands it over, the focus being its
   place: events is 1, and event and thunk say which. A wind whose leaving is
   handed over has been left. One whose entering is handed over is entered
   first thing at the next step. With no event left it moves to the target and
   the walk is done: events is 0. Refusals: DAMAGED, NOT_WALKING. */
kn_answer kn_step(uint8_t *store, size_t store_len);

/* Ends the walk where it stands. A wind whose entering was handed over is then
   not entered, and its postlude will not be told.
   Refusals: DAMAGED, NOT_WALKING. */
kn_answer kn_drop(uint8_t *store, size_t store_len);

/* ---- The library's own constants ---------------------------------------- */

/* For a test that header and library agree: which = 0 to 5 gives KN_MAX_VARS,
   KN_MAX_NODES, KN_HEADER_BYTES, KN_CELL_BYTES, KN_NODE_BYTES and
   KN_EVENT_BYTES; any other number gives 0. */
uint32_t kn_limit(uint32_t which);

#ifdef __cplusplus
}
#endif

#endif
