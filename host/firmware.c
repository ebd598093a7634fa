/* firmware.c: a stand-in for the firmware. It counts a rotor's turns in the
   direction that the running script has bound, and runs the scripts' thunks
   between the moves of each switch. */
#include "kestrelnib.h"

#include <stdio.h>
#include <stdlib.h>

enum { DIRECTION, BRAKE, VARIABLES };
enum { BRAKE_OFF, BRAKE_ON, SAY_START, KEEP_PLACE, THUNKS };
enum { ENVIRONMENTS = 16, TOP_PLACE = 0 };

static uint8_t store[KN_SIZE(VARIABLES, ENVIRONMENTS)];
static uint8_t trace[KN_TRACE_SIZE(ENVIRONMENTS)];
static int turns;
static int stormy;          /* then no wind is to be entered */
static uint32_t kept_place; /* where keep_place was run      */

/* ---- The store ---- */

/* A call's number; a refusal stops the board. */
static int32_t must(kn_answer r)
{
    if (r.code != KN_DONE) {
        printf("refused: %u\n", (unsigned)r.code);
        exit(1);
    }
    return r.out;
}

static uint32_t here(void)
{
    return (uint32_t)must(kn_here(store, sizeof store));
}

static int32_t look(uint32_t x)
{
    return must(kn_look(store, sizeof store, x));
}

static void bind(uint32_t x, int32_t v)
{
    must(kn_bind(store, sizeof store, x, v));
}

/* ---- Thunks: each runs with the focus at its place ---- */

/* What the script has bound is set; the top value stays. */
static void set_brake(int32_t on)
{
    must(kn_set(store, sizeof store, BRAKE, on));
    printf("  brake %s at %u\n", on ? "on" : "off", (unsigned)here());
}

static void brake_off(void) { set_brake(0); }
static void brake_on(void) { set_brake(1); }

static void say_start(void) { puts("  untwisting"); }

static void keep_place(void)
{
    kept_place = here();
    printf("  place %u kept\n", (unsigned)kept_place);
}

static void (*const thunks[THUNKS])(void) = {
    brake_off, brake_on, say_start, keep_place
};

static void run_thunk(unsigned thunk)
{
    if (thunk < THUNKS)
        thunks[thunk]();
}

/* The prelude's place is where the wind is made, so it runs first. */
static void wind(uint16_t prelude, uint16_t postlude)
{
    run_thunk(prelude);
    must(kn_wind(store, sizeof store, trace, sizeof trace, prelude, postlude));
}

/* ---- Switches ---- */

static kn_answer step(void)
{
    kn_answer r = kn_step(store, sizeof store);

    must(r);
    return r;
}

/* A walk; in a storm it is dropped before the first wind that is to be
   entered, and no prelude is run. */
static void switch_to(uint32_t place)
{
    kn_answer r;

    printf("to %u\n", (unsigned)place);
    must(kn_begin(store, sizeof store, place));
    for (r = step(); r.events == 1; r = step()) {
        if (stormy && r.event == KN_ENTERING) {
            printf("  dropped at %d\n", (int)must(kn_drop(store, sizeof store)));
            return;
        }
        run_thunk(r.thunk);
    }
}

/* A line of the log tells how deep the board is in its scripts. */
static void turn(unsigned times)
{
    while (times-- > 0)
        turns += look(DIRECTION);
    printf("turns=%d brake=%d depth=%d\n", turns, (int)look(BRAKE),
           (int)must(kn_far(store, sizeof store, here(), TOP_PLACE)));
}

int main(void)
{
    uint8_t tops[VARIABLES * KN_CELL_BYTES];
    uint32_t untwisting;

    kn_top_value(tops, DIRECTION, 1);
    kn_top_value(tops, BRAKE, -1);
    must(kn_open(VARIABLES, ENVIRONMENTS, tops, sizeof tops,
                 store, sizeof store));
    turn(5);
    bind(BRAKE, 1);
    wind(BRAKE_OFF, BRAKE_ON);
    bind(DIRECTION, -1);
    wind(SAY_START, KEEP_PLACE);
    untwisting = here();
    turn(3);
    switch_to(TOP_PLACE);
    turn(4);
    switch_to(kept_place);
    turn(1);
    switch_to(untwisting);
    turn(1);
    switch_to(TOP_PLACE);
    stormy = 1;
    switch_to(untwisting);
    turn(0);
    stormy = 0;
    switch_to(untwisting);
    turn(1);
    return 0;
}
