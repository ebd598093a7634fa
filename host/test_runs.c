/* test_runs.c: many calls in a row beside the model, small and at the limits. */
#include "check.h"

#include <stdio.h>

enum { OPENS = 20000, SMALL_RUNS = 20000, WIDE_RUNS = 60, CHAIN = KN_MAX_NODES - 1 };

static struct model meaning;
static unsigned long calls;

static kn_answer step(struct call c)
{
    calls++;
    return beside(&meaning, &c);
}

static kn_answer bind(uint32_t x, int32_t v)
{
    struct call c = { .kind = BIND, .x = x, .v = v };
    return step(c);
}

static kn_answer wind(uint16_t p, uint16_t q)
{
    struct call c = { .kind = WIND, .p = p, .q = q };
    return step(c);
}

static kn_answer go(uint32_t a)
{
    struct call c = { .kind = GOTO, .a = a };
    return step(c);
}

static kn_answer back(void)
{
    struct call c = { .kind = BACK };
    return step(c);
}

static void peek(uint32_t a, uint32_t x)
{
    struct call c = { .kind = PEEK, .a = a, .x = x };
    step(c);
}

static kn_answer far(uint32_t a, uint32_t b)
{
    struct call c = { .kind = FAR, .a = a, .b = b };
    return step(c);
}

/* ---- Random runs ---- */

/* Mostly right; at times a byte too many or too few. */
static size_t chance_tops_len(unsigned cells)
{
    size_t len = cells * (size_t)KN_CELL_BYTES;

    if (cells == 0 || cells > KN_MAX_VARS || chance(8) != 0)
        return len;
    return chance(2) == 0 ? len - 1 : len + 1;
}

static void random_opens(void)
{
    static uint8_t tops[(KN_MAX_VARS + 1) * KN_CELL_BYTES];
    static const uint32_t vars[] = { 0, 1, 2, 5, 255, 256, 257, 65537 };
    static const uint32_t nodes[] = { 0, 1, 2, 9, 2047, 2048, 2049, 65537 };
    unsigned i;

    check_name("random opens");
    for (i = 0; i < OPENS; i++) {
        uint32_t v = vars[chance(8)], n = nodes[chance(chance(8) == 0 ? 8 : 4)];
        unsigned cells = v > KN_MAX_VARS ? KN_MAX_VARS + 1 : v;
        size_t size = KN_SIZE(cells, n > KN_MAX_NODES ? 9 : n);
        chance_tops(tops, cells);
        if (cells != 0 && chance(4) == 0)
            tops[chance(cells * KN_CELL_BYTES)] = (uint8_t)chance(3);
        lent_take(&store, size + chance(8) - (chance(4) == 0 ? 8 : 0));
        open_beside(&meaning, v, n, tops, chance_tops_len(cells));
        calls++;
    }
}

static void chance_trace(unsigned events)
{
    lent_take(&trace, chance(events * KN_EVENT_BYTES + KN_EVENT_BYTES));
}

static void random_calls(unsigned count, unsigned events)
{
    while (count-- > 0) {
        if (chance(4) == 0)
            chance_trace(events);
        step(chance_call(&meaning));
        tell_beside(&meaning, chance_near(meaning.made));
    }
}

/* Half of the stores begin empty, half with anything sound in them, a walk
   too. Half of them are lent with a length that reaches into the guard page. */
static void small_runs(void)
{
    unsigned i;

    check_name("random runs on small stores");
    for (i = 0; i < SMALL_RUNS; i++) {
        unsigned vars = 1 + chance(4), nodes = 1 + chance(20);
        chance_store(&meaning, vars, nodes, i % 2 == 0 ? 1 : 1 + chance(nodes), 0);
        if (i % 4 == 1)
            chance_walk(&meaning);
        beyond = i % 8 < 4 ? 0 : 4096;
        chance_trace(6);
        random_calls(30, 6);
    }
    beyond = 0;
}

static void wide_runs(void)
{
    unsigned i;

    check_name("random runs on wide stores");
    for (i = 0; i < WIDE_RUNS; i++) {
        unsigned vars = 1 + chance(KN_MAX_VARS), nodes = 1 + chance(400);
        chance_store(&meaning, vars, nodes, 1 + chance(nodes), chance(20));
        chance_trace(200);
        random_calls(100, 200);
    }
}

static void limit_runs(void)
{
    check_name("random runs at the limits");
    chance_store(&meaning, KN_MAX_VARS, KN_MAX_NODES, KN_MAX_NODES - 40, 1);
    chance_trace(KN_MAX_NODES);
    random_calls(400, KN_MAX_NODES);
}

/* ---- Long chains ---- */

static void open_at_limits(void)
{
    chance_open(&meaning, KN_MAX_VARS, KN_MAX_NODES, 0);
    lent_take(&trace, CHAIN * KN_EVENT_BYTES);
}

/* So many more nodes in one line; each wind_every-th is a wind. */
static void grow(unsigned count, unsigned wind_every)
{
    while (count-- > 0) {
        unsigned n = meaning.made;
        kn_answer r = n % wind_every == 0
            ? wind((uint16_t)n, (uint16_t)(n + 1))
            : bind(n % 2 == 0 ? n % KN_MAX_VARS : n % 3, (int32_t)n * 1000003);
        check(r.code == KN_DONE && (unsigned)r.out == n, "made in order");
    }
}

static void asks(void)
{
    unsigned i;

    for (i = 0; i < 40; i++) {
        peek(chance(KN_MAX_NODES), chance(KN_MAX_VARS));
        far(chance(KN_MAX_NODES), chance(KN_MAX_NODES));
        tell_beside(&meaning, chance(KN_MAX_NODES));
    }
}

/* Both ways with the exact room, and with one event too few. */
static void both_ways(unsigned events)
{
    check_answer(far(0, CHAIN), done(CHAIN, 0, 0), "the deepest");
    check(go(0).events == events, "leaving events");
    asks();
    check(go(CHAIN).moves == CHAIN, "all entered");
    lent_take(&trace, events * KN_EVENT_BYTES);
    check(go(0).code == KN_DONE, "leaving with the exact room");
    check(go(CHAIN).code == KN_DONE, "entering with the exact room");
    if (events == 0)
        return;
    lent_take(&trace, events * KN_EVENT_BYTES - 1);
    check(go(0).code == KN_TRACE_ROOM, "leaving with too little room");
    check(back().moves == 1, "one step up");
    check(go(CHAIN).moves == 1, "one step down");
}

static void long_chain(const char *name, unsigned wind_every, unsigned events)
{
    check_name(name);
    open_at_limits();
    grow(CHAIN, wind_every);
    check(bind(0, 0).code == KN_FULL, "full");
    asks();
    both_ways(events);
}

/* Two branches of about 1,000 from a stem: left on one side, entered on the
   other. */
static void two_branches(void)
{
    check_name("two long branches");
    open_at_limits();
    grow(47, 3);
    grow(1000, 3);
    go(47);
    grow(1000, 4);
    check_answer(far(1047, 2047), done(2000, 0, 0), "far across");
    check_answer(go(1047), done(1047, 2000, 334 + 250), "across");
    asks();
    check_answer(go(2047), done(2047, 2000, 334 + 250), "and back");
    asks();
}

void test_runs(void)
{
    random_opens();
    small_runs();
    wide_runs();
    limit_runs();
    long_chain("a chain of 2,047 bindings", KN_MAX_NODES, 0);
    long_chain("a chain of 2,047 winds", 1, CHAIN);
    long_chain("a chain of both", 3, CHAIN / 3);
    two_branches();
    printf("calls-beside-the-model=%lu\n", calls);
}
