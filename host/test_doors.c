/* test_doors.c: document 02's W4, going round by another door. A run, and the
   same run with jumps of its own put in, end in equal bytes. It speaks of runs
   without walks. */
#include "check.h"

#include <stdio.h>
#include <string.h>

enum { SMALL_RUNS = 10000, WIDE_RUNS = 40, MOST_STEPS = 3000 };

/* ---- A run, drawn by the model ---- */

/* A call, the focus at it, the environments made by then, its trace. */
struct step {
    struct call call;
    unsigned place, made;
    size_t trace_len;
};

static struct model meaning; /* at the run's end */
static struct step steps[MOST_STEPS + 1];
static unsigned steps_count;

static size_t room_enough(void)
{
    return KN_TRACE_SIZE(meaning.nodes);
}

/* At times with too little room; never the begin of a walk. */
static struct step chance_step(void)
{
    struct step s;

    do
        s.call = chance_call(&meaning);
    while (s.call.kind == BEGIN);
    s.place = meaning.focus;
    s.made = meaning.made;
    s.trace_len = room_enough();
    if (chance(8) == 0)
        s.trace_len = chance((uint32_t)s.trace_len + 1);
    return s;
}

/* After the last call stands one that is never made: the run's end. */
static void draw_run(unsigned count)
{
    static struct model_events events;
    unsigned i;

    for (i = 0; i < count; i++) {
        steps[i] = chance_step();
        model_call(&meaning, &steps[i].call, steps[i].trace_len, &events);
    }
    steps[count] = chance_step();
    steps_count = count;
}

/* ---- The library's run, with or without jumps ---- */

static unsigned at; /* the focus, by the answers so far */
static unsigned long pairs, jumps, asides;

/* What is answered is no environment. */
static int is_question(enum call_kind kind)
{
    return kind == LOOK || kind == PEEK || kind == FAR;
}

static kn_answer ask(const struct call *c, size_t trace_len)
{
    kn_answer r;

    if (trace.len != trace_len)
        lent_take(&trace, trace_len);
    r = run_call(c);
    if (r.code == KN_DONE && !is_question(c->kind))
        at = (unsigned)r.out;
    return r;
}

static void jump(enum call_kind kind, unsigned a)
{
    struct call c = { .kind = kind, .a = a };

    check(ask(&c, room_enough()).code == KN_DONE, "a jump is answered");
    jumps++;
}

/* A question, or a call that is refused. */
static void aside(void)
{
    struct call c = chance_call(&meaning);
    kn_answer r;

    if (c.kind == BIND || c.kind == SET)
        c.x = meaning.vars + chance(9);
    else if (c.kind == GOTO || c.kind == BEGIN)
        c.a = meaning.made + chance(9);
    else if (c.kind == HERE || c.kind == BACK)
        c.kind = FAR;
    r = ask(&c, c.kind == WIND ? 0 : room_enough());
    check(r.code != KN_DONE || is_question(c.kind), "refused");
    asides++;
}

static void wander(unsigned made)
{
    unsigned count;

    for (count = chance(4); count > 0; count--) {
        if (at != 0 && chance(3) == 0)
            jump(BACK, 0);
        else
            jump(GOTO, chance(made));
        if (chance(4) == 0)
            aside();
    }
}

/* The last child of a among so many made; 0 if there is none. */
static unsigned child_of(unsigned a, unsigned made)
{
    unsigned n = made - 1;

    while (n > a && meaning.node[n].parent != a)
        n--;
    return n > a ? n : 0;
}

/* To a by goto, or by back from a child of it. */
static void come_back(unsigned a, unsigned made)
{
    unsigned child = chance(2) == 0 ? child_of(a, made) : 0;

    if (child == 0) {
        jump(GOTO, a);
    } else {
        jump(GOTO, child);
        jump(BACK, 0);
    }
}

/* Where the focus counts: at each bind, wind, set and here, and at the end. */
static int counts(unsigned i)
{
    enum call_kind kind = steps[i].call.kind;

    return i == steps_count || kind == BIND || kind == WIND || kind == SET
           || kind == HERE;
}

static void run(int jumping)
{
    const struct step *s = steps;
    unsigned i;

    at = s->place;
    for (i = 0; i <= steps_count; i++, s++) {
        if (jumping)
            wander(s->made);
        if (jumping && counts(i))
            come_back(s->place, s->made);
        check(at == s->place || !counts(i), "the focus where it counts");
        if (i < steps_count)
            ask(&s->call, s->trace_len);
    }
}

/* ---- Pairs ---- */

static uint8_t first[LENT_MAX]; /* the store that both runs begin with */

/* The run before, and one with jumps of its own. */
static void pair(void)
{
    lent_keep(&store);
    memcpy(store.bytes, first, store.len);
    run(1);
    check(lent_same(&store), "jumps left a trace");
    pairs++;
}

/* Without jumps beside with; then both with their own. */
static void both_pairs(unsigned count)
{
    memcpy(first, store.bytes, store.len);
    draw_run(count);
    run(0);
    pair();
    pair();
}

static void small_pairs(void)
{
    unsigned i;

    check_name("small runs by another door");
    for (i = 0; i < SMALL_RUNS; i++) {
        unsigned vars = 1 + chance(4), nodes = 1 + chance(20);
        chance_open(&meaning, vars, nodes, chance(20));
        both_pairs(30);
    }
}

/* From a store with anything sound in it. */
static void wide_pairs(void)
{
    unsigned i;

    check_name("wide runs by another door");
    for (i = 0; i < WIDE_RUNS; i++) {
        unsigned vars = 1 + chance(KN_MAX_VARS), nodes = 1 + chance(400);
        unsigned made = 1 + chance(nodes);
        chance_store(&meaning, vars, nodes, made, chance(20));
        both_pairs(200);
    }
}

static void limit_pairs(void)
{
    check_name("runs at the limits by another door");
    chance_open(&meaning, KN_MAX_VARS, KN_MAX_NODES, 20);
    both_pairs(MOST_STEPS);
    chance_store(&meaning, KN_MAX_VARS, KN_MAX_NODES, KN_MAX_NODES - 100, 20);
    both_pairs(MOST_STEPS / 4);
}

/* ---- A pair that meets W4's hypotheses, two that miss one each ---- */

static const struct call born = { .kind = BIND, .v = 5 };
static const struct call set_7 = { .kind = SET, .v = 7 };
static const struct call to_top = { .kind = GOTO, .a = 0 };
static const struct call to_1 = { .kind = GOTO, .a = 1 };

/* These calls, up to the first NULL, on a store of one variable with the top
   value 1; where they end. */
static unsigned ends_at(const struct call *const calls[])
{
    uint8_t tops[KN_CELL_BYTES];

    kn_top_value(tops, 0, 1);
    open_beside(&meaning, 1, 4, tops, sizeof tops);
    for (; *calls != NULL; calls++)
        check(ask(*calls, room_enough()).code == KN_DONE, "done");
    return at;
}

static void fixed_pair(const char *name, const struct call *const one[],
                       const struct call *const other[], int same_end, int same)
{
    uint8_t left[KN_SIZE(1, 4) + 3];
    unsigned end;

    check_name(name);
    lent_take(&store, sizeof left);
    end = ends_at(one);
    memcpy(left, store.bytes, sizeof left);
    check((ends_at(other) == end) == same_end, "where the runs end");
    check((memcmp(store.bytes, left, sizeof left) == 0) == same, "the bytes");
}

static void fixed_pairs(void)
{
    const struct call *const in[] = { &born, NULL };
    const struct call *const out[] = { &born, &to_top, NULL };
    const struct call *const inside[] = { &born, &set_7, NULL };
    const struct call *const round[] = { &born, &to_top, &to_1, &set_7, NULL };
    const struct call *const inside_out[] = { &born, &set_7, &to_top, NULL };
    const struct call *const outside[] = { &born, &to_top, &set_7, NULL };

    fixed_pair("round by the top before a set", inside, round, 1, 1);
    fixed_pair("the focus at a set differs", inside_out, outside, 1, 0);
    fixed_pair("the final focus differs", in, out, 0, 0);
}

void test_doors(void)
{
    fixed_pairs();
    small_pairs();
    wide_pairs();
    limit_pairs();
    printf("pairs-by-another-door=%lu jumps=%lu asides=%lu\n",
           pairs, jumps, asides);
}
