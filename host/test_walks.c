/* test_walks.c: document 02's W5, the thunks between the moves. Walks written
   out call by call; then drawn ones, whose steps together are goto. Each call
   is made beside the model too, every lent byte. */
#include "check.h"

#include <stdio.h>
#include <string.h>

enum { NONE = 65535, TARGET = 8, WIND_TOLD = 10 };
enum { SMALL_WALKS = 20000, WIDE_WALKS = 60, LIMIT_WALKS = 6 };

static struct model meaning;
static unsigned long walks, steps, drops, asked;

static kn_answer call(struct call c)
{
    return beside(&meaning, &c);
}

static kn_answer begin(uint32_t a)
{
    struct call c = { .kind = BEGIN, .a = a };
    return call(c);
}

static kn_answer step(void)
{
    struct call c = { .kind = STEP };
    steps++;
    return call(c);
}

static kn_answer drop(void)
{
    struct call c = { .kind = DROP };
    drops++;
    return call(c);
}

static kn_answer go(uint32_t a)
{
    struct call c = { .kind = GOTO, .a = a };
    return call(c);
}

/* ---- Walks written out ---- */

enum { FAMILY_VARS = 2, FAMILY_NODES = 8, FAMILY_BYTES = KN_SIZE(2, 8) };

/* Binding 1 below the top. Below it wind 2, binding 3 and binding 4 in one
   line, and winds 5 and 6 and binding 7 in another. Variable 1 has no top
   value. No room is left, in store or trace. */
static void lend_family(const char *name, unsigned focus)
{
    static const struct model_node seven[] = {
        { 0, 0, 0, { 1, 10 }, 0, 0 }, { 1, 1, 0, { 0, 0 }, 20, 21 },
        { 0, 2, 0, { 1, 30 }, 0, 0 }, { 0, 3, 1, { 1, 40 }, 0, 0 },
        { 1, 1, 0, { 0, 0 }, 50, 51 }, { 1, 5, 0, { 0, 0 }, 60, 61 },
        { 0, 6, 0, { 1, 70 }, 0, 0 }
    };

    check_name(name);
    memset(&meaning, 0, sizeof meaning);
    meaning.vars = FAMILY_VARS;
    meaning.nodes = meaning.made = FAMILY_NODES;
    meaning.focus = focus;
    meaning.top[0].bound = 1;
    meaning.top[0].value = 5;
    memcpy(meaning.node + 1, seven, sizeof seven);
    lent_take(&store, FAMILY_BYTES);
    model_write(&meaning, store.bytes);
    lent_take(&trace, 0);
}

static unsigned field(unsigned at)
{
    return store.bytes[at] + 256u * store.bytes[at + 1];
}

static void walk_is(unsigned target, unsigned wind)
{
    check(field(TARGET) == target && field(WIND_TOLD) == wind,
          "the header's target and wind");
}

static void is_in(unsigned n, int in)
{
    check((store.bytes[KN_SIZE(FAMILY_VARS, n)] & 1) == in, "in or out");
}

struct line { struct call call; kn_answer want; };

/* Each call with its answer, in order. */
static void play(const struct line *lines, unsigned count)
{
    unsigned i;

    for (i = 0; i < count; i++)
        check_answer(call(lines[i].call), lines[i].want, "as written out");
}

#define PLAY(lines) play(lines, sizeof lines / sizeof lines[0])

static void to_the_focus(void)
{
    uint8_t before[FAMILY_BYTES];

    lend_family("a walk to the focus is done at its first step", 4);
    memcpy(before, store.bytes, sizeof before);
    check_answer(begin(4), done(4, 0, 0), "begin");
    walk_is(4, NONE);
    check_answer(step(), done(4, 0, 0), "the step");
    check(memcmp(store.bytes, before, sizeof before) == 0, "no byte differs");
    check_answer(step(), refused(KN_NOT_WALKING), "one more");
}

static void without_winds(void)
{
    lend_family("a walk past no wind is done at its first step", 4);
    check_answer(begin(2), done(4, 0, 0), "begin");
    check_answer(step(), done(2, 2, 0), "the step");
    walk_is(NONE, NONE);
}

static void leaving_and_entering(void)
{
    lend_family("leaving, then entering, each event at its place", 4);
    check_answer(begin(7), done(4, 0, 0), "begin");
    check_answer(step(), told(1, 3, KN_LEAVING, 21), "2 has been left");
    walk_is(7, NONE);
    is_in(2, 0);
    check_answer(step(), told(1, 0, KN_ENTERING, 50), "5 is not entered");
    walk_is(7, 5);
    is_in(5, 0);
    check_answer(step(), told(5, 1, KN_ENTERING, 60), "5 is, 6 is not");
    walk_is(7, 6);
    is_in(5, 1);
    is_in(6, 0);
    check_answer(step(), done(7, 2, 0), "6 and 7 are, and it is done");
    walk_is(NONE, NONE);
    is_in(6, 1);
}

static void winds_left(void)
{
    lend_family("two winds left, one in the other", 7);
    begin(0);
    check_answer(step(), told(5, 2, KN_LEAVING, 61), "the inner");
    is_in(6, 0);
    is_in(5, 1);
    check_answer(step(), told(1, 1, KN_LEAVING, 51), "the outer");
    is_in(5, 0);
    check_answer(step(), done(0, 1, 0), "done");
}

static void to_a_wind(void)
{
    lend_family("a walk that ends in a wind, or at its place", 0);
    begin(5);
    check_answer(step(), told(1, 1, KN_ENTERING, 50), "handed over");
    check_answer(step(), done(5, 1, 0), "entered and done");
    begin(1);
    check_answer(step(), told(1, 1, KN_LEAVING, 51), "left");
    walk_is(1, NONE);
    check_answer(step(), done(1, 0, 0), "done without a move");
}

/* Four winds, one in the other, with each pair of the two numbers. */
static void thunks_at_their_ends(void)
{
    static const uint16_t ends[2] = { 0, 65535 };
    unsigned n;

    check_name("thunks of 0 and 65,535 handed over, on both sides");
    chance_open(&meaning, 1, 5, 0);
    lent_take(&trace, KN_EVENT_BYTES);
    for (n = 0; n < 4; n++) {
        struct call c = { .kind = WIND, .p = ends[n / 2], .q = ends[n % 2] };
        call(c);
    }
    begin(0);
    for (n = 4; n-- > 0;)
        check_answer(step(), told((int32_t)n, 1, KN_LEAVING, ends[n % 2]), "left");
    check_answer(step(), done(0, 0, 0), "all left");
    begin(4);
    for (n = 0; n < 4; n++)
        check_answer(step(), told((int32_t)n, n != 0, KN_ENTERING, ends[n / 2]),
                     "to be entered");
    check_answer(step(), done(4, 1, 0), "all entered");
}

/* ---- Drops ---- */

static void drop_at_once(void)
{
    lend_family("a walk dropped before its first step", 4);
    begin(7);
    check_answer(drop(), done(4, 0, 0), "drop");
    walk_is(NONE, NONE);
    check_answer(drop(), refused(KN_NOT_WALKING), "a second drop");
}

static void drop_after_leaving(void)
{
    lend_family("a walk dropped after a leaving", 4);
    begin(7);
    step();
    check_answer(drop(), done(1, 0, 0), "the focus stays");
    walk_is(NONE, NONE);
    check_answer(step(), refused(KN_NOT_WALKING), "no walk goes on");
    lent_take(&trace, KN_EVENT_BYTES);
    check_answer(go(4), done(4, 3, 1), "back by goto");
}

static void drop_before_entering(void)
{
    lend_family("a walk dropped with a wind handed over", 4);
    begin(7);
    step();
    step();
    check_answer(drop(), done(1, 0, 0), "the focus stays");
    walk_is(NONE, NONE);
    is_in(5, 0);
    check_answer(begin(2), done(1, 0, 0), "another walk");
    check_answer(step(), told(1, 0, KN_ENTERING, 20), "its own event");
    check_answer(drop(), done(1, 0, 0), "dropped too");
    lent_take(&trace, 2 * KN_EVENT_BYTES);
    check_answer(go(7), done(7, 3, 2), "both winds are told by goto");
}

/* ---- Calls between the steps ---- */

static void sets_between(void)
{
    const struct line lines[] = {
        { { .kind = BEGIN, .a = 7 }, done(4, 0, 0) },
        { { .kind = SET, .x = 0, .v = 31 }, done(4, 0, 0) },
        { { .kind = SET, .x = 1, .v = 41 }, done(4, 0, 0) },
        { { .kind = STEP }, told(1, 3, KN_LEAVING, 21) },
        { { .kind = SET, .x = 0, .v = 11 }, done(1, 0, 0) },
        { { .kind = SET, .x = 1, .v = 42 }, refused(KN_UNBOUND) },
        { { .kind = STEP }, told(1, 0, KN_ENTERING, 50) },
        { { .kind = LOOK, .x = 0 }, seen(11, 1) },
        { { .kind = SET, .x = 0, .v = 12 }, done(1, 0, 0) },
        { { .kind = STEP }, told(5, 1, KN_ENTERING, 60) },
        { { .kind = LOOK, .x = 0 }, seen(12, 1) },
        { { .kind = SET, .x = 0, .v = 13 }, done(5, 0, 0) },
        { { .kind = STEP }, done(7, 2, 0) },
        { { .kind = LOOK, .x = 0 }, seen(70, 7) },
        { { .kind = PEEK, .a = 1, .x = 0 }, seen(13, 1) },
        { { .kind = PEEK, .a = 3, .x = 0 }, seen(31, 3) },
        { { .kind = PEEK, .a = 4, .x = 1 }, seen(41, 4) },
        { { .kind = PEEK, .a = 0, .x = 0 }, seen(5, 0) }
    };

    lend_family("a set between two steps is taken at its place", 4);
    PLAY(lines);
}

/* What is answered, and what is refused: 10 before all else, whatever the
   arguments; others in their order. */
static void calls_in_a_walk(unsigned focus, int32_t value, unsigned by)
{
    const int32_t at = (int32_t)focus;
    const struct line lines[] = {
        { { .kind = BIND, .x = 0, .v = 1 }, refused(KN_WALKING) },
        { { .kind = BIND, .x = FAMILY_VARS }, refused(KN_WALKING) },
        { { .kind = WIND, .p = 1, .q = 2 }, refused(KN_WALKING) },
        { { .kind = GOTO, .a = focus }, refused(KN_WALKING) },
        { { .kind = GOTO, .a = 7 }, refused(KN_WALKING) },
        { { .kind = GOTO, .a = FAMILY_NODES }, refused(KN_WALKING) },
        { { .kind = BACK }, refused(KN_WALKING) },
        { { .kind = BEGIN, .a = 7 }, refused(KN_WALKING) },
        { { .kind = BEGIN, .a = focus }, refused(KN_WALKING) },
        { { .kind = BEGIN, .a = FAMILY_NODES }, refused(KN_WALKING) },
        { { .kind = BEGIN, .a = NONE }, refused(KN_WALKING) },
        { { .kind = LOOK, .x = 0 }, seen(value, by) },
        { { .kind = LOOK, .x = FAMILY_VARS }, refused(KN_NO_VARIABLE) },
        { { .kind = PEEK, .a = 7, .x = 0 }, seen(70, 7) },
        { { .kind = PEEK, .a = 7, .x = 1 }, refused(KN_UNBOUND) },
        { { .kind = PEEK, .a = FAMILY_NODES }, refused(KN_NO_ENVIRONMENT) },
        { { .kind = SET, .x = 0, .v = value }, done(at, 0, 0) },
        { { .kind = SET, .x = FAMILY_VARS }, refused(KN_NO_VARIABLE) },
        { { .kind = HERE }, done(at, 0, 0) },
        { { .kind = FAR, .a = 4, .b = 7 }, done(6, 0, 0) },
        { { .kind = FAR, .a = FAMILY_NODES }, refused(KN_NO_ENVIRONMENT) }
    };
    size_t room;

    for (room = 0; room <= 7 * KN_EVENT_BYTES; room += 7 * KN_EVENT_BYTES) {
        lent_take(&trace, room);
        PLAY(lines);
    }
}

/* Before its first step, after a leaving, with a wind handed over; and from
   the top, where back would be 8. */
static void every_call_in_a_walk(void)
{
    lend_family("every call during a walk", 4);
    begin(7);
    calls_in_a_walk(4, 30, 3);
    step();
    calls_in_a_walk(1, 10, 1);
    step();
    calls_in_a_walk(1, 10, 1);
    step();
    calls_in_a_walk(5, 10, 1);
    check_answer(step(), done(7, 2, 0), "the walk stands");
    lend_family("every call during a walk that begins at the top", 0);
    begin(0);
    calls_in_a_walk(0, 5, 0);
    check_answer(step(), done(0, 0, 0), "the walk stands");
}

static void order_of_begin(void)
{
    static const uint32_t unmade[] = {
        FAMILY_NODES, 9, 65534, NONE, 65536, 65536 + 1, 0xffffffffu
    };
    unsigned i;

    lend_family("begin: 2, then 10, then 4", 4);
    for (i = 0; i < sizeof unmade / sizeof unmade[0]; i++) {
        check_answer(begin(unmade[i]), refused(KN_NO_ENVIRONMENT), "4");
        check_answer(begin(3), done(4, 0, 0), "a walk");
        check_answer(begin(unmade[i]), refused(KN_WALKING), "10 before 4");
        check_answer(kn_begin(store.bytes, store.len - 1, unmade[i]),
                     refused(KN_DAMAGED), "2 before both");
        check_answer(drop(), done(4, 0, 0), "no walk");
    }
    chance_open(&meaning, 1, 4, 0);
    check_answer(begin(1), refused(KN_NO_ENVIRONMENT), "below N and not made");
}

static void outside_a_walk(void)
{
    static const struct call step_now = { .kind = STEP }, drop_now = { .kind = DROP };

    check_name("a step or a drop without a walk is 11");
    chance_open(&meaning, 1, 4, 0);
    check(field(TARGET) == NONE && field(WIND_TOLD) == NONE, "open begins no walk");
    refuses(&step_now, KN_NOT_WALKING);
    refuses(&drop_now, KN_NOT_WALKING);
    begin(0);
    step();
    refuses(&step_now, KN_NOT_WALKING);
    refuses(&drop_now, KN_NOT_WALKING);
    check_answer(kn_step(store.bytes, store.len - 1), refused(KN_DAMAGED),
                 "step: 2 before 11");
    check_answer(kn_drop(store.bytes, store.len - 1), refused(KN_DAMAGED),
                 "drop: 2 before 11");
}

/* ---- Drawn walks: beside the goto from the same store ---- */

/* The whole switch at once: its answer, its events, the store after it. */
static struct {
    kn_answer answer;
    uint8_t events[KN_MAX_NODES * KN_EVENT_BYTES], there[LENT_MAX];
} whole;

/* Makes it; then the store is as before. */
static void switch_whole(unsigned a)
{
    static uint8_t first[LENT_MAX];
    static struct model meant;

    meant = meaning;
    memcpy(first, store.bytes, store.len);
    lent_take(&trace, KN_TRACE_SIZE(meaning.nodes));
    whole.answer = go(a);
    memcpy(whole.there, store.bytes, store.len);
    memcpy(whole.events, trace.bytes, trace.len);
    memcpy(store.bytes, first, store.len);
    meaning = meant;
}

/* Whatever may stand between two steps. */
static void ask(int sets)
{
    struct call c;

    do
        c = chance_call(&meaning);
    while (c.kind == STEP || c.kind == DROP || (c.kind == SET && !sets));
    call(c);
    asked++;
}

static struct { unsigned moves, events; } sofar; /* by the walk's steps */

/* One step, held to the whole switch's next event; whether there was one. */
static int step_of_whole(void)
{
    const uint8_t *want = whole.events + (size_t)sofar.events * KN_EVENT_BYTES;
    kn_answer r = step();

    sofar.moves += r.moves;
    if (r.events == 0)
        return 0;
    if (!check(sofar.events < whole.answer.events, "no event too many"))
        return 0;
    check(want[0] == r.event && want[1] + 256u * want[2] == r.thunk
          && want[3] + 256 * want[4] == r.out, "goto's next event, at its place");
    sofar.events++;
    return 1;
}

static void begin_of_whole(unsigned a)
{
    switch_whole(a);
    sofar.moves = sofar.events = 0;
    check(begin(a).code == KN_DONE, "begun");
    walks++;
}

/* From begin to done, with so many calls between the steps. */
static void walk_through(unsigned a, unsigned asks, int sets)
{
    unsigned i;

    begin_of_whole(a);
    do
        for (i = 0; i < asks; i++)
            ask(sets);
    while (step_of_whole());
    check(sofar.moves == whole.answer.moves, "goto's moves");
    check(sofar.events == whole.answer.events, "done at one step more than events");
    check(meaning.focus == a && !meaning.walking, "at the target, outside a walk");
    if (!sets)
        check(memcmp(store.bytes, whole.there, store.len) == 0, "goto's bytes");
}

/* Dropped after so many events at most, and gone on by goto. A wind that was
   handed over and not entered is told once more. */
static void walk_dropped(unsigned a, unsigned events)
{
    unsigned again;
    kn_answer rest;

    begin_of_whole(a);
    while (sofar.events < events && step_of_whole())
        ask(0);
    if (!meaning.walking)
        return;
    again = field(WIND_TOLD) != NONE;
    check_answer(drop(), done((int32_t)meaning.focus, 0, 0), "dropped");
    check(field(TARGET) == NONE && field(WIND_TOLD) == NONE, "no walk is left");
    rest = go(a);
    check(sofar.moves + rest.moves == whole.answer.moves, "goto's other moves");
    check(sofar.events + rest.events == whole.answer.events + again,
          "goto's other events");
    check(memcmp(store.bytes, whole.there, store.len) == 0, "goto's bytes");
}

static void drawn_walks(void)
{
    walk_through(chance(meaning.made), 0, 0);
    walk_through(chance(meaning.made), chance(3), 0);
    walk_through(chance(meaning.made), chance(4), 1);
    walk_dropped(chance(meaning.made), chance(4));
}

static void small_walks(void)
{
    unsigned i;

    check_name("small walks beside goto");
    for (i = 0; i < SMALL_WALKS; i++) {
        unsigned nodes = 1 + chance(20);
        chance_store(&meaning, 1 + chance(4), nodes, 1 + chance(nodes), chance(4));
        drawn_walks();
    }
}

static void wide_walks(void)
{
    unsigned i;

    check_name("wide walks beside goto");
    for (i = 0; i < WIDE_WALKS; i++) {
        unsigned nodes = 1 + chance(400);
        chance_store(&meaning, 1 + chance(KN_MAX_VARS), nodes, 1 + chance(nodes), 20);
        drawn_walks();
    }
}

static void limit_walks(void)
{
    unsigned i;

    check_name("walks at the limits beside goto");
    for (i = 0; i < LIMIT_WALKS; i++) {
        chance_store(&meaning, KN_MAX_VARS, KN_MAX_NODES, KN_MAX_NODES, 1);
        drawn_walks();
    }
}

/* All environments in one line; each wind_every-th is a wind. */
static void long_walk(const char *name, unsigned wind_every)
{
    const unsigned last = KN_MAX_NODES - 1;
    unsigned n;

    check_name(name);
    chance_store(&meaning, KN_MAX_VARS, KN_MAX_NODES, KN_MAX_NODES, 0);
    for (n = 1; n <= last; n++) {
        struct model_node node = { 0, n - 1, n % KN_MAX_VARS, { 1, (int32_t)n }, 0, 0 };
        struct model_node wind = { 1, n - 1, 0, { 0, 0 }, n, n + 1 };
        meaning.node[n] = n % wind_every == 0 ? wind : node;
    }
    meaning.focus = last;
    model_write(&meaning, store.bytes);
    walk_through(0, 0, 0);
    walk_through(last, 0, 0);
    check(sofar.moves == last && sofar.events == last / wind_every, "all of it");
    walk_dropped(0, last / wind_every / 2);
}

void test_walks(void)
{
    to_the_focus();
    without_winds();
    leaving_and_entering();
    winds_left();
    to_a_wind();
    thunks_at_their_ends();
    drop_at_once();
    drop_after_leaving();
    drop_before_entering();
    sets_between();
    every_call_in_a_walk();
    order_of_begin();
    outside_a_walk();
}

void test_drawn_walks(void)
{
    small_walks();
    wide_walks();
    limit_walks();
    long_walk("a walk along 2,047 winds", 1);
    long_walk("a walk along 2,047 bindings", KN_MAX_NODES);
    long_walk("a walk along both", 3);
    printf("walks=%lu steps=%lu drops=%lu calls-between=%lu\n", walks, steps,
           drops, asked);
}
