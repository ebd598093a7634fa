/* test_edges.c: cases (a) to (l) of the specification, each at both sides,
   with the answers written out. The card's half of (i) is the card's. */
#include "check.h"

#include <string.h>

static const uint8_t unbound[KN_CELL_BYTES] = { 0, 0, 0, 0, 0 };
static const uint8_t one[KN_CELL_BYTES] = { 1, 1, 0, 0, 0 };

/* ---- The calls on the lent buffers ---- */

static kn_answer opened(uint32_t vars, uint32_t nodes, size_t len)
{
    static uint8_t tops[(KN_MAX_VARS + 1) * KN_CELL_BYTES];

    lent_take(&store, len);
    return kn_open(vars, nodes, tops, (size_t)vars * KN_CELL_BYTES,
                   store.bytes, store.len);
}

static kn_answer bind(uint32_t x, int32_t v) { return kn_bind(store.bytes, store.len, x, v); }
static kn_answer look(uint32_t x) { return kn_look(store.bytes, store.len, x); }
static kn_answer peek(uint32_t a, uint32_t x) { return kn_peek(store.bytes, store.len, a, x); }
static kn_answer set(uint32_t x, int32_t v) { return kn_set(store.bytes, store.len, x, v); }
static kn_answer here(void) { return kn_here(store.bytes, store.len); }
static kn_answer far(uint32_t a, uint32_t b) { return kn_far(store.bytes, store.len, a, b); }

static kn_answer wind(uint16_t p, uint16_t q)
{
    return kn_wind(store.bytes, store.len, trace.bytes, trace.len, p, q);
}

static kn_answer go(uint32_t a)
{
    return kn_goto(store.bytes, store.len, trace.bytes, trace.len, a);
}

static kn_answer back(void)
{
    return kn_back(store.bytes, store.len, trace.bytes, trace.len);
}

static void event_is(unsigned at, unsigned what, unsigned thunk, unsigned place)
{
    const uint8_t *e = trace.bytes + (size_t)at * KN_EVENT_BYTES;

    check(e[0] == what && e[1] + 256u * e[2] == thunk
          && e[3] + 256u * e[4] == place, "an event's bytes");
}

/* ---- The cases ---- */

static void case_a(void)
{
    check_name("(a) 256 variables open, 257 and 0 don't");
    check_answer(opened(256, 1, KN_SIZE(256, 1)), done(0, 0, 0), "256");
    check_answer(look(255), refused(KN_UNBOUND), "the last variable");
    check_answer(opened(257, 1, KN_SIZE(257, 1)), refused(KN_SETUP), "257");
    check(lent_same(&store), "a refused open changes nothing");
    check_answer(opened(0, 1, KN_SIZE(1, 1)), refused(KN_SETUP), "0");
    check_answer(opened(1, 1, KN_SIZE(1, 1)), done(0, 0, 0), "1");
}

static void case_b(void)
{
    check_name("(b) one environment opens, its first bind is Full");
    check_answer(opened(1, 1, KN_SIZE(1, 1)), done(0, 0, 0), "open");
    lent_take(&trace, 5);
    check_answer(bind(0, 3), refused(KN_FULL), "bind");
    check_answer(wind(1, 2), refused(KN_FULL), "wind");
    lent_take(&trace, 0);
    check_answer(wind(1, 2), refused(KN_FULL), "wind without room: 6 before 7");
    check_answer(bind(1, 3), refused(KN_NO_VARIABLE), "bind: 3 before 6");
    check_answer(opened(1, 2, KN_SIZE(1, 2)), done(0, 0, 0), "open two");
    check_answer(bind(0, 3), done(1, 0, 0), "the other side");
    check_answer(bind(0, 3), refused(KN_FULL), "then full");
}

static void case_c(void)
{
    check_name("(c) 2,048 environments open, 2,049 and 0 don't");
    check_answer(opened(1, 2048, KN_SIZE(1, 2048)), done(0, 0, 0), "2,048");
    check_answer(opened(1, 2049, KN_SIZE(1, 2049)), refused(KN_SETUP), "2,049");
    check_answer(opened(1, 0, KN_SIZE(1, 1)), refused(KN_SETUP), "0");
}

static void case_d(void)
{
    check_name("(d) 73 bytes for V=1, N=4 open, 72 don't");
    check_answer(opened(1, 4, 72), refused(KN_SETUP), "72");
    check(lent_same(&store), "a refused open changes nothing");
    check_answer(opened(1, 4, 73), done(0, 0, 0), "73");
    check_answer(here(), done(0, 0, 0), "lent with 73");
    check_answer(kn_here(store.bytes, 72), refused(KN_DAMAGED), "lent with 72");
}

static void case_e(void)
{
    check_name("(e) x=V-1 is good, V is 3");
    opened(3, 4, KN_SIZE(3, 4));
    check_answer(bind(2, 9), done(1, 0, 0), "bind V-1");
    check_answer(look(2), seen(9, 1), "look V-1");
    check_answer(set(2, 8), done(1, 0, 0), "set V-1");
    check_answer(peek(1, 2), seen(8, 1), "peek V-1");
    check_answer(bind(3, 9), refused(KN_NO_VARIABLE), "bind V");
    check_answer(look(3), refused(KN_NO_VARIABLE), "look V");
    check_answer(set(3, 8), refused(KN_NO_VARIABLE), "set V");
    check_answer(peek(1, 3), refused(KN_NO_VARIABLE), "peek V");
    check_answer(look(65536 + 2), refused(KN_NO_VARIABLE), "x isn't cut to 16 bits");
    check_answer(look(0xffffffffu), refused(KN_NO_VARIABLE), "the largest x");
}

static void case_f(void)
{
    check_name("(f) goto made-1 is good, made is 4");
    opened(1, 4, KN_SIZE(1, 4));
    bind(0, 1);
    bind(0, 2);
    check_answer(go(0), done(0, 2, 0), "the top");
    check_answer(go(2), done(2, 2, 0), "made-1");
    check_answer(go(3), refused(KN_NO_ENVIRONMENT), "made");
    check_answer(peek(3, 0), refused(KN_NO_ENVIRONMENT), "peek made");
    check_answer(go(65536 + 1), refused(KN_NO_ENVIRONMENT), "a isn't cut to 16 bits");
    check_answer(go(0xffffffffu), refused(KN_NO_ENVIRONMENT), "the largest a");
    check_answer(here(), done(2, 0, 0), "the focus is unmoved");
}

static void case_g(void)
{
    check_name("(g) two winds to leave: room for two, room for one");
    opened(1, 4, KN_SIZE(1, 4));
    lent_take(&trace, 2 * KN_EVENT_BYTES);
    wind(1, 2);
    wind(3, 4);
    lent_take(&trace, 2 * KN_EVENT_BYTES - 1);
    lent_keep(&store);
    check_answer(go(0), refused(KN_TRACE_ROOM), "room for one");
    check(lent_same(&store) && lent_same(&trace), "no byte differs");
    check_answer(here(), done(2, 0, 0), "the focus is unmoved");
    lent_take(&trace, 2 * KN_EVENT_BYTES);
    check_answer(go(0), done(0, 2, 2), "room for two");
    event_is(0, 0, 4, 1);
    event_is(1, 0, 2, 0);
    lent_take(&trace, 2 * KN_EVENT_BYTES - 1);
    check_answer(go(2), refused(KN_TRACE_ROOM), "entering, room for one");
    check_answer(go(1), done(1, 1, 1), "entering one");
    event_is(0, 1, 1, 0);
}

static void case_h(void)
{
    check_name("(h) back at the top is 8 even with no room");
    opened(1, 4, KN_SIZE(1, 4));
    lent_take(&trace, 0);
    check_answer(back(), refused(KN_TOP), "no room");
    lent_take(&trace, 5);
    check_answer(back(), refused(KN_TOP), "room");
    bind(0, 1);
    check_answer(back(), done(0, 1, 0), "the other side");
}

static void case_i(void)
{
    check_name("(i) the smallest and the largest value come back");
    opened(1, 4, KN_SIZE(1, 4));
    bind(0, INT32_MIN);
    check_answer(look(0), seen(INT32_MIN, 1), "the smallest");
    bind(0, INT32_MAX);
    check_answer(look(0), seen(INT32_MAX, 2), "the largest");
    check_answer(peek(1, 0), seen(INT32_MIN, 1), "the smallest from afar");
}

static void case_j(void)
{
    check_name("(j) peek with both numbers too large is 3");
    opened(1, 4, KN_SIZE(1, 4));
    check_answer(peek(1, 1), refused(KN_NO_VARIABLE), "both");
    check_answer(peek(1, 0), refused(KN_NO_ENVIRONMENT), "a alone");
    check_answer(peek(0, 1), refused(KN_NO_VARIABLE), "x alone");
    check_answer(peek(0, 0), refused(KN_UNBOUND), "neither");
}

static void case_k(void)
{
    check_name("(k) the card");
    lent_take(&store, 73);
    lent_take(&trace, 2 * KN_EVENT_BYTES);
    check_answer(kn_open(1, 4, one, 5, store.bytes, 73), done(0, 0, 0), "open");
    check_answer(bind(0, -1), done(1, 0, 0), "op 1");
    check_answer(wind(10, 11), done(2, 0, 1), "op 2");
    event_is(0, 1, 10, 1);
    check_answer(bind(0, 1), done(3, 0, 0), "op 3");
    check_answer(go(0), done(0, 3, 1), "op 4");
    event_is(0, 0, 11, 1);
    check_answer(go(3), done(3, 3, 1), "op 5");
    event_is(0, 1, 10, 1);
    check_answer(look(0), seen(1, 3), "op 6");
    check_answer(peek(1, 0), seen(-1, 1), "op 7");
    check_answer(bind(0, 5), refused(KN_FULL), "op 8");
}

static void case_l(void)
{
    check_name("(l) an unbound top, bound, and unbound again");
    lent_take(&store, KN_SIZE(1, 4));
    lent_take(&trace, 0);
    kn_open(1, 4, unbound, 5, store.bytes, store.len);
    check_answer(look(0), refused(KN_UNBOUND), "look");
    check_answer(set(0, 1), refused(KN_UNBOUND), "set");
    check_answer(bind(0, 6), done(1, 0, 0), "bind");
    check_answer(look(0), seen(6, 1), "look at the binding");
    check_answer(peek(0, 0), refused(KN_UNBOUND), "peek at the top");
    check_answer(back(), done(0, 1, 0), "back");
    check_answer(look(0), refused(KN_UNBOUND), "look again");
    check_answer(peek(1, 0), seen(6, 1), "peek at the binding");
}

/* ---- Errors that look right; (k) has the two others ---- */

static void set_changes_one_binding(void)
{
    check_name("set changes the deciding binding alone");
    opened(1, 4, KN_SIZE(1, 4));
    bind(0, 1);
    bind(0, 2);
    check_answer(set(0, 9), done(2, 0, 0), "set");
    check_answer(look(0), seen(9, 2), "the binding");
    check_answer(peek(1, 0), seen(1, 1), "the one above");
    check_answer(peek(0, 0), refused(KN_UNBOUND), "the top");
    go(1);
    check_answer(set(0, 8), done(1, 0, 0), "set above");
    check_answer(peek(2, 0), seen(9, 2), "the one below");
}

static void shortest_way(void)
{
    check_name("a switch goes no further up than it must");
    opened(1, 8, KN_SIZE(1, 8));
    lent_take(&trace, 2 * KN_EVENT_BYTES);
    wind(1, 2);
    wind(3, 4);
    go(1);
    wind(5, 6);
    check_answer(go(2), done(2, 2, 2), "between siblings");
    event_is(0, 0, 6, 1);
    event_is(1, 1, 3, 1);
}

static void room_before_moves(void)
{
    check_name("room is found out about before the first move");
    opened(1, 4, KN_SIZE(1, 4));
    lent_take(&trace, KN_EVENT_BYTES);
    wind(1, 2);
    bind(0, 3);
    lent_take(&trace, KN_EVENT_BYTES - 1);
    lent_keep(&store);
    check_answer(go(0), refused(KN_TRACE_ROOM), "goto");
    check(lent_same(&store) && lent_same(&trace), "no byte differs");
    check_answer(back(), done(1, 1, 0), "back needs none");
    check_answer(back(), refused(KN_TRACE_ROOM), "back needs one");
}

static void resumed_postlude(void)
{
    check_name("a postlude resumed at its place enters nothing");
    opened(1, 4, KN_SIZE(1, 4));
    lent_take(&trace, KN_EVENT_BYTES);
    bind(0, 1);
    wind(2, 3);
    check_answer(back(), done(1, 1, 1), "the wind is left");
    event_is(0, 0, 3, 1);
    check_answer(go(1), done(1, 0, 0), "and not entered again");
}

/* ---- Thunks ---- */

/* Four winds, one in the other, with each pair of the two numbers. */
static void thunks_at_their_ends(void)
{
    static const uint16_t ends[2] = { 0, 65535 };
    unsigned n;

    check_name("thunks of 0 and 65,535, on both sides");
    opened(1, 5, KN_SIZE(1, 5));
    lent_take(&trace, 4 * KN_EVENT_BYTES);
    for (n = 0; n < 4; n++) {
        check_answer(wind(ends[n / 2], ends[n % 2]), done((int32_t)n + 1, 0, 1), "made");
        event_is(0, KN_ENTERING, ends[n / 2], n);
    }
    check_answer(go(0), done(0, 4, 4), "all left");
    for (n = 0; n < 4; n++)
        event_is(3 - n, KN_LEAVING, ends[n % 2], n);
    check_answer(go(4), done(4, 4, 4), "all entered");
    for (n = 0; n < 4; n++)
        event_is(n, KN_ENTERING, ends[n / 2], n);
}

/* ---- Far ---- */

enum { FAMILY = 7 };

/* A line of 1, 2 and 3 below the top; 4 below 1, and 5 below 4; 6 below the
   top. The focus is 6. */
static void lend_family(void)
{
    opened(1, 8, KN_SIZE(1, 8));
    lent_take(&trace, FAMILY * KN_EVENT_BYTES);
    bind(0, 1);
    wind(2, 3);
    bind(0, 3);
    go(1);
    bind(0, 4);
    bind(0, 5);
    go(0);
    check_answer(wind(4, 5), done(6, 0, 1), "made");
    lent_keep(&store);
    lent_keep(&trace);
}

static void far_is(uint32_t a, uint32_t b, kn_answer want, const char *what)
{
    check_answer(far(a, b), want, what);
    check(lent_same(&store) && lent_same(&trace), "far changed a byte");
}

static void far_apart(void)
{
    static const struct { uint32_t a, b; int32_t apart; const char *what; } rows[] = {
        { 0, 0, 0, "the top and itself" },
        { 6, 6, 0, "the focus and itself" },
        { 3, 3, 0, "a deep one and itself" },
        { 1, 0, 1, "a child of the top, and the top" },
        { 3, 0, 3, "a depth" },
        { 5, 0, 3, "a depth on the other branch" },
        { 2, 3, 1, "parent and child" },
        { 1, 3, 2, "one above the other" },
        { 2, 4, 2, "siblings" },
        { 3, 5, 4, "two branches" },
        { 2, 5, 3, "two branches, one deeper" },
        { 3, 6, 4, "meeting at the top" }
    };
    unsigned focus, i;

    check_name("far: the nodes on one path and not on the other");
    lend_family();
    for (focus = 0; focus < FAMILY; focus++) {
        go(focus);
        lent_keep(&store);
        lent_keep(&trace);
        for (i = 0; i < sizeof rows / sizeof rows[0]; i++) {
            far_is(rows[i].a, rows[i].b, done(rows[i].apart, 0, 0), rows[i].what);
            far_is(rows[i].b, rows[i].a, done(rows[i].apart, 0, 0), rows[i].what);
        }
    }
}

static void far_is_gotos_moves(void)
{
    uint32_t a, b;

    check_name("far is what goto moves");
    lend_family();
    for (a = 0; a < FAMILY; a++)
        for (b = 0; b < FAMILY; b++) {
            kn_answer apart = far(a, b);
            go(a);
            check_answer(apart, done(go(b).moves, 0, 0), "goto's moves");
        }
}

static void far_refused(void)
{
    static const uint32_t unmade[] = { FAMILY, 8, 65536, 65536 + 1, 0xffffffffu };
    unsigned i;

    check_name("far: either number not made is 4");
    lend_family();
    far_is(FAMILY - 1, FAMILY - 1, done(0, 0, 0), "made-1 is good");
    for (i = 0; i < sizeof unmade / sizeof unmade[0]; i++) {
        far_is(unmade[i], 0, refused(KN_NO_ENVIRONMENT), "a, b the top");
        far_is(0, unmade[i], refused(KN_NO_ENVIRONMENT), "b, a the top");
        far_is(unmade[i], 3, refused(KN_NO_ENVIRONMENT), "a");
        far_is(3, unmade[i], refused(KN_NO_ENVIRONMENT), "b");
        far_is(unmade[i], unmade[i], refused(KN_NO_ENVIRONMENT), "both");
        check_answer(kn_far(store.bytes, store.len - 1, unmade[i], unmade[i]),
                     refused(KN_DAMAGED), "2 before 4");
    }
}

/* ---- Open's other edges ---- */

static void no_setup(uint32_t vars, uint32_t nodes, const uint8_t *tops,
                     size_t tops_len, const char *what)
{
    check_answer(kn_open(vars, nodes, tops, tops_len, store.bytes, store.len),
                 refused(KN_SETUP), what);
    check(lent_same(&store), "a refused open changes nothing");
}

static void top_cells(void)
{
    static const uint8_t state_2[5] = { 2, 0, 0, 0, 0 };
    static const uint8_t not_zero[5] = { 0, 0, 0, 0, 1 };
    static uint8_t many[KN_MAX_VARS * 5];

    check_name("top cells: 5V proper bytes");
    lent_take(&store, KN_SIZE(256, 4));
    no_setup(1, 4, one, 4, "4 bytes");
    no_setup(1, 4, many, 6, "6 bytes");
    no_setup(1, 4, state_2, 5, "state 2");
    no_setup(1, 4, not_zero, 5, "unbound and not zero");
    memcpy(many + 255 * 5, not_zero, 5);
    no_setup(256, 4, many, sizeof many, "the last cell");
    check_answer(kn_open(255, 4, many, 255 * 5, store.bytes, store.len),
                 done(0, 0, 0), "all but the last");
}

static void not_cut_off(void)
{
    check_name("open's numbers are not cut off");
    lent_take(&store, KN_SIZE(1, 4));
    no_setup(65537, 4, one, 5, "V = 65,537");
    no_setup(1, 65540, one, 5, "N = 65,540");
    no_setup(0xffffffffu, 4, one, 5, "the largest V");
    no_setup(1, 0xffffffffu, one, 5, "the largest N");
}

void test_edges(void)
{
    case_a();
    case_b();
    case_c();
    case_d();
    case_e();
    case_f();
    case_g();
    case_h();
    case_i();
    case_j();
    case_k();
    case_l();
    set_changes_one_binding();
    shortest_way();
    room_before_moves();
    resumed_postlude();
    thunks_at_their_ends();
    far_apart();
    far_is_gotos_moves();
    far_refused();
    top_cells();
    not_cut_off();
}
