/* test_clauses.c: each clause of soundness broken alone, as far as it can be,
   in a small sound store; every call refuses and changes nothing. */
#include "check.h"

#include <string.h>

enum { VARS = 3, NODES = 8, FIRST_NODE = KN_HEADER_BYTES + VARS * KN_CELL_BYTES };

/* Places in the store: the header's fields, cell x and node n. */
#define CELL(x) (KN_HEADER_BYTES + (x) * KN_CELL_BYTES)
#define NODE(n) (FIRST_NODE + (n) * KN_NODE_BYTES)
enum {
    HEAD_VARS = 0, HEAD_NODES = 2, HEAD_MADE = 4, HEAD_FOCUS = 6,
    HEAD_TARGET = 8, HEAD_WIND = 10
};
enum {
    KIND = 0, STATE = 1, PARENT = 2, NAME = 4, POSTLUDE = 6, VALUE = 8, DEPTH = 12
};

/* In: binding 1, wind 2, binding 3, the focus. Out: binding 4, wind 5.
   Blank: 6 and 7. The top values of 1 and 2 are unbound. */
static void base_store(struct model *m, unsigned vars, unsigned nodes)
{
    static const struct model_node five[] = {
        { 0, 0, 0, { 1, 10 }, 0, 0 }, { 1, 1, 0, { 0, 0 }, 20, 21 },
        { 0, 2, 1, { 1, 30 }, 0, 0 }, { 0, 1, 2, { 1, 40 }, 0, 0 },
        { 1, 4, 0, { 0, 0 }, 50, 51 }
    };

    memset(m, 0, sizeof *m);
    m->vars = vars;
    m->nodes = nodes;
    m->made = 6;
    m->focus = 3;
    m->top[0].bound = 1;
    m->top[0].value = 5;
    memcpy(m->node + 1, five, sizeof five);
}

static unsigned get16(unsigned at)
{
    return store.bytes[at] + 256u * store.bytes[at + 1];
}

static void put16(unsigned at, unsigned n)
{
    store.bytes[at] = (uint8_t)n;
    store.bytes[at + 1] = (uint8_t)(n >> 8);
}

static void lend(const struct model *m, size_t spare)
{
    lent_take(&store, KN_SIZE(m->vars, m->nodes) + spare);
    model_write(m, store.bytes);
}

static void every_call_refuses(void)
{
    static const struct call c = { .v = 1, .p = 2, .q = 3 };

    check(!model_sound(store.bytes, store.len), "the model finds it sound");
    all_refuse(c);
}

/* ---- Clauses that one byte breaks ---- */

struct clause {
    const char *name;
    unsigned at, span; /* each of these bytes by itself... */
    uint8_t byte;      /* ...becomes this one              */
};

static const struct clause clauses[] = {
    { "made is 0", HEAD_MADE, 1, 0 },
    { "a cell's state is 2", CELL(2), 1, 2 },
    { "a cell's state is 255", CELL(0), 1, 255 },
    { "an unbound cell is not zero", CELL(2) + 1, 4, 1 },
    { "an out binding's stored state is 2", NODE(4) + STATE, 1, 2 },
    { "an in binding's stored state is 2", NODE(1) + STATE, 1, 2 },
    { "an unbound stored cell is not zero", NODE(3) + VALUE, 4, 1 },
    { "node 0 is blank", NODE(0), 1, 0 },
    { "node 0 is a binding out", NODE(0), 1, 2 },
    { "node 0 is a binding in", NODE(0), 1, 3 },
    { "node 0 is a wind out", NODE(0), 1, 4 },
    { "node 0 is a wind in", NODE(0), 1, 5 },
    { "node 0 is not zero otherwise", NODE(0) + 1, KN_NODE_BYTES - 1, 1 },
    { "a made wind is blank", NODE(5), 1, 0 },
    { "a made binding is blank", NODE(4), 1, 0 },
    { "a made wind is a top", NODE(5), 1, 1 },
    { "a made binding is a top", NODE(4), 1, 1 },
    { "a made binding has kind 6", NODE(4), 1, 6 },
    { "a made wind has kind 6", NODE(5), 1, 6 },
    { "a node on the path has kind 7", NODE(2), 1, 7 },
    { "a made node has kind 255", NODE(5), 1, 255 },
    { "a parent is the node itself", NODE(5) + PARENT, 1, 5 },
    { "a parent is above its node", NODE(4) + PARENT, 1, 5 },
    { "a parent is not made", NODE(5) + PARENT, 1, 7 },
    { "a parent is out of range by its high byte", NODE(5) + PARENT + 1, 1, 1 },
    { "the focus is its own parent", NODE(3) + PARENT, 1, 3 },
    { "a node on the path is its own parent", NODE(1) + PARENT, 1, 1 },
    { "an out binding's variable is V", NODE(4) + NAME, 1, VARS },
    { "an in binding's variable is V", NODE(3) + NAME, 1, VARS },
    { "a variable is out of range by its high byte", NODE(4) + NAME + 1, 1, 1 },
    { "an out binding has a postlude", NODE(4) + POSTLUDE, 2, 1 },
    { "an in binding has a postlude", NODE(1) + POSTLUDE, 2, 1 },
    { "an out wind has a stored state", NODE(5) + STATE, 1, 1 },
    { "an in wind has a stored state", NODE(2) + STATE, 1, 1 },
    { "an out wind has a stored value", NODE(5) + VALUE, 4, 1 },
    { "an in wind has a stored value", NODE(2) + VALUE, 4, 1 },
    { "a binding off the path is in", NODE(4), 1, 3 },
    { "a wind off the path is in", NODE(5), 1, 5 },
    { "the focus is out", NODE(3), 1, 2 },
    { "a binding on the path is out", NODE(1), 1, 2 },
    { "a wind on the path is out", NODE(2), 1, 4 },
    { "the first blank node is not zero", NODE(6), KN_NODE_BYTES, 1 },
    { "the last blank node is not zero", NODE(7), KN_NODE_BYTES, 2 }
};

static void one_byte(const struct clause *c)
{
    struct model m;
    unsigned i;

    check_name(c->name);
    for (i = 0; i < c->span; i++) {
        base_store(&m, VARS, NODES);
        lend(&m, i % 2);
        store.bytes[c->at + i] = c->byte;
        every_call_refuses();
    }
}

/* ---- Clauses of the header and the length ---- */

static void too_short(void)
{
    struct model m;
    size_t len;

    check_name("the buffer is shorter than the size");
    base_store(&m, VARS, NODES);
    for (len = 0; len < KN_SIZE(VARS, NODES); len++) {
        uint8_t whole[KN_SIZE(VARS, NODES)];
        model_write(&m, whole);
        lent_take(&store, len);
        memcpy(store.bytes, whole, len);
        every_call_refuses();
    }
}

/* A store whose numbers are out of range, else laid out as they say. The
   model's limits hold, so it is written for fewer and then spread. */
static void laid_out(unsigned vars, unsigned nodes)
{
    static struct model m;
    uint8_t within[KN_SIZE(VARS, NODES)];

    base_store(&m, VARS, NODES);
    m.node[3].var = m.node[4].var = 0;
    m.focus = 0;
    model_write(&m, within);
    lent_take(&store, KN_SIZE(vars, nodes));
    memset(store.bytes, 0, store.len);
    memcpy(store.bytes, within, KN_HEADER_BYTES);
    memcpy(store.bytes + KN_SIZE(vars, 0), within + NODE(0),
           (nodes < NODES ? nodes : NODES) * (size_t)KN_NODE_BYTES);
    put16(HEAD_VARS, vars);
    put16(HEAD_NODES, nodes);
}

static void out_of_range(const char *name, unsigned vars, unsigned nodes)
{
    check_name(name);
    laid_out(vars, nodes);
    every_call_refuses();
}

static void no_variables(void)
{
    check_name("V is 0");
    laid_out(0, NODES);
    store.bytes[HEAD_MADE] = 1;
    memset(store.bytes + KN_SIZE(0, 1), 0, (NODES - 1) * KN_NODE_BYTES);
    every_call_refuses();
}

/* All of N made, and a further node past them in the buffer. */
static void made_above_nodes(void)
{
    struct model m;

    check_name("made is above N");
    base_store(&m, VARS, NODES);
    m.node[6] = m.node[7] = m.node[4];
    m.made = NODES;
    lend(&m, KN_NODE_BYTES);
    check(model_sound(store.bytes, store.len), "sound before");
    memcpy(store.bytes + NODE(8), store.bytes + NODE(7), KN_NODE_BYTES);
    store.bytes[HEAD_MADE] = NODES + 1;
    every_call_refuses();
}

/* ---- Focus and modes ---- */

/* The modes are those of one focus, and another is said to be it. */
static void other_focus(const char *name, unsigned focus, unsigned said)
{
    struct model m;

    check_name(name);
    base_store(&m, VARS, NODES);
    m.focus = focus;
    lend(&m, 0);
    put16(HEAD_FOCUS, said);
    every_call_refuses();
}

/* As many are in as the focus is deep, but they are others. */
static void others_are_in(const char *name, unsigned out)
{
    struct model m;

    check_name(name);
    base_store(&m, VARS, NODES);
    lend(&m, 0);
    store.bytes[NODE(out) + KIND] ^= 1;
    store.bytes[NODE(4) + KIND] ^= 1;
    every_call_refuses();
}

/* ---- Depths ---- */

/* Node n takes each false depth in turn: off by one, by its high byte, or an
   end of the range. refuse judges the store. */
static void false_depths(unsigned n, void (*refuse)(void))
{
    unsigned at = NODE(n) + DEPTH, good = get16(at), i;
    unsigned bad[5];

    bad[0] = good - 1;
    bad[1] = good + 1;
    bad[2] = good + 256;
    bad[3] = 0;
    bad[4] = 65535;
    for (i = 0; i < 5; i++)
        if (bad[i] != good) {
            put16(at, bad[i]);
            refuse();
        }
    put16(at, good);
}

static void each_depth(void)
{
    struct model m;
    unsigned n;

    check_name("a depth is not the parent's plus 1, the top's not 0, a blank's not 0");
    base_store(&m, VARS, NODES);
    lend(&m, 0);
    for (n = 0; n < NODES; n++)
        false_depths(n, every_call_refuses);
}

/* The depths from this node on are shifted. */
static void depths_from(const char *name, unsigned first, int by)
{
    struct model m;
    unsigned n;

    check_name(name);
    base_store(&m, VARS, NODES);
    lend(&m, 0);
    for (n = first; n < m.made; n++)
        put16(NODE(n) + DEPTH, get16(NODE(n) + DEPTH) + (unsigned)by);
    every_call_refuses();
}

/* ---- Walks ---- */

enum { NONE = 65535 };

/* The focus, and what the header says of a walk: target and wind. The spare
   bytes are a wind as well, child of the focus, which no walk may take. */
static void lend_walk(unsigned focus, unsigned target, unsigned wind)
{
    struct model m;

    base_store(&m, VARS, NODES);
    m.focus = focus;
    lend(&m, KN_NODE_BYTES);
    memcpy(store.bytes + NODE(NODES), store.bytes + NODE(2), KN_NODE_BYTES);
    put16(NODE(NODES) + PARENT, focus);
    put16(HEAD_TARGET, target);
    put16(HEAD_WIND, wind);
}

struct walk_clause { const char *name; unsigned focus, target, wind; };

/* Wind 2 and binding 4 are 1's children, binding 3 is 2's, wind 5 is 4's. */
static const struct walk_clause bad_walks[] = {
    { "the target is the first blank node", 3, 6, NONE },
    { "the target is the last blank node", 3, 7, NONE },
    { "the target is N", 3, NODES, NONE },
    { "the target is out of range by its high byte", 3, 256 + 2, NONE },
    { "the target is 65,534", 3, NONE - 1, NONE },
    { "a wind and no target", 1, NONE, 2 },
    { "the top as the wind and no target", 1, NONE, 0 },
    { "the wind is the first blank node", 0, 3, 6 },
    { "the wind is N, past the last node", 1, 3, NODES },
    { "the wind is out of range by its high byte", 1, 3, 256 + 2 },
    { "the wind is 65,534", 1, 3, NONE - 1 },
    { "the wind is the top", 0, 3, 0 },
    { "the wind is the top, the focus below it", 1, 3, 0 },
    { "the wind is a binding", 1, 5, 4 },
    { "the wind is a binding and the target", 0, 1, 1 },
    { "the wind is the focus", 2, 3, 2 },
    { "the wind is in, above the focus", 3, 3, 2 },
    { "the wind's parent is not the focus but below it", 1, 5, 5 },
    { "the wind's parent is not the focus but its child", 0, 3, 2 },
    { "the wind's parent is on another branch", 3, 5, 5 },
    { "the wind is not on the target's path: the target is beside it", 1, 4, 2 },
    { "the wind is not on the target's path: nor as deep", 1, 5, 2 },
    { "the wind is not on the target's path: the target is the focus", 1, 1, 2 },
    { "the wind is not on the target's path: the target is above", 1, 0, 2 }
};

static void walk_refused(const struct walk_clause *c)
{
    check_name(c->name);
    lend_walk(c->focus, c->target, c->wind);
    every_call_refuses();
}

/* Each pair of fields at each focus: sound or refused, as the model says. */
static void every_walk(void)
{
    static const unsigned fields[] = {
        0, 1, 2, 3, 4, 5, 6, 7, NODES, 256, 256 + 2, 0x8002, NONE - 1, NONE
    };
    unsigned focus, i, j, sound = 0, count = sizeof fields / sizeof fields[0];

    check_name("each target with each wind at each focus");
    for (focus = 0; focus < 6; focus++)
        for (i = 0; i < count; i++)
            for (j = 0; j < count; j++) {
                lend_walk(focus, fields[i], fields[j]);
                if (model_sound(store.bytes, store.len)) {
                    check_answer(kn_here(store.bytes, store.len),
                                 done((int32_t)focus, 0, 0), "here");
                    sound++;
                } else {
                    every_call_refuses();
                }
            }
    check(sound == 6 * 7 + 3, "as many walks as there are");
}

/* ---- Nodes that are their own parent, and false depths, at every number ---- */

enum { LAST = KN_MAX_NODES - 1 };

/* All environments in one line. */
static void lend_line(struct model *m, unsigned focus)
{
    unsigned n;

    base_store(m, VARS, KN_MAX_NODES);
    m->made = KN_MAX_NODES;
    m->focus = focus;
    for (n = 1; n < KN_MAX_NODES; n++) {
        m->node[n].wind = n % 3 == 0;
        m->node[n].parent = n - 1;
    }
    lend(m, 0);
}

static int here_refuses(void)
{
    return check_answer(kn_here(store.bytes, store.len), refused(KN_DAMAGED), "here");
}

static void chance_call_refuses(void)
{
    struct call c = { .kind = (enum call_kind)chance(CALL_KINDS) };

    refuses(&c, KN_DAMAGED);
}

/* Each depth is the parent's plus 1, each node that is in has a parent that is
   in or the top, and as many are in as the focus says that it is deep; but the
   focus is the top. */
static void the_top_is_deep(void)
{
    static struct model m;
    unsigned deep, n;

    check_name("the top's depth is as many as are in");
    for (deep = 1; deep <= LAST; deep *= 2) {
        lend_line(&m, deep);
        put16(HEAD_FOCUS, 0);
        for (n = 0; n <= LAST; n++)
            put16(NODE(n) + DEPTH, n + deep);
        every_call_refuses();
    }
}

static void every_depth(const char *name, unsigned focus)
{
    static struct model m;
    unsigned n;

    check_name(name);
    lend_line(&m, focus);
    for (n = 0; n <= LAST; n++)
        false_depths(n, chance_call_refuses);
    check(model_sound(store.bytes, store.len), "sound after");
}

/* Asked by here first, which moves nothing and climbs from the focus alone.
   Answers whether all is good, so that nothing runs on and on after it. */
static int own_parents(const char *name, unsigned focus)
{
    static struct model m;
    unsigned n;
    int good = 1;

    check_name(name);
    lend_line(&m, focus);
    check(model_sound(store.bytes, store.len), "sound before");
    for (n = 1; n <= LAST; n++) {
        put16(NODE(n) + PARENT, n);
        good &= here_refuses();
        put16(NODE(n) + PARENT, n - 1);
    }
    for (n = 1; good && n <= LAST; n++) {
        put16(NODE(n) + PARENT, n);
        every_call_refuses();
        put16(NODE(n) + PARENT, n - 1);
    }
    return good;
}

/* The next of the line is handed over, on the way to its end: sound for each
   wind, and for no binding; then the one after, and the target at the focus. */
static void every_wind(void)
{
    static struct model m;
    unsigned n;

    check_name("each wind of a line is handed over, and each binding");
    for (n = 1; n < LAST; n++) {
        lend_line(&m, n - 1);
        put16(HEAD_TARGET, LAST);
        put16(HEAD_WIND, n);
        if (m.node[n].wind)
            check_answer(kn_here(store.bytes, store.len),
                         done((int32_t)n - 1, 0, 0), "here");
        else
            chance_call_refuses();
        put16(HEAD_WIND, n + 1);
        chance_call_refuses();
        put16(HEAD_WIND, n);
        put16(HEAD_TARGET, n - 1);
        chance_call_refuses();
    }
}

static void the_base_is_sound(void)
{
    struct model m;

    check_name("the store that the clauses break is sound");
    base_store(&m, VARS, NODES);
    lend(&m, 0);
    check_answer(kn_here(store.bytes, store.len), done(3, 0, 0), "here");
    laid_out(KN_MAX_VARS, KN_MAX_NODES);
    check_answer(kn_here(store.bytes, store.len), done(0, 0, 0),
                 "here at the limits");
}

void test_clauses(void)
{
    unsigned i;

    lent_take(&trace, 3 * KN_EVENT_BYTES);
    the_base_is_sound();
    for (i = 0; i < sizeof clauses / sizeof clauses[0]; i++)
        one_byte(&clauses[i]);
    too_short();
    no_variables();
    out_of_range("V is 257", KN_MAX_VARS + 1, NODES);
    out_of_range("N is 0", VARS, 0);
    out_of_range("N is 2,049", VARS, KN_MAX_NODES + 1);
    made_above_nodes();
    others_are_in("the focus is out, and a node off the path is in", 3);
    others_are_in("the focus's parent is out, and a node off the path is in", 2);
    others_are_in("the path's first node is out, and a node off the path is in", 1);
    other_focus("the focus is the top, and nodes are in", 3, 0);
    other_focus("the focus is in, and so is a node below it", 3, 2);
    other_focus("the focus is out, as deep as the path that is in", 3, 5);
    each_depth();
    depths_from("all depths are one too large, the top's too", 0, 1);
    depths_from("all depths but the top's are one too large", 1, 1);
    depths_from("all depths but the top's are one too small", 1, -1);
    for (i = 0; i < sizeof bad_walks / sizeof bad_walks[0]; i++)
        walk_refused(&bad_walks[i]);
    every_walk();
    every_wind();
    the_top_is_deep();
    every_depth("each depth off the path is false", 0);
    every_depth("each depth on the path is false", LAST);
    if (own_parents("each node off the path is its own parent", 0))
        own_parents("each node on the path is its own parent", LAST);
    other_focus("the focus is made", 0, 6);
    other_focus("the focus is N", 0, NODES);
    other_focus("the focus is 65,535", 0, 65535);
}
