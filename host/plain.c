/* plain.c: the contract of kestrelnib.h in plain C, the rival in the bench.
   Same layout, the full soundness check on every call, the recursive walk. With
   PLAIN_LOOP a walk by loops, which notes the path that it is to enter; with
   PLAIN_CLIMB a check that climbs from the focus. */
#include "plain.h"

#include <string.h>

enum { BLANK, TOP, BINDING_OUT, BINDING_IN, WIND_OUT, WIND_IN };
enum { NONE = 65535 }; /* in place of a walk's target or wind */

/* ---- Fields ---- */

static unsigned get16(const uint8_t *p)
{
    return p[0] | (unsigned)p[1] << 8;
}

static uint32_t get32(const uint8_t *p)
{
    return p[0] | (uint32_t)p[1] << 8 | (uint32_t)p[2] << 16
           | (uint32_t)p[3] << 24;
}

static void put16(uint8_t *p, unsigned v)
{
    p[0] = (uint8_t)v;
    p[1] = (uint8_t)(v >> 8);
}

static void put32(uint8_t *p, uint32_t v)
{
    put16(p, v & 0xffff);
    put16(p + 2, v >> 16);
}

/* A node: kind, state, parent (2), variable or prelude (2), postlude (2),
   value (4), depth (2). A cell: state, value (4). */
static unsigned parent_of(const uint8_t *node) { return get16(node + 2); }
static unsigned name_of(const uint8_t *node) { return get16(node + 4); }
static unsigned postlude_of(const uint8_t *node) { return get16(node + 6); }
static uint32_t value_of(const uint8_t *node) { return get32(node + 8); }
static unsigned depth_of(const uint8_t *node) { return get16(node + 12); }

static int is_binding(unsigned kind)
{
    return kind == BINDING_OUT || kind == BINDING_IN;
}

static int is_wind(unsigned kind)
{
    return kind == WIND_OUT || kind == WIND_IN;
}

static int is_out(unsigned kind)
{
    return kind == BINDING_OUT || kind == WIND_OUT;
}

static int is_in(unsigned kind)
{
    return kind == BINDING_IN || kind == WIND_IN;
}

/* Where the parts of a store begin, from its header. */
static size_t cell_at(unsigned x)
{
    return KN_HEADER_BYTES + (size_t)x * KN_CELL_BYTES;
}

static size_t nodes_at(const uint8_t *store)
{
    return cell_at(get16(store));
}

static size_t node_at(const uint8_t *store, unsigned n)
{
    return nodes_at(store) + (size_t)n * KN_NODE_BYTES;
}

static unsigned vars_of(const uint8_t *store) { return get16(store); }
static unsigned room_of(const uint8_t *store) { return get16(store + 2); }
static unsigned made_of(const uint8_t *store) { return get16(store + 4); }
static unsigned focus_of(const uint8_t *store) { return get16(store + 6); }
static unsigned target_of(const uint8_t *store) { return get16(store + 8); }
static unsigned wind_of(const uint8_t *store) { return get16(store + 10); }

static int walking(const uint8_t *store)
{
    return target_of(store) != NONE;
}

static unsigned focus_parent(const uint8_t *store)
{
    return parent_of(store + node_at(store, focus_of(store)));
}

/* ---- Answers ---- */

static kn_answer done(uint32_t out, uint32_t moves, uint32_t events)
{
    kn_answer r = {
        (int32_t)out, KN_DONE, (uint16_t)moves, (uint16_t)events, 0, 0, 0
    };
    return r;
}

/* An event handed over at this place. */
static kn_answer hand_over(unsigned place, unsigned moves, unsigned event,
                           unsigned thunk)
{
    kn_answer r = done(place, moves, 1);

    r.thunk = (uint16_t)thunk;
    r.event = (uint16_t)event;
    return r;
}

static kn_answer refuse(uint32_t code)
{
    kn_answer r = { 0, (uint16_t)code, 0, 0, 0, 0, 0 };
    return r;
}

/* What a cell, or a stored cell, has to say, and who decides it. */
static kn_answer cell_answer(unsigned state, uint32_t value, unsigned by)
{
    kn_answer r = { (int32_t)value, KN_DONE, 0, 0, (uint16_t)by, 0, 0 };

    return state == 1 ? r : refuse(KN_UNBOUND);
}

/* ---- Soundness ---- */

static int all_zero(const uint8_t *p, size_t n)
{
    uint64_t word, any = 0;

    for (; n >= sizeof word; p += sizeof word, n -= sizeof word) {
        memcpy(&word, p, sizeof word);
        any |= word;
    }
    while (n-- > 0)
        any |= *p++;
    return any == 0;
}

static int in_range(uint32_t vars, uint32_t nodes)
{
    return vars - 1 < KN_MAX_VARS && nodes - 1 < KN_MAX_NODES;
}

static int proper(unsigned state, uint32_t value)
{
    return state == 1 || (state == 0 && value == 0);
}

static int cells_sound(const uint8_t *cell, unsigned vars)
{
    unsigned x;

    for (x = 0; x < vars; x++, cell += KN_CELL_BYTES)
        if (!proper(cell[0], get32(cell + 1)))
            return 0;
    return 1;
}

#ifdef PLAIN_CLIMB
enum { CLIMB = 1 };
#else
enum { CLIMB = 0 };
#endif

/* A node that is in has a parent that is in or the top. */
static int modes_agree(const uint8_t *node, const uint8_t *parent)
{
    return !is_in(node[0]) || !is_out(parent[0]);
}

static int node_sound(const uint8_t *nodes, const uint8_t *node,
                      unsigned number, unsigned vars)
{
    const uint8_t *parent;

    if (parent_of(node) >= number)
        return 0;
    parent = nodes + (size_t)parent_of(node) * KN_NODE_BYTES;
    if (depth_of(node) != depth_of(parent) + 1
        || !(CLIMB || modes_agree(node, parent)))
        return 0;
    if (is_binding(node[0]))
        return name_of(node) < vars && postlude_of(node) == 0
               && proper(node[1], value_of(node));
    return is_wind(node[0]) && node[1] == 0 && value_of(node) == 0;
}

/* The in nodes are the path from the focus: all of it is in, and it is as
   long as there are in nodes. */
static int path_climbed(const uint8_t *nodes, unsigned focus, unsigned in)
{
    const uint8_t *node;

    for (; focus != 0; focus = parent_of(node), in--) {
        node = nodes + (size_t)focus * KN_NODE_BYTES;
        if (!is_in(node[0]))
            return 0;
    }
    return in == 0;
}

/* The same without the climb: where modes agree all of the path is in if the
   focus is, and it is as long as the focus is deep. */
static int path_counted(const uint8_t *nodes, unsigned focus, unsigned in)
{
    const uint8_t *node = nodes + (size_t)focus * KN_NODE_BYTES;

    return !is_out(node[0]) && depth_of(node) == in;
}

static int nodes_sound(const uint8_t *nodes, unsigned vars, unsigned made,
                       unsigned focus)
{
    const uint8_t *node = nodes;
    unsigned n, in = 0;

    if (node[0] != TOP || !all_zero(node + 1, KN_NODE_BYTES - 1))
        return 0;
    for (n = 1; n < made; n++) {
        node += KN_NODE_BYTES;
        if (!node_sound(nodes, node, n, vars))
            return 0;
        in += is_in(node[0]);
    }
    return CLIMB ? path_climbed(nodes, focus, in)
                 : path_counted(nodes, focus, in);
}

static unsigned depth_at(const uint8_t *nodes, unsigned n)
{
    return depth_of(nodes + (size_t)n * KN_NODE_BYTES);
}

/* Up from n, which is so deep, until it is only so deep. */
static unsigned climb_by_depth(const uint8_t *nodes, unsigned n, unsigned deep,
                               unsigned only)
{
    for (; deep > only; deep--)
        n = parent_of(nodes + (size_t)n * KN_NODE_BYTES);
    return n;
}

/* A wind that was handed over: a child of the focus, on the target's path. */
static int wind_sound(const uint8_t *nodes, unsigned wind, unsigned focus,
                      unsigned target)
{
    const uint8_t *node = nodes + (size_t)wind * KN_NODE_BYTES;

    return is_wind(node[0]) && parent_of(node) == focus
           && climb_by_depth(nodes, target, depth_at(nodes, target),
                             depth_of(node)) == wind;
}

static int walk_sound(const uint8_t *store, unsigned made)
{
    unsigned target = target_of(store), wind = wind_of(store);

    if (target == NONE)
        return wind == NONE;
    if (target >= made)
        return 0;
    return wind == NONE
           || (wind < made && wind_sound(store + nodes_at(store), wind,
                                         focus_of(store), target));
}

static int sound(const uint8_t *store, size_t len)
{
    unsigned vars, room, made, focus;
    const uint8_t *nodes;

    if (len < KN_HEADER_BYTES)
        return 0;
    vars = vars_of(store);
    room = room_of(store);
    made = made_of(store);
    focus = focus_of(store);
    if (!in_range(vars, room) || len < KN_SIZE(vars, room))
        return 0;
    if (made < 1 || made > room || focus >= made)
        return 0;
    nodes = store + nodes_at(store);
    return cells_sound(store + KN_HEADER_BYTES, vars)
           && nodes_sound(nodes, vars, made, focus)
           && all_zero(nodes + (size_t)made * KN_NODE_BYTES,
                       (size_t)(room - made) * KN_NODE_BYTES)
           && walk_sound(store, made);
}

/* ---- Moves ---- */

struct walk {
    uint8_t *store, *nodes;
    uint8_t *event; /* where the next event goes */
};

static void tell(struct walk *w, unsigned what, unsigned thunk, unsigned place)
{
    w->event[0] = (uint8_t)what;
    put16(w->event + 1, thunk);
    put16(w->event + 3, place);
    w->event += KN_EVENT_BYTES;
}

static void exchange(uint8_t *store, uint8_t *node)
{
    uint8_t *cell = store + cell_at(name_of(node));
    uint8_t state = cell[0];
    uint32_t value = get32(cell + 1);

    cell[0] = node[1];
    put32(cell + 1, value_of(node));
    node[1] = state;
    put32(node + 8, value);
}

static void leave(struct walk *w)
{
    unsigned focus = focus_of(w->store);
    uint8_t *node = w->nodes + (size_t)focus * KN_NODE_BYTES;

    if (node[0] == BINDING_IN) {
        exchange(w->store, node);
        node[0] = BINDING_OUT;
    } else {
        tell(w, KN_LEAVING, postlude_of(node), parent_of(node));
        node[0] = WIND_OUT;
    }
    put16(w->store + 6, parent_of(node));
}

static void enter(struct walk *w, unsigned n)
{
    uint8_t *node = w->nodes + (size_t)n * KN_NODE_BYTES;

    if (node[0] == BINDING_OUT) {
        exchange(w->store, node);
        node[0] = BINDING_IN;
    } else {
        tell(w, KN_ENTERING, name_of(node), parent_of(node));
        node[0] = WIND_IN;
    }
    put16(w->store + 6, n);
}

#ifdef PLAIN_LOOP

static void walk(struct walk *w, unsigned target)
{
    const uint8_t *node = w->nodes + (size_t)target * KN_NODE_BYTES;
    uint16_t path[KN_MAX_NODES];
    unsigned entered = 0;

    while (is_out(node[0])) {
        path[entered++] = (uint16_t)target;
        target = parent_of(node);
        node = w->nodes + (size_t)target * KN_NODE_BYTES;
    }
    while (focus_of(w->store) != target)
        leave(w);
    while (entered > 0)
        enter(w, path[--entered]);
}

#else

static void walk(struct walk *w, unsigned target)
{
    const uint8_t *node = w->nodes + (size_t)target * KN_NODE_BYTES;

    if (target == focus_of(w->store))
        return;
    if (is_out(node[0])) {
        walk(w, parent_of(node));
        enter(w, target);
    } else {
        leave(w);
        walk(w, target);
    }
}

#endif

/* What a way up costs: its moves, and its events; and the last wind on it. */
struct way { unsigned moves, events, wind; };

static unsigned step_up(const uint8_t *nodes, unsigned n, struct way *way)
{
    const uint8_t *node = nodes + (size_t)n * KN_NODE_BYTES;

    way->moves++;
    if (is_wind(node[0])) {
        way->events++;
        way->wind = n;
    }
    return parent_of(node);
}

/* Up from n to the first node that is in, which is answered; the top counts
   as in. */
static unsigned climb_out(const uint8_t *nodes, unsigned n, struct way *way)
{
    const uint8_t *node = nodes + (size_t)n * KN_NODE_BYTES;

    while (is_out(node[0])) {
        n = step_up(nodes, n, way);
        node = nodes + (size_t)n * KN_NODE_BYTES;
    }
    return n;
}

/* Up from n to a node above it. */
static void climb_to(const uint8_t *nodes, unsigned n, unsigned above,
                     struct way *way)
{
    while (n != above)
        n = step_up(nodes, n, way);
}

static kn_answer switch_to(uint8_t *store, uint8_t *trace, size_t trace_len,
                           unsigned target)
{
    struct walk w = { store, store + nodes_at(store), trace };
    struct way way = { 0, 0, NONE };
    unsigned meet = climb_out(w.nodes, target, &way);

    climb_to(w.nodes, focus_of(store), meet, &way);
    if (way.events > trace_len / KN_EVENT_BYTES)
        return refuse(KN_TRACE_ROOM);
    walk(&w, target);
    return done(target, way.moves, way.events);
}

/* ---- The calls ---- */

kn_answer pl_open(uint32_t vars, uint32_t nodes,
                  const uint8_t *tops, size_t tops_len,
                  uint8_t *store, size_t store_len)
{
    if (!in_range(vars, nodes) || tops_len != (size_t)vars * KN_CELL_BYTES
        || !cells_sound(tops, vars) || store_len < KN_SIZE(vars, nodes))
        return refuse(KN_SETUP);
    put16(store, vars);
    put16(store + 2, nodes);
    put16(store + 4, 1);
    put16(store + 6, 0);
    put16(store + 8, NONE);
    put16(store + 10, NONE);
    memcpy(store + KN_HEADER_BYTES, tops, tops_len);
    memset(store + nodes_at(store), 0, (size_t)nodes * KN_NODE_BYTES);
    store[nodes_at(store)] = TOP;
    return done(0, 0, 0);
}

/* The next node, made a child of the focus, and the new focus. */
static uint8_t *make(uint8_t *store, unsigned kind)
{
    unsigned n = made_of(store);
    uint8_t *node = store + node_at(store, n);

    node[0] = (uint8_t)kind;
    put16(node + 2, focus_of(store));
    put16(node + 12, depth_of(store + node_at(store, focus_of(store))) + 1);
    put16(store + 4, n + 1);
    put16(store + 6, n);
    return node;
}

kn_answer pl_bind(uint8_t *store, size_t store_len, uint32_t x, int32_t v)
{
    uint8_t *node;

    if (!sound(store, store_len))
        return refuse(KN_DAMAGED);
    if (walking(store))
        return refuse(KN_WALKING);
    if (x >= vars_of(store))
        return refuse(KN_NO_VARIABLE);
    if (made_of(store) == room_of(store))
        return refuse(KN_FULL);
    node = make(store, BINDING_IN);
    put16(node + 4, x);
    node[1] = 1;
    put32(node + 8, (uint32_t)v);
    exchange(store, node);
    return done(focus_of(store), 0, 0);
}

kn_answer pl_wind(uint8_t *store, size_t store_len,
                  uint8_t *trace, size_t trace_len, uint16_t p, uint16_t q)
{
    struct walk w = { store, NULL, trace };
    uint8_t *node;

    if (!sound(store, store_len))
        return refuse(KN_DAMAGED);
    if (walking(store))
        return refuse(KN_WALKING);
    if (made_of(store) == room_of(store))
        return refuse(KN_FULL);
    if (trace_len < KN_EVENT_BYTES)
        return refuse(KN_TRACE_ROOM);
    node = make(store, WIND_IN);
    put16(node + 4, p);
    put16(node + 6, q);
    tell(&w, KN_ENTERING, p, parent_of(node));
    return done(focus_of(store), 0, 1);
}

static int binds(const uint8_t *node, unsigned x)
{
    return is_binding(node[0]) && name_of(node) == x;
}

/* The nearest binding of x from n up, n itself first; else 0, the top. */
static unsigned decider(const uint8_t *nodes, unsigned n, unsigned x)
{
    const uint8_t *node = nodes + (size_t)n * KN_NODE_BYTES;

    while (n != 0 && !binds(node, x)) {
        n = parent_of(node);
        node = nodes + (size_t)n * KN_NODE_BYTES;
    }
    return n;
}

kn_answer pl_look(const uint8_t *store, size_t store_len, uint32_t x)
{
    const uint8_t *cell;

    if (!sound(store, store_len))
        return refuse(KN_DAMAGED);
    if (x >= vars_of(store))
        return refuse(KN_NO_VARIABLE);
    cell = store + cell_at(x);
    return cell_answer(cell[0], get32(cell + 1),
                       decider(store + nodes_at(store), focus_of(store), x));
}

kn_answer pl_set(uint8_t *store, size_t store_len, uint32_t x, int32_t v)
{
    uint8_t *cell;

    if (!sound(store, store_len))
        return refuse(KN_DAMAGED);
    if (x >= vars_of(store))
        return refuse(KN_NO_VARIABLE);
    cell = store + cell_at(x);
    if (cell[0] != 1)
        return refuse(KN_UNBOUND);
    put32(cell + 1, (uint32_t)v);
    return done(focus_of(store), 0, 0);
}

kn_answer pl_here(const uint8_t *store, size_t store_len)
{
    if (!sound(store, store_len))
        return refuse(KN_DAMAGED);
    return done(focus_of(store), 0, 0);
}

/* Up from a and b, both so deep, until they meet; how deep that is. */
static unsigned meeting_depth(const uint8_t *nodes, unsigned a, unsigned b,
                              unsigned deep)
{
    for (; a != b; deep--) {
        a = parent_of(nodes + (size_t)a * KN_NODE_BYTES);
        b = parent_of(nodes + (size_t)b * KN_NODE_BYTES);
    }
    return deep;
}

/* With one of the two the top, there is nothing to climb for. */
static unsigned apart(const uint8_t *nodes, unsigned a, unsigned b)
{
    unsigned deep_a = depth_at(nodes, a), deep_b = depth_at(nodes, b);
    unsigned level = deep_a < deep_b ? deep_a : deep_b;

    if (level == 0)
        return deep_a + deep_b;
    a = climb_by_depth(nodes, a, deep_a, level);
    b = climb_by_depth(nodes, b, deep_b, level);
    return deep_a + deep_b - 2 * meeting_depth(nodes, a, b, level);
}

kn_answer pl_far(const uint8_t *store, size_t store_len,
                 uint32_t a, uint32_t b)
{
    if (!sound(store, store_len))
        return refuse(KN_DAMAGED);
    if (a >= made_of(store) || b >= made_of(store))
        return refuse(KN_NO_ENVIRONMENT);
    return done(apart(store + nodes_at(store), a, b), 0, 0);
}

kn_answer pl_goto(uint8_t *store, size_t store_len,
                  uint8_t *trace, size_t trace_len, uint32_t a)
{
    if (!sound(store, store_len))
        return refuse(KN_DAMAGED);
    if (walking(store))
        return refuse(KN_WALKING);
    if (a >= made_of(store))
        return refuse(KN_NO_ENVIRONMENT);
    return switch_to(store, trace, trace_len, a);
}

kn_answer pl_back(uint8_t *store, size_t store_len,
                  uint8_t *trace, size_t trace_len)
{
    if (!sound(store, store_len))
        return refuse(KN_DAMAGED);
    if (walking(store))
        return refuse(KN_WALKING);
    if (focus_of(store) == 0)
        return refuse(KN_TOP);
    return switch_to(store, trace, trace_len, focus_parent(store));
}

/* The event that a walk comes to next: the wind, how it is met, where the
   focus is then and the moves up to there. Without one wind is NONE, and the
   place is the target. */
struct stop { unsigned wind, event, place, moves; };

/* Up from n to a node above it, or to the first wind before. */
static unsigned climb_to_wind(const uint8_t *nodes, unsigned n, unsigned above)
{
    const uint8_t *node = nodes + (size_t)n * KN_NODE_BYTES;

    while (n != above && !is_wind(node[0])) {
        n = parent_of(node);
        node = nodes + (size_t)n * KN_NODE_BYTES;
    }
    return n;
}

static struct stop next_stop(const uint8_t *nodes, unsigned focus,
                             unsigned target)
{
    struct way out = { 0, 0, NONE };
    unsigned meet = climb_out(nodes, target, &out);
    unsigned left = climb_to_wind(nodes, focus, meet);
    struct stop s = { out.wind, KN_ENTERING, target, 0 };

    if (left != meet) {
        s.wind = left;
        s.event = KN_LEAVING;
        meet = parent_of(nodes + (size_t)left * KN_NODE_BYTES);
    }
    if (s.wind != NONE)
        s.place = parent_of(nodes + (size_t)s.wind * KN_NODE_BYTES);
    s.moves = depth_at(nodes, focus) + depth_at(nodes, s.place)
              - 2 * depth_at(nodes, meet);
    return s;
}

kn_answer pl_begin(uint8_t *store, size_t store_len, uint32_t a)
{
    if (!sound(store, store_len))
        return refuse(KN_DAMAGED);
    if (walking(store))
        return refuse(KN_WALKING);
    if (a >= made_of(store))
        return refuse(KN_NO_ENVIRONMENT);
    put16(store + 8, a);
    return done(focus_of(store), 0, 0);
}

/* Enters the wind that was handed over, if there is one; the moves. */
static unsigned enter_handed_over(struct walk *w)
{
    unsigned wind = wind_of(w->store);

    if (wind == NONE)
        return 0;
    enter(w, wind);
    put16(w->store + 10, NONE);
    return 1;
}

/* The walk's own events, one a step at most, are told to nobody. */
kn_answer pl_step(uint8_t *store, size_t store_len)
{
    uint8_t untold[KN_EVENT_BYTES];
    struct walk w = { store, NULL, untold };
    const uint8_t *wind;
    unsigned entered;
    struct stop s;

    if (!sound(store, store_len))
        return refuse(KN_DAMAGED);
    if (!walking(store))
        return refuse(KN_NOT_WALKING);
    w.nodes = store + nodes_at(store);
    entered = enter_handed_over(&w);
    s = next_stop(w.nodes, focus_of(store), target_of(store));
    walk(&w, s.place);
    if (s.wind == NONE) {
        put16(store + 8, NONE);
        return done(s.place, entered + s.moves, 0);
    }
    wind = w.nodes + (size_t)s.wind * KN_NODE_BYTES;
    if (s.event == KN_LEAVING)
        return hand_over(s.place, s.moves, KN_LEAVING, postlude_of(wind));
    put16(store + 10, s.wind);
    return hand_over(s.place, entered + s.moves, KN_ENTERING, name_of(wind));
}

kn_answer pl_drop(uint8_t *store, size_t store_len)
{
    if (!sound(store, store_len))
        return refuse(KN_DAMAGED);
    if (!walking(store))
        return refuse(KN_NOT_WALKING);
    put16(store + 8, NONE);
    put16(store + 10, NONE);
    return done(focus_of(store), 0, 0);
}

/* The value of a decider that is in, or of the top: what the last binding of
   x on the way from the focus to it stores; else the cell. */
static kn_answer peek_in(const uint8_t *store, unsigned by, unsigned x)
{
    const uint8_t *nodes = store + nodes_at(store), *node, *last = NULL;
    const uint8_t *cell = store + cell_at(x);
    unsigned n;

    for (n = focus_of(store); n != by; n = parent_of(node)) {
        node = nodes + (size_t)n * KN_NODE_BYTES;
        if (binds(node, x))
            last = node;
    }
    return last != NULL ? cell_answer(last[1], value_of(last), by)
                        : cell_answer(cell[0], get32(cell + 1), by);
}

/* The value that this decider of x has: out, it stores its own. */
static kn_answer own_value(const uint8_t *store, unsigned by, unsigned x)
{
    const uint8_t *node = store + node_at(store, by);

    if (is_out(node[0]))
        return cell_answer(node[1], value_of(node), by);
    return peek_in(store, by, x);
}

kn_answer pl_peek(const uint8_t *store, size_t store_len,
                  uint32_t a, uint32_t x)
{
    if (!sound(store, store_len))
        return refuse(KN_DAMAGED);
    if (x >= vars_of(store))
        return refuse(KN_NO_VARIABLE);
    if (a >= made_of(store))
        return refuse(KN_NO_ENVIRONMENT);
    return own_value(store, decider(store + nodes_at(store), a, x), x);
}

static kn_env untold(unsigned code)
{
    kn_env e = { 0, (uint16_t)code, 0, 0, 0, 0, 0 };
    return e;
}

static unsigned env_kind(unsigned kind)
{
    if (is_binding(kind))
        return KN_ENV_BINDING;
    return is_wind(kind) ? KN_ENV_WIND : KN_ENV_TOP;
}

/* A binding has no postlude and the top no field but its kind: these are 0. */
kn_env pl_tell(const uint8_t *store, size_t store_len, uint32_t a)
{
    const uint8_t *node;
    kn_env e = untold(KN_DONE);
    kn_answer own;

    if (!sound(store, store_len))
        return untold(KN_DAMAGED);
    if (a >= made_of(store))
        return untold(KN_NO_ENVIRONMENT);
    node = store + node_at(store, a);
    e.kind = (uint16_t)env_kind(node[0]);
    e.parent = (uint16_t)parent_of(node);
    e.first = (uint16_t)name_of(node);
    e.second = (uint16_t)postlude_of(node);
    if (!is_binding(node[0]))
        return e;
    own = own_value(store, a, name_of(node));
    e.value = own.out;
    e.state = own.code == KN_DONE;
    return e;
}

uint32_t pl_limit(uint32_t which)
{
    static const uint32_t limits[] = {
        KN_MAX_VARS,   KN_MAX_NODES,  KN_HEADER_BYTES,
        KN_CELL_BYTES, KN_NODE_BYTES, KN_EVENT_BYTES
    };

    return which < sizeof limits / sizeof limits[0] ? limits[which] : 0;
}
