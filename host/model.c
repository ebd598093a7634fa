/* model.c: what a store means. See model.h. */
#include "model.h"

#include <string.h>

/* ---- Numbers in bytes, little endian ---- */

static uint32_t number(const uint8_t *bytes, size_t at, unsigned width)
{
    uint32_t n = 0;

    while (width-- > 0)
        n = n * 256 + bytes[at + width];
    return n;
}

static void spell(uint8_t *bytes, size_t at, unsigned width, uint32_t n)
{
    unsigned i;

    for (i = 0; i < width; i++, n /= 256)
        bytes[at + i] = (uint8_t)(n % 256);
}

static int32_t signed_of(uint32_t n)
{
    return n < 0x80000000u ? (int32_t)n : (int32_t)(n - 0x80000000u) + INT32_MIN;
}

/* ---- Figure 2 ---- */

static int binds(const struct model *m, unsigned n, unsigned x)
{
    return n != 0 && !m->node[n].wind && m->node[n].var == x;
}

unsigned model_decider(const struct model *m, unsigned a, unsigned x)
{
    while (a != 0 && !binds(m, a, x))
        a = m->node[a].parent;
    return a;
}

struct model_value model_value_at(const struct model *m, unsigned a, unsigned x)
{
    unsigned by = model_decider(m, a, x);

    return by == 0 ? m->top[x] : m->node[by].own;
}

/* The nodes on the path from a to the top, the top left out. */
struct path { uint8_t has[KN_MAX_NODES]; };

static void path_from(const struct model *m, unsigned a, struct path *p)
{
    memset(p->has, 0, m->made);
    for (; a != 0; a = m->node[a].parent)
        p->has[a] = 1;
}

/* ---- Soundness, clause by clause ---- */

static size_t size_of(uint32_t vars, uint32_t nodes)
{
    return 12 + 5 * (size_t)vars + 14 * (size_t)nodes;
}

static size_t place_of_node(const uint8_t *b, unsigned n)
{
    return size_of(number(b, 0, 2), n);
}

static int zero(const uint8_t *b, size_t from, size_t to)
{
    for (; from < to; from++)
        if (b[from] != 0)
            return 0;
    return 1;
}

static int header_good(const uint8_t *b, size_t len)
{
    uint32_t vars, nodes, made, focus;

    if (len < 12)
        return 0;
    vars = number(b, 0, 2);
    nodes = number(b, 2, 2);
    made = number(b, 4, 2);
    focus = number(b, 6, 2);
    return 1 <= vars && vars <= 256 && 1 <= nodes && nodes <= 2048
           && size_of(vars, nodes) <= len
           && 1 <= made && made <= nodes && focus < made;
}

static int cells_good(const uint8_t *cells, unsigned vars)
{
    unsigned x;

    for (x = 0; x < vars; x++) {
        const uint8_t *c = cells + 5 * (size_t)x;
        if (c[0] > 1 || (c[0] == 0 && !zero(c, 1, 5)))
            return 0;
    }
    return 1;
}

static int binding_good(const uint8_t *node, unsigned vars)
{
    return number(node, 4, 2) < vars && zero(node, 6, 8) && node[1] <= 1
           && (node[1] == 1 || zero(node, 8, 12));
}

static int wind_good(const uint8_t *node)
{
    return node[1] == 0 && zero(node, 8, 12);
}

static unsigned parent_in(const uint8_t *b, unsigned n)
{
    return number(b, place_of_node(b, n) + 2, 2);
}

static unsigned depth_in(const uint8_t *b, unsigned n)
{
    return number(b, place_of_node(b, n) + 12, 2);
}

/* The parent is below n, and n one deeper. */
static int parent_good(const uint8_t *b, unsigned n)
{
    unsigned parent = parent_in(b, n);

    return parent < n && depth_in(b, n) == depth_in(b, parent) + 1;
}

static int made_node_good(const uint8_t *node, unsigned vars)
{
    switch (node[0]) {
    case 2: case 3: return binding_good(node, vars);
    case 4: case 5: return wind_good(node);
    default: return 0;
    }
}

static int nodes_good(const uint8_t *b)
{
    unsigned n, made = number(b, 4, 2), nodes = number(b, 2, 2);
    size_t top = place_of_node(b, 0);

    if (b[top] != 1 || !zero(b, top + 1, top + 14))
        return 0;
    for (n = 1; n < made; n++)
        if (!parent_good(b, n)
            || !made_node_good(b + place_of_node(b, n), number(b, 0, 2)))
            return 0;
    return zero(b, place_of_node(b, made), place_of_node(b, nodes));
}

/* The in kinds are exactly the nodes on the path from the focus. */
static int modes_good(const uint8_t *b)
{
    uint8_t on_path[KN_MAX_NODES] = { 0 };
    unsigned n, made = number(b, 4, 2);

    for (n = number(b, 6, 2); n != 0; n = parent_in(b, n))
        on_path[n] = 1;
    for (n = 1; n < made; n++)
        if (b[place_of_node(b, n)] % 2 != on_path[n])
            return 0;
    return 1;
}

/* The child of the focus on the target's path; 0 if there is none. */
static unsigned next_in(const uint8_t *b, unsigned focus, unsigned target)
{
    while (target != 0 && parent_in(b, target) != focus)
        target = parent_in(b, target);
    return target;
}

/* No walk; or one to a target that is made, with no wind handed over, or with
   the next node to be entered, a wind. */
static int walk_good(const uint8_t *b)
{
    unsigned target = number(b, 8, 2), wind = number(b, 10, 2);

    if (target == 65535 || wind == 65535)
        return wind == 65535 && (target == 65535 || target < number(b, 4, 2));
    return target < number(b, 4, 2) && wind != 0
           && wind == next_in(b, number(b, 6, 2), target)
           && b[place_of_node(b, wind)] == 4;
}

int model_sound(const uint8_t *bytes, size_t len)
{
    return header_good(bytes, len)
           && cells_good(bytes + 12, number(bytes, 0, 2))
           && nodes_good(bytes) && modes_good(bytes) && walk_good(bytes);
}

/* ---- From bytes to meaning ---- */

static struct model_value value_in(const uint8_t *state, const uint8_t *value)
{
    struct model_value v = { *state, signed_of(number(value, 0, 4)) };
    return v;
}

static struct model_value cell_in(const uint8_t *b, unsigned x)
{
    const uint8_t *cell = b + 12 + 5 * (size_t)x;
    return value_in(cell, cell + 1);
}

static struct model_value stored_in(const uint8_t *b, unsigned n)
{
    const uint8_t *node = b + place_of_node(b, n);
    return value_in(node + 1, node + 8);
}

/* The value of x at n, a node on the focus's path: the lowest binding of x
   that stands between stores the value at its parent, which is n's; where
   none stands between, the focus has the same value, and the cell holds it. */
static struct model_value value_on_path(const struct model *m, const uint8_t *b,
                                        unsigned n, unsigned x)
{
    unsigned between = 0, k;

    for (k = m->focus; k != n; k = m->node[k].parent)
        if (binds(m, k, x))
            between = k;
    return between == 0 ? cell_in(b, x) : stored_in(b, between);
}

static void read_node(struct model *m, const uint8_t *b, unsigned n)
{
    const uint8_t *from = b + place_of_node(b, n);
    struct model_node *to = &m->node[n];

    memset(to, 0, sizeof *to);
    to->wind = from[0] >= 4;
    to->parent = number(from, 2, 2);
    if (to->wind) {
        to->prelude = number(from, 4, 2);
        to->postlude = number(from, 6, 2);
    } else {
        to->var = number(from, 4, 2);
    }
}

static void read_walk(struct model *m, const uint8_t *b)
{
    unsigned target = number(b, 8, 2), wind = number(b, 10, 2);

    m->walking = target != 65535;
    m->target = m->walking ? target : 0;
    m->wind = wind != 65535 ? wind : 0;
}

void model_read(struct model *m, const uint8_t *bytes)
{
    struct path in;
    unsigned n, x;

    m->vars = number(bytes, 0, 2);
    m->nodes = number(bytes, 2, 2);
    m->made = number(bytes, 4, 2);
    m->focus = number(bytes, 6, 2);
    read_walk(m, bytes);
    for (n = 1; n < m->made; n++)
        read_node(m, bytes, n);
    path_from(m, m->focus, &in);
    for (x = 0; x < m->vars; x++)
        m->top[x] = value_on_path(m, bytes, 0, x);
    for (n = 1; n < m->made; n++)
        if (!m->node[n].wind)
            m->node[n].own = in.has[n]
                ? value_on_path(m, bytes, n, m->node[n].var)
                : stored_in(bytes, n);
}

/* ---- From meaning to bytes ---- */

static void write_value(uint8_t *state, uint8_t *value, struct model_value v)
{
    *state = (uint8_t)(v.bound ? 1 : 0);
    spell(value, 0, 4, v.bound ? (uint32_t)v.value : 0);
}

static void write_node(const struct model *m, uint8_t *to, unsigned n, int in)
{
    const struct model_node *from = &m->node[n];

    to[0] = (uint8_t)((from->wind ? 4 : 2) + in);
    spell(to, 2, 2, from->parent);
    if (from->wind) {
        spell(to, 4, 2, from->prelude);
        spell(to, 6, 2, from->postlude);
        return;
    }
    spell(to, 4, 2, from->var);
    write_value(to + 1, to + 8,
                in ? model_value_at(m, from->parent, from->var) : from->own);
}

/* One more than the parent's, which is written before it. */
static void write_depth(const struct model *m, uint8_t *bytes, unsigned n)
{
    spell(bytes, place_of_node(bytes, n) + 12, 2,
          depth_in(bytes, m->node[n].parent) + 1);
}

void model_write(const struct model *m, uint8_t *bytes)
{
    struct path in;
    unsigned n, x;

    spell(bytes, 0, 2, m->vars);
    spell(bytes, 2, 2, m->nodes);
    spell(bytes, 4, 2, m->made);
    spell(bytes, 6, 2, m->focus);
    spell(bytes, 8, 2, m->walking ? m->target : 65535);
    spell(bytes, 10, 2, m->wind != 0 ? m->wind : 65535);
    for (x = 0; x < m->vars; x++) {
        uint8_t *cell = bytes + 12 + 5 * (size_t)x;
        write_value(cell, cell + 1, model_value_at(m, m->focus, x));
    }
    memset(bytes + place_of_node(bytes, 0), 0, 14 * (size_t)m->nodes);
    bytes[place_of_node(bytes, 0)] = 1;
    path_from(m, m->focus, &in);
    for (n = 1; n < m->made; n++) {
        write_node(m, bytes + place_of_node(bytes, n), n, in.has[n]);
        write_depth(m, bytes, n);
    }
}

/* ---- The nodes on one path and not on the other ---- */

static unsigned how_far(const struct model *m, unsigned a, unsigned b)
{
    struct path from_a, from_b;
    unsigned n, count = 0;

    path_from(m, a, &from_a);
    path_from(m, b, &from_b);
    for (n = 1; n < m->made; n++)
        count += from_a.has[n] != from_b.has[n];
    return count;
}

/* ---- A switch leaves and enters them ---- */

/* Where a wind's thunks are to run: both where the wind was made. */
static unsigned place_of_thunks(const struct model *m, unsigned wind)
{
    return m->node[wind].parent;
}

static void note(struct model_events *e, int entering, unsigned thunk,
                 unsigned place)
{
    struct model_event event = { entering, thunk, place };
    e->event[e->count++] = event;
}

/* Moves in their order: each leaves a node or enters it. */
struct model_move { int entering; unsigned node; };
struct moves { unsigned count; struct model_move move[KN_MAX_NODES]; };

static void add_move(struct moves *w, int entering, unsigned node)
{
    struct model_move move = { entering, node };
    w->move[w->count++] = move;
}

/* The moves from one environment to another: leaving, inner first, then
   entering, outer first. */
static void moves_between(const struct model *m, unsigned from, unsigned to,
                          struct moves *w)
{
    unsigned entered[KN_MAX_NODES], entering = 0, n;
    struct path left, reached;

    w->count = 0;
    path_from(m, from, &left);
    path_from(m, to, &reached);
    for (n = from; n != 0 && !reached.has[n]; n = m->node[n].parent)
        add_move(w, 0, n);
    for (n = to; n != 0 && !left.has[n]; n = m->node[n].parent)
        entered[entering++] = n;
    while (entering-- > 0)
        add_move(w, 1, entered[entering]);
}

static unsigned thunk_of(const struct model *m, struct model_move move)
{
    const struct model_node *node = &m->node[move.node];

    return move.entering ? node->prelude : node->postlude;
}

/* The number of moves from one environment to another, their events in e. */
static unsigned route(const struct model *m, unsigned from, unsigned to,
                      struct model_events *e)
{
    struct moves w;
    unsigned i;

    moves_between(m, from, to, &w);
    for (i = 0; i < w.count; i++)
        if (m->node[w.move[i].node].wind)
            note(e, w.move[i].entering, thunk_of(m, w.move[i]),
                 place_of_thunks(m, w.move[i].node));
    return w.count;
}

/* ---- The calls ---- */

static kn_answer answer(uint32_t code, int32_t out, unsigned moves,
                        unsigned events)
{
    kn_answer r = {
        out, (uint16_t)code, (uint16_t)moves, (uint16_t)events, 0, 0, 0
    };
    return r;
}

static kn_answer value_answer(const struct model *m, unsigned a, unsigned x)
{
    kn_answer r = answer(KN_DONE, model_value_at(m, a, x).value, 0, 0);

    r.by = (uint16_t)model_decider(m, a, x);
    return r;
}

static int takes_variable(enum call_kind k)
{
    return k == BIND || k == LOOK || k == SET || k == PEEK;
}

static int takes_environment(enum call_kind k)
{
    return k == GOTO || k == PEEK || k == FAR || k == BEGIN;
}

static int takes_two(enum call_kind k) { return k == FAR; }
static int wants_value(enum call_kind k) { return k == LOOK || k == SET || k == PEEK; }
static int makes(enum call_kind k) { return k == BIND || k == WIND; }
static int wants_walk(enum call_kind k) { return k == STEP || k == DROP; }

static int wants_no_walk(enum call_kind k)
{
    return makes(k) || k == GOTO || k == BACK || k == BEGIN;
}

/* The first number that applies to a call that would write these events: the
   walk's two, then the lowest. */
static uint32_t refusal(const struct model *m, const struct call *c,
                        unsigned events, size_t trace_len)
{
    if (m->walking && wants_no_walk(c->kind))
        return KN_WALKING;
    if (!m->walking && wants_walk(c->kind))
        return KN_NOT_WALKING;
    if (takes_variable(c->kind) && c->x >= m->vars)
        return KN_NO_VARIABLE;
    if (takes_environment(c->kind) && c->a >= m->made)
        return KN_NO_ENVIRONMENT;
    if (takes_two(c->kind) && c->b >= m->made)
        return KN_NO_ENVIRONMENT;
    if (wants_value(c->kind)
        && !model_value_at(m, c->kind == PEEK ? c->a : m->focus, c->x).bound)
        return KN_UNBOUND;
    if (makes(c->kind) && m->made == m->nodes)
        return KN_FULL;
    if (events > trace_len / 5)
        return KN_TRACE_ROOM;
    if (c->kind == BACK && m->focus == 0)
        return KN_TOP;
    return KN_DONE;
}

/* Where goto and back go; other calls stay. */
static unsigned target(const struct model *m, const struct call *c)
{
    if (c->kind == GOTO && c->a < m->made)
        return c->a;
    if (c->kind == BACK && m->focus != 0)
        return m->node[m->focus].parent;
    return m->focus;
}

static void make_node(struct model *m, const struct call *c)
{
    struct model_node *node = &m->node[m->made];

    memset(node, 0, sizeof *node);
    node->parent = m->focus;
    node->wind = c->kind == WIND;
    if (node->wind) {
        node->prelude = c->p;
        node->postlude = c->q;
    } else {
        node->var = c->x;
        node->own.bound = 1;
        node->own.value = c->v;
    }
    m->focus = m->made++;
}

static void set_value(struct model *m, unsigned x, int32_t v)
{
    unsigned by = model_decider(m, m->focus, x);
    struct model_value *decides = by == 0 ? &m->top[x] : &m->node[by].own;

    decides->value = v;
}

static void begin_walk(struct model *m, unsigned a)
{
    m->walking = 1;
    m->target = a;
}

static void end_walk(struct model *m)
{
    m->walking = 0;
    m->target = m->wind = 0;
}

static kn_answer hand_over(const struct model *m, unsigned moves,
                           struct model_move move)
{
    kn_answer r = answer(KN_DONE, (int32_t)m->focus, moves, 1);

    r.thunk = (uint16_t)thunk_of(m, move);
    r.event = move.entering ? KN_ENTERING : KN_LEAVING;
    return r;
}

/* Along the way to the target up to the first wind: once it is left, or before
   it is entered, unless that was handed over already. */
static kn_answer step(struct model *m)
{
    unsigned i, told = m->wind;
    struct moves w;

    moves_between(m, m->focus, m->target, &w);
    m->wind = 0;
    for (i = 0; i < w.count; i++) {
        struct model_move move = w.move[i];
        const struct model_node *node = &m->node[move.node];
        if (move.entering && node->wind && move.node != told) {
            m->wind = move.node;
            return hand_over(m, i, move);
        }
        m->focus = move.entering ? move.node : node->parent;
        if (!move.entering && node->wind)
            return hand_over(m, i + 1, move);
    }
    end_walk(m);
    return answer(KN_DONE, (int32_t)m->focus, w.count, 0);
}

kn_answer model_call(struct model *m, const struct call *c, size_t trace_len,
                     struct model_events *events)
{
    unsigned to = target(m, c), moves;
    uint32_t code;

    events->count = 0;
    moves = route(m, m->focus, to, events);
    if (c->kind == WIND)
        note(events, 1, c->p, m->focus);
    code = refusal(m, c, events->count, trace_len);
    if (code != KN_DONE) {
        events->count = 0;
        return answer(code, 0, 0, 0);
    }
    switch (c->kind) {
    case LOOK: return value_answer(m, m->focus, c->x);
    case PEEK: return value_answer(m, c->a, c->x);
    case FAR: return answer(KN_DONE, (int32_t)how_far(m, c->a, c->b), 0, 0);
    case STEP: return step(m);
    case BEGIN: begin_walk(m, c->a); break;
    case DROP: end_walk(m); break;
    case SET: set_value(m, c->x, c->v); break;
    case BIND: case WIND: make_node(m, c); break;
    default: m->focus = to;
    }
    return answer(0, (int32_t)m->focus, moves, events->count);
}

kn_answer model_open(struct model *m, uint32_t vars, uint32_t nodes,
                     const uint8_t *tops, size_t tops_len, size_t store_len)
{
    unsigned x;

    if (vars < 1 || vars > 256 || nodes < 1 || nodes > 2048
        || tops_len != 5 * (size_t)vars || !cells_good(tops, vars)
        || store_len < size_of(vars, nodes))
        return answer(KN_SETUP, 0, 0, 0);
    m->vars = vars;
    m->nodes = nodes;
    m->made = 1;
    m->focus = 0;
    end_walk(m);
    for (x = 0; x < vars; x++)
        m->top[x] = value_in(tops + 5 * (size_t)x, tops + 5 * (size_t)x + 1);
    return answer(KN_DONE, 0, 0, 0);
}

kn_env model_tell(const struct model *m, uint32_t a)
{
    kn_env e = { 0, KN_DONE, KN_ENV_TOP, 0, 0, 0, 0 };

    if (a >= m->made) {
        e.code = KN_NO_ENVIRONMENT;
        e.kind = 0;
    } else if (a > 0 && m->node[a].wind) {
        e.kind = KN_ENV_WIND;
        e.first = (uint16_t)m->node[a].prelude;
        e.second = (uint16_t)m->node[a].postlude;
    } else if (a > 0) {
        e.kind = KN_ENV_BINDING;
        e.first = (uint16_t)m->node[a].var;
        e.state = m->node[a].own.bound != 0;
        e.value = e.state ? m->node[a].own.value : 0;
    }
    if (e.code == KN_DONE && a > 0)
        e.parent = (uint16_t)m->node[a].parent;
    return e;
}

void model_trace(const struct model_events *events, uint8_t *trace)
{
    unsigned i;

    for (i = 0; i < events->count; i++, trace += 5) {
        trace[0] = (uint8_t)events->event[i].entering;
        spell(trace, 1, 2, events->event[i].thunk);
        spell(trace, 3, 2, events->event[i].place);
    }
}
