/* check.c: what the tests share. See check.h. */
#include "check.h"

#include <signal.h>
#include <stdio.h>
#include <stdlib.h>
#include <string.h>
#include <sys/mman.h>
#include <unistd.h>

/* ---- Checks ---- */

enum { SHOWN = 20 };    /* failures that are printed           */
enum { SECONDS = 120 }; /* for one test, under an emulator too */

static const char *current = "start";
static unsigned long checks, failures, tests;

/* A touched guard page, or no end, ends the run. */
static void stop(int signal_number)
{
    const char *why = signal_number == SIGALRM
        ? "FAIL: no end of: " : "FAIL: memory outside the lent bytes, in: ";

    if (write(1, why, strlen(why)) < 0 || write(1, current, strlen(current)) < 0
        || write(1, "\n", 1) < 0)
        _exit(3);
    _exit(1);
}

void check_begin(void)
{
    setvbuf(stdout, NULL, _IOLBF, 0);
    signal(SIGSEGV, stop);
    signal(SIGBUS, stop);
    signal(SIGALRM, stop);
    lent_make(&store);
    lent_make(&trace);
}

void check_name(const char *name)
{
    current = name;
    tests++;
    alarm(SECONDS);
}

int check(int good, const char *what)
{
    checks++;
    if (!good && ++failures <= SHOWN)
        printf("FAIL %s: %s\n", current, what);
    return good;
}

static void show_answer(const char *which, kn_answer r)
{
    printf("     %s code=%u out=%d moves=%u events=%u by=%u thunk=%u event=%u\n",
           which, (unsigned)r.code, (int)r.out, (unsigned)r.moves,
           (unsigned)r.events, (unsigned)r.by, (unsigned)r.thunk,
           (unsigned)r.event);
}

int check_answer(kn_answer got, kn_answer want, const char *what)
{
    int good = got.code == want.code && got.out == want.out
               && got.moves == want.moves && got.events == want.events
               && got.by == want.by && got.thunk == want.thunk
               && got.event == want.event;

    if (!check(good, what) && failures <= SHOWN) {
        show_answer("got ", got);
        show_answer("want", want);
    }
    return good;
}

static void show_env(const char *which, kn_env e)
{
    printf("     %s code=%u kind=%u parent=%u first=%u second=%u state=%u"
           " value=%d\n", which, (unsigned)e.code, (unsigned)e.kind,
           (unsigned)e.parent, (unsigned)e.first, (unsigned)e.second,
           (unsigned)e.state, (int)e.value);
}

int check_env(kn_env got, kn_env want, const char *what)
{
    int good = got.code == want.code && got.kind == want.kind
               && got.parent == want.parent && got.first == want.first
               && got.second == want.second && got.state == want.state
               && got.value == want.value;

    if (!check(good, what) && failures <= SHOWN) {
        show_env("got ", got);
        show_env("want", want);
    }
    return good;
}

int check_report(void)
{
    printf("tests=%lu checks=%lu failed=%lu\n", tests, checks, failures);
    return failures != 0;
}

kn_answer done(int32_t out, uint32_t moves, uint32_t events)
{
    kn_answer r = {
        out, KN_DONE, (uint16_t)moves, (uint16_t)events, 0, 0, 0
    };
    return r;
}

kn_answer told(int32_t place, uint32_t moves, uint32_t event, uint32_t thunk)
{
    kn_answer r = done(place, moves, 1);

    r.thunk = (uint16_t)thunk;
    r.event = (uint16_t)event;
    return r;
}

kn_answer seen(int32_t value, uint32_t by)
{
    kn_answer r = { value, KN_DONE, 0, 0, (uint16_t)by, 0, 0 };
    return r;
}

kn_answer refused(uint32_t code)
{
    kn_answer r = { 0, (uint16_t)code, 0, 0, 0, 0, 0 };
    return r;
}

kn_env untold(uint32_t code)
{
    kn_env e = { 0, (uint16_t)code, 0, 0, 0, 0, 0 };
    return e;
}

/* ---- Chance ---- */

static uint64_t chance_state = 88172645463325252u;

static uint32_t chance_word(void)
{
    chance_state ^= chance_state << 13;
    chance_state ^= chance_state >> 7;
    chance_state ^= chance_state << 17;
    return (uint32_t)(chance_state >> 16);
}

uint32_t chance(uint32_t below)
{
    return chance_word() % below;
}

int32_t chance_value(void)
{
    switch (chance(8)) {
    case 0: return INT32_MIN;
    case 1: return INT32_MAX;
    case 2: return 0;
    case 3: return -(int32_t)chance(1u << 31);
    case 4: return (int32_t)chance(1u << 31);
    default: return (int32_t)chance(20) - 10;
    }
}

/* A thunk's number: its least and its largest often. */
static uint16_t chance_thunk(void)
{
    switch (chance(4)) {
    case 0: return 0;
    case 1: return 65535;
    default: return (uint16_t)chance(65536);
    }
}

void chance_bytes(uint8_t *to, size_t len)
{
    while (len-- > 0)
        *to++ = (uint8_t)chance_word();
}

/* ---- Lent buffers ---- */

struct lent store, trace;
size_t beyond;

void lent_make(struct lent *l)
{
    size_t page = (size_t)sysconf(_SC_PAGESIZE);
    size_t room = (LENT_FENCE + LENT_MAX + page - 1) / page * page;
    uint8_t *at = mmap(NULL, room + page, PROT_READ | PROT_WRITE,
                       MAP_PRIVATE | MAP_ANONYMOUS, -1, 0);

    if (at == MAP_FAILED || mprotect(at + room, page, PROT_NONE) != 0) {
        puts("FAIL: no memory for the lent buffers");
        exit(1);
    }
    l->end = at + room;
    lent_take(l, 0);
}

void lent_take(struct lent *l, size_t len)
{
    l->bytes = l->end - len;
    l->len = len;
    chance_bytes(l->bytes - LENT_FENCE, LENT_FENCE + len);
    lent_keep(l);
}

void lent_keep(struct lent *l)
{
    memcpy(l->want, l->bytes - LENT_FENCE, LENT_FENCE + l->len);
}

uint8_t *lent_want(struct lent *l)
{
    return l->want + LENT_FENCE;
}

int lent_same(const struct lent *l)
{
    return memcmp(l->want, l->bytes - LENT_FENCE, LENT_FENCE + l->len) == 0;
}

/* ---- Calls ---- */

const char *const call_name[CALL_KINDS] = {
    "bind", "wind", "look", "set", "here", "goto", "back", "peek", "far",
    "begin", "step", "drop"
};

/* A number around a limit: mostly below it, at times the limit or far off. */
uint32_t chance_near(uint32_t limit)
{
    static const uint32_t far_off[] = { 256, 65536, 0x80000000u, 0xffffffffu };
    uint32_t kind = chance(16);

    if (kind == 0)
        return limit;
    if (kind == 1)
        return chance(limit + 1) + far_off[chance(4)];
    return limit == 0 ? 0 : chance(limit);
}

struct call chance_call(const struct model *m)
{
    struct call c;

    c.kind = (enum call_kind)chance(CALL_KINDS);
    c.x = chance_near(m->vars);
    c.a = chance_near(m->made);
    c.v = chance_value();
    c.p = chance_thunk();
    c.q = chance_thunk();
    c.b = chance_near(m->made);
    return c;
}

kn_answer run_call(const struct call *c)
{
    uint8_t *s = store.bytes, *t = trace.bytes;
    size_t n = store.len + beyond, k = trace.len;

    switch (c->kind) {
    case BIND: return kn_bind(s, n, c->x, c->v);
    case WIND: return kn_wind(s, n, t, k, c->p, c->q);
    case LOOK: return kn_look(s, n, c->x);
    case SET: return kn_set(s, n, c->x, c->v);
    case HERE: return kn_here(s, n);
    case GOTO: return kn_goto(s, n, t, k, c->a);
    case BACK: return kn_back(s, n, t, k);
    case PEEK: return kn_peek(s, n, c->a, c->x);
    case FAR: return kn_far(s, n, c->a, c->b);
    case BEGIN: return kn_begin(s, n, c->a);
    case STEP: return kn_step(s, n);
    default: return kn_drop(s, n);
    }
}

kn_answer beside(struct model *m, const struct call *c)
{
    static struct model_events events;
    kn_answer want, got;

    lent_keep(&store);
    lent_keep(&trace);
    want = model_call(m, c, trace.len, &events);
    if (want.code == KN_DONE) {
        model_write(m, lent_want(&store));
        model_trace(&events, lent_want(&trace));
    }
    got = run_call(c);
    check_answer(got, want, call_name[c->kind]);
    check(lent_same(&store), "the store's bytes");
    check(lent_same(&trace), "the trace's bytes");
    return got;
}

static void tells(uint32_t a, kn_env want)
{
    lent_keep(&store);
    check_env(kn_tell(store.bytes, store.len + beyond, a), want, "tell");
    check(lent_same(&store), "tell changed a byte");
}

void tell_beside(const struct model *m, uint32_t a)
{
    tells(a, model_tell(m, a));
}

void refuses(const struct call *c, uint32_t code)
{
    lent_keep(&store);
    lent_keep(&trace);
    check_answer(run_call(c), refused(code), call_name[c->kind]);
    check(lent_same(&store) && lent_same(&trace), "a refusal changed a byte");
}

void all_refuse(struct call c)
{
    unsigned kind;

    for (kind = 0; kind < CALL_KINDS; kind++) {
        c.kind = (enum call_kind)kind;
        refuses(&c, KN_DAMAGED);
    }
    tells(c.a, untold(KN_DAMAGED));
}

kn_answer open_beside(struct model *m, uint32_t vars, uint32_t nodes,
                      const uint8_t *tops, size_t tops_len)
{
    kn_answer want, got;

    lent_keep(&store);
    want = model_open(m, vars, nodes, tops, tops_len, store.len);
    if (want.code == KN_DONE)
        model_write(m, lent_want(&store));
    got = kn_open(vars, nodes, tops, tops_len, store.bytes, store.len);
    check_answer(got, want, "open");
    check(lent_same(&store), "open: the store's bytes");
    return got;
}

/* ---- Random stores ---- */

static struct model_value chance_cell(void)
{
    struct model_value v = { chance(4) != 0, 0 };

    if (v.bound)
        v.value = chance_value();
    return v;
}

void chance_tops(uint8_t *tops, unsigned vars)
{
    for (; vars > 0; vars--, tops += KN_CELL_BYTES) {
        memset(tops, 0, KN_CELL_BYTES);
        if (chance(4) != 0) {
            chance_bytes(tops, KN_CELL_BYTES);
            tops[0] = 1;
        }
    }
}

void chance_open(struct model *m, unsigned vars, unsigned nodes, size_t spare)
{
    static uint8_t tops[KN_MAX_VARS * KN_CELL_BYTES];

    chance_tops(tops, vars);
    lent_take(&store, KN_SIZE(vars, nodes) + spare);
    open_beside(m, vars, nodes, tops, vars * (size_t)KN_CELL_BYTES);
}

static void chance_node(struct model *m, unsigned n)
{
    struct model_node *node = &m->node[n];

    memset(node, 0, sizeof *node);
    node->parent = chance(3) == 0 ? chance(n) : n - 1;
    node->wind = chance(3) == 0;
    if (node->wind) {
        node->prelude = chance_thunk();
        node->postlude = chance_thunk();
    } else {
        node->var = chance(m->vars);
        node->own = chance_cell();
    }
}

void chance_store(struct model *m, unsigned vars, unsigned nodes,
                  unsigned made, size_t spare)
{
    unsigned n, x;

    m->vars = vars;
    m->nodes = nodes;
    m->made = made;
    m->focus = chance(made);
    m->walking = 0;
    m->target = m->wind = 0;
    for (x = 0; x < vars; x++)
        m->top[x] = chance_cell();
    for (n = 1; n < made; n++)
        chance_node(m, n);
    lent_take(&store, KN_SIZE(vars, nodes) + spare);
    model_write(m, store.bytes);
}

/* The child of the focus on the target's path; 0 if there is none. */
static unsigned next_to_enter(const struct model *m)
{
    unsigned n = m->target;

    while (n != 0 && m->node[n].parent != m->focus)
        n = m->node[n].parent;
    return n;
}

void chance_walk(struct model *m)
{
    unsigned next;

    m->walking = 1;
    m->target = chance(m->made);
    next = next_to_enter(m);
    if (next != 0 && m->node[next].wind && chance(2) == 0)
        m->wind = next;
    model_write(m, store.bytes);
}
