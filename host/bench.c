/* bench.c: each call of the library beside plain.c's, in one run. Times are the
   process's own, medians over interleaved rounds; a ratio is the median of the
   rounds' own. With an argument: how cost grows with N. */
#include "plain.h"
#include "shape.h"

#include <stdio.h>
#include <stdlib.h>
#include <string.h>
#include <time.h>

enum { ROUNDS = 21, BATCH_NS = 500000 };

/* ---- The faces ---- */

struct face {
    kn_answer (*open)(uint32_t, uint32_t, const uint8_t *, size_t, uint8_t *, size_t);
    kn_answer (*bind)(uint8_t *, size_t, uint32_t, int32_t);
    kn_answer (*wind)(uint8_t *, size_t, uint8_t *, size_t, uint16_t, uint16_t);
    kn_answer (*look)(const uint8_t *, size_t, uint32_t);
    kn_answer (*peek)(const uint8_t *, size_t, uint32_t, uint32_t);
    kn_answer (*set)(uint8_t *, size_t, uint32_t, int32_t);
    kn_answer (*here)(const uint8_t *, size_t);
    kn_answer (*far)(const uint8_t *, size_t, uint32_t, uint32_t);
    kn_answer (*go)(uint8_t *, size_t, uint8_t *, size_t, uint32_t);
    kn_answer (*back)(uint8_t *, size_t, uint8_t *, size_t);
    kn_answer (*begin)(uint8_t *, size_t, uint32_t);
    kn_answer (*step)(uint8_t *, size_t);
    kn_answer (*drop)(uint8_t *, size_t);
};

#define FACE(prefix)                                                      \
    { prefix##_open, prefix##_bind, prefix##_wind, prefix##_look,         \
      prefix##_peek, prefix##_set,  prefix##_here, prefix##_far,          \
      prefix##_goto, prefix##_back, prefix##_begin, prefix##_step,        \
      prefix##_drop }

static const struct face library = FACE(kn);

struct rival { const char *name; struct face face; };

/* Goto, back and step have three: the recursive walk as it is compiled, the walk by
   loops, and the recursive walk with every call kept a call. Every call that
   checks has one more, whose check climbs from the focus. */
enum { PLAIN, RECURSIVE, LOOPS, KEPT, CLIMBS, RIVALS };

static const struct rival rivals[RIVALS] = {
    { "", FACE(pl) }, { ", recursive", FACE(pl) }, { ", loops", FACE(loop) },
    { ", calls kept", FACE(kept) }, { ", check climbs", FACE(climb) }
};

/* Which of them a call is timed beside. */
enum {
    OPENS = 1 << PLAIN,
    CHECKS = 1 << PLAIN | 1 << CLIMBS,
    SWITCHES = 1 << RECURSIVE | 1 << LOOPS | 1 << KEPT | 1 << CLIMBS
};

/* ---- What is timed: one call on a store, which ends as it began ---- */

struct job {
    struct shape s;
    unsigned nodes, made, focus;
    unsigned other; /* where goto goes, and peek and far ask */
    unsigned x;     /* what look, peek and set ask for */
};

/* A call that makes or leaves one node changes the header, that node and its
   variable's cell; they are put back after it. */
struct spot {
    uint8_t head[KN_HEADER_BYTES], cell[KN_CELL_BYTES], node[KN_NODE_BYTES];
    uint8_t *cell_at, *node_at;
};

static void keep(struct spot *p, struct shape *s, unsigned n, unsigned x)
{
    p->cell_at = s->store + KN_SIZE(x, 0);
    p->node_at = s->store + KN_SIZE(KN_MAX_VARS, n);
    memcpy(p->head, s->store, sizeof p->head);
    memcpy(p->cell, p->cell_at, sizeof p->cell);
    memcpy(p->node, p->node_at, sizeof p->node);
}

static void put_back(const struct spot *p, struct shape *s)
{
    memcpy(s->store, p->head, sizeof p->head);
    memcpy(p->cell_at, p->cell, sizeof p->cell);
    memcpy(p->node_at, p->node, sizeof p->node);
}

/* Both faces have to give the same sum of answers. */
static uint64_t sum(uint64_t before, kn_answer r)
{
    return before * 31 + r.code + 3u * (uint32_t)r.out + 5u * r.moves
           + 7u * r.events + 11u * r.by + 13u * r.thunk + 17u * r.event;
}

static uint64_t run_open(const struct face *f, struct job *j, unsigned times)
{
    static struct shape fresh;
    static uint8_t tops[KN_MAX_VARS * KN_CELL_BYTES];
    uint64_t total = 0;

    while (times-- > 0)
        total = sum(total, f->open(KN_MAX_VARS, j->nodes, tops, sizeof tops,
                                   fresh.store, j->s.len));
    return total;
}

static uint64_t run_bind(const struct face *f, struct job *j, unsigned times)
{
    uint64_t total = 0;
    struct spot spot;

    keep(&spot, &j->s, j->made, 0);
    while (times-- > 0) {
        total = sum(total, f->bind(j->s.store, j->s.len, 0, 77));
        put_back(&spot, &j->s);
    }
    return total;
}

static uint64_t run_wind(const struct face *f, struct job *j, unsigned times)
{
    uint64_t total = 0;
    struct spot spot;

    keep(&spot, &j->s, j->made, 0);
    while (times-- > 0) {
        total = sum(total, f->wind(j->s.store, j->s.len, j->s.trace,
                                   sizeof j->s.trace, 7, 8));
        put_back(&spot, &j->s);
    }
    return total;
}

static uint64_t run_look(const struct face *f, struct job *j, unsigned times)
{
    uint64_t total = 0;

    while (times-- > 0)
        total = sum(total, f->look(j->s.store, j->s.len, j->x));
    return total;
}

static uint64_t run_peek(const struct face *f, struct job *j, unsigned times)
{
    uint64_t total = 0;

    while (times-- > 0)
        total = sum(total, f->peek(j->s.store, j->s.len, j->other, j->x));
    return total;
}

static uint64_t run_set(const struct face *f, struct job *j, unsigned times)
{
    uint64_t total = 0;

    while (times-- > 0)
        total = sum(total, f->set(j->s.store, j->s.len, j->x, 5));
    return total;
}

static uint64_t run_here(const struct face *f, struct job *j, unsigned times)
{
    uint64_t total = 0;

    while (times-- > 0)
        total = sum(total, f->here(j->s.store, j->s.len));
    return total;
}

static uint64_t run_far(const struct face *f, struct job *j, unsigned times)
{
    uint64_t total = 0;

    while (times-- > 0)
        total = sum(total, f->far(j->s.store, j->s.len, j->focus, j->other));
    return total;
}

/* There and back again; times is even. */
static uint64_t run_goto(const struct face *f, struct job *j, unsigned times)
{
    uint64_t total = 0;

    for (; times > 0; times -= 2) {
        total = sum(total, f->go(j->s.store, j->s.len, j->s.trace,
                                 sizeof j->s.trace, j->other));
        total = sum(total, f->go(j->s.store, j->s.len, j->s.trace,
                                 sizeof j->s.trace, j->focus));
    }
    return total;
}

/* The focus is a node that binds, or the top. */
static uint64_t run_back(const struct face *f, struct job *j, unsigned times)
{
    uint64_t total = 0;
    struct spot spot;

    keep(&spot, &j->s, j->focus, j->focus % SHAPE_UNBOUND_BY_NODES);
    while (times-- > 0) {
        total = sum(total, f->back(j->s.store, j->s.len, j->s.trace,
                                   sizeof j->s.trace));
        put_back(&spot, &j->s);
    }
    return total;
}

/* A begin and the drop after it. */
static uint64_t run_begin(const struct face *f, struct job *j, unsigned times)
{
    uint64_t total = 0;

    for (; times > 0; times -= 2) {
        total = sum(total, f->begin(j->s.store, j->s.len, j->other));
        total = sum(total, f->drop(j->s.store, j->s.len));
    }
    return total;
}

/* The step that the store in its walk is at. The whole store is put back after
   it, which is timed with it. */
static uint64_t run_step(const struct face *f, struct job *j, unsigned times)
{
    static uint8_t kept[sizeof j->s.store];
    uint64_t total = 0;

    memcpy(kept, j->s.store, j->s.len);
    while (times-- > 0) {
        total = sum(total, f->step(j->s.store, j->s.len));
        memcpy(j->s.store, kept, j->s.len);
    }
    return total;
}

/* ---- Timing ---- */

typedef uint64_t (*run)(const struct face *, struct job *, unsigned);

struct result { double library_ns, rival_ns, ratio; };

static double ns_of(run r, const struct face *f, struct job *j, unsigned times,
                    uint64_t *total)
{
    struct timespec from, to;

    clock_gettime(CLOCK_PROCESS_CPUTIME_ID, &from);
    *total = r(f, j, times);
    clock_gettime(CLOCK_PROCESS_CPUTIME_ID, &to);
    return ((double)(to.tv_sec - from.tv_sec) * 1e9
            + (double)(to.tv_nsec - from.tv_nsec)) / times;
}

static int by_size(const void *a, const void *b)
{
    double x = *(const double *)a, y = *(const double *)b;
    return (x > y) - (x < y);
}

static double median(double *of)
{
    qsort(of, ROUNDS, sizeof *of, by_size);
    return of[ROUNDS / 2];
}

static unsigned times_for(run r, const struct face *rival, struct job *j)
{
    unsigned times = 2;
    uint64_t total;

    while (ns_of(r, rival, j, times, &total) * times < BATCH_NS)
        times *= 2;
    return times;
}

static struct result measure(run r, const struct face *rival, struct job *j)
{
    double lib[ROUNDS], riv[ROUNDS], ratio[ROUNDS];
    unsigned i, times = times_for(r, rival, j);
    uint64_t a, b;
    struct result result;

    for (i = 0; i < ROUNDS; i++) {
        if (i % 2 == 0)
            lib[i] = ns_of(r, &library, j, times, &a);
        riv[i] = ns_of(r, rival, j, times, &b);
        if (i % 2 != 0)
            lib[i] = ns_of(r, &library, j, times, &a);
        ratio[i] = lib[i] / riv[i];
        if (a != b) {
            puts("FAIL: the two give different answers");
            exit(1);
        }
    }
    result.library_ns = median(lib);
    result.rival_ns = median(riv);
    result.ratio = median(ratio);
    return result;
}

/* ---- The table ---- */

struct kind {
    const char *name;
    unsigned (*make)(struct shape *, unsigned nodes, unsigned made);
    run only; /* timed there; NULL for every call */
};

static const struct kind kinds[] = {
    { "chain", shape_chain, NULL }, { "fork", shape_fork, NULL },
    { "bushy", shape_bushy, NULL }, { "empty", shape_empty, NULL },
    { "line", shape_line, run_step }
};

/* A variable that is bound near the end of the chain, and one that nobody
   binds. */
enum { NEAR = 5, NOBODY = SHAPE_UNBOUND_BY_NODES };

/* Focus and other place: the last node and one far from it; the other way
   round; or the last node and its parent. */
enum places { LAST, FLIPPED, NEXT };

/* A walk to the other place, and the steps of it that are made already. On the
   empty store one step is all of it, and a second is refused. */
enum walks { NO_WALK, BEGUN, ONE_STEP };

struct row {
    const char *name;
    run run;
    unsigned beside;
    unsigned x;
    unsigned room; /* environments not made */
    enum places places;
    enum walks walk;
};

static const struct row rows[] = {
    { "open", run_open, OPENS, 0, 0, LAST, NO_WALK },
    { "bind", run_bind, CHECKS, 0, 1, LAST, NO_WALK },
    { "wind", run_wind, CHECKS, 0, 1, LAST, NO_WALK },
    { "look", run_look, CHECKS, NEAR, 0, LAST, NO_WALK },
    { "look, nobody binds", run_look, CHECKS, NOBODY, 0, LAST, NO_WALK },
    { "peek in", run_peek, CHECKS, NOBODY, 0, LAST, NO_WALK },
    { "peek out", run_peek, CHECKS, NOBODY, 0, FLIPPED, NO_WALK },
    { "set", run_set, CHECKS, NEAR, 0, LAST, NO_WALK },
    { "here", run_here, CHECKS, 0, 0, LAST, NO_WALK },
    { "far", run_far, CHECKS, 0, 0, LAST, NO_WALK },
    { "far, parent", run_far, CHECKS, 0, 0, NEXT, NO_WALK },
    { "goto", run_goto, SWITCHES, 0, 0, LAST, NO_WALK },
    { "back", run_back, SWITCHES, 0, 0, LAST, NO_WALK },
    { "begin, drop", run_begin, CHECKS, 0, 0, LAST, NO_WALK },
    { "step", run_step, SWITCHES, 0, 0, LAST, BEGUN },
    { "step, the second", run_step, SWITCHES, 0, 0, FLIPPED, ONE_STEP }
};

enum { KINDS = sizeof kinds / sizeof kinds[0], ROWS = sizeof rows / sizeof rows[0] };
enum { NAME_WIDTH = 32 };

static unsigned focus_of(const struct shape *s)
{
    return (unsigned)kn_here(s->store, s->len).out;
}

/* The top's is the top. */
static unsigned focus_parent(struct shape *s)
{
    unsigned focus = focus_of(s), parent;

    kn_back(s->store, s->len, s->trace, sizeof s->trace);
    parent = focus_of(s);
    shape_focus(s, focus);
    return parent;
}

static void prepare(struct job *j, const struct kind *kind, const struct row *row,
                    unsigned nodes)
{
    unsigned away = kind->make(&j->s, nodes, nodes - row->room);
    unsigned last = focus_of(&j->s);

    j->nodes = nodes;
    j->made = last + 1;
    j->focus = last;
    j->other = row->places == NEXT ? focus_parent(&j->s) : away;
    j->x = row->x;
    if (row->places == FLIPPED) {
        shape_focus(&j->s, away);
        j->focus = away;
        j->other = last;
    }
    if (row->walk != NO_WALK)
        kn_begin(j->s.store, j->s.len, j->other);
    if (row->walk == ONE_STEP)
        kn_step(j->s.store, j->s.len);
}

static double line(const struct kind *kind, const struct row *row,
                   const struct rival *rival, unsigned nodes)
{
    static struct job job;
    struct result r;

    prepare(&job, kind, row, nodes);
    r = measure(row->run, &rival->face, &job);
    printf("%-6s %s%-*s %5u %11.0f %9.0f %6.2f\n", kind->name, row->name,
           (int)(NAME_WIDTH - strlen(row->name)), rival->name, nodes,
           r.library_ns, r.rival_ns, r.ratio);
    return r.ratio;
}

static int is_timed(const struct kind *kind, const struct row *row)
{
    return kind->only == NULL || kind->only == row->run;
}

/* Every call beside this rival; the worst ratio. */
static double beside(const struct kind *kind, unsigned rival)
{
    double worst = 0;
    unsigned r;

    for (r = 0; r < ROWS; r++)
        if (is_timed(kind, &rows[r]) && rows[r].beside >> rival & 1) {
            double ratio = line(kind, &rows[r], &rivals[rival], KN_MAX_NODES);
            if (ratio > worst)
                worst = ratio;
        }
    return worst;
}

static void every_call(const struct kind *kind)
{
    double worst[RIVALS];
    unsigned r;

    for (r = 0; r < RIVALS; r++)
        worst[r] = beside(kind, r);
    for (r = 0; r < RIVALS; r++)
        if (worst[r] > 0)
            printf("worst ratio, %s%s: %.2f\n", kind->name, rivals[r].name,
                   worst[r]);
}

/* Each call beside its first rival. */
static void growth(void)
{
    unsigned r, nodes, rival;

    for (r = 0; r < ROWS; r++) {
        for (rival = 0; !(rows[r].beside >> rival & 1);)
            rival++;
        for (nodes = KN_MAX_NODES / 4; nodes <= KN_MAX_NODES; nodes *= 2)
            line(&kinds[0], &rows[r], &rivals[rival], nodes);
    }
}

int main(int argc, char **argv)
{
    unsigned k;

    (void)argv;
    printf("store  %-*s     N  library ns  plain ns  ratio\n", NAME_WIDTH, "call");
    if (argc > 1)
        growth();
    for (k = 0; argc == 1 && k < KINDS; k++)
        every_call(&kinds[k]);
    return 0;
}
