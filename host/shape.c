/* shape.c: stores for the stack test and the bench. See shape.h. */
#include "shape.h"

#include <stdio.h>
#include <stdlib.h>

static void must(kn_answer r)
{
    if (r.code != KN_DONE) {
        printf("FAIL: a shape can't be made: code %u\n", (unsigned)r.code);
        exit(1);
    }
}

/* Only the top is made, whatever made says. */
unsigned shape_empty(struct shape *s, unsigned nodes, unsigned made)
{
    uint8_t tops[KN_MAX_VARS * KN_CELL_BYTES] = { 0 };
    unsigned x;

    (void)made;
    for (x = 0; x < KN_MAX_VARS; x++) {
        tops[x * KN_CELL_BYTES] = 1;
        tops[x * KN_CELL_BYTES + 1] = (uint8_t)x;
    }
    s->len = KN_SIZE(KN_MAX_VARS, nodes);
    must(kn_open(KN_MAX_VARS, nodes, tops, sizeof tops, s->store, s->len));
    return 0;
}

void shape_focus(struct shape *s, unsigned a)
{
    must(kn_goto(s->store, s->len, s->trace, sizeof s->trace, a));
}

static void grow(struct shape *s, unsigned n)
{
    if (n % 4 == 0)
        must(kn_wind(s->store, s->len, s->trace, sizeof s->trace,
                     (uint16_t)n, (uint16_t)(n + 1)));
    else
        must(kn_bind(s->store, s->len, n % SHAPE_UNBOUND_BY_NODES,
                     (int32_t)n));
}

unsigned shape_chain(struct shape *s, unsigned nodes, unsigned made)
{
    unsigned n;

    shape_empty(s, nodes, 1);
    for (n = 1; n < made; n++)
        grow(s, n);
    return 0;
}

/* A wind first, then bindings, each below the one before. */
unsigned shape_line(struct shape *s, unsigned nodes, unsigned made)
{
    unsigned n;

    shape_empty(s, nodes, 1);
    if (made > 1)
        must(kn_wind(s->store, s->len, s->trace, sizeof s->trace, 1, 2));
    for (n = 2; n < made; n++)
        must(kn_bind(s->store, s->len, n % SHAPE_UNBOUND_BY_NODES, (int32_t)n));
    return 0;
}

/* Every node has two children. */
unsigned shape_bushy(struct shape *s, unsigned nodes, unsigned made)
{
    unsigned n;

    shape_empty(s, nodes, 1);
    for (n = 1; n < made; n++) {
        shape_focus(s, (n - 1) / 2);
        grow(s, n);
    }
    return made - 2;
}

/* Two chains from the top, each with half of the nodes. */
unsigned shape_fork(struct shape *s, unsigned nodes, unsigned made)
{
    unsigned n;

    shape_empty(s, nodes, 1);
    for (n = 1; n < made; n++) {
        if (n == made / 2)
            shape_focus(s, 0);
        grow(s, n);
    }
    return made / 2 - 1;
}
