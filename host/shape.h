/* shape.h: stores for the stack test and the bench, made by the library. */
#ifndef SHAPE_H
#define SHAPE_H

#include "kestrelnib.h"

struct shape {
    size_t len; /* of the store */
    uint8_t store[KN_SIZE(KN_MAX_VARS, KN_MAX_NODES)];
    uint8_t trace[KN_MAX_NODES * KN_EVENT_BYTES];
};

/* All have KN_MAX_VARS variables, each with a top value; no node binds the
   last one. Every fourth node is a wind, of the line the first alone. The focus
   is the last node made; the answer is a place far from it. */
enum { SHAPE_UNBOUND_BY_NODES = KN_MAX_VARS - 1 };

unsigned shape_empty(struct shape *s, unsigned nodes, unsigned made);
unsigned shape_chain(struct shape *s, unsigned nodes, unsigned made);
unsigned shape_line(struct shape *s, unsigned nodes, unsigned made);
unsigned shape_bushy(struct shape *s, unsigned nodes, unsigned made);
unsigned shape_fork(struct shape *s, unsigned nodes, unsigned made);

/* The focus moved. */
void shape_focus(struct shape *s, unsigned a);

#endif
