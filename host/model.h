/* model.h: what a store means, for the tests. Written from TR397's Figure 2
   (deep binding) and the store's specification: nodes with their own values,
   no cells and no modes. It shares nothing with plain.c. */
#ifndef MODEL_H
#define MODEL_H

#include "kestrelnib.h"

struct model_value { int bound; int32_t value; };

struct model_node {
    int wind;                   /* a wind, else a binding */
    unsigned parent;
    unsigned var;               /* of a binding           */
    struct model_value own;     /* of a binding           */
    unsigned prelude, postlude; /* of a wind              */
};

struct model {
    unsigned vars, nodes, made, focus;
    struct model_value top[KN_MAX_VARS];
    struct model_node node[KN_MAX_NODES]; /* node[0], the top, is unused */
    int walking;
    unsigned target; /* of a walk                                        */
    unsigned wind;   /* of a walk: handed over, not yet entered; else 0  */
};

/* One call but open. Each call reads the arguments that it has. */
enum call_kind {
    BIND, WIND, LOOK, SET, HERE, GOTO, BACK, PEEK, FAR, BEGIN, STEP, DROP,
    CALL_KINDS
};

struct call {
    enum call_kind kind;
    uint32_t x, a, b;
    int32_t v;
    uint16_t p, q;
};

struct model_event { int entering; unsigned thunk, place; };

struct model_events {
    unsigned count;
    struct model_event event[KN_MAX_NODES];
};

/* Whether these bytes are a sound store. */
int model_sound(const uint8_t *bytes, size_t len);

/* The meaning of a sound store, and a meaning's one sound store. */
void model_read(struct model *m, const uint8_t *bytes);
void model_write(const struct model *m, uint8_t *bytes);

/* The node that decides x at a, 0 for the top; and the value that it gives. */
unsigned model_decider(const struct model *m, unsigned a, unsigned x);
struct model_value model_value_at(const struct model *m, unsigned a, unsigned x);

/* Open's answer; the meaning of the new store where it is done. */
kn_answer model_open(struct model *m, uint32_t vars, uint32_t nodes,
                     const uint8_t *tops, size_t tops_len, size_t store_len);

/* A call's answer and the events that it writes, on a sound store lent with
   trace_len bytes of trace; m becomes the meaning after it. */
kn_answer model_call(struct model *m, const struct call *c, size_t trace_len,
                     struct model_events *events);

/* What the environment a is, in a sound store. */
kn_env model_tell(const struct model *m, uint32_t a);

/* The events as a trace's bytes. */
void model_trace(const struct model_events *events, uint8_t *trace);

#endif
