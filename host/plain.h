/* plain.h: the calls of kestrelnib.h as plain.c gives them, prefix pl_. The
   bench has three more of it: built with PLAIN_LOOP, prefix loop_, with every
   call kept a call, prefix kept_, and with PLAIN_CLIMB, prefix climb_. */
#ifndef PLAIN_H
#define PLAIN_H

#include "kestrelnib.h"

#define PLAIN_CALLS(prefix)                                                 \
    kn_answer prefix##_open(uint32_t vars, uint32_t nodes,                  \
                            const uint8_t *tops, size_t tops_len,           \
                            uint8_t *store, size_t store_len);              \
    kn_answer prefix##_bind(uint8_t *store, size_t store_len,               \
                            uint32_t x, int32_t v);                         \
    kn_answer prefix##_wind(uint8_t *store, size_t store_len,               \
                            uint8_t *trace, size_t trace_len,               \
                            uint16_t p, uint16_t q);                        \
    kn_answer prefix##_look(const uint8_t *store, size_t store_len,         \
                            uint32_t x);                                    \
    kn_answer prefix##_peek(const uint8_t *store, size_t store_len,         \
                            uint32_t a, uint32_t x);                        \
    kn_answer prefix##_set(uint8_t *store, size_t store_len,                \
                           uint32_t x, int32_t v);                          \
    kn_answer prefix##_here(const uint8_t *store, size_t store_len);        \
    kn_answer prefix##_far(const uint8_t *store, size_t store_len,          \
                           uint32_t a, uint32_t b);                         \
    kn_env    prefix##_tell(const uint8_t *store, size_t store_len,         \
                            uint32_t a);                                    \
    kn_answer prefix##_goto(uint8_t *store, size_t store_len,               \
                            uint8_t *trace, size_t trace_len, uint32_t a);  \
    kn_answer prefix##_back(uint8_t *store, size_t store_len,               \
                            uint8_t *trace, size_t trace_len);              \
    kn_answer prefix##_begin(uint8_t *store, size_t store_len, uint32_t a); \
    kn_answer prefix##_step(uint8_t *store, size_t store_len);              \
    kn_answer prefix##_drop(uint8_t *store, size_t store_len);              \
    uint32_t  prefix##_limit(uint32_t which)

PLAIN_CALLS(pl);
PLAIN_CALLS(loop);
PLAIN_CALLS(kept);
PLAIN_CALLS(climb);

#endif
