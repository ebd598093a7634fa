/* check.h: what the tests share. Checks that are counted, chance that repeats,
   buffers that end at a guard page, and one call on the library beside the
   model. */
#ifndef CHECK_H
#define CHECK_H

#include "kestrelnib.h"
#include "model.h"

/* ---- Checks ---- */

void check_begin(void);             /* once, first of all                  */
void check_name(const char *name);  /* the test that runs from here on     */
int  check(int good, const char *what);
int  check_answer(kn_answer got, kn_answer want, const char *what);
int  check_env(kn_env got, kn_env want, const char *what);
int  check_report(void);            /* prints the counts; an exit status   */

kn_answer done(int32_t out, uint32_t moves, uint32_t events);
kn_answer told(int32_t place, uint32_t moves, uint32_t event, uint32_t thunk);
kn_answer seen(int32_t value, uint32_t by);
kn_answer refused(uint32_t code);

kn_env untold(uint32_t code);

/* ---- Chance: the same numbers in every run ---- */

uint32_t chance(uint32_t below);    /* 0 to below - 1                      */
int32_t  chance_value(void);        /* small ones and extremes often       */
void     chance_bytes(uint8_t *to, size_t len);

/* ---- Lent buffers ---- */

enum { LENT_MAX = 64 * 1024, LENT_FENCE = 32 };

/* The bytes lent end where a page without access begins; a fence of known
   bytes stands before them. want is what fence and bytes should be. */
struct lent {
    uint8_t *bytes;
    size_t len;
    uint8_t want[LENT_FENCE + LENT_MAX];
    uint8_t *end;
};

void     lent_make(struct lent *l);              /* once for each            */
void     lent_take(struct lent *l, size_t len);  /* so many random bytes     */
void     lent_keep(struct lent *l);              /* want what is there now   */
uint8_t *lent_want(struct lent *l);              /* the wanted bytes         */
int      lent_same(const struct lent *l);        /* fence and bytes as wanted */

/* ---- Calls ---- */

extern struct lent store, trace;

/* Bytes that run_call says the store has past its end, where none may be
   touched: "never read or written". Only for sound stores. */
extern size_t beyond;

extern const char *const call_name[CALL_KINDS];
uint32_t chance_near(uint32_t limit);
struct call chance_call(const struct model *m);

/* The call on the library with the two lent buffers. */
kn_answer run_call(const struct call *c);

/* The call on the library and on the model, whose meaning the lent store has:
   answer, events and every lent byte. */
kn_answer beside(struct model *m, const struct call *c);

/* The call on the library is refused with this code and changes no byte. */
void refuses(const struct call *c, uint32_t code);

/* Tell beside the model: what it tells, and that no byte changes. */
void tell_beside(const struct model *m, uint32_t a);

/* So is each call with these arguments, whatever its kind, and tell, as
   damaged. */
void all_refuse(struct call c);

/* Opens the lent store: the library beside the model. */
kn_answer open_beside(struct model *m, uint32_t vars, uint32_t nodes,
                      const uint8_t *tops, size_t tops_len);

/* vars proper top cells, some of them unbound. */
void chance_tops(uint8_t *tops, unsigned vars);

/* Opens a store with random top cells, lent with spare bytes after. */
void chance_open(struct model *m, unsigned vars, unsigned nodes, size_t spare);

/* A random meaning with so many environments made, bindings that are unbound
   among them, and no walk; the lent store becomes its bytes, with spare bytes
   after. */
void chance_store(struct model *m, unsigned vars, unsigned nodes,
                  unsigned made, size_t spare);

/* The same store in a walk, which may have a wind handed over. */
void chance_walk(struct model *m);

/* ---- The tests ---- */

void test_face(void);
void test_edges(void);
void test_clauses(void);
void test_walks(void);
void test_tell(void);
void test_damage(void);
void test_runs(void);
void test_doors(void);
void test_drawn_walks(void);

#endif
