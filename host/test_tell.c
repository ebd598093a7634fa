/* test_tell.c: document 02's W7, what an environment is. Every kind written
   out, from every focus and during a walk; the refusals; then drawn stores
   beside the model. */
#include "check.h"

#include <string.h>

enum { VARS = 2, NODES = 8, MADE = 7, DRAWN = 20000 };

static struct model meaning;

/* Binding 1 below the top; below it wind 2 and bindings 3 and 4 in one line, 4
   without a value, and wind 5 and binding 6 in another. */
static const struct model_node six[] = {
    { 0, 0, 0, { 1, 10 }, 0, 0 },  { 1, 1, 0, { 0, 0 }, 20, 21 },
    { 0, 2, 0, { 1, -30 }, 0, 0 }, { 0, 3, 1, { 0, 0 }, 0, 0 },
    { 1, 1, 0, { 0, 0 }, 0, 65535 }, { 0, 5, 1, { 1, INT32_MIN }, 0, 0 }
};

static const kn_env told_as[MADE] = {
    { 0, KN_DONE, KN_ENV_TOP, 0, 0, 0, 0 },
    { 10, KN_DONE, KN_ENV_BINDING, 0, 0, 0, 1 },
    { 0, KN_DONE, KN_ENV_WIND, 1, 20, 21, 0 },
    { -30, KN_DONE, KN_ENV_BINDING, 2, 0, 0, 1 },
    { 0, KN_DONE, KN_ENV_BINDING, 3, 1, 0, 0 },
    { 0, KN_DONE, KN_ENV_WIND, 1, 0, 65535, 0 },
    { INT32_MIN, KN_DONE, KN_ENV_BINDING, 5, 1, 0, 1 }
};

static void lend_at(unsigned focus)
{
    memset(&meaning, 0, sizeof meaning);
    meaning.vars = VARS;
    meaning.nodes = NODES;
    meaning.made = MADE;
    meaning.focus = focus;
    meaning.top[0].bound = 1;
    meaning.top[0].value = 5;
    memcpy(meaning.node + 1, six, sizeof six);
    lent_take(&store, KN_SIZE(VARS, NODES));
    model_write(&meaning, store.bytes);
    lent_keep(&store);
    lent_take(&trace, 0);
}

static kn_env tell(uint32_t a)
{
    return kn_tell(store.bytes, store.len, a);
}

static void all_told(void)
{
    uint32_t a;

    for (a = 0; a < MADE; a++)
        check_env(tell(a), told_as[a], "as written out");
}

static void every_kind(void)
{
    unsigned focus;

    check_name("tell: every kind, from every focus");
    for (focus = 0; focus < MADE; focus++) {
        lend_at(focus);
        all_told();
        check(lent_same(&store), "tell changed a byte");
    }
}

static void of_a_walk(void)
{
    kn_answer r;

    check_name("tell: at every step of a walk");
    lend_at(4);
    r = kn_begin(store.bytes, store.len, 6);
    all_told();
    for (r.events = 1; r.events == 1; all_told())
        r = kn_step(store.bytes, store.len);
    check_answer(r, done(6, 2, 0), "the walk is done");
}

/* A set is told of the binding that it changed, near or far. */
static void after_a_set(void)
{
    kn_env changed = told_as[3];

    check_name("tell: what a binding holds now");
    lend_at(4);
    kn_set(store.bytes, store.len, 0, 99);
    changed.value = 99;
    check_env(tell(3), changed, "the binding that a set changed");
    check_env(tell(1), told_as[1], "the one above it");
    lend_at(5);
    kn_set(store.bytes, store.len, 0, -99);
    changed = told_as[1];
    changed.value = -99;
    check_env(tell(1), changed, "from another branch");
    check_env(tell(3), told_as[3], "the one below it");
}

static void refusals(void)
{
    static const uint32_t unmade[] = { MADE, NODES, 65536, 65537, 0xffffffffu };
    unsigned i;

    check_name("tell: 2, then 4");
    lend_at(3);
    for (i = 0; i < sizeof unmade / sizeof unmade[0]; i++) {
        check_env(tell(unmade[i]), untold(KN_NO_ENVIRONMENT), "not made");
        check_env(kn_tell(store.bytes, store.len - 1, unmade[i]),
                  untold(KN_DAMAGED), "damaged first");
    }
    check_env(kn_tell(store.bytes, store.len - 1, 0), untold(KN_DAMAGED),
              "a store that is too short");
    check(lent_same(&store), "a refusal changed a byte");
}

/* In a walk or in none, lent with a length that reaches into the guard page or
   not; some bindings have no value. */
static void drawn(void)
{
    unsigned i, a;

    check_name("tell: drawn stores");
    for (i = 0; i < DRAWN; i++) {
        unsigned nodes = 1 + chance(20);
        chance_store(&meaning, 1 + chance(3), nodes, 1 + chance(nodes), 0);
        if (i % 2 == 0)
            chance_walk(&meaning);
        beyond = i % 4 < 2 ? 0 : 4096;
        for (a = 0; a <= meaning.made; a++)
            tell_beside(&meaning, a);
    }
    beyond = 0;
}

void test_tell(void)
{
    every_kind();
    of_a_walk();
    after_a_set();
    refusals();
    drawn();
}
