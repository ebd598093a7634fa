/* test_damage.c: damaged stores by the million. Where the damage happens to
   leave a sound store, its answers are the model's. */
#include "check.h"

#include <stdio.h>
#include <string.h>

enum { DAMAGED_STORES = 1000000, BASES = 6, RANDOM_STORES = 50000 };

static unsigned long damaged, still_sound;
static struct model meaning;

static void beside_chance(void)
{
    struct call c = chance_call(&meaning);

    beside(&meaning, &c);
    tell_beside(&meaning, chance_near(meaning.made));
}

/* The lent store, whatever it is: every call refuses, or all is the model's. */
static void judge(void)
{
    if (model_sound(store.bytes, store.len)) {
        still_sound++;
        model_read(&meaning, store.bytes);
        beside_chance();
        return;
    }
    damaged++;
    all_refuse(chance_call(&meaning));
}

/* In a walk or in none. */
static void small_store(void)
{
    unsigned nodes = 1 + chance(10);

    chance_store(&meaning, 1 + chance(4), nodes, 1 + chance(nodes), chance(4));
    if (chance(2) == 0)
        chance_walk(&meaning);
}

/* ---- Ways to damage ---- */

static uint8_t *some_byte(void)
{
    return store.bytes + chance((uint32_t)store.len);
}

static uint8_t *some_node(void)
{
    return store.bytes + KN_SIZE(meaning.vars, chance(meaning.nodes));
}

enum { PARENT = 2, DEPTH = 12 };

static unsigned get16(const uint8_t *field)
{
    return field[0] + 256u * field[1];
}

static void put16(uint8_t *field, unsigned n)
{
    field[0] = (uint8_t)n;
    field[1] = (uint8_t)(n >> 8);
}

/* A field of the header, or a depth. */
static void change_field(uint8_t *field)
{
    unsigned to[8];

    to[0] = 0;
    to[1] = meaning.made;
    to[2] = meaning.nodes;
    to[3] = get16(field) + 1;
    to[4] = get16(field) - 1;
    to[5] = chance(65536);
    to[6] = chance(meaning.made);
    to[7] = 65535;
    put16(field, to[chance(8)]);
}

/* Another parent, and the depth that goes with it. */
static void change_parent(void)
{
    uint8_t *node = some_node();
    unsigned parent = chance(meaning.nodes);

    put16(node + PARENT, parent);
    put16(node + DEPTH,
          get16(store.bytes + KN_SIZE(meaning.vars, parent) + DEPTH) + 1);
}

/* Often as many are in as before. */
static void change_two_modes(void)
{
    some_node()[0] ^= 1;
    some_node()[0] ^= 1;
}

static void exchange_nodes(void)
{
    uint8_t *a = some_node(), *b = some_node(), kept[KN_NODE_BYTES];

    memcpy(kept, a, sizeof kept);
    memmove(a, b, sizeof kept);
    memcpy(b, kept, sizeof kept);
}

static void shorten(void)
{
    uint8_t whole[KN_SIZE(4, 10) + 4];
    size_t len = chance((uint32_t)store.len);

    memcpy(whole, store.bytes, store.len);
    lent_take(&store, len);
    memcpy(store.bytes, whole, len);
}

static void damage(void)
{
    switch (chance(11)) {
    case 0: *some_byte() ^= (uint8_t)(1u << chance(8)); break;
    case 1: *some_byte() = (uint8_t)chance(256); break;
    case 2: *some_byte() = (uint8_t)chance(7); break;
    case 3: some_node()[0] = (uint8_t)chance(7); break;
    case 4: some_node()[PARENT] = (uint8_t)chance(meaning.nodes); break;
    case 5: change_field(store.bytes + 2 * chance(KN_HEADER_BYTES / 2)); break;
    case 6: exchange_nodes(); break;
    case 7: change_field(some_node() + DEPTH); break;
    case 8: change_parent(); break;
    case 9: change_two_modes(); break;
    default: memmove(some_node(), some_node(), KN_NODE_BYTES);
    }
}

/* ---- The tests ---- */

/* Every byte of a store takes every value. */
static void every_byte(void)
{
    unsigned base;
    size_t at;
    int value;

    check_name("every byte with every value");
    for (base = 0; base < BASES; base++) {
        uint8_t whole[KN_SIZE(4, 10) + 4];
        small_store();
        memcpy(whole, store.bytes, store.len);
        for (at = 0; at < store.len; at++)
            for (value = 0; value < 256; value++) {
                memcpy(store.bytes, whole, store.len);
                store.bytes[at] = (uint8_t)value;
                judge();
            }
    }
}

static void many_damaged(void)
{
    check_name("small stores, damaged");
    while (damaged < DAMAGED_STORES) {
        unsigned times = 1 + (chance(4) == 0 ? chance(3) : 0);
        small_store();
        while (times-- > 0)
            damage();
        if (chance(16) == 0)
            shorten();
        judge();
    }
}

/* Random bytes; half of them under a header in range. */
static void random_bytes(void)
{
    unsigned i;

    check_name("random bytes");
    for (i = 0; i < RANDOM_STORES; i++) {
        lent_take(&store, chance(200));
        if (i % 2 == 0 && store.len >= KN_HEADER_BYTES) {
            static const uint8_t header[KN_HEADER_BYTES] = {
                1, 0, 4, 0, 2, 0, 1, 0, 255, 255, 255, 255
            };
            memcpy(store.bytes, header, sizeof header);
        }
        judge();
    }
}

/* Each byte of a store at the limits, by one call. */
static void at_the_limits(unsigned made)
{
    struct call c = { 0 };
    size_t at;

    check_name("a store at the limits, damaged byte by byte");
    chance_store(&meaning, KN_MAX_VARS, KN_MAX_NODES, made, 0);
    chance_walk(&meaning);
    for (at = 0; at < store.len; at += 3) {
        uint8_t kept = store.bytes[at];
        store.bytes[at] ^= (uint8_t)(1u << chance(8));
        c.kind = (enum call_kind)chance(CALL_KINDS);
        if (!model_sound(store.bytes, store.len)) {
            damaged++;
            check_answer(run_call(&c), refused(KN_DAMAGED), call_name[c.kind]);
        }
        store.bytes[at] = kept;
    }
    check(lent_same(&trace), "a refusal changed the trace");
    lent_keep(&store);
    model_write(&meaning, lent_want(&store));
    check(lent_same(&store), "a refusal changed the store");
}

void test_damage(void)
{
    lent_take(&trace, 4 * KN_EVENT_BYTES + 2);
    every_byte();
    random_bytes();
    at_the_limits(KN_MAX_NODES);
    at_the_limits(KN_MAX_NODES / 2);
    many_damaged();
    check(damaged >= DAMAGED_STORES, "enough damaged stores");
    printf("damaged=%lu still-sound=%lu\n", damaged, still_sound);
}
