/* test_face.c: the header beside the library, the struct's ABI, and lengths
   of 0. */
#include "check.h"

static void header_constants(void)
{
    static const uint32_t header[] = {
        KN_MAX_VARS,   KN_MAX_NODES,  KN_HEADER_BYTES,
        KN_CELL_BYTES, KN_NODE_BYTES, KN_EVENT_BYTES
    };
    uint32_t i, count = sizeof header / sizeof header[0];

    check_name("the header's constants are the library's");
    for (i = 0; i < count; i++)
        check(kn_limit(i) == header[i], "kn_limit");
    check(kn_limit(count) == 0 && kn_limit(0xffffffffu) == 0,
          "kn_limit past the last");
    check(KN_SIZE(1, 4) == 73, "KN_SIZE(1, 4)");
    check(KN_SIZE(256, 2048) == 29964, "KN_SIZE at the limits");
    check(KN_TRACE_SIZE(2048) == 10235 && KN_TRACE_SIZE(1) == 0, "KN_TRACE_SIZE");
    check(KN_STACK_SIZE(2048) == 98512, "KN_STACK_SIZE at the limits");
}

static void answer_numbers(void)
{
    check_name("the answer numbers");
    check(KN_DONE == 0 && KN_SETUP == 1 && KN_DAMAGED == 2
          && KN_NO_VARIABLE == 3 && KN_NO_ENVIRONMENT == 4
          && KN_UNBOUND == 5 && KN_FULL == 6 && KN_TRACE_ROOM == 7
          && KN_TOP == 8 && KN_LINE == 9 && KN_WALKING == 10
          && KN_NOT_WALKING == 11, "enum kn_code");
    check(KN_LEAVING == 0 && KN_ENTERING == 1, "enum kn_what");
}

/* A binding, two winds and a binding in one line; going up it gives numbers
   that all differ, and so does a step down. */
static void struct_abi(void)
{
    static const uint8_t tops[5] = { 1, 0xff, 0xff, 0xff, 0x7f };
    const uint8_t *s;
    kn_answer r;

    check_name("the answer struct by value");
    check(sizeof(kn_answer) == 16, "16 bytes");
    check(offsetof(kn_answer, out) == 0 && offsetof(kn_answer, code) == 4
          && offsetof(kn_answer, moves) == 6
          && offsetof(kn_answer, events) == 8
          && offsetof(kn_answer, by) == 10
          && offsetof(kn_answer, thunk) == 12
          && offsetof(kn_answer, event) == 14, "its fields' places");
    lent_take(&store, KN_SIZE(1, 8));
    lent_take(&trace, 10);
    s = store.bytes;
    r = kn_open(1, 8, tops, 5, store.bytes, store.len);
    check_answer(r, done(0, 0, 0), "open");
    check_answer(kn_look(s, store.len, 0), seen(INT32_MAX, 0), "out is 32-bit");
    kn_bind(store.bytes, store.len, 0, INT32_MIN);
    check_answer(kn_look(s, store.len, 0), seen(INT32_MIN, 1), "out is signed");
    kn_wind(store.bytes, store.len, trace.bytes, trace.len, 65535, 65534);
    kn_wind(store.bytes, store.len, trace.bytes, trace.len, 1, 2);
    kn_bind(store.bytes, store.len, 0, 7);
    check_answer(kn_look(s, store.len, 0), seen(7, 4), "by is its own");
    check_answer(kn_goto(store.bytes, store.len, trace.bytes, trace.len, 1),
                 done(1, 3, 2), "every field its own");
    check(trace.bytes[6] == 0xfe && trace.bytes[7] == 0xff, "q is 16-bit");
    kn_begin(store.bytes, store.len, 4);
    check_answer(kn_step(store.bytes, store.len),
                 told(1, 0, KN_ENTERING, 65535), "a step's fields too");
}

/* A wind's fields all differ, and so do those of a binding under it. */
static void env_abi(void)
{
    static const uint8_t tops[10] = { 0 };
    static const kn_env wind = { 0, KN_DONE, KN_ENV_WIND, 1, 258, 65534, 0 };
    static const kn_env under = { -7, KN_DONE, KN_ENV_BINDING, 2, 1, 0, 1 };
    uint8_t event[KN_EVENT_BYTES];

    check_name("the environment's struct by value");
    check(sizeof(kn_env) == 16, "16 bytes");
    check(offsetof(kn_env, value) == 0 && offsetof(kn_env, code) == 4
          && offsetof(kn_env, kind) == 6 && offsetof(kn_env, parent) == 8
          && offsetof(kn_env, first) == 10 && offsetof(kn_env, second) == 12
          && offsetof(kn_env, state) == 14, "its fields' places");
    check(KN_ENV_TOP == 1 && KN_ENV_BINDING == 2 && KN_ENV_WIND == 3,
          "enum kn_env_kind");
    lent_take(&store, KN_SIZE(2, 4));
    kn_open(2, 4, tops, sizeof tops, store.bytes, store.len);
    kn_bind(store.bytes, store.len, 0, INT32_MAX);
    kn_wind(store.bytes, store.len, event, sizeof event, 258, 65534);
    kn_bind(store.bytes, store.len, 1, -7);
    check_env(kn_tell(store.bytes, store.len, 2), wind, "a wind");
    check_env(kn_tell(store.bytes, store.len, 3), under, "a binding");
}

/* Each call with an empty store at this pointer. */
static void empty_store_at(uint8_t *at)
{
    static const uint8_t tops[5] = { 0 };
    unsigned kind;

    lent_take(&trace, 5);
    store.bytes = at;
    store.len = 0;
    for (kind = 0; kind < CALL_KINDS; kind++) {
        struct call c = { .kind = (enum call_kind)kind };
        check_answer(run_call(&c), refused(KN_DAMAGED), call_name[kind]);
    }
    check_env(kn_tell(at, 0, 0), untold(KN_DAMAGED), "tell");
    check_answer(kn_open(1, 1, tops, 5, at, 0), refused(KN_SETUP), "open");
    check(lent_same(&trace), "the trace is kept");
    lent_take(&store, 0);
}

static void empty_tops_at(const uint8_t *at)
{
    lent_take(&store, KN_SIZE(1, 1));
    check_answer(kn_open(1, 1, at, 0, store.bytes, store.len),
                 refused(KN_SETUP), "no top cells");
    check_answer(kn_open(0, 1, at, 0, store.bytes, store.len),
                 refused(KN_SETUP), "no top cells for no variables");
    check(lent_same(&store), "the store is kept");
}

/* With no trace, calls that write no event are done and others refused. */
static void empty_trace_at(uint8_t *at)
{
    static const uint8_t tops[5] = { 0 };
    uint8_t event[5], *s;
    size_t n;

    lent_take(&store, KN_SIZE(1, 4));
    s = store.bytes;
    n = store.len;
    kn_open(1, 4, tops, 5, s, n);
    check_answer(kn_wind(s, n, at, 0, 1, 2), refused(KN_TRACE_ROOM), "wind");
    check_answer(kn_back(s, n, at, 0), refused(KN_TOP), "back at the top");
    kn_bind(s, n, 0, 5);
    check_answer(kn_goto(s, n, at, 0, 0), done(0, 1, 0), "goto");
    check_answer(kn_goto(s, n, at, 0, 1), done(1, 1, 0), "goto again");
    check_answer(kn_back(s, n, at, 0), done(0, 1, 0), "back");
    kn_wind(s, n, event, sizeof event, 1, 2);
    check_answer(kn_back(s, n, at, 0), refused(KN_TRACE_ROOM), "back from a wind");
    check_answer(kn_goto(s, n, at, 0, 1), refused(KN_TRACE_ROOM), "goto from a wind");
}

static void lengths_of_0(void)
{
    uint8_t here, *anywhere[3];
    unsigned i;

    anywhere[0] = NULL;
    anywhere[1] = &here;
    anywhere[2] = store.end; /* the guard page */
    check_name("lengths of 0 with any pointer");
    for (i = 0; i < 3; i++) {
        empty_store_at(anywhere[i]);
        empty_tops_at(anywhere[i]);
        empty_trace_at(anywhere[i]);
    }
}

void test_face(void)
{
    header_constants();
    answer_numbers();
    struct_abi();
    env_abi();
    lengths_of_0();
}
