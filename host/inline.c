/* inline.c: the header's inline functions, as C99 and as C++: the bytes that
   they write and read, and that the library takes and gives such bytes. */
#include "kestrelnib.h"

#include <stdio.h>
#include <string.h>

enum { VARS = 6, NODES = 4, UNTOUCHED = 0xa5 };

static const int32_t values[VARS] = {
    INT32_MIN, -1, 0, 1, 0x01020304, INT32_MAX
};

static int failures;

static void check(int good, const char *what)
{
    if (good)
        return;
    printf("FAIL inline: %s\n", what);
    failures++;
}

static void top_bytes(void)
{
    static const uint8_t four[] = { 1, 4, 3, 2, 1 }, least[] = { 1, 0, 0, 0, 0x80 };
    static const uint8_t none[KN_CELL_BYTES] = { 0 };
    uint8_t tops[3 * KN_CELL_BYTES];

    memset(tops, UNTOUCHED, sizeof tops);
    kn_top_value(tops, 1, 0x01020304);
    check(memcmp(tops + KN_CELL_BYTES, four, sizeof four) == 0, "a value's bytes");
    kn_top_value(tops, 1, INT32_MIN);
    check(memcmp(tops + KN_CELL_BYTES, least, sizeof least) == 0, "the least value's bytes");
    kn_top_none(tops, 1);
    check(memcmp(tops + KN_CELL_BYTES, none, sizeof none) == 0, "no value's bytes");
    check(tops[KN_CELL_BYTES - 1] == UNTOUCHED && tops[2 * KN_CELL_BYTES] == UNTOUCHED,
          "the cells beside it");
}

static void event_bytes(void)
{
    static const uint8_t trace[] = { 1, 0x34, 0x12, 0xff, 0x07, 0, 0xff, 0xff, 0, 1 };
    kn_event first = kn_event_read(trace, 0), second = kn_event_read(trace, 1);

    check(first.what == KN_ENTERING && first.thunk == 0x1234 && first.place == 2047,
          "the first event");
    check(second.what == KN_LEAVING && second.thunk == 65535 && second.place == 256,
          "the second event");
}

/* The values come back from a store opened with them, and no value as none. */
static void tops_in_a_store(void)
{
    uint8_t tops[(VARS + 1) * KN_CELL_BYTES], store[KN_SIZE(VARS + 1, NODES)];
    unsigned x;

    for (x = 0; x < VARS; x++)
        kn_top_value(tops, x, values[x]);
    kn_top_none(tops, VARS);
    check(kn_open(VARS + 1, NODES, tops, sizeof tops, store, sizeof store).code
          == KN_DONE, "open");
    for (x = 0; x < VARS; x++) {
        kn_answer r = kn_look(store, sizeof store, x);
        check(r.code == KN_DONE && r.out == values[x], "a top value comes back");
    }
    check(kn_look(store, sizeof store, VARS).code == KN_UNBOUND, "no value is unbound");
}

/* As many winds as there can be, left at once into KN_TRACE_SIZE bytes. */
static void events_of_a_store(void)
{
    uint8_t tops[KN_CELL_BYTES], store[KN_SIZE(1, NODES)], trace[KN_TRACE_SIZE(NODES)];
    uint16_t n;

    kn_top_none(tops, 0);
    kn_open(1, NODES, tops, sizeof tops, store, sizeof store);
    for (n = 1; n < NODES; n++) {
        kn_event e;
        kn_wind(store, sizeof store, trace, sizeof trace, n, (uint16_t)(65535 - n));
        e = kn_event_read(trace, 0);
        check(e.what == KN_ENTERING && e.thunk == n && e.place == n - 1, "a wind's event");
    }
    check(kn_goto(store, sizeof store, trace, sizeof trace, 0).events == NODES - 1,
          "every wind is left");
    for (n = 1; n < NODES; n++) {
        kn_event e = kn_event_read(trace, (size_t)(NODES - 1 - n));
        check(e.what == KN_LEAVING && e.thunk == 65535 - n && e.place == n - 1,
              "a wind left");
    }
}

int main(void)
{
    top_bytes();
    event_bytes();
    tops_in_a_store();
    events_of_a_store();
    return failures != 0;
}
