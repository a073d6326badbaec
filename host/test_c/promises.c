/* What include/yarrowbeam.h promises beside the answers: the order of refusals, null pointers, groups with one place, editions of
 * states, writing in place, threads and the stack. Prints what breaks a promise. WITHOUT_STACK is for builds that are watched, since
 * watching takes stack too. */
#define _XOPEN_SOURCE 700
#include <inttypes.h>
#include <limits.h>
#include <pthread.h>
#include <stdio.h>
#include <string.h>
#include "yarrowbeam.h"

enum { ROOM = YARROWBEAM_LARGEST_STATE, LONGEST = YARROWBEAM_LARGEST_DESCRIPTION };

static int broken;

static void expect_of(const char *call, const char *what, int64_t answer, int64_t expected) {
    if (answer == expected) return;
    printf("%s%s: %" PRId64 ", not %" PRId64 "\n", call, what, answer, expected);
    broken = 1;
}

static void expect(const char *call, int64_t answer, int64_t expected) { expect_of(call, "", answer, expected); }

/* Expects the answer of a call, which is printed as it stands here. */
#define ANSWERS(call, expected) expect(#call, call, expected)

/* ---- the nets: the pool of three, and two whose groups are nested as deep as can be, without loose places and with some */

typedef struct {
    uint8_t d[YARROWBEAM_LARGEST_DESCRIPTION];
    size_t length;
    uint32_t events;
} Net;

static const uint8_t pool[] = {0x01, 0x03, 0x03, 0x01, 0x01, 0x01, 0x03, 0x03, 0x00, 0x01, 0x00, 0x02, 0x00,
                               0x03, 0x02, 0x01, 0x01, 0x00, 0x02, 0x00, 0x01, 0x02, 0x02, 0x01, 0x00, 0x03,
                               0x00, 0x01, 0x02, 0x01, 0x00, 0x01, 0x03, 0x01, 0x00, 0x04, 0x01, 0x03, 0x02};

static void put(Net *net, uint32_t number) {
    for (; number >= 128; number /= 128) net->d[net->length++] = (uint8_t)(number % 128 + 128);
    net->d[net->length++] = (uint8_t)number;
}

static void put_all(Net *net, size_t count, const uint32_t *numbers) {
    for (size_t i = 0; i < count; i++) put(net, numbers[i]);
}

#define PUT(net, ...) put_all(net, sizeof((uint32_t[]){__VA_ARGS__}) / sizeof(uint32_t), (uint32_t[]){__VA_ARGS__})

/* The list of a group at this depth: eight places, and but for the innermost empty groups and a group as deep as can be. The
 * library takes more stack for a second group than for a first one. Where places are loose, the eight of a list stand in the one
 * around it, and there are 31 groups. */
static void put_list(Net *net, uint32_t depth, uint32_t loose) {
    uint32_t level = depth + loose, empty = depth == 0 && loose ? 16 : 1;
    uint32_t places = level == 0 || level == 9 ? 0 : 8;
    put(net, places + (depth == 8 ? 0 : empty + 1));
    for (uint32_t p = 1; p <= places; p++) PUT(net, 0, 8 * (level - 1) + p);
    if (depth == 8) return;
    for (uint32_t g = 0; g < empty; g++) PUT(net, 1, 0, 0);
    PUT(net, 1, 200 * (8 - level));
    put_list(net, depth + 1, loose);
}

/* 64 places; each event takes up to 3 from a place and gives 200 to the next one, so that states get longer; 16 limits. */
static void make_deep(Net *net, uint32_t loose) {
    net->length = 0;
    net->events = 64;
    PUT(net, 1, 64, 64, 16);
    put_list(net, 0, loose);
    for (uint32_t e = 1; e < 64; e++) PUT(net, 2, e, 1 + e % 3, 0, e + 1, 0, 200);
    PUT(net, 2, 1, 0, 200, 64, 3, 0);
    for (uint32_t l = 1; l <= 16; l++) {
        PUT(net, 2000 * l, 64);
        for (uint32_t p = 1; p <= 64; p++) PUT(net, p, p % 2 ? 2 * l : 1);
    }
}

/* The pool with another count. */
static void make_pool_of(Net *net, uint32_t count) {
    enum { BEFORE = 6, AFTER = sizeof pool - BEFORE - 1 };
    memcpy(net->d, pool, BEFORE);
    net->length = BEFORE;
    net->events = 3;
    put(net, count);
    memcpy(net->d + net->length, pool + BEFORE + 1, AFTER);
    net->length += AFTER;
}

/* Two loose places, an event without arcs, and so many groups without place or token. */
static void make_empty(Net *net, uint32_t groups) {
    net->length = 0;
    net->events = 1;
    PUT(net, 1, 2, 1, 0, groups + 2, 0, 1, 0, 2);
    for (uint32_t g = 0; g < groups; g++) PUT(net, 1, 0, 0);
    put(net, 0);
}

/* The calls that write the same state again, and the edition that each writes. */
typedef int64_t Convert(const uint8_t *, size_t, const uint8_t *, size_t, uint8_t *, size_t);
static const struct {
    const char *name;
    Convert *call;
    uint32_t edition;
} conversions[] = {{"older", older, 1}, {"dense", dense, 1}, {"sparse", sparse, 2}};
enum { OLDER, CONVERSIONS = 3 };

/* What count answers where it writes. */
static int64_t wrote(size_t description, size_t state) { return (int64_t)description << 32 | (int64_t)state; }

static int all_are(const uint8_t *bytes, size_t length, uint8_t value) {
    for (size_t i = 0; i < length; i++) {
        if (bytes[i] != value) return 0;
    }
    return 1;
}

/* Event numbers from 0 to one past the last, without a pattern. */
static uint32_t event_at(const Net *net, uint32_t i) { return (i * 2654435761u >> 16) % (net->events + 2); }

/* ---- the order of refusals */

static void order(void) {
    static const uint8_t sizes[] = {0x01, 0x41}, pair[] = {2, 3, 1, 0};
    uint8_t s[] = {0x01, 0x03, 0x00, 0x00, 0x00, 0x01, 0x03}, out[7], place[sizeof pool];
    ANSWERS(fresh(sizes, 2, out, 0), -3);
    ANSWERS(record(sizes, 2, s, 0, 0, out, 0), -3);
    ANSWERS(judge(sizes, 2, s, 0, 0), -3);
    ANSWERS(known(sizes, 2, s, 0), -3);
    ANSWERS(count(sizes, 2, s, 0, s, 0, 0, out, 0, out, 0), -3);
    ANSWERS(older(sizes, 2, s, 0, out, 0), -3);
    ANSWERS(dense(sizes, 2, s, 0, out, 0), -3);
    ANSWERS(sparse(sizes, 2, s, 0, out, 0), -3);
    /* place 0 after place 1: out of range, and out of order */
    memcpy(place, pool, sizeof pool);
    place[11] = 0;
    ANSWERS(fresh(place, sizeof place, out, 7), -4);
    ANSWERS(record(pool, sizeof pool, s, 6, 0, out, 0), -9);
    ANSWERS(record(pool, sizeof pool, s, 7, 0, out, 0), -10);
    s[6] = 0;
    ANSWERS(record(pool, sizeof pool, s, 7, 1, out, 0), -11);
    /* a pair with place 0, behind which the bytes end: after the description, and before the event */
    ANSWERS(judge(place, sizeof place, pair, sizeof pair, 0), -4);
    ANSWERS(judge(pool, sizeof pool, pair, sizeof pair, 0), -18);
}

/* States of the pool of three, most of edition 2, each with a fault or two: the first that is met is answered by every call, before
 * the faults of the event, of the list of places and of the outputs. */
static void order_in_states(void) {
    static const struct {
        int64_t refusal;
        size_t length;
        uint8_t s[9];
    } states[] = {
        {-18, 4, {2, 3, 1, 0}},                            /* place 0, and the rest is missing */
        {-18, 4, {2, 3, 1, 4}},                            /* place 4 of 3 */
        {-18, 5, {2, 3, 1, 2, 0}},                         /* the estimate 0 */
        {-18, 6, {2, 3, 2, 2, 1, 2}},                      /* place 2 twice */
        {-18, 6, {2, 3, 2, 2, 1, 1}},                      /* place 1 after place 2 */
        {-18, 8, {2, 3, 2, 2, 1, 0, 0x80, 0x00}},          /* place 0, then an ill-formed number */
        {-9, 3, {2, 3, 1}},                                /* no pair */
        {-9, 4, {2, 3, 1, 3}},                             /* no estimate */
        {-9, 5, {2, 3, 1, 0x80, 0x00}},                    /* place 0 in two bytes */
        {-9, 6, {2, 3, 1, 3, 0x80, 0x00}},                 /* the estimate 0 in two bytes */
        {-9, 9, {2, 3, 2, 2, 0x80, 0x80, 0x80, 0x08, 0}},  /* the estimate 16,777,216, then place 0 */
        {-9, 4, {2, 3, 4, 0}},                             /* four pairs, then place 0 */
        {-9, 4, {2, 4, 1, 0}},                             /* four places, then place 0 */
        {-9, 4, {0, 3, 1, 0}},                             /* no such edition, then place 0 */
        {-9, 4, {3, 3, 1, 0}},
        {-9, 4, {1, 3, 1, 0}},                             /* edition 1, which has no pairs */
        {-9, 5, {2, 3, 0, 2, 0}},                          /* two groups */
        {-9, 4, {2, 3, 0, 1}},                             /* no remainder */
        {-9, 8, {2, 3, 0, 1, 0x80, 0x80, 0x80, 0x08}},     /* the remainder 16,777,216 */
        {-9, 6, {2, 3, 0, 1, 3, 0}},                       /* a byte left */
    };
    for (size_t i = 0; i < sizeof states / sizeof *states; i++) {
        const uint8_t *s = states[i].s;
        size_t length = states[i].length;
        uint8_t out[ROOM];
        memset(out, 0xA5, sizeof out);
        for (size_t room = 0; room <= ROOM; room += ROOM) {
            ANSWERS(record(pool, sizeof pool, s, length, 0, out, room), states[i].refusal);
            ANSWERS(count(pool, sizeof pool, s, length, NULL, 0, 0, NULL, 0, out, room), states[i].refusal);
            for (int c = 0; c < CONVERSIONS; c++) {
                int64_t answer = conversions[c].call(pool, sizeof pool, s, length, out, room);
                expect_of(conversions[c].name, " of a state with a fault", answer, states[i].refusal);
            }
        }
        ANSWERS(judge(pool, sizeof pool, s, length, 0), states[i].refusal);
        ANSWERS(known(pool, sizeof pool, s, length), states[i].refusal);
        expect("a state with a fault, something is written", all_are(out, sizeof out, 0xA5), 1);
    }
}

/* Makes a state of the net with so many empty groups, in which a token was seen at the second place. */
static void make_state_of_empty(Net *state, uint32_t edition, uint32_t place, uint32_t groups) {
    state->length = 0;
    if (edition == 1) PUT(state, 1, 2, 0, 1, groups);
    if (edition == 2) PUT(state, 2, 2, 1, place, 1, groups);
    for (uint32_t g = 0; g < groups; g++) put(state, 0);
}

/* Every choice of faults in a head count with a state of this edition: the first question that fails is answered, and neither
 * output is written. */
static void order_of_count(uint32_t edition) {
    enum { DESCRIPTION = 1, STATE = 2, LIST = 4, NUMBER = 8, GROUPS = 16, DESCRIBED = 32, OUT = 64, PAIR = 128 };
    static const uint8_t good[] = {2, 1}, twice[] = {2, 1, 2};
    for (int faults = 0; faults < (edition == 1 ? PAIR : 2 * PAIR); faults++) {
        static Net net, s, after;
        uint32_t groups = faults & GROUPS ? 32 : 31;
        uint8_t described[200], out[ROOM];
        make_empty(&net, groups);
        make_state_of_empty(&s, edition, faults & PAIR ? 3 : 2, groups);
        make_state_of_empty(&after, edition, 2, groups + 1);
        after.d[after.length - 1] = 4;
        int64_t expected = faults & DESCRIPTION ? -1 : faults & PAIR ? -18 : faults & STATE ? -9 : faults & LIST ? -14
                         : faults & NUMBER ? -15 : faults & GROUPS ? -16 : faults ? -13 : wrote(net.length + 3, after.length);
        memset(described, 0xA5, sizeof described);
        memset(out, 0xA5, sizeof out);
        expect("count with faults",
               count(net.d, net.length - (faults & DESCRIPTION ? 1 : 0), s.d, s.length - (faults & STATE ? 1 : 0),
                     faults & LIST ? twice : good, faults & LIST ? 3 : 2, faults & NUMBER ? 16777216 : 5,
                     described, net.length + (faults & DESCRIBED ? 2 : 3), out, after.length - (faults & OUT ? 1 : 0)),
               expected);
        size_t rest = faults ? 0 : net.length + 3, rest_of_out = faults ? 0 : after.length;
        expect("count, another state", memcmp(out, after.d, rest_of_out) != 0, 0);
        expect("count wrote too much", all_are(described + rest, sizeof described - rest, 0xA5), 1);
        expect("count wrote too much of the state", all_are(out + rest_of_out, sizeof out - rest_of_out, 0xA5), 1);
    }
}

/* Makes a state of the pool, with tokens at the second place. */
static void make_state_of_pool(Net *state, uint32_t edition, uint32_t places, uint32_t place, uint32_t estimate,
                               uint32_t unplaced) {
    state->length = 0;
    if (edition == 1) PUT(state, 1, places, 0, estimate, 0, 1, unplaced);
    if (edition == 2) PUT(state, 2, places, 1, place, estimate, 1, unplaced);
}

/* Every choice of faults where a state of this edition is written again: the first question that fails is answered, and nothing is
 * written. Numbers that are too large for older observers are faults for these alone, and a count never is. */
static void order_of_conversion(int conversion, uint32_t edition) {
    enum { DESCRIPTION = 1, SIZE = 2, END = 4, ESTIMATE = 8, UNPLACED = 16, OUT = 32, COUNT = 64, PAIR = 128 };
    const char *name = conversions[conversion].name;
    for (int chosen = 0; chosen < (edition == 1 ? PAIR : 2 * PAIR); chosen++) {
        static Net net, s, again;
        uint8_t out[ROOM];
        uint32_t estimate = chosen & ESTIMATE ? 65536 : 65535, unplaced = chosen & UNPLACED ? 65536 : 65535;
        make_pool_of(&net, chosen & COUNT ? 16777215 : 65535);
        make_state_of_pool(&s, edition, chosen & SIZE ? 4 : 3, chosen & PAIR ? 4 : 2, estimate, unplaced);
        make_state_of_pool(&again, conversions[conversion].edition, 3, 2, estimate, unplaced);
        int large = conversion == OLDER && chosen & (ESTIMATE | UNPLACED);
        int64_t expected = chosen & DESCRIPTION ? -1 : chosen & SIZE ? -9 : chosen & PAIR ? -18 : chosen & END ? -9
                         : large ? -17 : chosen & OUT ? -13 : (int64_t)again.length;
        memset(out, 0xA5, sizeof out);
        expect_of(name, " with faults",
                  conversions[conversion].call(net.d, net.length - (chosen & DESCRIPTION ? 1 : 0), s.d,
                                               s.length - (chosen & END ? 1 : 0), out, again.length - (chosen & OUT ? 1 : 0)),
                  expected);
        size_t written = expected > 0 ? again.length : 0;
        expect_of(name, ", other bytes", memcmp(out, again.d, written) != 0, 0);
        expect_of(name, " wrote too much", all_are(out + written, sizeof out - written, 0xA5), 1);
    }
}

/* ---- null pointers */

static void null_pointers(void) {
    uint8_t s[7], out[7];
    ANSWERS(fresh(NULL, 0, NULL, 0), -1);
    ANSWERS(fresh(NULL, 0, out, 7), -1);
    ANSWERS(fresh(pool, sizeof pool, NULL, 0), -13);
    ANSWERS(fresh(pool, sizeof pool, s, 7), 7);
    ANSWERS(record(NULL, 0, NULL, 0, 1, NULL, 0), -1);
    ANSWERS(record(NULL, 0, s, 7, 1, out, 7), -1);
    ANSWERS(record(pool, sizeof pool, NULL, 0, 1, NULL, 0), -9);
    ANSWERS(record(pool, sizeof pool, NULL, 0, 1, out, 7), -9);
    ANSWERS(record(pool, sizeof pool, s, 7, 1, NULL, 0), -13);
    ANSWERS(judge(NULL, 0, NULL, 0, 1), -1);
    ANSWERS(judge(NULL, 0, s, 7, 1), -1);
    ANSWERS(judge(pool, sizeof pool, NULL, 0, 1), -9);
    ANSWERS(known(NULL, 0, NULL, 0), -1);
    ANSWERS(known(NULL, 0, s, 7), -1);
    ANSWERS(known(pool, sizeof pool, NULL, 0), -9);
    ANSWERS(older(NULL, 0, NULL, 0, NULL, 0), -1);
    ANSWERS(older(NULL, 0, s, 7, out, 7), -1);
    ANSWERS(older(pool, sizeof pool, NULL, 0, NULL, 0), -9);
    ANSWERS(older(pool, sizeof pool, NULL, 0, out, 7), -9);
    ANSWERS(older(pool, sizeof pool, s, 7, NULL, 0), -13);
    ANSWERS(dense(NULL, 0, NULL, 0, NULL, 0), -1);
    ANSWERS(dense(NULL, 0, s, 7, out, 7), -1);
    ANSWERS(dense(pool, sizeof pool, NULL, 0, NULL, 0), -9);
    ANSWERS(dense(pool, sizeof pool, NULL, 0, out, 7), -9);
    ANSWERS(dense(pool, sizeof pool, s, 7, NULL, 0), -13);
    ANSWERS(sparse(NULL, 0, NULL, 0, NULL, 0), -1);
    ANSWERS(sparse(NULL, 0, s, 7, out, 7), -1);
    ANSWERS(sparse(pool, sizeof pool, NULL, 0, NULL, 0), -9);
    ANSWERS(sparse(pool, sizeof pool, NULL, 0, out, 7), -9);
    ANSWERS(sparse(pool, sizeof pool, s, 7, NULL, 0), -13);
}

/* The same of count, on the pool with its places loose, after event 1. */
static void null_pointers_of_count(void) {
    uint8_t d[36], described[39], out[7];
    static const uint8_t s[] = {1, 3, 0, 1, 0, 0}, places[] = {3, 1, 2}, after[] = {1, 3, 0, 1, 0, 1, 2};
    memcpy(d, pool, 4);
    d[4] = 3;
    memcpy(d + 5, pool + 8, 31);
    ANSWERS(count(NULL, 0, NULL, 0, NULL, 0, 3, NULL, 0, NULL, 0), -1);
    ANSWERS(count(NULL, 0, s, 6, places, 3, 3, described, 39, out, 7), -1);
    ANSWERS(count(d, 36, NULL, 0, places, 3, 3, described, 39, out, 7), -9);
    ANSWERS(count(d, 36, s, 6, NULL, 0, 3, described, 39, out, 7), -14);
    ANSWERS(count(d, 36, s, 6, places, 3, 3, NULL, 0, out, 7), -13);
    ANSWERS(count(d, 36, s, 6, places, 3, 3, described, 39, NULL, 0), -13);
    ANSWERS(count(d, 36, s, 6, places, 3, 3, NULL, 0, NULL, 0), -13);
    ANSWERS(count(d, 36, s, 6, places, 3, 3, described, 39, out, 7), wrote(39, 7));
    expect("count, the description", memcmp(described, pool, 39), 0);
    expect("count, the state", memcmp(out, after, 7), 0);
}

/* ---- groups with one direct place: fresh and count have the tokens there, and a state is taken as it is */

static void one_worker_at_one_place(void) {
    static const uint8_t d[] = {1, 1, 1, 0, 1, 1, 1, 1, 0, 1, 0}, there[] = {1, 1, 1, 1, 0}, unplaced[] = {1, 1, 0, 1, 1};
    uint8_t s[ROOM];
    ANSWERS(fresh(d, sizeof d, s, ROOM), 5);
    expect("one worker, the fresh state", memcmp(s, there, 5), 0);
    ANSWERS(known(d, sizeof d, s, 5), 1);
    ANSWERS(known(d, sizeof d, unplaced, 5), 0);
}

/* A group of 5 with place 1 and a group of 4 inside, which has place 2; place 3 is loose, and is counted. */
static void count_of_one_place(void) {
    static const uint8_t d[] = {1, 3, 1, 0, 2, 0, 3, 1, 5, 2, 0, 1, 1, 4, 1, 0, 2, 0};
    static const uint8_t with_group[] = {1, 3, 1, 0, 2, 1, 5, 2, 0, 1, 1, 4, 1, 0, 2, 1, 6, 1, 0, 3, 0}, place = 3;
    /* the fresh state and one with 1 unplaced in the outer group, in both editions, each before the count and after it, and whether
     * that is known */
    static const struct {
        size_t length, length_after;
        uint8_t before[10], after[13];
        int64_t known;
    } states[] = {
        {8, 9, {1, 3, 1, 4, 0, 2, 0, 0}, {1, 3, 1, 4, 6, 3, 0, 0, 0}, 1},
        {8, 9, {1, 3, 0, 4, 0, 2, 1, 0}, {1, 3, 0, 4, 6, 3, 1, 0, 0}, 0},
        {10, 13, {2, 3, 2, 1, 1, 2, 4, 2, 0, 0}, {2, 3, 3, 1, 1, 2, 4, 3, 6, 3, 0, 0, 0}, 1},
        {8, 11, {2, 3, 1, 2, 4, 2, 1, 0}, {2, 3, 2, 2, 4, 3, 6, 3, 1, 0, 0}, 0},
    };
    uint8_t s[ROOM], described[sizeof with_group];
    ANSWERS(fresh(d, sizeof d, s, ROOM), 8);
    expect("a group inside, the fresh state", memcmp(s, states[0].before, 8), 0);
    for (int i = 0; i < 4; i++) {
        size_t length = states[i].length, after = states[i].length_after;
        ANSWERS(known(d, sizeof d, states[i].before, length), 0);
        expect("count of one place",
               count(d, sizeof d, states[i].before, length, &place, 1, 6, described, sizeof described, s, ROOM),
               wrote(sizeof described, after));
        expect("count of one place, the description", memcmp(described, with_group, sizeof with_group), 0);
        expect("count of one place, the state", memcmp(s, states[i].after, after), 0);
        ANSWERS(known(described, sizeof described, s, after), states[i].known);
    }
}

/* ---- editions of states */

typedef struct {
    const uint8_t *at;
    size_t length;
} Bytes;

#define BYTES(...) ((Bytes){(const uint8_t[]){__VA_ARGS__}, sizeof((const uint8_t[]){__VA_ARGS__})})

/* A state in edition 1 and in edition 2: each is written from each, where there is just enough room. */
static void both_editions(Bytes d, Bytes first, Bytes second) {
    const Bytes states[] = {first, second};
    for (int from = 0; from < 2; from++) {
        for (int to = 0; to < 2; to++) {
            Convert *call = to == 0 ? dense : sparse;
            Bytes s = states[from], again = states[to];
            uint8_t out[ROOM + 1];
            memset(out, 0xA5, sizeof out);
            expect("an edition without room", call(d.at, d.length, s.at, s.length, out, again.length - 1), -13);
            expect("an edition without room, something is written", all_are(out, sizeof out, 0xA5), 1);
            expect("an edition", call(d.at, d.length, s.at, s.length, out, again.length), (int64_t)again.length);
            expect("an edition, other bytes", memcmp(out, again.at, again.length) != 0, 0);
            expect("an edition, more bytes", all_are(out + again.length, sizeof out - again.length, 0xA5), 1);
        }
    }
}

/* The pool's states from fresh on, while event 1 is recorded: what `record` reads it writes, in the same edition. */
static void editions_of_pool(void) {
    static const uint8_t first[4][7] = {{1, 3, 0, 0, 0, 1, 3}, {1, 3, 0, 1, 0, 1, 2}, {1, 3, 0, 2, 0, 1, 1}, {1, 3, 0, 3, 0, 1, 0}};
    static const uint8_t second[4][7] = {{2, 3, 0, 1, 3}, {2, 3, 1, 2, 1, 1, 2}, {2, 3, 1, 2, 2, 1, 1}, {2, 3, 1, 2, 3, 1, 0}};
    static const int64_t judged[4] = {1, 1, 0, 0}, is_known[4] = {0, 0, 0, 1};
    uint8_t out[ROOM];
    for (int i = 0; i < 4; i++) {
        size_t length = i == 0 ? 5 : 7;
        both_editions((Bytes){pool, sizeof pool}, (Bytes){first[i], 7}, (Bytes){second[i], length});
        ANSWERS(judge(pool, sizeof pool, second[i], length, 2), judged[i]);
        ANSWERS(known(pool, sizeof pool, second[i], length), is_known[i]);
        ANSWERS(older(pool, sizeof pool, second[i], length, out, ROOM), 7);
        expect("older of edition 2", memcmp(out, first[i], 7), 0);
        ANSWERS(record(pool, sizeof pool, second[i], length, 1, out, ROOM), i < 3 ? 7 : -11);
        if (i < 3) expect("record in edition 2", memcmp(out, second[i + 1], 7), 0);
    }
}

/* Groups inside others: place 1 and group 2, which has place 2, in group 1; place 3 is loose. And a group without direct place. */
static void editions_of_nested(void) {
    Bytes d = BYTES(1, 3, 1, 0, 2, 0, 3, 1, 5, 2, 0, 1, 1, 4, 1, 0, 2, 0);
    uint8_t out[ROOM];
    both_editions(d, BYTES(1, 3, 0, 0, 7, 2, 5, 4), BYTES(2, 3, 1, 3, 7, 2, 1, 4));
    /* 16,777,214 and 1 are unplaced together, and one more is too many */
    both_editions(d, BYTES(1, 3, 0, 0, 0, 2, 0xFF, 0xFF, 0xFF, 0x07, 1), BYTES(2, 3, 0, 2, 0xFE, 0xFF, 0xFF, 0x07, 1));
    Bytes above = BYTES(2, 3, 0, 2, 0xFF, 0xFF, 0xFF, 0x07, 1);
    ANSWERS(dense(d.at, d.length, above.at, above.length, out, ROOM), -9);
    ANSWERS(sparse(d.at, d.length, above.at, above.length, out, ROOM), -9);
    d = BYTES(1, 1, 1, 0, 1, 1, 0, 1, 1, 0, 1, 0, 1, 0);
    both_editions(d, BYTES(1, 1, 0, 2, 5, 5), BYTES(2, 1, 0, 2, 0, 5));
    Bytes unfit = BYTES(2, 1, 0, 2, 1, 5);
    ANSWERS(dense(d.at, d.length, unfit.at, unfit.length, out, ROOM), -9);
    ANSWERS(sparse(d.at, d.length, unfit.at, unfit.length, out, ROOM), -9);
}

/* 64 places with as many tokens as can be, two in each of 32 groups, and as many unplaced in each. */
static void largest_state(void) {
    static Net net, first, second;
    net.length = first.length = second.length = 0;
    PUT(&net, 1, 64, 1, 0, 32);
    for (uint32_t g = 1; g <= 32; g++) PUT(&net, 1, 0, 2, 0, 2 * g - 1, 0, 2 * g);
    put(&net, 0);
    PUT(&first, 1, 64);
    PUT(&second, 2, 64, 64);
    for (uint32_t p = 1; p <= 64; p++) {
        put(&first, 16777215);
        PUT(&second, p, 16777215);
    }
    put(&first, 32);
    put(&second, 32);
    for (int g = 0; g < 32; g++) {
        put(&first, 16777215);
        put(&second, 16777215);
    }
    expect("the largest state of edition 1", (int64_t)first.length, 387);
    expect("the largest state", (int64_t)second.length, YARROWBEAM_LARGEST_STATE);
    both_editions((Bytes){net.d, net.length}, (Bytes){first.d, first.length}, (Bytes){second.d, second.length});
}

/* ---- writing in place */

/* Records an event from s, of this length, to other bytes and to s itself, with this room: the same answer and the same bytes. */
static int64_t record_twice(const Net *net, uint8_t s[ROOM], size_t length, uint32_t event, size_t room) {
    uint8_t after[ROOM], expected[ROOM];
    int64_t answer = record(net->d, net->length, s, length, event, after, room);
    memcpy(expected, s, ROOM);
    if (answer > 0) memcpy(expected, after, (size_t)answer);
    expect("record in place", record(net->d, net->length, s, length, event, s, room), answer);
    expect("record in place, other bytes", memcmp(s, expected, ROOM) != 0, 0);
    return answer;
}

/* Counts the place from s, of this length, so that its `out` is other bytes and s itself: the same answer and the same bytes. */
static void count_twice(const Net *net, uint8_t s[ROOM], size_t length, uint8_t place, uint32_t n, size_t room) {
    static uint8_t described[2][LONGEST];
    uint8_t after[ROOM], expected[ROOM], in_place[ROOM];
    memset(described, 0xA5, sizeof described);
    memcpy(in_place, s, ROOM);
    memcpy(expected, s, ROOM);
    int64_t answer = count(net->d, net->length, s, length, &place, 1, n, described[0], LONGEST, after, room);
    if (answer > 0) memcpy(expected, after, (size_t)(answer & UINT32_MAX));
    int64_t second = count(net->d, net->length, in_place, length, &place, 1, n, described[1], LONGEST, in_place, room);
    expect("count in place", second, answer);
    expect("count in place, other bytes", memcmp(in_place, expected, ROOM) != 0, 0);
    expect("count in place, another description", memcmp(described[0], described[1], LONGEST) != 0, 0);
}

/* Writes the state s, of this length, again to other bytes and to s itself: the same answer and the same bytes. */
static void convert_twice(const Net *net, int conversion, const uint8_t s[ROOM], size_t length, size_t room) {
    const char *name = conversions[conversion].name;
    Convert *call = conversions[conversion].call;
    uint8_t again[ROOM], expected[ROOM], in_place[ROOM];
    memcpy(in_place, s, ROOM);
    memcpy(expected, s, ROOM);
    int64_t answer = call(net->d, net->length, s, length, again, room);
    if (answer > 0) memcpy(expected, again, (size_t)answer);
    expect_of(name, " in place", call(net->d, net->length, in_place, length, in_place, room), answer);
    expect_of(name, " in place, other bytes", memcmp(in_place, expected, ROOM) != 0, 0);
}

/* Writes the state s, of this length, in the other edition in its place, and back: the bytes that it had. */
static void there_and_back(const Net *net, const uint8_t s[ROOM], size_t length) {
    Convert *there = s[0] == 1 ? sparse : dense, *back = s[0] == 1 ? dense : sparse;
    uint8_t in_place[ROOM];
    memcpy(in_place, s, ROOM);
    int64_t answer = there(net->d, net->length, in_place, length, in_place, ROOM);
    expect("there, the edition", in_place[0], 3 - s[0]);
    expect("and back", back(net->d, net->length, in_place, (size_t)answer, in_place, ROOM), (int64_t)length);
    expect("and back, other bytes", memcmp(in_place, s, length) != 0, 0);
}

/* Writes the fresh state of the net in this edition. */
static size_t fresh_in(uint32_t edition, const Net *net, uint8_t s[ROOM]) {
    int64_t length = fresh(net->d, net->length, s, ROOM);
    if (edition == 2) length = sparse(net->d, net->length, s, (size_t)length, s, ROOM);
    return (size_t)length;
}

static void in_place(const Net *net, uint32_t edition) {
    uint8_t s[ROOM];
    memset(s, 0xA5, ROOM);
    size_t length = fresh_in(edition, net, s);
    for (uint32_t i = 0; i < 40 * net->events; i++) {
        uint32_t event = event_at(net, i);
        /* first with room that may be too small, and with exactly as much as the state has */
        int64_t answer = record_twice(net, s, length, event, i % length);
        if (answer < 0) answer = record_twice(net, s, length, event, length);
        if (answer < 0) answer = record_twice(net, s, length, event, ROOM);
        if (answer > 0) length = (size_t)answer;
        expect("record in place, the edition", s[0], edition);
        count_twice(net, s, length, (uint8_t)(1 + i % 8), 250000 * (i % 68), length + i % 7);
        for (int c = 0; c < CONVERSIONS; c++) convert_twice(net, c, s, length, i % 2 ? ROOM : length + 1 - i % 3);
        there_and_back(net, s, length);
    }
}

/* ---- threads */

enum { THREADS = 8, STEPS = 2000 };

/* The walk of a thread over its own events: judges and counts at a state that it shares with others, and records at one of its
 * own, which it writes again by every conversion. */
typedef struct {
    const Net *net;
    const uint8_t *shared;
    size_t length;
    uint32_t edition, start;
    int64_t answers[STEPS][4 + CONVERSIONS];
    uint8_t s[ROOM], counted[ROOM], again[CONVERSIONS][ROOM], described[LONGEST];
} Walk;

static pthread_barrier_t barrier;

static void walk(Walk *w) {
    const Net *net = w->net;
    memset(w->s, 0, ROOM);
    memset(w->counted, 0, ROOM);
    memset(w->again, 0, sizeof w->again);
    memset(w->described, 0, LONGEST);
    size_t length = fresh_in(w->edition, net, w->s);
    for (uint32_t i = 0; i < STEPS; i++) {
        uint32_t event = event_at(net, w->start + i);
        w->answers[i][0] = judge(net->d, net->length, w->shared, w->length, event);
        w->answers[i][1] = record(net->d, net->length, w->s, length, event, w->s, ROOM);
        if (w->answers[i][1] > 0) length = (size_t)w->answers[i][1];
        w->answers[i][2] = known(net->d, net->length, w->s, length);
        uint8_t places[] = {(uint8_t)(1 + i % 8), (uint8_t)(1 + event % 8)};
        w->answers[i][3] = count(net->d, net->length, w->shared, w->length, places, 2, w->start + i, w->described, LONGEST,
                                 w->counted, ROOM);
        for (int c = 0; c < CONVERSIONS; c++) {
            w->answers[i][4 + c] = conversions[c].call(net->d, net->length, w->s, length, w->again[c], ROOM);
        }
    }
}

static void *walk_thread(void *w) {
    pthread_barrier_wait(&barrier);
    walk(w);
    return NULL;
}

static void threads(const Net *net) {
    static Walk alone[THREADS], together[THREADS];
    pthread_t ids[THREADS];
    /* of each edition, for half of the threads */
    uint8_t shared[2][ROOM];
    size_t lengths[2] = {fresh_in(1, net, shared[0]), fresh_in(2, net, shared[1])};
    for (uint32_t t = 0; t < THREADS; t++) {
        uint32_t other = t % 2;
        alone[t] = (Walk){.net = net, .shared = shared[other], .length = lengths[other], .edition = 1 + other, .start = STEPS * t};
        together[t] = alone[t];
        walk(&alone[t]);
    }
    pthread_barrier_init(&barrier, NULL, THREADS);
    for (int t = 0; t < THREADS; t++) expect("pthread_create", pthread_create(&ids[t], NULL, walk_thread, &together[t]), 0);
    for (int t = 0; t < THREADS; t++) pthread_join(ids[t], NULL);
    pthread_barrier_destroy(&barrier);
    for (int t = 0; t < THREADS; t++) {
        expect("answers in a thread", memcmp(together[t].answers, alone[t].answers, sizeof alone[t].answers) != 0, 0);
        expect("the state in a thread", memcmp(together[t].s, alone[t].s, ROOM) != 0, 0);
        expect("the state counted in a thread", memcmp(together[t].counted, alone[t].counted, ROOM) != 0, 0);
        expect("the state written again in a thread", memcmp(together[t].again, alone[t].again, sizeof alone[t].again) != 0, 0);
        expect("the description in a thread", memcmp(together[t].described, alone[t].described, LONGEST) != 0, 0);
    }
}

/* ---- stack */

#ifndef WITHOUT_STACK

enum { PAINT = 0xA5, PAGE = 4096, STACK = (PTHREAD_STACK_MIN + YARROWBEAM_LARGEST_STACK + PAGE - 1) / PAGE * PAGE };

static _Alignas(PAGE) uint8_t stack[STACK];
static const Net *stack_net;
static uint8_t stack_state[ROOM], stack_out[ROOM];
static size_t stack_length, stack_used;

static int64_t call_fresh_without_room(void) { return fresh(stack_net->d, stack_net->length, stack_out, 0); }
static int64_t call_fresh(void) { return fresh(stack_net->d, stack_net->length, stack_out, ROOM); }
static int64_t call_record(void) {
    return record(stack_net->d, stack_net->length, stack_state, stack_length, 1, stack_out, ROOM);
}
static int64_t call_judge(void) { return judge(stack_net->d, stack_net->length, stack_state, stack_length, 2); }
static int64_t call_known(void) { return known(stack_net->d, stack_net->length, stack_state, stack_length); }
static int64_t count_places(size_t number) {
    static const uint8_t places[] = {8, 7, 6, 5, 4, 3, 2, 1};
    static uint8_t described[LONGEST];
    return count(stack_net->d, stack_net->length, stack_state, stack_length, places, number, 16777215, described, LONGEST,
                 stack_out, ROOM);
}
static int64_t call_count(void) { return count_places(8); }
static int64_t call_count_of_one(void) { return count_places(1); }
static int64_t call_older(void) {
    return older(stack_net->d, stack_net->length, stack_state, stack_length, stack_out, ROOM);
}
static int64_t call_dense(void) {
    return dense(stack_net->d, stack_net->length, stack_state, stack_length, stack_out, ROOM);
}
static int64_t call_sparse(void) {
    return sparse(stack_net->d, stack_net->length, stack_state, stack_length, stack_out, ROOM);
}

static int64_t (*stack_call)(void);

/* Makes the call on the painted stack, and looks how far down the paint is gone. This frame is counted too. */
static void *stack_thread(void *unused) {
    uint8_t *top = __builtin_frame_address(0);
    stack_call();
    size_t lowest = 0;
    while (stack[lowest] == PAINT) lowest++;
    stack_used = (size_t)(top - (stack + lowest));
    return unused;
}

static void stack_of(const char *name, int64_t (*call)(void), int64_t refusal) {
    pthread_attr_t attributes;
    pthread_t id;
    /* once on this stack, so that the dynamic linker has found memcpy and memset */
    int64_t answer = call();
    expect(name, answer < 0 ? answer : 0, refusal);
    memset(stack, PAINT, STACK);
    stack_call = call;
    pthread_attr_init(&attributes);
    expect("pthread_attr_setstack", pthread_attr_setstack(&attributes, stack, STACK), 0);
    expect("pthread_create", pthread_create(&id, &attributes, stack_thread, NULL), 0);
    pthread_join(id, NULL);
    pthread_attr_destroy(&attributes);
    if (stack_used > YARROWBEAM_LARGEST_STACK) {
        printf("%s used %zu bytes of stack\n", name, stack_used);
        broken = 1;
    }
}

/* On a state of this edition, in which every event was recorded, so that estimates are not 0. */
static void stacks(const Net *net, uint32_t edition, int64_t refusal_of_count) {
    stack_net = net;
    stack_length = fresh_in(edition, net, stack_state);
    for (uint32_t e = 1; e <= net->events; e++) {
        int64_t answer = record(net->d, net->length, stack_state, stack_length, e, stack_state, ROOM);
        expect("every event is possible", answer > 0, 1);
        if (answer > 0) stack_length = (size_t)answer;
    }
    stack_of("fresh without room", call_fresh_without_room, -13);
    stack_of("fresh", call_fresh, 0);
    stack_of("record", call_record, 0);
    stack_of("judge", call_judge, 0);
    stack_of("known", call_known, 0);
    stack_of("count", call_count, refusal_of_count);
    stack_of("count of one place", call_count_of_one, refusal_of_count);
    stack_of("older", call_older, 0);
    stack_of("dense", call_dense, 0);
    stack_of("sparse", call_sparse, 0);
}

#else

static void stacks(const Net *net, uint32_t edition, int64_t refusal_of_count) { (void)net, (void)edition, (void)refusal_of_count; }

#endif

int main(void) {
    static Net nets[3];
    make_pool_of(&nets[0], 3);
    make_deep(&nets[1], 0);
    make_deep(&nets[2], 1);
    order();
    order_in_states();
    for (uint32_t edition = 1; edition <= 2; edition++) {
        order_of_count(edition);
        for (int c = 0; c < CONVERSIONS; c++) order_of_conversion(c, edition);
    }
    null_pointers();
    null_pointers_of_count();
    one_worker_at_one_place();
    count_of_one_place();
    editions_of_pool();
    editions_of_nested();
    largest_state();
    for (int i = 0; i < 3; i++) {
        uint8_t s[ROOM];
        expect("the net is good", fresh(nets[i].d, nets[i].length, s, ROOM) > 0, 1);
        threads(&nets[i]);
        for (uint32_t edition = 1; edition <= 2; edition++) {
            in_place(&nets[i], edition);
            /* the last net alone has loose places */
            stacks(&nets[i], edition, i == 2 ? 0 : -14);
        }
    }
    return broken;
}
