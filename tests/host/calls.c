/* Every function of amzighrod.h with each number it can return, by what it leaves: the lent words, guard words around them, the record and the
   answer's variables. Writes a line for each test that fails; the exit status says whether any did. */
#include "amzighrod.h"

#include <stdio.h>
#include <string.h>

enum { GUARDS = 4, VALUES = 4, ENTRIES = 4, ARRAY = 2 * VALUES, ENTRY = 4 * ENTRIES, INDEX = 2 * ENTRIES };

struct value {
    uint64_t kind, payload;
};

/* Slices with guard words on both sides, their lengths as they are passed, and what a call answers through pointers. No padding, so that two
   of them can be compared byte for byte. */
struct lent {
    uint64_t array[GUARDS + ARRAY + GUARDS];
    uint64_t entries[GUARDS + ENTRY + GUARDS];
    uint16_t index[GUARDS + INDEX + GUARDS];
    size_t arraywords, entrywords, indexwords, size, allowance, count;
    struct value key, answer;
    uint64_t border;
};

#define SLICES(t) (t)->array + GUARDS, (t)->arraywords, (t)->entries + GUARDS, (t)->entrywords, (t)->index + GUARDS, (t)->indexwords
#define READ(t) SLICES(t), (t)->size, (t)->allowance, (t)->count
#define WRITE(t) SLICES(t), &(t)->size, &(t)->allowance, &(t)->count

static const struct value nil = {AMZIGHROD_NIL, 0}, yes = {AMZIGHROD_BOOLEAN, 1};
static const struct value nan_key = {AMZIGHROD_NUMBER, 0x7FF8000000000000}, float_1480 = {AMZIGHROD_NUMBER, 0x4097200000000000};
/* Words that are no value's: a kind above 9, a Nil with a payload, a Boolean above 1. */
static const struct value no_values[] = {{AMZIGHROD_USERDATA + 1, 0}, {UINT64_MAX, 1}, {AMZIGHROD_NIL, 1}, {AMZIGHROD_NIL, UINT64_MAX},
                                         {AMZIGHROD_BOOLEAN, 2}, {AMZIGHROD_BOOLEAN, UINT64_MAX}};
enum { NO_VALUES = sizeof no_values / sizeof *no_values };
static int tests, failures;

#define EXPECT(right) expect((right), #right, __LINE__)

static void expect(bool right, const char *what, int line) {
    tests++;
    if (!right) {
        failures++;
        printf("calls.c, line %d: not so: %s\n", line, what);
    }
}

static struct value integer(int64_t n) { return (struct value){AMZIGHROD_INTEGER, (uint64_t)n}; }

static struct value string(uint64_t handle) { return (struct value){AMZIGHROD_STRING, handle}; }

static bool same(struct value a, struct value b) { return a.kind == b.kind && a.payload == b.payload; }

static bool unchanged(const struct lent *a, const struct lent *b) { return memcmp(a, b, sizeof *a) == 0; }

/* Every byte another than 0, as no call leaves it. */
static struct lent marked(void) {
    struct lent t;
    memset(&t, 0xA5, sizeof t);
    t.arraywords = ARRAY, t.entrywords = ENTRY, t.indexwords = INDEX;
    return t;
}

/* Whether the guard words are as they were marked. */
static bool guarded(const struct lent *t) {
    const struct lent m = marked();
    const size_t words = GUARDS * sizeof *t->array, shorts = GUARDS * sizeof *t->index;
    return memcmp(t->array, m.array, words) == 0 && memcmp(t->array + GUARDS + ARRAY, m.array, words) == 0 &&
           memcmp(t->entries, m.entries, words) == 0 && memcmp(t->entries + GUARDS + ENTRY, m.entries, words) == 0 &&
           memcmp(t->index, m.index, shorts) == 0 && memcmp(t->index + GUARDS + INDEX, m.index, shorts) == 0;
}

static uint8_t set(struct lent *t, struct value key, struct value v) {
    return amzighrod_set(WRITE(t), key.kind, key.payload, v.kind, v.payload, &t->answer.kind, &t->answer.payload);
}

static uint8_t get(struct lent *t, struct value key) {
    return amzighrod_get(READ(t), key.kind, key.payload, &t->answer.kind, &t->answer.payload);
}

static uint8_t next(struct lent *t) {
    return amzighrod_next(READ(t), &t->key.kind, &t->key.payload, &t->answer.kind, &t->answer.payload);
}

/* A store with four Strings, which is full but for the array. */
static struct lent full(void) {
    struct lent t = marked();
    EXPECT(amzighrod_fresh(WRITE(&t)) == AMZIGHROD_DONE);
    for (uint64_t h = 1; h <= ENTRIES; h++)
        EXPECT(set(&t, string(h), yes) == AMZIGHROD_DONE && same(t.answer, nil));
    EXPECT(guarded(&t) && amzighrod_check(READ(&t)));
    return t;
}

static void test_fresh(void) {
    static const uint64_t zeros[ENTRY];
    struct lent t = marked();
    EXPECT(amzighrod_fresh(WRITE(&t)) == AMZIGHROD_DONE);
    EXPECT(memcmp(t.array + GUARDS, zeros, ARRAY * sizeof *t.array) == 0);
    EXPECT(memcmp(t.entries + GUARDS, zeros, ENTRY * sizeof *t.entries) == 0);
    EXPECT(memcmp(t.index + GUARDS, zeros, INDEX * sizeof *t.index) == 0);
    EXPECT(t.size == 0 && t.allowance == 0 && t.count == 0 && guarded(&t) && amzighrod_check(READ(&t)));
}

/* What holds of every call where the shape is wrong: 4, whatever words are passed, and nothing is changed; the check says no. */
static void expect_wrong_shape(const struct lent *wrong) {
    struct lent t = *wrong;
    EXPECT(get(&t, string(1)) == AMZIGHROD_WRONG_SHAPE);
    EXPECT(set(&t, nil, nil) == AMZIGHROD_WRONG_SHAPE);
    EXPECT(set(&t, string(1), nil) == AMZIGHROD_WRONG_SHAPE);
    EXPECT(next(&t) == AMZIGHROD_WRONG_SHAPE);
    EXPECT(amzighrod_length(READ(&t), &t.border) == AMZIGHROD_WRONG_SHAPE);
    EXPECT(amzighrod_reserve(WRITE(&t), 0) == AMZIGHROD_WRONG_SHAPE);
    EXPECT(!amzighrod_check(READ(&t)));
    EXPECT(unchanged(&t, wrong));
    for (int i = 0; i < NO_VALUES; i++) {
        struct lent junk = *wrong, before;
        junk.key = no_values[i], before = junk;
        EXPECT(get(&junk, no_values[i]) == AMZIGHROD_WRONG_SHAPE);
        EXPECT(set(&junk, no_values[i], yes) == AMZIGHROD_WRONG_SHAPE);
        EXPECT(set(&junk, string(1), no_values[i]) == AMZIGHROD_WRONG_SHAPE);
        EXPECT(next(&junk) == AMZIGHROD_WRONG_SHAPE);
        EXPECT(unchanged(&junk, &before));
    }
}

static void test_wrong_lengths(void) {
    static const size_t lengths[][3] = {{ARRAY - 1, ENTRY, INDEX}, {ARRAY, ENTRY - 2, INDEX}, {ARRAY, ENTRY, INDEX - 1},
                                        {ARRAY, ENTRY, INDEX / 2}, {ARRAY, ENTRY, 0},         {ARRAY, 0, 1}};
    for (size_t i = 0; i < sizeof lengths / sizeof *lengths; i++) {
        struct lent t = full(), before;
        t.arraywords = lengths[i][0], t.entrywords = lengths[i][1], t.indexwords = lengths[i][2];
        expect_wrong_shape(&t);
        before = t;
        EXPECT(amzighrod_fresh(WRITE(&t)) == AMZIGHROD_WRONG_SHAPE && unchanged(&t, &before));
    }
}

static void test_wrong_records(void) {
    static const size_t records[][3] = {{VALUES + 1, 4, 4}, {0, ENTRIES + 1, 4}, {0, 3, 4}, {0, 4, 5}, {SIZE_MAX, 4, 4}, {0, SIZE_MAX, SIZE_MAX}};
    for (size_t i = 0; i < sizeof records / sizeof *records; i++) {
        struct lent t = full();
        t.size = records[i][0], t.allowance = records[i][1], t.count = records[i][2];
        expect_wrong_shape(&t);
    }
}

static void test_check(void) {
    struct lent t = full(), other = t;
    other.size = 3; /* right shape, no power of two */
    EXPECT(!amzighrod_check(READ(&other)));
    other = t, other.array[GUARDS] = 1;
    EXPECT(!amzighrod_check(READ(&other)));
    other = t, other.entries[GUARDS] = 10;
    EXPECT(!amzighrod_check(READ(&other)));
    other = t, other.index[GUARDS] ^= 1;
    EXPECT(!amzighrod_check(READ(&other)) && amzighrod_check(READ(&t)));
}

static void test_refused_sets(void) {
    const struct {
        struct value key, v;
        uint8_t refused;
    } calls[] = {{nil, yes, AMZIGHROD_KEY_IS_NIL}, {nil, nil, AMZIGHROD_KEY_IS_NIL}, {nan_key, yes, AMZIGHROD_KEY_IS_NAN},
                 {nan_key, nil, AMZIGHROD_KEY_IS_NAN}, {string(5), yes, AMZIGHROD_NO_ROOM}, {integer(0), yes, AMZIGHROD_NO_ROOM},
                 {float_1480, yes, AMZIGHROD_NO_ROOM}};
    for (size_t i = 0; i < sizeof calls / sizeof *calls; i++) {
        struct lent t = full(), before;
        t.answer = string(77);
        before = t;
        EXPECT(set(&t, calls[i].key, calls[i].v) == calls[i].refused && unchanged(&t, &before));
    }
}

/* Words that are no value's, as a key or a value: 15 before every other refusal but that of the shape, and nothing is changed. */
static void expect_no_values(struct lent t) {
    const struct value others[] = {string(1), string(2), string(5), integer(0), float_1480, integer(1), nil, nan_key};
    struct lent before;
    t.answer = string(77);
    for (int i = 0; i < NO_VALUES; i++) {
        const struct value junk = no_values[i];
        t.key = junk, before = t;
        EXPECT(get(&t, junk) == AMZIGHROD_NO_VALUE && unchanged(&t, &before));
        EXPECT(next(&t) == AMZIGHROD_NO_VALUE && unchanged(&t, &before));
        EXPECT(set(&t, junk, junk) == AMZIGHROD_NO_VALUE && unchanged(&t, &before));
        for (size_t k = 0; k < sizeof others / sizeof *others; k++) {
            EXPECT(set(&t, junk, others[k]) == AMZIGHROD_NO_VALUE && unchanged(&t, &before));
            EXPECT(set(&t, others[k], junk) == AMZIGHROD_NO_VALUE && unchanged(&t, &before));
        }
    }
}

/* In a store with no room for a new key, and in one where it would take the place of a cleared one; and the words next to them are values'. */
static void test_no_values(void) {
    const struct value limits[] = {nil, {AMZIGHROD_BOOLEAN, 0}, yes, {AMZIGHROD_NUMBER, UINT64_MAX}, {AMZIGHROD_USERDATA, UINT64_MAX}};
    struct lent t = full();
    expect_no_values(t);
    EXPECT(set(&t, string(2), nil) == AMZIGHROD_DONE);
    expect_no_values(t);
    for (size_t i = 0; i < sizeof limits / sizeof *limits; i++) {
        EXPECT(get(&t, limits[i]) == AMZIGHROD_DONE && same(t.answer, nil));
        EXPECT(set(&t, string(1), limits[i]) == AMZIGHROD_DONE && get(&t, string(1)) == AMZIGHROD_DONE && same(t.answer, limits[i]));
    }
    EXPECT(guarded(&t) && amzighrod_check(READ(&t)));
}

static void test_sets_and_gets(void) {
    struct lent t = full();
    EXPECT(set(&t, string(2), string(9)) == AMZIGHROD_DONE && same(t.answer, yes));
    EXPECT(set(&t, integer(1), nan_key) == AMZIGHROD_DONE && same(t.answer, nil) && t.size == 1);
    EXPECT(get(&t, string(2)) == AMZIGHROD_DONE && same(t.answer, string(9)));
    EXPECT(get(&t, integer(1)) == AMZIGHROD_DONE && same(t.answer, nan_key));
    EXPECT(get(&t, string(5)) == AMZIGHROD_DONE && same(t.answer, nil));
    t.answer = yes;
    EXPECT(get(&t, nil) == AMZIGHROD_DONE && same(t.answer, nil));
    t.answer = yes;
    EXPECT(get(&t, nan_key) == AMZIGHROD_DONE && same(t.answer, nil));
    EXPECT(set(&t, string(1), nil) == AMZIGHROD_DONE && same(t.answer, yes));
    EXPECT(set(&t, float_1480, string(3)) == AMZIGHROD_DONE && same(t.answer, nil));
    EXPECT(get(&t, integer(1480)) == AMZIGHROD_DONE && same(t.answer, string(3)));
    EXPECT(set(&t, integer(1480), nil) == AMZIGHROD_DONE && same(t.answer, string(3)));
    EXPECT(guarded(&t) && amzighrod_check(READ(&t)));
}

static void test_next(void) {
    struct lent t = full(), before;
    EXPECT(set(&t, string(2), nil) == AMZIGHROD_DONE);
    t.key = nil;
    EXPECT(next(&t) == AMZIGHROD_FOUND && same(t.key, string(1)) && same(t.answer, yes));
    EXPECT(next(&t) == AMZIGHROD_FOUND && same(t.key, string(3)));
    EXPECT(set(&t, string(3), nil) == AMZIGHROD_DONE);
    EXPECT(next(&t) == AMZIGHROD_FOUND && same(t.key, string(4)));
    t.answer = string(77), before = t;
    EXPECT(next(&t) == AMZIGHROD_LAST && unchanged(&t, &before));
    t.key = string(5), before = t;
    EXPECT(next(&t) == AMZIGHROD_NOT_FOUND && unchanged(&t, &before));
    t.key = nan_key, before = t;
    EXPECT(next(&t) == AMZIGHROD_NOT_FOUND && unchanged(&t, &before));
}

static void test_length(void) {
    struct lent t = full();
    EXPECT(amzighrod_length(READ(&t), &t.border) == AMZIGHROD_DONE && t.border == 0);
    EXPECT(set(&t, integer(1), yes) == AMZIGHROD_DONE && set(&t, integer(2), yes) == AMZIGHROD_DONE);
    EXPECT(amzighrod_length(READ(&t), &t.border) == AMZIGHROD_DONE && t.border == 2);
}

static void test_reserve(void) {
    struct lent t = full(), before = t;
    EXPECT(amzighrod_reserve(WRITE(&t), 0) == AMZIGHROD_DONE && unchanged(&t, &before));
    EXPECT(amzighrod_reserve(WRITE(&t), 1) == AMZIGHROD_NO_ROOM && unchanged(&t, &before));
    EXPECT(amzighrod_reserve(WRITE(&t), SIZE_MAX) == AMZIGHROD_NO_ROOM && unchanged(&t, &before));
    EXPECT(set(&t, string(1), nil) == AMZIGHROD_DONE);
    EXPECT(amzighrod_reserve(WRITE(&t), 1) == AMZIGHROD_DONE && t.count == 3 && t.allowance == 4);
    EXPECT(guarded(&t) && amzighrod_check(READ(&t)));
}

/* Sets of all sorts in turn: the store stays sound, a refusal changes nothing, and no guard word is touched. */
static void test_many_sets(void) {
    struct lent t = full(), before;
    uint64_t x = 88172645463325252u, refusals = 0;
    for (int i = 0; i < 20000; i++) {
        x ^= x << 13, x ^= x >> 7, x ^= x << 17;
        struct value key = x % 2 ? string(x / 16 % 8) : integer((int64_t)(x / 16 % 8));
        before = t;
        uint8_t refused = set(&t, key, x / 2 % 8 < 3 ? nil : integer(i));
        EXPECT(refused == AMZIGHROD_DONE || (refused == AMZIGHROD_NO_ROOM && unchanged(&t, &before)));
        EXPECT(guarded(&t) && amzighrod_check(READ(&t)));
        refusals += refused == AMZIGHROD_NO_ROOM;
    }
    EXPECT(refusals > 100);
}

int main(void) {
    test_fresh();
    test_wrong_lengths();
    test_wrong_records();
    test_check();
    test_refused_sets();
    test_no_values();
    test_sets_and_gets();
    test_next();
    test_length();
    test_reserve();
    test_many_sets();
    printf("%d tests, %d failed\n", tests, failures);
    return failures != 0;
}
