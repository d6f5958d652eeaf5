/* Fragments of a datagram, keyed by their offset, in memory that this program lends: reassembled, cleared while walking, and refused when
   room ends. Writes examples/reassemble.out. From the repository's root, after `tools/make host`:
       gcc -std=c11 -Ibindings/c examples/reassemble.c target/staticlib/libhost.a -o target/reassemble && target/reassemble */
#include "amzighrod.h"

#include <inttypes.h>
#include <stdio.h>
#include <string.h>

/* Room for 4 values and 4 entries, and the record beside it. */
struct table {
    uint64_t array[8], entries[16];
    uint16_t index[8];
    size_t size, allowance, count;
};

#define SLICES(t) (t)->array, 8, (t)->entries, 16, (t)->index, 8
#define READ(t) SLICES(t), (t)->size, (t)->allowance, (t)->count
#define WRITE(t) SLICES(t), &(t)->size, &(t)->allowance, &(t)->count

struct value {
    uint64_t kind, payload;
};

static const struct value nil = {AMZIGHROD_NIL, 0};

static struct value integer(int64_t n) { return (struct value){AMZIGHROD_INTEGER, (uint64_t)n}; }

static struct value number(double x) {
    struct value v = {AMZIGHROD_NUMBER, 0};
    memcpy(&v.payload, &x, sizeof x);
    return v;
}

/* What the host keeps of a fragment; a table holds its place in this list as a handle. */
static const struct {
    const char *text;
    int64_t bytes;
} fragments[] = {{"", 0}, {"header", 1480}, {"tail", 60}, {"middle", 1480}, {"middle again", 1480}};

static struct value fragment(uint64_t handle) { return (struct value){AMZIGHROD_STRING, handle}; }

static struct value get(const struct table *t, struct value key) {
    struct value v = nil;
    amzighrod_get(READ(t), key.kind, key.payload, &v.kind, &v.payload);
    return v;
}

static uint8_t set(struct table *t, struct value key, struct value v, struct value *previous) {
    return amzighrod_set(WRITE(t), key.kind, key.payload, v.kind, v.payload, &previous->kind, &previous->payload);
}

static void arrive(struct table *t, const char *offset, struct value key, uint64_t handle) {
    struct value previous = nil;
    uint8_t refused = set(t, key, fragment(handle), &previous);
    if (refused != AMZIGHROD_DONE)
        printf("%s %s: refused %d\n", offset, fragments[handle].text, refused);
    else if (previous.kind != AMZIGHROD_NIL)
        printf("%s %s: in the place of %s\n", offset, fragments[handle].text, fragments[previous.payload].text);
    else
        printf("%s %s\n", offset, fragments[handle].text);
}

static void reassemble(const struct table *t) {
    int64_t offset = 0;
    printf("reassembled:");
    for (struct value v = get(t, integer(0)); v.kind != AMZIGHROD_NIL; v = get(t, integer(offset))) {
        printf(" [%s]", fragments[v.payload].text);
        offset += fragments[v.payload].bytes;
    }
    printf(" %" PRId64 " bytes\n", offset);
}

/* A walk starts at Nil; next writes each pair's key over the last. */
static void clear(struct table *t) {
    struct value key = nil, v = nil, previous = nil;
    while (amzighrod_next(READ(t), &key.kind, &key.payload, &v.kind, &v.payload) == AMZIGHROD_FOUND) {
        set(t, key, nil, &previous);
        printf("cleared %" PRId64 " %s\n", (int64_t)key.payload, fragments[v.payload].text);
    }
}

/* New offsets until there is no room. */
static void fill(struct table *t) {
    struct value previous = nil;
    uint8_t refused = AMZIGHROD_DONE;
    int64_t n = 0;
    while (refused == AMZIGHROD_DONE)
        refused = set(t, integer(10000 + 1480 * n++), fragment(1), &previous);
    printf("new fragment %" PRId64 ": refused %d, %zu entries, %s\n", n, refused, t->count, amzighrod_check(READ(t)) ? "sound" : "unsound");
}

int main(void) {
    struct table t;
    if (amzighrod_fresh(WRITE(&t)) != AMZIGHROD_DONE)
        return 1;
    arrive(&t, "0", integer(0), 1);
    arrive(&t, "2960", integer(2960), 2);
    arrive(&t, "1480", integer(1480), 3);
    arrive(&t, "1480.0", number(1480.0), 4);
    arrive(&t, "nil", nil, 1);
    reassemble(&t);
    clear(&t);
    reassemble(&t);
    fill(&t);
    return 0;
}
