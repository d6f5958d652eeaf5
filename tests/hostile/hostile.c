/* hostile [STORES] [SEED] [FIRST] [ROOM] [CALLS]: draws stores of right shape with any words, and more of wrong shape, and gives each to every
   function of amzighrod.h in turn. Each call must end, touch what it is lent alone, answer a number that it can, and change nothing where it
   refuses. STORES 1,000,000, SEED 1, FIRST 0 (the number of the first store: a store goes by the seed and its number alone), ROOM the largest
   room for entries. CALLS: a file to which each call is described, for visits.py. Stops at the first failure and exits with 1. */
#define _GNU_SOURCE
#include "hostile.h"

#include <fcntl.h>
#include <signal.h>
#include <stdio.h>
#include <stdlib.h>
#include <string.h>
#include <sys/time.h>
#include <unistd.h>

enum { DRAWN_CALLS = 16, WRONG = 16, LARGEST = 16384, NUMBERS = AMZIGHROD_NO_VALUE + 1 };

static const char *const names[CALLS] = {"check", "fresh", "get", "set", "next", "length", "reserve"};

/* What is under way, for a message where it faults or runs on. */
static size_t number;
static uint64_t seeded, calls, limit;
static volatile enum call running = CALLS;
static int calls_file = -1;
/* Answers by number; and how many calls left fewer entries than there were, which takes entries out of the index and places others again, and
   how many a larger array. */
static uint64_t tally[CALLS][NUMBERS], fewer, larger;

/* A write to it begins and ends each call in a memory trace: visits.py. */
volatile uint64_t marker;

/* The archive needs memset and nothing else. This one writes each byte once, so that a trace counts each word once. */
void *memset(void *to, int byte, size_t n) {
    void *at = to;
    __asm__ volatile("rep stosb" : "+D"(at), "+c"(n) : "a"(byte) : "memory");
    return to;
}

static void failed(const char *what) {
    printf("FAILED: %s, in %s: store %zu of seed %llu\n", what, running < CALLS ? names[running] : "the harness", number, (unsigned long long)seeded);
    fflush(stdout);
    _exit(1);
}

static void on_fault(int signal) { failed(signal == SIGSEGV || signal == SIGBUS ? "an access that faults" : "a trap"); }

/* Each second of processor time: a call may take two, and 10 ns for each word of its bound. */
static void on_tick(int signal) {
    static uint64_t at, ticks;
    (void)signal;
    ticks = running < CALLS && at == calls ? ticks + 1 : 0;
    at = calls;
    if (ticks > 2 + limit / 100000000)
        failed("it runs on");
}

static void watch(void) {
    const struct itimerval second = {{1, 0}, {1, 0}};
    static const int faults[] = {SIGSEGV, SIGBUS, SIGILL, SIGFPE, SIGTRAP, SIGABRT};
    for (size_t i = 0; i < sizeof faults / sizeof *faults; i++)
        signal(faults[i], on_fault);
    signal(SIGPROF, on_tick);
    /* not in a trace, where the handler's own accesses would count as a call's */
    if (calls_file < 0 && setitimer(ITIMER_PROF, &second, NULL) != 0)
        quit("setitimer");
}

/* What a call is passed beside the store. */
struct passed {
    struct value key, v;
    size_t n;
};

static bool writes(enum call c) { return c == FRESH || c == SET || c == RESERVE; }

/* A bit for each out pointer that a call is passed. */
static unsigned outs_of(enum call c) {
    const unsigned value = 1u << KIND | 1u << PAYLOAD, key = 1u << KEYKIND | 1u << KEYPAYLOAD, record = ((1u << SIZES) - 1) << RECORD;
    const unsigned outs[CALLS] = {
        [FRESH] = record, [GET] = value, [SET] = value | record, [NEXT] = value | key, [LENGTH] = 1u << BORDER, [RESERVE] = record};
    return outs[c];
}

static void describe(enum call c, const struct store *s, enum way way, const void *frame, const uint64_t bounds[SLICES]) {
    uint64_t line[4 + 3 * SLICES + OUTS] = {number, calls, c, (uintptr_t)frame}, *at = line + 4;
    for (int i = 0; i < SLICES; i++)
        *at++ = (uintptr_t)lent(s, i, way), *at++ = bytes_of(s, i), *at++ = bounds[i];
    for (int i = 0; i < OUTS; i++)
        *at++ = outs_of(c) >> i & 1 ? (uintptr_t)out[i] : 0;
    if (write(calls_file, line, sizeof line) != sizeof line)
        quit("write");
}

static void begin(enum call c, const struct store *s, enum way way, const void *frame) {
    uint64_t bounds[SLICES];
    bound_of(c, s, way != HIDDEN, bounds);
    limit = bounds[ARRAY] + bounds[ENTRIES] + bounds[INDEX];
    calls++;
    if (calls_file >= 0)
        describe(c, s, way, frame, bounds);
    running = c;
}

/* A barrier, so that nothing else is loaded between the two writes about a call: what it is passed is in registers and on the stack by then. */
static inline void mark_call(void) {
    __asm__ volatile("" ::: "memory");
    marker = 1;
    __asm__ volatile("" ::: "memory");
}

static __attribute__((noinline)) uint8_t call(enum call c, const struct store *s, enum way way, const struct passed *p) {
    uint64_t *array = lent(s, ARRAY, way), *entries = lent(s, ENTRIES, way);
    uint16_t *index = lent(s, INDEX, way);
    const size_t an = s->words[ARRAY], en = s->words[ENTRIES], in = s->words[INDEX], n = p->n;
    const size_t A = s->record[SIZE], M = s->record[ALLOWANCE], E = s->record[COUNT];
    const struct value key = p->key, v = p->v;
    uint64_t *kind = out[KIND], *payload = out[PAYLOAD], *keykind = out[KEYKIND], *keypayload = out[KEYPAYLOAD], *border = out[BORDER];
    size_t *pa = out[RECORD + SIZE], *pm = out[RECORD + ALLOWANCE], *pe = out[RECORD + COUNT];
    uint8_t answer = 0;
    begin(c, s, way, __builtin_frame_address(0));
    mark_call();
    switch (c) {
    case CHECK: answer = amzighrod_check(array, an, entries, en, index, in, A, M, E); break;
    case FRESH: answer = amzighrod_fresh(array, an, entries, en, index, in, pa, pm, pe); break;
    case GET: answer = amzighrod_get(array, an, entries, en, index, in, A, M, E, key.kind, key.payload, kind, payload); break;
    case SET:
        answer = amzighrod_set(array, an, entries, en, index, in, pa, pm, pe, key.kind, key.payload, v.kind, v.payload, kind, payload);
        break;
    case NEXT: answer = amzighrod_next(array, an, entries, en, index, in, A, M, E, keykind, keypayload, kind, payload); break;
    case LENGTH: answer = amzighrod_length(array, an, entries, en, index, in, A, M, E, border); break;
    default: answer = amzighrod_reserve(array, an, entries, en, index, in, pa, pm, pe, n);
    }
    mark_call();
    running = CALLS;
    return answer;
}

static void pass(const struct store *s, struct value key) {
    *out[KIND] = *out[PAYLOAD] = *out[BORDER] = 0xC3C3C3C3C3C3C3C3;
    *out[KEYKIND] = key.kind, *out[KEYPAYLOAD] = key.payload;
    for (int i = 0; i < SIZES; i++)
        *out[RECORD + i] = s->record[i];
}

static void take_record(struct store *s) {
    for (int i = 0; i < SIZES; i++)
        s->record[i] = *out[RECORD + i];
}

/* A sound store has as many used index words as entries. */
static bool may_be_sound(const struct store *s) {
    const uint16_t *index = own(s, INDEX);
    size_t used = 0;
    for (size_t i = 0; i < s->words[INDEX]; i++)
        used += index[i] != 0;
    return used == s->record[COUNT];
}

/* The number that a call answers before it looks at a word, for the shape first and then for words passed that are no value's; else 0. */
static uint8_t refused_unseen(enum call c, const struct store *s, const struct passed *p) {
    if (!(c == FRESH ? right_lengths(s) : right_shape(s)))
        return AMZIGHROD_WRONG_SHAPE;
    if ((c == GET || c == SET || c == NEXT) && !decodes(p->key))
        return AMZIGHROD_NO_VALUE;
    return c == SET && !decodes(p->v) ? AMZIGHROD_NO_VALUE : 0;
}

/* Whether a call may answer this number where the shape is right and the words passed are values'. */
static bool may_answer(enum call c, const struct store *s, struct value key, uint8_t answer) {
    switch (c) {
    case CHECK: return answer == 1 ? may_be_sound(s) : answer == 0 && !s->sound;
    case SET:
        if (key.kind == AMZIGHROD_NIL)
            return answer == AMZIGHROD_KEY_IS_NIL;
        if (is_nan(key))
            return answer == AMZIGHROD_KEY_IS_NAN;
        return answer == AMZIGHROD_DONE || answer == AMZIGHROD_NO_ROOM;
    case NEXT: return is_nan(key) ? answer == AMZIGHROD_NOT_FOUND : answer <= AMZIGHROD_NOT_FOUND;
    case RESERVE: return answer == AMZIGHROD_DONE || answer == AMZIGHROD_NO_ROOM;
    default: return answer == AMZIGHROD_DONE;
    }
}

static bool all_zero(const struct store *s) {
    for (int i = 0; i < SLICES; i++) {
        const unsigned char *bytes = own(s, i);
        const size_t n = bytes_of(s, i);
        if (n && (bytes[0] != 0 || memcmp(bytes, bytes + 1, n - 1) != 0))
            return false;
    }
    return true;
}

/* What the header says of what a call leaves. Slices that are lent to be read, or are out of reach, cannot have changed. */
static void hold(enum call c, const struct store *s, enum way way, const struct passed *p, uint8_t answer) {
    const bool done = c != CHECK && answer == AMZIGHROD_DONE;
    const struct value key = p->key;
    running = c;
    if (way == HIDDEN ? answer != (c == CHECK ? 0 : refused_unseen(c, s, p)) : !may_answer(c, s, key, answer))
        failed("an answer that it has not");
    if (!outs_unchanged(done ? outs_of(c) : 0) || !beside_outs_unchanged())
        failed("a word written beside the answer, or on a refusal");
    if (way == WRITE && !done && !slices_unchanged(s))
        failed("a refusal that changes a word");
    if (way == WRITE && !margins_unchanged(s))
        failed("a byte beside a slice changed");
    if (c == FRESH && done && !all_zero(s))
        failed("a fresh store with a word that is not 0");
    if (c == GET && done && (key.kind == AMZIGHROD_NIL || is_nan(key)) && (*out[KIND] || *out[PAYLOAD]))
        failed("a value under no key");
    running = CALLS;
}

/* A call, and what must hold of it. */
static uint8_t ask(enum call c, struct store *s, const struct passed *p) {
    const enum way way = refused_unseen(c, s, p) ? HIDDEN : writes(c) ? WRITE : READ;
    pass(s, p->key);
    remember_outs();
    if (way == WRITE)
        remember_slices(s);
    const uint8_t answer = call(c, s, way, p);
    hold(c, s, way, p, answer);
    tally[c][answer]++;
    if (c == CHECK && answer)
        s->sound = true; /* from here on it must stay so */
    if (way != WRITE)
        return answer;
    fewer += c != FRESH && *out[RECORD + COUNT] < s->record[COUNT];
    larger += *out[RECORD + SIZE] > s->record[SIZE];
    take_record(s);
    s->sound |= c == FRESH;
    running = c;
    if (!right_shape(s))
        failed("a record of wrong shape left");
    running = CALLS;
    return answer;
}

static const struct passed none;

void build_fresh(struct store *s) { ask(FRESH, s, &none); }

void build_check(struct store *s) { ask(CHECK, s, &none); }

/* Not counted, nor described: its words are a sound store's. */
void build_set(struct store *s, struct value key, struct value v) {
    pass(s, key);
    running = SET;
    amzighrod_set(lent(s, ARRAY, WRITE), s->words[ARRAY], lent(s, ENTRIES, WRITE), s->words[ENTRIES], lent(s, INDEX, WRITE), s->words[INDEX],
                  out[RECORD + SIZE], out[RECORD + ALLOWANCE], out[RECORD + COUNT], key.kind, key.payload, v.kind, v.payload, out[KIND],
                  out[PAYLOAD]);
    running = CALLS;
    take_record(s);
}

/* The key of a next is often the one that the last left. */
static void ask_any(struct store *s) {
    static const enum call among[] = {GET, GET, GET, NEXT, NEXT, NEXT, NEXT, LENGTH, SET, SET, SET, SET, SET, SET, RESERVE, RESERVE};
    const enum call c = among[below(sizeof among / sizeof *among)];
    const struct value last = {*out[KEYKIND], *out[KEYPAYLOAD]};
    struct passed p = {any_value(s), any_value(s), any_reserve(s)};
    if (c == NEXT && below(2))
        p.key = last;
    ask(c, s, &p);
    if (s->sound && writes(c))
        ask(CHECK, s, &none);
}

static void ask_check(struct store *s) {
    if (ask(CHECK, s, &none) != ask(CHECK, s, &none))
        failed("two answers of the check");
}

static void ask_all(struct store *s) {
    ask_check(s);
    for (int i = 0; i < DRAWN_CALLS; i++)
        ask_any(s);
    ask_check(s);
    ask(FRESH, s, &none);
    ask(CHECK, s, &none);
}

static void report(uint64_t stores, uint64_t wrong) {
    for (int c = 0; c < CALLS; c++) {
        printf("%-8s", names[c]);
        for (int i = 0; i < NUMBERS; i++)
            if (tally[c][i])
                printf("  %d: %llu", i, (unsigned long long)tally[c][i]);
        printf("%s\n", c == CHECK ? "  (0 no, 1 yes)" : "");
    }
    printf("%llu sets and reserves left fewer entries than there were, %llu a larger array\n", (unsigned long long)fewer, (unsigned long long)larger);
    printf("%llu stores of right shape of seed %llu, %llu of wrong shape; %llu calls, none failed\n", (unsigned long long)stores,
           (unsigned long long)seeded, (unsigned long long)wrong, (unsigned long long)calls);
}

int main(int argc, char **argv) {
    const uint64_t stores = argc > 1 ? strtoull(argv[1], NULL, 10) : 1000000, first = argc > 3 ? strtoull(argv[3], NULL, 10) : 0;
    const size_t room = argc > 4 ? strtoull(argv[4], NULL, 10) : ENTRY_LIMIT;
    uint64_t wrong = 0;
    seeded = argc > 2 ? strtoull(argv[2], NULL, 10) : 1;
    if (argc > 5 && (calls_file = open(argv[5], O_WRONLY | O_CREAT | O_TRUNC, 0666)) < 0)
        quit(argv[5]);
    make_pages();
    watch();
    for (number = first; number < first + stores; number++) {
        struct store s = {0};
        seed(seeded * 0xD1342543DE82EF95 + number);
        seed(draw());
        draw_store(&s, room, room == ENTRY_LIMIT && number % LARGEST == LARGEST / 2);
        ask_all(&s);
        if (below(WRONG) == 0) {
            wrong++;
            draw_store(&s, room, false);
            spoil_shape(&s);
            ask_all(&s);
        }
    }
    report(stores, wrong);
    return 0;
}
