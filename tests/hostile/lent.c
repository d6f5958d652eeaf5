/* Memory as it is lent. The pages of a slice are mapped four times: for the harness, and for the calls with a page that faults on either
   side, once to read, once to write, once out of reach. A slice starts just after the one guard page or ends just before the other; on its
   open side a margin of bytes is compared. Each out pointer has a page of its own, also between guards. */
#define _GNU_SOURCE
#include "hostile.h"

#include <stdio.h>
#include <stdlib.h>
#include <string.h>
#include <sys/mman.h>
#include <unistd.h>

/* Some more than the limits, so that lengths above them are really there. */
static const size_t room[SLICES] = {1048576 + 16 * PAGE, 1048576 + 16 * PAGE, 262144};
static const size_t width[SLICES] = {sizeof(uint64_t), sizeof(uint64_t), sizeof(uint16_t)};
static const size_t margin = 64;
static const uint64_t mark = 0xA5A5A5A5A5A5A5A5;

static struct {
    unsigned char *own, *lent[WAYS], *before;
} pages[SLICES];

uint64_t *out[OUTS];
static unsigned char *out_page[OUTS];
static uint64_t out_before[OUTS];
static bool outs_at_end;

void quit(const char *what) {
    perror(what);
    exit(2);
}

static unsigned char *guarded(int file, size_t bytes, int access) {
    unsigned char *all = mmap(NULL, bytes + 2 * PAGE, PROT_NONE, MAP_PRIVATE | MAP_ANONYMOUS, -1, 0);
    if (all == MAP_FAILED)
        quit("mmap");
    if (mmap(all + PAGE, bytes, access, MAP_SHARED | MAP_FIXED, file, 0) == MAP_FAILED)
        quit("mmap");
    return all + PAGE;
}

static int memory(size_t bytes) {
    int file = memfd_create("hostile", 0);
    if (file < 0 || ftruncate(file, (off_t)bytes) != 0)
        quit("memfd_create");
    return file;
}

void make_pages(void) {
    static const int access[WAYS] = {PROT_READ, PROT_READ | PROT_WRITE, PROT_NONE};
    for (int i = 0; i < SLICES; i++) {
        int file = memory(room[i]);
        pages[i].own = guarded(file, room[i], PROT_READ | PROT_WRITE);
        for (int w = 0; w < WAYS; w++)
            pages[i].lent[w] = guarded(file, room[i], access[w]);
        pages[i].before = malloc(room[i]);
        if (!pages[i].before)
            quit("malloc");
    }
    for (int i = 0; i < OUTS; i++)
        out_page[i] = guarded(memory(PAGE), PAGE, PROT_READ | PROT_WRITE);
}

size_t bytes_of(const struct store *s, enum slice i) { return s->words[i] * width[i]; }

void *own(const struct store *s, enum slice i) { return pages[i].own + s->at[i]; }

void *lent(const struct store *s, enum slice i, enum way way) { return pages[i].lent[way] + s->at[i]; }

/* A bit of `at_end` for each slice, and the next one for the out pointers. */
void place(struct store *s, unsigned at_end) {
    for (int i = 0; i < SLICES; i++)
        s->at[i] = at_end >> i & 1 ? room[i] - bytes_of(s, i) : 0;
    outs_at_end = at_end >> SLICES & 1;
    for (int i = 0; i < OUTS; i++) {
        uint64_t *first = (uint64_t *)(void *)out_page[i], *last = (uint64_t *)(void *)(out_page[i] + PAGE) - 1;
        out[i] = outs_at_end ? last : first;
        *(outs_at_end ? last - 1 : first + 1) = mark;
    }
}

/* The bytes of a slice with the margin on its open side. */
static void span(const struct store *s, enum slice i, size_t *from, size_t *to) {
    size_t start = s->at[i], end = start + bytes_of(s, i);
    *from = start < margin ? 0 : start - margin;
    *to = room[i] - end < margin ? room[i] : end + margin;
}

void remember_slices(const struct store *s) {
    for (int i = 0; i < SLICES; i++) {
        size_t from, to;
        span(s, i, &from, &to);
        memcpy(pages[i].before + from, pages[i].own + from, to - from);
    }
}

void remember_outs(void) {
    for (int i = 0; i < OUTS; i++)
        out_before[i] = *out[i];
}

static bool same(enum slice i, size_t from, size_t to) { return memcmp(pages[i].before + from, pages[i].own + from, to - from) == 0; }

bool slices_unchanged(const struct store *s) {
    for (int i = 0; i < SLICES; i++)
        if (!same(i, s->at[i], s->at[i] + bytes_of(s, i)))
            return false;
    return true;
}

bool margins_unchanged(const struct store *s) {
    for (int i = 0; i < SLICES; i++) {
        size_t from, to;
        span(s, i, &from, &to);
        if (!same(i, from, s->at[i]) || !same(i, s->at[i] + bytes_of(s, i), to))
            return false;
    }
    return true;
}

bool beside_outs_unchanged(void) {
    for (int i = 0; i < OUTS; i++)
        if (*(outs_at_end ? out[i] - 1 : out[i] + 1) != mark)
            return false;
    return true;
}

/* Whether the out words are as they were, those of the set `but` left out. */
bool outs_unchanged(unsigned but) {
    for (int i = 0; i < OUTS; i++)
        if (!(but >> i & 1) && *out[i] != out_before[i])
            return false;
    return true;
}
