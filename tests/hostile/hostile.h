/* What the files of this folder share: the store that is lent and how it lies in memory, the drawing of stores, the bounds. */
#ifndef HOSTILE_H
#define HOSTILE_H

#include "amzighrod.h"

enum slice { ARRAY, ENTRIES, INDEX, SLICES };
enum size { SIZE, ALLOWANCE, COUNT, SIZES };
enum call { CHECK, FRESH, GET, SET, NEXT, LENGTH, RESERVE, CALLS };

/* How a slice is lent: to be looked at, to be written to, or out of reach, where no word of it may be touched. */
enum way { READ, WRITE, HIDDEN, WAYS };

/* What a call is passed a pointer to, beside the slices: the value answered, next's key, length's border, the record. */
enum out { KIND, PAYLOAD, KEYKIND, KEYPAYLOAD, BORDER, RECORD, OUTS = RECORD + SIZES };

enum { PAGE = 4096, ARRAY_LIMIT = 65536, ENTRY_LIMIT = 32768, INDEX_LIMIT = 65536 };

struct value {
    uint64_t kind, payload;
};

/* `at` is each slice's offset, in bytes, in its pages; `sound`: real calls made the words, or the check said yes, and the check must say yes. */
struct store {
    size_t words[SLICES], record[SIZES], at[SLICES];
    bool sound;
};

/* lent.c */
extern uint64_t *out[OUTS];
void quit(const char *what);
void make_pages(void);
size_t bytes_of(const struct store *s, enum slice i);
void *own(const struct store *s, enum slice i);
void *lent(const struct store *s, enum slice i, enum way way);
void place(struct store *s, unsigned at_end);
void remember_slices(const struct store *s);
void remember_outs(void);
bool slices_unchanged(const struct store *s);
bool margins_unchanged(const struct store *s);
bool beside_outs_unchanged(void);
bool outs_unchanged(unsigned but);

/* stores.c */
void seed(uint64_t with);
uint64_t draw(void);
uint64_t below(uint64_t n);
bool right_lengths(const struct store *s);
bool right_shape(const struct store *s);
bool decodes(struct value v);
bool is_nan(struct value v);
struct value any_value(const struct store *s);
size_t any_reserve(const struct store *s);
void draw_store(struct store *s, size_t room, bool largest);
void spoil_shape(struct store *s);

/* hostile.c: the calls that make a sound store */
void build_fresh(struct store *s);
void build_set(struct store *s, struct value key, struct value v);
void build_check(struct store *s);

/* bounds.c */
void bound_of(enum call c, const struct store *s, bool reached, uint64_t words[SLICES]);

#endif
