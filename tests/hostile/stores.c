/* Stores, keys and values drawn from a seed. Every store that draw_store makes has a right shape; nothing is assumed of its words, which are
   random, or drawn so that they often decode and meet, or those of a sound store with bits flipped, or with an index of one of many odd sorts. */
#include "hostile.h"

#include <string.h>

static uint64_t state;

void seed(uint64_t with) { state = with; }

/* splitmix64 */
uint64_t draw(void) {
    uint64_t x = state += 0x9E3779B97F4A7C15;
    x = (x ^ x >> 30) * 0xBF58476D1CE4E5B9;
    x = (x ^ x >> 27) * 0x94D049BB133111EB;
    return x ^ x >> 31;
}

uint64_t below(uint64_t n) { return draw() % n; }

static size_t smaller(size_t a, size_t b) { return a < b ? a : b; }

bool right_lengths(const struct store *s) {
    const size_t array = s->words[ARRAY], entries = s->words[ENTRIES], index = s->words[INDEX];
    return array % 2 == 0 && array / 2 <= ARRAY_LIMIT && entries % 4 == 0 && entries / 4 <= ENTRY_LIMIT && index >= 2 && index <= INDEX_LIMIT &&
           (index & (index - 1)) == 0 && index >= entries / 2;
}

bool right_shape(const struct store *s) {
    return right_lengths(s) && s->record[SIZE] <= s->words[ARRAY] / 2 && s->record[COUNT] <= s->record[ALLOWANCE] &&
           s->record[ALLOWANCE] <= s->words[ENTRIES] / 4;
}

bool decodes(struct value v) {
    if (v.kind == AMZIGHROD_NIL)
        return v.payload == 0;
    return v.kind == AMZIGHROD_BOOLEAN ? v.payload <= 1 : v.kind <= AMZIGHROD_USERDATA;
}

bool is_nan(struct value v) { return v.kind == AMZIGHROD_NUMBER && (v.payload & INT64_MAX) > 0x7FF0000000000000; }

static uint64_t float_bits(double x) {
    uint64_t bits;
    memcpy(&bits, &x, sizeof bits);
    return bits;
}

/* 2^63, -0.0, infinity and two NaNs as floats, and the largest power of two that is an integer. */
static const uint64_t odd_payloads[] = {0x43E0000000000000, 0x8000000000000000, 0x7FF0000000000000,
                                        0x7FF8000000000000, 0xFFF0000000000001, 0x4000000000000000};

/* A payload that is often met again: small, about the sizes of the room, at the limits of integers, or a float's. */
static uint64_t payload(const struct store *s) {
    switch (below(8)) {
    case 0: return below(2);
    case 1: return below(8);
    case 2: return below(s->words[ARRAY] / 2 + 3);
    case 3: return INT64_MAX - below(3);
    case 4: return (uint64_t)INT64_MAX + 1 + below(3);
    case 5: return -below(4);
    case 6: return float_bits((double)below(s->words[ARRAY] / 2 + 3) / (double)(1 + below(2)));
    default: return odd_payloads[below(sizeof odd_payloads / sizeof *odd_payloads)];
    }
}

/* Words that a value often has, and sometimes none. */
static struct value small_value(const struct store *s) { return (struct value){below(12), payload(s)}; }

/* Words that a value has. */
static struct value right_value(const struct store *s) {
    struct value v = {1 + below(9), payload(s)};
    if (v.kind == AMZIGHROD_BOOLEAN)
        v.payload &= 1;
    return v;
}

static struct value key_of_store(const struct store *s) {
    const uint64_t *entries = own(s, ENTRIES);
    const size_t room = s->words[ENTRIES] / 4, count = smaller(s->record[COUNT], room);
    if (room == 0)
        return (struct value){AMZIGHROD_INTEGER, 1};
    const uint64_t *at = entries + 4 * below(count && below(8) ? count : room);
    return (struct value){at[0], at[1]};
}

static struct value any_words(const struct store *s) {
    switch (below(8)) {
    case 0: return (struct value){draw(), draw()};
    case 1: return (struct value){AMZIGHROD_NIL, below(4) ? 0 : draw()};
    case 2: return (struct value){AMZIGHROD_NUMBER, below(3) ? draw() : 0x7FF0000000000000 | draw() >> 12 | draw() << 63};
    case 3: return (struct value){AMZIGHROD_INTEGER, 1 + below(s->words[ARRAY] / 2 + 3)};
    case 4:
    case 5: return key_of_store(s);
    case 6: return right_value(s);
    default: return small_value(s);
    }
}

/* What is passed as a key or a value. Words that are no value's are refused at once, so most give way to a value's. */
struct value any_value(const struct store *s) {
    const struct value v = any_words(s);
    return decodes(v) || below(4) == 0 ? v : right_value(s);
}

size_t any_reserve(const struct store *s) {
    switch (below(4)) {
    case 0: return below(3);
    case 1: return SIZE_MAX - below(3);
    case 2: return s->record[ALLOWANCE] - s->record[COUNT] + below(3);
    default: return below(s->words[ENTRIES] / 4 + 2);
    }
}

/* Of any number up to a limit: none, all, a power of two, or any. */
static size_t part(size_t limit) {
    switch (below(4)) {
    case 0: return below(4) ? limit : 0;
    case 1: return smaller(limit, (size_t)1 << below(17));
    default: return below(limit + 1);
    }
}

/* Most are small. The work of the worst calls goes by the count times the index length, so that is kept below a limit but for the largest. */
static void draw_shape(struct store *s, size_t room, bool largest) {
    static const size_t rooms[] = {8, 32, 256, 2048, ENTRY_LIMIT};
    const uint64_t x = below(4096);
    const size_t limit = smaller(room, rooms[(x >= 2400) + (x >= 3680) + (x >= 4064) + (x >= 4095)]);
    const size_t a = largest ? ARRAY_LIMIT : below(2 * limit + 1), e = largest ? ENTRY_LIMIT : below(limit + 1);
    size_t index = 2;
    while (index < 2 * e)
        index *= 2;
    if (below(4) == 0)
        index = smaller(INDEX_LIMIT, index << below(4));
    s->words[ARRAY] = 2 * a, s->words[ENTRIES] = 4 * e, s->words[INDEX] = index;
    s->record[SIZE] = part(a);
    s->record[ALLOWANCE] = largest ? e : part(e);
    s->record[COUNT] = largest || below(2) ? s->record[ALLOWANCE] : part(s->record[ALLOWANCE]);
    if (!largest && s->record[COUNT] > (1 << 24) / index)
        s->record[COUNT] = (1 << 24) / index;
}

/* Random index words are seldom 0, and with no empty word every new key is refused: so some have empty ones put among them. */
static void fill_random(struct store *s) {
    uint64_t *array = own(s, ARRAY), *entries = own(s, ENTRIES);
    uint16_t *index = own(s, INDEX);
    const uint64_t empty = below(4);
    for (size_t i = 0; i < s->words[ARRAY]; i++)
        array[i] = draw();
    for (size_t i = 0; i < s->words[ENTRIES]; i++)
        entries[i] = draw();
    for (size_t i = 0; i < s->words[INDEX]; i++)
        index[i] = below(4) < empty ? 0 : (uint16_t)draw();
}

static void fill_values(const struct store *s, enum slice slice, unsigned nils) {
    uint64_t *words = own(s, slice);
    for (size_t i = 0; i + 1 < s->words[slice]; i += 2) {
        struct value v = below(8) < nils ? (struct value){AMZIGHROD_NIL, 0} : small_value(s);
        words[i] = v.kind, words[i + 1] = v.payload;
    }
}

static void fill_small(struct store *s) {
    const unsigned nils = (unsigned)below(9);
    uint16_t *index = own(s, INDEX);
    fill_values(s, ARRAY, nils);
    fill_values(s, ENTRIES, (unsigned)below(nils + 1));
    for (size_t i = 0; i < s->words[INDEX]; i++)
        index[i] = (uint16_t)below(s->record[COUNT] + 4);
}

/* Strings whose home is 0, wherever there are fewer index words than 65,536: the multiple of the constant that the index rule adds is taken off. */
static struct value string_at_home(const struct store *s) {
    return (struct value){AMZIGHROD_STRING, s->words[INDEX] * below(INDEX_LIMIT / s->words[INDEX]) - 4 * 0x9E3779B97F4A7C15};
}

/* By real calls from a fresh store on; the record is what they leave. */
static void fill_sound(struct store *s) {
    const size_t room = s->words[ARRAY] / 2 + s->words[ENTRIES] / 4, sets = below(smaller(2 * room, 4096) + 1);
    const bool home = below(4) == 0;
    const uint64_t clears = below(4);
    build_fresh(s);
    for (size_t i = 0; i < sets; i++) {
        struct value key = home && below(4) ? string_at_home(s) : below(2) ? (struct value){AMZIGHROD_INTEGER, 1 + below(room + 1)} : right_value(s);
        build_set(s, key, below(8) < clears ? (struct value){AMZIGHROD_NIL, 0} : right_value(s));
    }
    s->sound = true;
    build_check(s);
}

static void flip_record(struct store *s) {
    struct store flipped = *s;
    flipped.record[below(SIZES)] ^= (size_t)1 << below(17);
    if (right_shape(&flipped))
        *s = flipped;
}

/* One bit of any word, or of the record where the shape stays right; or a value's words in place of another's. */
static void flip(struct store *s) {
    const enum slice i = (enum slice)below(SLICES + 1);
    const struct value v = right_value(s);
    s->sound = false;
    if (i == SLICES) {
        flip_record(s);
    } else if (i != INDEX && s->words[i] && below(2)) {
        uint64_t *at = (uint64_t *)own(s, i) + 2 * below(s->words[i] / 2);
        at[0] = v.kind, at[1] = v.payload;
    } else if (bytes_of(s, i)) {
        ((unsigned char *)own(s, i))[below(bytes_of(s, i))] ^= (unsigned char)(1 << below(8));
    }
}

/* An index that insertion never makes. */
static void odd_index(struct store *s) {
    uint16_t *index = own(s, INDEX);
    const size_t n = s->words[INDEX], count = s->record[COUNT], sort = below(7);
    const uint16_t one = (uint16_t)(below(2) ? 1 : below(count + 2)), first = index[0];
    for (size_t i = 0; i < n; i++)
        switch (sort) {
        case 0: index[i] = one; break;                                  /* all at one entry, or at none */
        case 1: index[i] = (uint16_t)(1 + below(count ? count : 1)); break; /* no empty word */
        case 2: index[i] = (uint16_t)(1 + i % (count ? count : 1)); break;
        case 3: index[i] = (uint16_t)(n - i); break;
        case 4: index[i] = UINT16_MAX; break;
        case 5: index[i] = i + 1 < n ? index[i + 1] : first; break; /* every word one place too low */
        default: index[i] = i + 1 < n ? 1 : 0;                      /* one empty word, at the end */
        }
}

/* Entries that make growth and reserve go far: keys that are one, or have one home, or an index below A; and values of which none, all or the
   first only are cleared, so that all entries are taken out of the index. */
static void odd_entries(struct store *s) {
    uint64_t *entries = own(s, ENTRIES);
    const size_t count = s->record[COUNT], keys = below(4), cleared = below(4);
    for (size_t i = 0; i < count; i++) {
        uint64_t *at = entries + 4 * i;
        const struct value key = keys == 0   ? (struct value){entries[0], entries[1]}
                                 : keys == 1 ? string_at_home(s)
                                 : keys == 2 ? (struct value){AMZIGHROD_INTEGER, 1 + below(s->record[SIZE] + 1)}
                                             : (struct value){at[0], at[1]};
        at[0] = key.kind, at[1] = key.payload;
        if (cleared == 1 || (cleared == 2 && i == 0))
            at[2] = at[3] = 0;
        else if (cleared < 3 && at[2] == 0)
            at[2] = AMZIGHROD_BOOLEAN;
    }
}

/* A length that doubles as often as the room lets it, up to the largest integer, and whose every search goes far: the keys are the powers of two
   and that integer, and the index has their words in one place and no empty word. */
static void odd_border(struct store *s) {
    uint64_t *entries = own(s, ENTRIES);
    uint16_t *index = own(s, INDEX);
    const size_t n = s->words[INDEX], at = below(n);
    s->record[SIZE] = 0;
    if (s->record[COUNT] < 64)
        s->record[COUNT] = s->record[ALLOWANCE] = smaller(64, s->words[ENTRIES] / 4);
    for (size_t i = 0; i < n; i++)
        index[i] = UINT16_MAX;
    for (size_t i = 0; i < s->record[COUNT]; i++) {
        const struct value key = {AMZIGHROD_INTEGER, i < 63 ? (uint64_t)1 << i : INT64_MAX};
        index[(at + i) % n] = (uint16_t)(i + 1);
        entries[4 * i] = key.kind, entries[4 * i + 1] = key.payload, entries[4 * i + 2] = below(8) ? AMZIGHROD_BOOLEAN : AMZIGHROD_NIL;
    }
}

void draw_store(struct store *s, size_t room, bool largest) {
    s->sound = false;
    draw_shape(s, room, largest);
    place(s, (unsigned)draw());
    switch (below(4)) {
    case 0: fill_random(s); break;
    case 1: fill_small(s); break;
    case 2:
        fill_sound(s);
        for (uint64_t flips = below(2) ? below(3) : below(9); flips; flips--)
            flip(s);
        break;
    default:
        if (below(2))
            fill_small(s);
        else
            fill_sound(s);
        s->sound = false;
        odd_index(s);
        if (below(2))
            odd_entries(s);
        if (below(4) == 0)
            odd_border(s);
    }
}

/* A length or a number of the record is changed until the shape is wrong. All lengths stay within the pages. */
void spoil_shape(struct store *s) {
    struct store wrong = *s;
    do {
        wrong = *s;
        const size_t n = wrong.words[INDEX];
        switch (below(8)) {
        case 0: wrong.words[ARRAY] += 1; break;
        case 1: wrong.words[ARRAY] = 2 * (ARRAY_LIMIT + 1 + below(2)); break;
        case 2: wrong.words[ENTRIES] += 1 + below(3); break;
        case 3: wrong.words[ENTRIES] = 4 * (ENTRY_LIMIT + 1), wrong.words[INDEX] = below(2) ? INDEX_LIMIT : 2 * INDEX_LIMIT; break;
        case 4: wrong.words[INDEX] = below(2) ? below(2) : n / 2; break;
        case 5: wrong.words[INDEX] = below(2) ? n + 1 : 2 * INDEX_LIMIT; break;
        case 6: wrong.record[below(SIZES)] = SIZE_MAX - below(2); break;
        default: wrong.record[below(SIZES)] += 1 + below(3);
        }
    } while (right_shape(&wrong));
    *s = wrong;
    s->sound = false;
    place(s, (unsigned)draw());
}
