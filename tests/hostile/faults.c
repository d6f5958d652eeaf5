/* Functions of amzighrod.h with a fault in them, to see that the harness and visits.py find it. FAULT says which one is compiled; the linker
   puts it in place of the function that it is named after (--wrap). */
#include "amzighrod.h"

#define READ_STORE                                                                                                                             \
    const uint64_t *array, size_t an, const uint64_t *entries, size_t en, const uint16_t *index, size_t in, size_t A, size_t M, size_t E
#define WRITE_STORE uint64_t *array, size_t an, uint64_t *entries, size_t en, uint16_t *index, size_t in, size_t *A, size_t *M, size_t *E
#define STORE array, an, entries, en, index, in, A, M, E
#define GET(name) uint8_t name(READ_STORE, uint64_t keykind, uint64_t keypayload, uint64_t *kind, uint64_t *payload)
#define SET(name)                                                                                                                              \
    uint8_t name(WRITE_STORE, uint64_t keykind, uint64_t keypayload, uint64_t valuekind, uint64_t valuepayload, uint64_t *kind,                \
                 uint64_t *payload)
#define NEXT(name) uint8_t name(READ_STORE, uint64_t *keykind, uint64_t *keypayload, uint64_t *kind, uint64_t *payload)
#define LENGTH(name) uint8_t name(READ_STORE, uint64_t *border)
#define RESERVE(name) uint8_t name(WRITE_STORE, size_t n)
#define CHECK(name) bool name(READ_STORE)

GET(__real_amzighrod_get);
GET(__wrap_amzighrod_get);
SET(__real_amzighrod_set);
SET(__wrap_amzighrod_set);
NEXT(__real_amzighrod_next);
NEXT(__wrap_amzighrod_next);
LENGTH(__real_amzighrod_length);
LENGTH(__wrap_amzighrod_length);
RESERVE(__real_amzighrod_reserve);
RESERVE(__wrap_amzighrod_reserve);
CHECK(__wrap_amzighrod_check);

static inline void look64(const uint64_t *at) { (void)*(const volatile uint64_t *)at; }

#if FAULT == 1 /* a word past the array is read */
GET(__wrap_amzighrod_get) {
    look64(array + an);
    return __real_amzighrod_get(STORE, keykind, keypayload, kind, payload);
}
#elif FAULT == 2 /* a word before the entries is read */
NEXT(__wrap_amzighrod_next) {
    look64(entries - 1);
    return __real_amzighrod_next(STORE, keykind, keypayload, kind, payload);
}
#elif FAULT == 3 /* a read writes the word that was there */
LENGTH(__wrap_amzighrod_length) {
    volatile uint16_t *word = (volatile uint16_t *)(uintptr_t)index;
    if (in)
        *word = *word;
    return __real_amzighrod_length(STORE, border);
}
#elif FAULT == 4 /* a refusal answers a value */
SET(__wrap_amzighrod_set) {
    const uint8_t answer = __real_amzighrod_set(STORE, keykind, keypayload, valuekind, valuepayload, kind, payload);
    if (answer == AMZIGHROD_NO_ROOM)
        *kind = 0;
    return answer;
}
#elif FAULT == 5 /* a refusal changes a word */
RESERVE(__wrap_amzighrod_reserve) {
    const uint8_t answer = __real_amzighrod_reserve(STORE, n);
    if (answer == AMZIGHROD_NO_ROOM)
        index[in - 1] ^= 1;
    return answer;
}
#elif FAULT == 6 /* a sound store is not known as one */
CHECK(__wrap_amzighrod_check) { return array && an && entries && en && index && in && A + M == SIZE_MAX && E; }
#elif FAULT == 12 /* every store of right shape is called sound */
CHECK(__wrap_amzighrod_check) {
    uint64_t border;
    return amzighrod_length(STORE, &border) != AMZIGHROD_WRONG_SHAPE;
}
#elif FAULT == 7 /* a word is read before the shape is known */
LENGTH(__wrap_amzighrod_length) {
    look64(array);
    return __real_amzighrod_length(STORE, border);
}
#elif FAULT == 8 /* it runs on */
GET(__wrap_amzighrod_get) {
    for (volatile uint64_t kept = keykind; kept == AMZIGHROD_NUMBER;)
        ;
    return __real_amzighrod_get(STORE, keykind, keypayload, kind, payload);
}
#elif FAULT == 9 /* a word past the index is written on a set that is done */
SET(__wrap_amzighrod_set) {
    const uint8_t answer = __real_amzighrod_set(STORE, keykind, keypayload, valuekind, valuepayload, kind, payload);
    if (answer == AMZIGHROD_DONE)
        index[in] = 0;
    return answer;
}
#elif FAULT == 13 /* a set takes words that are no value's */
SET(__wrap_amzighrod_set) {
    const bool above = valuekind > AMZIGHROD_USERDATA;
    return __real_amzighrod_set(STORE, keykind, keypayload, above ? AMZIGHROD_USERDATA : valuekind, valuepayload, kind, payload);
}
#elif FAULT == 14 /* a set leaves words that are no value's */
SET(__wrap_amzighrod_set) {
    const uint8_t answer = __real_amzighrod_set(STORE, keykind, keypayload, valuekind, valuepayload, kind, payload);
    if (answer == AMZIGHROD_DONE && *E)
        entries[4 * *E - 2] = AMZIGHROD_USERDATA + 1;
    return answer;
}
#elif FAULT == 10 /* too many words are visited */
SET(__wrap_amzighrod_set) {
    const size_t visits = (2 * *E + 4) * in;
    const uint8_t answer = __real_amzighrod_set(STORE, keykind, keypayload, valuekind, valuepayload, kind, payload);
    for (size_t i = 0; i < visits && answer == AMZIGHROD_DONE; i++)
        (void)*(const volatile uint16_t *)(index + i % in);
    return answer;
}
#else /* memory that is not lent is read */
uint64_t hostile_kept = 1;
GET(__wrap_amzighrod_get) {
    look64(&hostile_kept);
    return __real_amzighrod_get(STORE, keykind, keypayload, kind, payload);
}
#endif
