/* The table's calls for C and C++, on x86-64: the functions of crates/host, which crates/host_c exports;
   `tools/make host` writes them to target/staticlib/libhost.a.
   The rules are those of the paper, as docs/PROMISES.md has them; here is what a caller passes and what comes back.

   A value is two 64-bit words, kind and payload:
       kind 0       Nil         payload 0
       kind 1       Boolean     0 or 1
       kind 2       Integer     an int64_t, two's complement
       kind 3       Number      the bits of a double; a NaN keeps its bits
       kind 4 to 9  String, Table, Closure, Callback, Thread, UserData: a handle of the host's, the same for the same object
   Words that are no value's (a higher kind, a Nil with another payload, a Boolean above 1), passed as a key or a value, are refused with 15.

   A store is three slices that the host lends and three numbers, its record. Every call takes them first, in this order:
       array, arraywords       room for a values, 2 words each: arraywords = 2a, a at most 65,536
       entries, entrywords     room for e entries, 4 words each, key and value: entrywords = 4e, e at most 32,768
       index, indexwords       16-bit words: indexwords a power of two, from 2 to 65,536 and at least 2e
       size, allowance, count  the record: A values of the array in use, an allowance of M entries, E entries in use
   The shape is right when the lengths are so, A <= a and E <= M <= e. Else every call but the check returns 4.
   A host begins with amzighrod_fresh, passes the record on from call to call, and writes to none of it by itself.

   Pointers are aligned and never NULL, also where a length is 0. What a call writes to (slices, record, answer) overlaps nothing else that
   is passed to it. A call keeps no pointer and allocates nothing; the archive needs memset and nothing else. Calls that only read (check,
   get, next, length) may run on one store at the same time; fresh, set and reserve need it to themselves.

   A call returns one of the numbers below. On any but AMZIGHROD_DONE it has written nothing: not to the slices, nor to the record, nor to
   the answer. No call traps or runs on, whatever the words are; what holds where a host has changed them: docs/EXCEPTIONS.md. */
#ifndef AMZIGHROD_H
#define AMZIGHROD_H

#include <stdbool.h>
#include <stddef.h>
#include <stdint.h>

#ifdef __cplusplus
extern "C" {
#endif

enum {
    AMZIGHROD_NIL = 0,
    AMZIGHROD_BOOLEAN = 1,
    AMZIGHROD_INTEGER = 2,
    AMZIGHROD_NUMBER = 3,
    AMZIGHROD_STRING = 4,
    AMZIGHROD_TABLE = 5,
    AMZIGHROD_CLOSURE = 6,
    AMZIGHROD_CALLBACK = 7,
    AMZIGHROD_THREAD = 8,
    AMZIGHROD_USERDATA = 9
};

enum {
    AMZIGHROD_DONE = 0,
    AMZIGHROD_KEY_IS_NIL = 1,  /* of set */
    AMZIGHROD_KEY_IS_NAN = 2,  /* of set, also where the value is Nil */
    AMZIGHROD_NO_ROOM = 3,     /* of set and reserve */
    AMZIGHROD_WRONG_SHAPE = 4, /* of every call but the check, tested first */
    AMZIGHROD_NO_VALUE = 15    /* of get, set and next, tested after the shape and before all else; not the paper's, which has no such words */
};

/* What amzighrod_next returns, beside AMZIGHROD_WRONG_SHAPE and AMZIGHROD_NO_VALUE. */
enum {
    AMZIGHROD_FOUND = 0,
    AMZIGHROD_LAST = 1,
    AMZIGHROD_NOT_FOUND = 2
};

/* Whether the store is sound: what fresh, set and reserve leave, and what the calls' promises ask for (docs/PROMISES.md, 'The store'). */
bool amzighrod_check(const uint64_t *array, size_t arraywords, const uint64_t *entries, size_t entrywords, const uint16_t *index,
                     size_t indexwords, size_t size, size_t allowance, size_t count);

/* An empty store in slices of right lengths, whatever they and the record held: every word 0, and the record 0, 0, 0. Returns 0 or 4. */
uint8_t amzighrod_fresh(uint64_t *array, size_t arraywords, uint64_t *entries, size_t entrywords, uint16_t *index, size_t indexwords,
                        size_t *size, size_t *allowance, size_t *count);

/* The value under a key goes to *kind and *payload; Nil where there is none, and for a key that is Nil or NaN. Returns 0, 4 or 15. */
uint8_t amzighrod_get(const uint64_t *array, size_t arraywords, const uint64_t *entries, size_t entrywords, const uint16_t *index,
                      size_t indexwords, size_t size, size_t allowance, size_t count, uint64_t keykind, uint64_t keypayload,
                      uint64_t *kind, uint64_t *payload);

/* Puts a value under a key; Nil clears it. The value that was there, Nil if none, goes to *kind and *payload. Returns 0, 1, 2, 3, 4 or 15.
   A Number that is a whole number from -2^63 to 2^63 - 1 is that Integer as a key: 1480.0 and 1480 are one, and so are -0.0 and 0. The Number
   2^63 is the largest Integer as a key, as in the original.
   No room (3) comes where the key is new, all e entries have values, and a larger array would take in neither the key nor any of them. */
uint8_t amzighrod_set(uint64_t *array, size_t arraywords, uint64_t *entries, size_t entrywords, uint16_t *index, size_t indexwords,
                      size_t *size, size_t *allowance, size_t *count, uint64_t keykind, uint64_t keypayload, uint64_t valuekind,
                      uint64_t valuepayload, uint64_t *kind, uint64_t *payload);

/* The pair after a key, which is read from *keykind and *keypayload; Nil starts. AMZIGHROD_FOUND: the pair's key is written over the key
   passed, and its value to *kind and *payload. AMZIGHROD_LAST: there is no pair after it. AMZIGHROD_NOT_FOUND: it is no key of the table.
   Between the steps of a walk values may be read, overwritten and cleared; a new key or a reserve may make it skip, repeat or lose its place.
   Returns one of these, or 4 or 15. */
uint8_t amzighrod_next(const uint64_t *array, size_t arraywords, const uint64_t *entries, size_t entrywords, const uint16_t *index,
                       size_t indexwords, size_t size, size_t allowance, size_t count, uint64_t *keykind, uint64_t *keypayload,
                       uint64_t *kind, uint64_t *payload);

/* A border goes to *border: 0 or a key with a value, such that the next Integer has none; or 2^63 - 1, which has one. Returns 0 or 4. */
uint8_t amzighrod_length(const uint64_t *array, size_t arraywords, const uint64_t *entries, size_t entrywords, const uint16_t *index,
                         size_t indexwords, size_t size, size_t allowance, size_t count, uint64_t *border);

/* Allows n more entries, so that the next n new keys need no growth. Cleared entries are dropped where the allowance does not do.
   Returns 0, 3 where the entries with a value and n more are over e, or 4. */
uint8_t amzighrod_reserve(uint64_t *array, size_t arraywords, uint64_t *entries, size_t entrywords, uint16_t *index, size_t indexwords,
                          size_t *size, size_t *allowance, size_t *count, size_t n);

#ifdef __cplusplus
}
#endif

#endif
