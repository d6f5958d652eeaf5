/* The most words that a call reads and writes in each slice, whatever the words are: README.md has the loops that each term comes from.
   A word that is read twice counts twice. Where the shape is wrong, or words passed are no value's, no word is visited. */
#include "hostile.h"

/* The searches of a length: 63 doublings from 1 to the largest integer, that integer itself, and 63 halvings. */
enum { DOUBLINGS = 63, HALVINGS = 63, SEARCHES = DOUBLINGS + 1 + HALVINGS };

static uint64_t significant_bits(uint64_t n) {
    uint64_t bits = 0;
    for (; n; n >>= 1)
        bits++;
    return bits;
}

static uint64_t smaller(uint64_t a, uint64_t b) { return a < b ? a : b; }

void bound_of(enum call c, const struct store *s, bool reached, uint64_t words[SLICES]) {
    const uint64_t A = s->record[SIZE], E = s->record[COUNT], n = s->words[INDEX], room = s->words[ARRAY], entryroom = s->words[ENTRIES];
    /* after the check has counted the used words, a way through the index meets an empty one among E + 1 */
    const uint64_t way = smaller(n, E + 1);
    const uint64_t bounds[CALLS][SLICES] = {
        [CHECK] = {room + (room - 2 * A), entryroom + 2 * E + 2 * E + (entryroom - 4 * E) + 2 * E + E * (2 + 2 * way),
                   n + E * (way + 1) + E * way},
        [FRESH] = {room, entryroom, n},
        [GET] = {2, 2 * n + 2, n},
        [SET] = {2 * A + 4 * E + 4, 2 * n + 32 * E + 10, n + 2 * E * (n + 1) + n + 1},
        [NEXT] = {2 * A, 2 * n + 2 * E + 2, n},
        [LENGTH] = {2 + 2 * significant_bits(A), SEARCHES * 2 * n + 2 * (1 + HALVINGS), SEARCHES * n},
        [RESERVE] = {4 * E, 28 * E, 2 * E * (n + 1)},
    };
    for (int i = 0; i < SLICES; i++)
        words[i] = reached ? bounds[c][i] : 0;
}
