/* Connect four by hand, for scale: what the first player is sure of within so many turns, where unfinished play is worth 0, by bitboards,
 * a table of positions and an order by threats. It answers the same question as
 *
 *     gdlsolve solve --role red --depth DEPTH
 *
 * over connect four on a board of so many columns and rows, and of the answer the value alone.
 *
 *     cc -O2 -o connect_four bench/connect_four.c && ./connect_four COLUMNS ROWS DEPTH
 */
#include <stdint.h>
#include <stdio.h>
#include <stdlib.h>

enum { LOST = 0, DRAWN = 1, WON = 2, TABLE_BITS = 22 };

typedef struct {
    uint64_t key;
    uint8_t low, high;
} Entry;

static int columns, rows, order[16];
static uint64_t nodes;
static Entry *table;

/* Columns stand one behind the other, each with a free bit on top. */
static uint64_t bit(int column, int row) { return 1ULL << (column * (rows + 1) + row); }

static uint64_t column_mask(int column) { return ((1ULL << rows) - 1) << (column * (rows + 1)); }

static int has_four(uint64_t own) {
    const int steps[] = {1, rows, rows + 1, rows + 2};
    for (int i = 0; i < 4; i++) {
        uint64_t two = own & (own >> steps[i]);
        if (two & (two >> (2 * steps[i]))) return 1;
    }
    return 0;
}

/* How many free places would make four. */
static int threats(uint64_t own, uint64_t all) {
    int count = 0;
    for (int c = 0; c < columns; c++)
        for (int r = 0; r < rows; r++)
            if (!(all & bit(c, r)) && has_four(own | bit(c, r))) count++;
    return count;
}

/* The value between low and high for the first player; `own` are the pieces of the one to move. */
static int value(uint64_t own, uint64_t all, int is_first, int left, int low, int high) {
    nodes++;
    if (left == 0) return LOST;
    uint64_t moves[16];
    int scores[16], count = 0;
    for (int i = 0; i < columns; i++) {
        uint64_t free = (all + bit(order[i], 0)) & column_mask(order[i]);
        if (!free) continue;
        if (has_four(own | free)) return is_first ? WON : LOST;
        moves[count] = free;
        scores[count++] = 0;
    }
    if (left > 3)
        for (int i = 0; i < count; i++) scores[i] = threats(own | moves[i], all | moves[i]);
    uint64_t key = own + all + bit(0, 0);
    Entry *entry = &table[(key * 0x9e3779b97f4a7c15ULL) >> (64 - TABLE_BITS)];
    int known_low = LOST, known_high = WON;
    if (entry->key == key) {
        known_low = entry->low;
        known_high = entry->high;
        if (known_low >= high || known_low == known_high) return known_low;
        if (known_high <= low) return known_high;
    }
    int best = is_first ? LOST : WON;
    int from = low, to = high;
    for (int i = 0; i < count; i++) {
        int next = i;
        for (int j = i + 1; j < count; j++)
            if (scores[j] > scores[next]) next = j;
        uint64_t move = moves[next];
        scores[next] = scores[i];
        moves[next] = moves[i];
        uint64_t after = all | move;
        int is_full = 1;
        for (int c = 0; c < columns; c++) is_full &= (after & column_mask(c)) == column_mask(c);
        int worth = is_full ? DRAWN : value(all & ~own, after, !is_first, left - 1, from, to);
        if (is_first ? worth > best : worth < best) best = worth;
        if (is_first && best > from) from = best;
        if (!is_first && best < to) to = best;
        if (from >= to) break;
    }
    entry->low = entry->key == key ? entry->low : LOST;
    entry->high = entry->key == key ? entry->high : WON;
    entry->key = key;
    if (best > low && best > entry->low) entry->low = (uint8_t)best;
    if (best < high && best < entry->high) entry->high = (uint8_t)best;
    return best;
}

int main(int count, char **words) {
    if (count != 4) return 1;
    columns = atoi(words[1]);
    rows = atoi(words[2]);
    /* The middle first. */
    for (int i = 0; i < columns; i++) order[i] = columns / 2 + (i % 2 ? -(i + 1) / 2 : i / 2);
    table = calloc(1ULL << TABLE_BITS, sizeof *table);
    if (!table) return 3;
    int worth = value(0, 0, 1, atoi(words[3]), LOST, WON);
    printf("value %d\n", 50 * worth);
    fprintf(stderr, "%llu states\n", (unsigned long long)nodes);
    return 0;
}
