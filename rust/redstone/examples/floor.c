/* A room that misses a part of its floor: what drops in which pass, and what is kept; and a refusal of too few bytes.
 *
 * From the repository's root, after `bin/staticlib redstone`:
 *
 *     cc -I rust/redstone/include rust/redstone/examples/floor.c target/staticlib/libredstone.a -o floor && ./floor
 */
#include "redstone.h"

#include <stdio.h>

/* The rows, in the table's order. */
enum { ROWS = 5 };

static uint8_t profile[REDSTONE_PROFILE_BYTES] = REDSTONE_BENCH_PROFILE;
static uint8_t table[ROWS * REDSTONE_ROW_BYTES], kept[sizeof table];
static uint16_t passes[ROWS];

static uint8_t *put(int row, uint8_t x, uint8_t y, uint8_t kind) {
    uint8_t *bytes = table + REDSTONE_ROW_BYTES * row;
    bytes[0] = x;
    bytes[4] = y;
    bytes[12] = kind;
    return bytes;
}

/* A component on the block below. */
static void put_standing(int row, uint8_t x, uint8_t y, uint8_t kind) {
    uint8_t *bytes = put(row, x, y, kind);
    bytes[19] = 1;
    bytes[21] = (uint8_t)-1;
}

/* Clears the table, with room for so many bytes of rows. */
static uint32_t clear(size_t kept_length) {
    return redstone_clear(profile, sizeof profile, table, sizeof table, kept, kept_length, passes, ROWS);
}

/* Whether an answer is a refusal, which is written then. */
static int refused(uint32_t answer) {
    if (REDSTONE_REFUSAL(answer) == 0) {
        return 0;
    }
    printf("refusal %u, row %u\n", REDSTONE_REFUSAL(answer), REDSTONE_ROW(answer));
    return 1;
}

int main(void) {
    /* By this profile components may stand on a repeater, too. */
    profile[REDSTONE_KIND_REPEATER] = 1;
    /* There is no block at 0,0,0. */
    put_standing(0, 0, 1, REDSTONE_KIND_REPEATER);
    put_standing(1, 0, 2, REDSTONE_KIND_REPEATER);
    put_standing(2, 0, 3, REDSTONE_KIND_LEVER);
    put(3, 1, 0, REDSTONE_KIND_SOLID);
    put_standing(4, 1, 1, REDSTONE_KIND_LEVER);

    uint32_t count = clear(sizeof kept);
    if (refused(count)) {
        return 1;
    }
    for (int row = 0; row < ROWS; row++) {
        if (passes[row] != 0) {
            printf("pass %u: row %d\n", passes[row], row);
        }
    }
    printf("%u of %d rows are kept\n", count, ROWS);

    /* The buffers are those of the whole table, however few rows are kept. */
    return !refused(clear(REDSTONE_ROW_BYTES * count));
}
