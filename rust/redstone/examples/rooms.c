/* A room with a lever and a room with a lamp, drawn apart, in one table; and a refusal where they clash.
 *
 * From the repository's root, after `bin/staticlib redstone`:
 *
 *     cc -I rust/redstone/include rust/redstone/examples/rooms.c target/staticlib/libredstone.a -o rooms && ./rooms
 */
#include "redstone.h"

#include <stdio.h>

/* The rows of each room, in the table's order. */
enum { ROWS = 3 };

static const uint8_t profile[REDSTONE_PROFILE_BYTES] = REDSTONE_BENCH_PROFILE;
static uint8_t first[ROWS * REDSTONE_ROW_BYTES], second[ROWS * REDSTONE_ROW_BYTES];
static uint8_t both[REDSTONE_MERGE_BYTES];
static uint8_t state[REDSTONE_MOST_ROWS * REDSTONE_STATE_BYTES];
static uint8_t signal[REDSTONE_MOST_ROWS], weak[REDSTONE_MOST_ROWS], strong[REDSTONE_MOST_ROWS];

static uint8_t *put(uint8_t *table, int row, uint8_t x, uint8_t y, uint8_t kind) {
    uint8_t *bytes = table + REDSTONE_ROW_BYTES * row;
    bytes[0] = x;
    bytes[4] = y;
    bytes[12] = kind;
    return bytes;
}

/* Puts both rooms in one table, the second moved along x. */
static uint32_t merge(int32_t dx) {
    return redstone_merge(first, sizeof first, second, sizeof second, dx, 0, 0, both, sizeof both);
}

/* Whether an answer is a refusal, which is written then. */
static int refused(uint32_t answer) {
    if (REDSTONE_REFUSAL(answer) == 0) {
        return 0;
    }
    printf("refusal %u, row %u\n", REDSTONE_REFUSAL(answer), REDSTONE_ROW(answer));
    return 1;
}

int main(void) {
    put(first, 0, 0, 0, REDSTONE_KIND_SOLID);
    put(first, 1, 1, 0, REDSTONE_KIND_SOLID);
    uint8_t *lever = put(first, 2, 1, 1, REDSTONE_KIND_LEVER);
    lever[14] = 2; /* it is on */
    lever[19] = 1; /* it is fixed to .. */
    lever[21] = (uint8_t)-1; /* .. the block below */
    put(second, 0, 0, 0, REDSTONE_KIND_SOLID);
    put(second, 1, 1, 0, REDSTONE_KIND_REPEATER)[13] = REDSTONE_FACING_EAST;
    put(second, 2, 2, 0, REDSTONE_KIND_REDSTONE_LAMP);

    /* The second room is moved until its block is at the first one's. */
    uint32_t rows = merge(1);
    if (refused(rows)) {
        return 1;
    }
    printf("%d rows and %d are %u\n", ROWS, ROWS, rows);
    size_t table_length = REDSTONE_ROW_BYTES * rows, state_length = REDSTONE_STATE_BYTES * rows;
    if (refused(redstone_fresh(profile, sizeof profile, both, table_length, state, state_length, signal, rows, weak,
                               rows, strong, rows)) ||
        refused(redstone_tick(profile, sizeof profile, both, table_length, state, state_length, 0, 1, signal, rows, weak,
                              rows, strong, rows))) {
        return 1;
    }
    /* The lamp is at 3,0,0, the last row. */
    printf("tick 1: lamp %u\n", strong[rows - 1]);

    /* Not moved, the repeater is where the first room has that block. */
    return !refused(merge(0));
}
