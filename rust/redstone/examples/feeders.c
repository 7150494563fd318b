/* A line of dust that climbs a block: what feeds each dust, and by which rule; the same with a slab in the place of the
 * block; and a refusal of a row at another position.
 *
 * From the repository's root, after `bin/staticlib redstone`:
 *
 *     cc -I rust/redstone/include rust/redstone/examples/feeders.c target/staticlib/libredstone.a -o feeders && ./feeders
 */
#include "redstone.h"

#include <stdio.h>

/* The rows, in the table's order. */
enum { ROW_FIRST, ROW_SECOND, ROW_BLOCK, ROW_THIRD, ROWS };

static const uint8_t profile[REDSTONE_PROFILE_BYTES] = REDSTONE_BENCH_PROFILE;
static uint8_t table[ROWS * REDSTONE_ROW_BYTES];
static uint16_t list[ROWS * REDSTONE_MOST_FEEDERS];

static const uint8_t *bytes_of(int row) {
    return table + REDSTONE_ROW_BYTES * row;
}

static void put(uint8_t *bytes, uint8_t x, uint8_t y, uint8_t kind) {
    bytes[0] = x;
    bytes[4] = y;
    bytes[12] = kind;
}

static void put_row(int row, uint8_t x, uint8_t y, uint8_t kind) {
    put(table + REDSTONE_ROW_BYTES * row, x, y, kind);
}

/* The rule by which dust transmits, told by the heights. */
static const char *rule(const uint8_t *source, const uint8_t *sink) {
    if (source[4] == sink[4]) {
        return "Horizontal";
    }
    return source[4] < sink[4] ? "Rise" : "FallThroughConductor";
}

static void show(void) {
    for (int row = 0; row < ROWS; row++) {
        const uint16_t *entries = list + REDSTONE_MOST_FEEDERS * row;
        for (int entry = 0; entry < REDSTONE_MOST_FEEDERS && entries[entry] != REDSTONE_NO_ROW; entry++) {
            const uint8_t *source = bytes_of(entries[entry]), *sink = bytes_of(row);
            printf("%d,%d,0 is fed by %d,%d,0: %s\n", sink[0], sink[4], source[0], source[4], rule(source, sink));
        }
    }
}

/* Replaces the block by another row, and updates the list. */
static uint32_t replace_block(const uint8_t *new_row) {
    return redstone_replace(profile, sizeof profile, table, sizeof table, ROW_BLOCK, new_row, REDSTONE_ROW_BYTES, list,
                            ROWS * REDSTONE_MOST_FEEDERS);
}

/* Whether an answer is a refusal, which is written then. */
static int refused(uint32_t answer) {
    if (REDSTONE_REFUSAL(answer) == 0) {
        return 0;
    }
    printf("refusal %u, row %u\n", REDSTONE_REFUSAL(answer), REDSTONE_ROW(answer));
    return 1;
}

int main(void) {
    put_row(ROW_FIRST, 0, 0, REDSTONE_KIND_REDSTONE_WIRE);
    put_row(ROW_SECOND, 1, 0, REDSTONE_KIND_REDSTONE_WIRE);
    put_row(ROW_BLOCK, 2, 0, REDSTONE_KIND_SOLID);
    put_row(ROW_THIRD, 2, 1, REDSTONE_KIND_REDSTONE_WIRE);

    if (refused(redstone_feeders(profile, sizeof profile, table, sizeof table, list, ROWS * REDSTONE_MOST_FEEDERS))) {
        return 1;
    }
    show();

    /* A top slab lets power up, and not down. */
    uint8_t slab[REDSTONE_ROW_BYTES] = {0};
    put(slab, 2, 0, REDSTONE_KIND_SOLID);
    slab[28] = REDSTONE_SHAPE_TOP_SLAB;
    if (refused(replace_block(slab))) {
        return 1;
    }
    printf("with a slab\n");
    show();

    /* A row is replaced at its position. */
    put(slab, 2, 2, REDSTONE_KIND_SOLID);
    return !refused(replace_block(slab));
}
