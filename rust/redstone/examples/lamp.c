/* A lever on a block, a repeater that reads the block, and a lamp behind it: fresh, a switch, ticks, and a refusal.
 *
 * From the repository's root, after `bin/staticlib redstone`:
 *
 *     cc -I rust/redstone/include rust/redstone/examples/lamp.c target/staticlib/libredstone.a -o lamp && ./lamp
 */
#include "redstone.h"

#include <stdio.h>

/* The rows, in the table's order. */
enum { BLOCK, LEVER, REPEATER, LAMP, ROWS };

static const uint8_t profile[REDSTONE_PROFILE_BYTES] = REDSTONE_BENCH_PROFILE;
static uint8_t table[ROWS * REDSTONE_ROW_BYTES];
static uint8_t state[ROWS * REDSTONE_STATE_BYTES];
static uint8_t signal[ROWS], weak[ROWS], strong[ROWS];

/* The 32 bytes of a row, with its position and its kind. Coordinates from 0 to 255 have one byte that is not 0. */
static uint8_t *put(int row, uint8_t x, uint8_t y, uint8_t z, uint8_t kind) {
    uint8_t *bytes = table + REDSTONE_ROW_BYTES * row;
    bytes[0] = x;
    bytes[4] = y;
    bytes[8] = z;
    bytes[12] = kind;
    return bytes;
}

/* Writes a refusal; or what the blocks do at a tick. */
static void show(const char *what, uint32_t tick, uint32_t answer) {
    if (REDSTONE_REFUSAL(answer) != 0) {
        printf("tick %u, %s: refusal %u, row %u\n", tick, what, REDSTONE_REFUSAL(answer), REDSTONE_ROW(answer));
        return;
    }
    const char *lamp = state[REDSTONE_STATE_BYTES * LAMP + 2] ? "lit" : "dark";
    printf("tick %u, %s: block %u, repeater %u, lamp %s\n", tick, what, strong[BLOCK], signal[REPEATER], lamp);
}

static uint32_t flip(uint32_t powered) {
    return redstone_switch(profile, sizeof profile, table, sizeof table, state, sizeof state, 0, 1, 0, powered,
                           signal, sizeof signal, weak, sizeof weak, strong, sizeof strong);
}

static uint32_t run(uint32_t tick, uint32_t ticks) {
    return redstone_tick(profile, sizeof profile, table, sizeof table, state, sizeof state, tick, ticks,
                         signal, sizeof signal, weak, sizeof weak, strong, sizeof strong);
}

int main(void) {
    put(BLOCK, 0, 0, 0, REDSTONE_KIND_SOLID);
    uint8_t *lever = put(LEVER, 0, 1, 0, REDSTONE_KIND_LEVER);
    lever[19] = 1; /* it is fixed to .. */
    lever[21] = (uint8_t)-1; /* .. the block below */
    uint8_t *repeater = put(REPEATER, 1, 0, 0, REDSTONE_KIND_REPEATER);
    repeater[13] = REDSTONE_FACING_EAST; /* its output */
    repeater[17] = 1;
    repeater[18] = 2; /* ticks of delay */
    put(LAMP, 2, 0, 0, REDSTONE_KIND_REDSTONE_LAMP);

    uint32_t answer = redstone_fresh(profile, sizeof profile, table, sizeof table, state, sizeof state,
                                     signal, sizeof signal, weak, sizeof weak, strong, sizeof strong);
    show("fresh", 0, answer);

    show("switched on", 0, flip(1));
    show("ticked", 1, run(0, 1));
    show("ticked", 2, run(1, 1));

    show("switched off", 2, flip(0));
    show("ticked", 7, run(2, 5));

    /* A facing that there is not. */
    repeater[13] = 7;
    show("refused", 7, run(7, 1));
    return 0;
}
