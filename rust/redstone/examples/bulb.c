/* A button on a copper bulb, pressed twice; and a refusal for want of the bulb's byte of the profile.
 *
 * From the repository's root, after `bin/staticlib redstone`:
 *
 *     cc -I rust/redstone/include rust/redstone/examples/bulb.c target/staticlib/libredstone.a -o bulb && ./bulb
 */
#include "redstone.h"

#include <stdio.h>

/* The rows, in the table's order: the bulb at 0,0,0 and the button at 0,1,0. */
enum { BULB, BUTTON, ROWS };

static const uint8_t profile[REDSTONE_PROFILE_BYTES_WITH_BULB] = REDSTONE_BENCH_PROFILE_WITH_BULB;
static uint8_t table[ROWS * REDSTONE_ROW_BYTES];
static uint8_t state[ROWS * REDSTONE_STATE_BYTES];
static uint8_t signal[ROWS], weak[ROWS], strong[ROWS];

/* Writes a refusal; or the bulb's light, and whether it had power after the last tick. */
static void show(const char *what, uint32_t tick, uint32_t answer) {
    if (REDSTONE_REFUSAL(answer) != 0) {
        printf("tick %u, %s: refusal %u, row %u\n", tick, what, REDSTONE_REFUSAL(answer), REDSTONE_ROW(answer));
        return;
    }
    const uint8_t *bulb = state + REDSTONE_STATE_BYTES * BULB;
    printf("tick %u, %s: bulb %s, had %s\n", tick, what, bulb[2] ? "lit" : "dark", bulb[9] ? "power" : "none");
}

static uint32_t set(uint32_t powered) {
    return redstone_switch(profile, sizeof profile, table, sizeof table, state, sizeof state, 0, 1, 0, powered,
                           signal, sizeof signal, weak, sizeof weak, strong, sizeof strong);
}

static uint32_t run(size_t profile_length, uint32_t tick) {
    return redstone_tick(profile, profile_length, table, sizeof table, state, sizeof state, tick, 1,
                         signal, sizeof signal, weak, sizeof weak, strong, sizeof strong);
}

int main(void) {
    uint8_t *bulb = table + REDSTONE_ROW_BYTES * BULB;
    bulb[12] = REDSTONE_KIND_COPPER_BULB;
    uint8_t *button = table + REDSTONE_ROW_BYTES * BUTTON;
    button[4] = 1;
    button[12] = REDSTONE_KIND_BUTTON;
    button[19] = 1; /* it is fixed to .. */
    button[21] = (uint8_t)-1; /* .. the bulb below */

    uint32_t answer = redstone_fresh(profile, sizeof profile, table, sizeof table, state, sizeof state,
                                     signal, sizeof signal, weak, sizeof weak, strong, sizeof strong);
    show("fresh", 0, answer);
    for (uint32_t tick = 0; tick < 4; tick++) {
        uint32_t is_pressed = tick % 2 == 0;
        show(is_pressed ? "pressed" : "released", tick, set(is_pressed));
        show("ticked", tick + 1, run(sizeof profile, tick));
    }
    show("without the bulb's byte", 4, run(REDSTONE_PROFILE_BYTES, 4));
    return 0;
}
