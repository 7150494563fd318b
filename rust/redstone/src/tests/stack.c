/* Makes every call on 1,024 rows, on a thread with a stack of its own, and writes how many bytes of it they used. */
#define _POSIX_C_SOURCE 200809L
#include "redstone.h"

#include <pthread.h>
#include <stdio.h>
#include <stdlib.h>
#include <string.h>

enum { ROWS = REDSTONE_MOST_ROWS, STACK = 256 * 1024, PAINT = 0xa5 };

static const uint8_t profile[REDSTONE_PROFILE_BYTES_WITH_BULB] = REDSTONE_BENCH_PROFILE_WITH_BULB;
static uint8_t table[ROWS * REDSTONE_ROW_BYTES];
static uint8_t devices[ROWS];
static uint8_t state[ROWS * REDSTONE_STATE_BYTES];
static uint8_t signal[ROWS], weak[ROWS], strong[ROWS];
static uint16_t rows[ROWS];
static uint8_t merged[REDSTONE_MERGE_BYTES];
static uint8_t kept[sizeof table];
static uint16_t passes[ROWS];
static uint16_t feeders[ROWS * REDSTONE_MOST_FEEDERS];

/* Where the stack was when the calls began. */
static uint8_t *start;

/* Every kind in turn, in lines along z, each above the line before. */
static void fill(void) {
    for (int row = 0; row < ROWS; row++) {
        uint8_t *bytes = table + REDSTONE_ROW_BYTES * row;
        bytes[4] = (uint8_t)(row / 64);
        bytes[8] = (uint8_t)(row % 64);
        bytes[12] = (uint8_t)(row / 64 % 2 == 0 ? REDSTONE_KIND_SOLID : 1 + row % 13);
        bytes[13] = REDSTONE_FACING_SOUTH;
        bytes[14] = 2;
        bytes[19] = 1;
        bytes[21] = (uint8_t)-1;
    }
}

static void accepted(uint32_t answer) {
    if (REDSTONE_REFUSAL(answer) != 0) {
        printf("refusal=%u\nplace=%u\n", REDSTONE_REFUSAL(answer), REDSTONE_ROW(answer));
        exit(1);
    }
}

static void *calls(void *unused) {
    uint8_t here = 0;
    start = &here;
    accepted(redstone_fresh(profile, sizeof profile, table, sizeof table, state, sizeof state, signal, sizeof signal,
                            weak, sizeof weak, strong, sizeof strong));
    for (int row = 0; row < ROWS; row++) {
        devices[row] = state[REDSTONE_STATE_BYTES * row];
    }
    accepted(redstone_settle(profile, sizeof profile, table, sizeof table, devices, sizeof devices,
                             REDSTONE_MOST_ROUNDS, signal, sizeof signal, weak, sizeof weak, strong, sizeof strong));
    accepted(redstone_tick(profile, sizeof profile, table, sizeof table, state, sizeof state, 0, 20, signal,
                           sizeof signal, weak, sizeof weak, strong, sizeof strong));
    accepted(redstone_switch(profile, sizeof profile, table, sizeof table, state, sizeof state, 0, 1, 6, 0, signal,
                             sizeof signal, weak, sizeof weak, strong, sizeof strong));
    accepted(redstone_redraw(profile, sizeof profile, table, sizeof table));
    accepted(redstone_supports(profile, sizeof profile, table, sizeof table, rows, ROWS));
    accepted(redstone_merge(table, sizeof table, table, sizeof table, 0, 0, 0, merged, sizeof merged));
    accepted(redstone_clear(profile, sizeof profile, table, sizeof table, kept, sizeof kept, passes, ROWS));
    accepted(redstone_feeders(profile, sizeof profile, table, sizeof table, feeders, ROWS * REDSTONE_MOST_FEEDERS));
    accepted(redstone_replace(profile, sizeof profile, table, sizeof table, 0, merged, REDSTONE_ROW_BYTES, feeders,
                              ROWS * REDSTONE_MOST_FEEDERS));
    return unused;
}

int main(void) {
    uint8_t *stack = aligned_alloc(4096, STACK);
    pthread_attr_t attributes;
    pthread_t thread;
    if (stack == NULL) {
        return 1;
    }
    memset(stack, PAINT, STACK);
    fill();
    if (pthread_attr_init(&attributes) != 0 || pthread_attr_setstack(&attributes, stack, STACK) != 0 ||
        pthread_create(&thread, &attributes, calls, NULL) != 0 || pthread_join(thread, NULL) != 0) {
        return 1;
    }
    uint8_t *lowest = stack;
    while (*lowest == PAINT) {
        lowest++;
    }
    printf("%td\n", start - lowest);
    return 0;
}
