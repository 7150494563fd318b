/* Test 3 of the book: settles two dust beside a redstone block and writes what the program `settle` writes. */
#include "redstone.h"

#include <stdio.h>

enum { ROWS = 5 };

int main(void) {
    static const int8_t blocks[ROWS][4] = {
        {0, 1, 0, REDSTONE_KIND_REDSTONE_BLOCK}, {1, 0, 0, REDSTONE_KIND_SOLID}, {1, 1, 0, REDSTONE_KIND_REDSTONE_WIRE},
        {2, 0, 0, REDSTONE_KIND_SOLID},          {2, 1, 0, REDSTONE_KIND_REDSTONE_WIRE},
    };
    const uint8_t profile[REDSTONE_PROFILE_BYTES] = REDSTONE_BENCH_PROFILE;
    const uint8_t devices[ROWS] = {0};
    uint8_t table[ROWS * REDSTONE_ROW_BYTES] = {0};
    uint8_t signal[ROWS], weak[ROWS], strong[ROWS];
    for (int row = 0; row < ROWS; row++) {
        for (int axis = 0; axis < 3; axis++) {
            table[REDSTONE_ROW_BYTES * row + 4 * axis] = (uint8_t)blocks[row][axis];
        }
        table[REDSTONE_ROW_BYTES * row + 12] = (uint8_t)blocks[row][3];
    }
    uint32_t answer = redstone_settle(profile, sizeof profile, table, sizeof table, devices, sizeof devices, 128,
                                      signal, sizeof signal, weak, sizeof weak, strong, sizeof strong);
    if (REDSTONE_REFUSAL(answer) != 0) {
        printf("refusal=%u\nplace=%u\n", REDSTONE_REFUSAL(answer), REDSTONE_ROW(answer));
        return 1;
    }
    printf("blocks=%d\nrounds=%u\n", ROWS, answer);
    for (int row = 0; row < ROWS; row++) {
        const int8_t *at = blocks[row];
        printf("row=%d,%d,%d,%u,%u,%u\n", at[0], at[1], at[2], signal[row], weak[row], strong[row]);
    }
    return 0;
}
