/*
 * The proved redstone calls, for C on x86-64 Linux: link libredstone.a, which `bin/staticlib redstone` builds.
 *
 * Buffers. Each is a pointer and then its length in entries, and may have any length and content. Buffers that are only
 * read may be one or overlap, as redstone_merge's two tables; a buffer that is written may overlap no other. A pointer
 * must not be null, not even with length 0. Entries are bytes, but for the rows of redstone_supports, the passes of
 * redstone_clear and the list of redstone_feeders and redstone_replace, which have 16 bits: those buffers stand at even
 * addresses.
 *
 * Threads and stack. There are no globals and nothing is allocated or kept: any thread may call at any time, over
 * buffers that no other thread writes meanwhile. 48 KiB of free stack are enough for every call.
 *
 * Answer. Where the call is refused, 65536 times the refusal's number plus the row at fault, and no byte of any buffer
 * is written. Else the rounds in which the table settled, 1 to 17, and all of signal, weak and strong are written;
 * redstone_redraw, redstone_supports, redstone_merge, redstone_clear, redstone_feeders and redstone_replace, which settle
 * nothing, say below what they answer.
 *
 * Table. At most 1024 rows of 32 bytes, ordered by x, then y, then z, all positions different. Numbers have their low
 * byte first. y is up.
 *
 *   0-3, 4-7, 8-11  x, y, z, signed, each from -1000000 to 1000000
 *   12              kind: 1 Solid, 2 Transparent, 3 RedstoneWire (dust), 4 RedstoneTorch, 5 Repeater, 6 Comparator,
 *                   7 Lever, 8 Button, 9 PressurePlate, 10 RedstoneLamp, 11 RedstoneBlock, 12 Piston, 13 CopperBulb
 *                   (with a profile of 14 bytes alone, and in redstone_merge, which has none)
 *   13              facing: 0 missing, 1 North (0,0,-1), 2 East (1,0,0), 3 South (0,0,1), 4 West (-1,0,0), 5 Up, 6 Down
 *   14              powered: 0 missing, 1 false, 2 true
 *   15, 16          power level given 0/1, its value, at most 15 for a comparator
 *   17, 18          delay given 0/1, its value
 *   19, 20-22       support offset given 0/1, its dx, dy, dz as signed bytes -1 to 1
 *   23, 24-27       arms stored 0/1; North, East, South, West: 0 no entry, 1 None, 2 Side, 3 Up
 *   28              shape: 0 plain, 1 bottom slab, 2 top slab, 3 double slab, 4 bottom stairs, 5 top stairs, 6 glass
 *   29              1 where the comparator's mode is subtract, else 0
 *   30, 31          0
 *
 * A value whose given or stored byte is 0 is 0.
 *
 *   - A repeater or comparator faces its output; its input is at the opposite side. Without a horizontal facing it has
 *     neither.
 *   - A lever, button or plate powers the block at its support offset, (0,-1,0) for the one below. Without an offset it
 *     powers no block, and still gives its level to dust beside it. It is on where powered is true, with its power
 *     level, capped at 15, or 15 where none is given.
 *   - A torch goes out while the block at its support offset has power. It starts lit, unless powered is false.
 *   - A repeater starts off, unless powered is true. Its delay is in ticks: 1 where none is given or 0 is, 4 above 4.
 *   - A comparator starts with its power level, which is not capped: above 15 it is refused, by 10. Where none is given
 *     it starts with 15 if powered is true and else with 0.
 *   - A copper bulb starts dark, unless powered is true. Its light flips each time that power arrives: after a tick
 *     that leaves it with power, if it had none after the tick before. Power that it has when fresh has arrived.
 *   - Dust takes the arms that no entry is stored for from what stands around it.
 *
 * Profile. 13 bytes, one for each kind from 0 (Air, always 0) to 12, or 14 with CopperBulb's. Each is a sum of:
 * 1 supports components, 2 receives weak power, 4 receives strong power, 8 repeater reads block power, 16 strong power
 * drives dust. 32 is for RedstoneTorch's alone: a lit torch gives strong power 15 to the block above it, where that
 * receives strong power. The bench profile has it clear. With 13 bytes a row of kind 13 is bad; on a table without such
 * rows a fourteenth byte changes nothing.
 *
 * Devices. A byte a row: repeater powered or torch lit 0/1, comparator 0-15, other kinds 0.
 *
 * State. 16 bytes a row, of which the bytes of another kind's device are 0. Numbers have their low byte first.
 *
 *   0     the device byte
 *   1     a repeater's queue, oldest at bit 0, one bit for each tick of its delay (1 if missing, clamped to 1-4); it is
 *         below 2 to the delay, and bit 0 is byte 0
 *   2     lamp or bulb lit 0/1
 *   3     ticks left until a lamp without power goes out, 0-2, 0 if unlit
 *   4-7   a torch's toggles, bit j for a toggle j ticks ago, j from 0 to 30; bit 31 is 0
 *   8     burn-out candidate 0/1, 1 where eight or more toggle bits are set
 *   9     whether a bulb had power after the last tick 0/1
 *   10-15 0
 *
 * Signal, weak, strong. A byte a row, at most 15 for every kind. The signal is the level that a source or device gives,
 * and a dust's own. Strong power is what levers, buttons, plates, repeaters, comparators, redstone blocks and, by the
 * profile, torches give to a block. Weak power is what dust, and strongly powered neighbours, give to a block. Lamps,
 * bulbs, torches, repeaters and comparators answer to both; strong power alone drives dust.
 *
 * Feeders. 12 entries of 16 bits a row: the numbers of the rows of all dust that transmits into it, rising, and then 65535.
 * A row that is no dust has 65535 in all of them. Dust transmits into dust at its four sides, at the same height, a cell
 * higher or a cell lower, and the heights tell by which rule:
 *
 *   same height   Horizontal, by the arms that both have to each other
 *   from below    Rise, by the arm of the lower dust to the block on which the higher one lies: Up, or Side where that is
 *                 a top slab or top stairs
 *   from above    FallThroughConductor, by the same arm, where strong power of that block drives dust
 *
 * Whether it has power does not matter. Levers, torches and other blocks that power dust are no entries.
 *
 * Refusals, tested in the order 1 to 5, 10 on the rows, 6, 10 on the device column or the state, 7, 8, 9, as far as the
 * call has the input. Each is tested over all rows before the next, in 6 the length before a value. The row is the first
 * at fault for 4, 5, 10 and a value in 6, and else 0. Every call gives 10 on the rows, settle on the device column, too,
 * and tick and switch on the state. redstone_merge tests the first table for 2 to 5 and 10, then the second, as it is
 * given and with its own rows counted, and then 7, 11, 12 and 3, of both together. Where it gives 2 to 5 or 10, the fault
 * is in the first table if the same call with second_length 0 gives it, too. Else it is in the second; or, of 3 where
 * neither table has more than 1024 rows, in both together. redstone_replace tests the table for 1 to 5 and 10, then the new
 * row for 4, 5 and 10, with the number that it is given as the row, and then 7. Where it gives 4, 5 or 10, the fault is in
 * the table if redstone_feeders with list_length 0, which then writes nothing, gives it of that table, too. Else it is in
 * the new row.
 *
 *   1  profile     not 13 bytes nor 14, Air not 0, or a byte above 31, the torch's above 63
 *   2  ragged      table length not a multiple of 32
 *   3  crowded     more than 1024 rows, in a table or in what two are merged to
 *   4  bad row     a field outside the layout, or kind 13 with a profile of 13 bytes; replace's new row not 32 bytes
 *   5  misplaced   a position not after the row before; replace's new row at another position than the row that it is to
 *                  replace, or no such row
 *   6  bad state   device column or state of wrong length or value, but for 10's
 *   7  column      an output column, or fresh's state, not one entry per row; merge's output not 32768 bytes; clear's
 *                  kept rows not as many bytes as the table; a list of feeders not 12 entries per row
 *   8  unsettled   limit below the rounds needed (settle alone; 17 is always enough)
 *   9  clock end   tick plus ticks above 4294967295 (tick alone)
 *   10 overdriven  a comparator with a power level above 15 given in its row, or with a device byte above 15 in the
 *                  device column or the state
 *   11 off ground  a part of the offset outside -2000000 to 2000000, or a moved coordinate outside -1000000 to 1000000
 *                  (merge alone)
 *   12 clash       a position in both tables whose 32 bytes, once moved, differ (merge alone)
 */
#ifndef REDSTONE_H
#define REDSTONE_H

#include <stddef.h>
#include <stdint.h>

/* The number of the refusal that an answer stands for, 0 where it is none; and the refusal's row. An answer below 65536 is
 * the result of a call that was not refused; any other gives back, by these two, the number and the row of the refusal
 * that fell on it. That is proved: `decode_answer`, crates/refusals/proofs/Tells.antt. */
#define REDSTONE_REFUSAL(answer) ((uint32_t)(answer) >> 16)
#define REDSTONE_ROW(answer) ((uint32_t)(answer) & 0xffff)

/* Sizes. */
#define REDSTONE_PROFILE_BYTES 13
#define REDSTONE_PROFILE_BYTES_WITH_BULB 14
#define REDSTONE_ROW_BYTES 32
#define REDSTONE_STATE_BYTES 16
#define REDSTONE_MOST_ROWS 1024
#define REDSTONE_MOST_LEVEL 15
#define REDSTONE_MOST_ROUNDS 17
#define REDSTONE_FARTHEST 1000000
#define REDSTONE_FARTHEST_OFFSET 2000000
#define REDSTONE_MERGE_BYTES 32768
#define REDSTONE_MOST_FEEDERS 12

/* Byte 12 of a row. */
#define REDSTONE_KIND_SOLID 1
#define REDSTONE_KIND_TRANSPARENT 2
#define REDSTONE_KIND_REDSTONE_WIRE 3
#define REDSTONE_KIND_REDSTONE_TORCH 4
#define REDSTONE_KIND_REPEATER 5
#define REDSTONE_KIND_COMPARATOR 6
#define REDSTONE_KIND_LEVER 7
#define REDSTONE_KIND_BUTTON 8
#define REDSTONE_KIND_PRESSURE_PLATE 9
#define REDSTONE_KIND_REDSTONE_LAMP 10
#define REDSTONE_KIND_REDSTONE_BLOCK 11
#define REDSTONE_KIND_PISTON 12
#define REDSTONE_KIND_COPPER_BULB 13

/* Byte 13. */
#define REDSTONE_FACING_NORTH 1
#define REDSTONE_FACING_EAST 2
#define REDSTONE_FACING_SOUTH 3
#define REDSTONE_FACING_WEST 4
#define REDSTONE_FACING_UP 5
#define REDSTONE_FACING_DOWN 6

/* Bytes 24 to 27. */
#define REDSTONE_ARM_NONE 1
#define REDSTONE_ARM_SIDE 2
#define REDSTONE_ARM_UP 3

/* Byte 28. */
#define REDSTONE_SHAPE_PLAIN 0
#define REDSTONE_SHAPE_BOTTOM_SLAB 1
#define REDSTONE_SHAPE_TOP_SLAB 2
#define REDSTONE_SHAPE_DOUBLE_SLAB 3
#define REDSTONE_SHAPE_BOTTOM_STAIRS 4
#define REDSTONE_SHAPE_TOP_STAIRS 5
#define REDSTONE_SHAPE_GLASS 6

/* The value of the torch's byte of a profile, by which a lit torch charges the block above it:
 * profile[REDSTONE_KIND_REDSTONE_TORCH] |= REDSTONE_TORCH_CHARGES_ABOVE */
#define REDSTONE_TORCH_CHARGES_ABOVE 32

/* The entry of a list of feeders that is no row's. */
#define REDSTONE_NO_ROW 65535

/* The bench's own profile, to initialise an array: Solid and RedstoneLamp 31, Transparent and RedstoneBlock 1. */
#define REDSTONE_BENCH_PROFILE {0, 31, 1, 0, 0, 0, 0, 0, 0, 0, 31, 1, 0}

/* The same and then CopperBulb 7: components stand on a bulb, and power that reaches it counts, but no repeater reads it
 * and it drives no dust. So it is in the game: a full block that does not conduct. */
#define REDSTONE_BENCH_PROFILE_WITH_BULB {0, 31, 1, 0, 0, 0, 0, 0, 0, 0, 31, 1, 0, 7}

#ifdef __cplusplus
extern "C" {
#endif

/* Writes the state in which the table starts to `state`, and settles it. */
uint32_t redstone_fresh(
    const uint8_t *profile, size_t profile_length,
    const uint8_t *table, size_t table_length,
    uint8_t *state, size_t state_length,
    uint8_t *signal, size_t signal_length,
    uint8_t *weak, size_t weak_length,
    uint8_t *strong, size_t strong_length);

/* Settles the table with these devices, in at most `limit` rounds. */
uint32_t redstone_settle(
    const uint8_t *profile, size_t profile_length,
    const uint8_t *table, size_t table_length,
    const uint8_t *devices, size_t devices_length,
    uint32_t limit,
    uint8_t *signal, size_t signal_length,
    uint8_t *weak, size_t weak_length,
    uint8_t *strong, size_t strong_length);

/* Moves `state`, which stands at tick number `tick`, on by `ticks` ticks, of a tenth of a second each, and settles it.
 * Any number of ticks is run, however long it takes; none at all settle it as it is. */
uint32_t redstone_tick(
    const uint8_t *profile, size_t profile_length,
    const uint8_t *table, size_t table_length,
    uint8_t *state, size_t state_length,
    uint32_t tick, uint32_t ticks,
    uint8_t *signal, size_t signal_length,
    uint8_t *weak, size_t weak_length,
    uint8_t *strong, size_t strong_length);

/* Writes byte 14 of the row at x, y, z, to 1 where `powered` is 0 and else to 2, and settles the table. Where there is
 * no such row it settles the table as it is. The state is not written: a bulb that gets power by this, and keeps it,
 * flips at the next tick. A switch before redstone_redraw and the same switch after it, under one profile, end in the same
 * table. Rounds and columns are by the arms that the table has at this call: where the redraw comes last, settle again, as
 * by redstone_tick with no ticks. */
uint32_t redstone_switch(
    const uint8_t *profile, size_t profile_length,
    uint8_t *table, size_t table_length,
    const uint8_t *state, size_t state_length,
    int32_t x, int32_t y, int32_t z, uint32_t powered,
    uint8_t *signal, size_t signal_length,
    uint8_t *weak, size_t weak_length,
    uint8_t *strong, size_t strong_length);

/* Draws the arms of every dust anew: writes bytes 23 to 27 of its row. Answers 0. A second redraw under the same profile
 * changes no byte and answers the same. A redraw and then redstone_switch leave the same table as that switch and then the
 * redraw, whether a row is at its position or none. With the same state and columns of the same lengths that holds of
 * refused calls, too, the refusal being the same in both orders; with others it holds where neither switch is refused. That
 * is proved: `redraw_twice`, `answers_twice`, `same_table`, `same_refusal` and `same_table_done`,
 * crates/either_order/proofs/Calls.antt. */
uint32_t redstone_redraw(
    const uint8_t *profile, size_t profile_length,
    uint8_t *table, size_t table_length);

/* Writes the numbers of the rows that nothing holds up to the front of `rows`, which has one entry a row of the table;
 * the rest of it is untouched. They are dust, torches, repeaters, comparators and levers whose support offset is not
 * given, or leads to no block or to one that does not support components. Answers how many they are. */
uint32_t redstone_supports(
    const uint8_t *profile, size_t profile_length,
    const uint8_t *table, size_t table_length,
    uint16_t *rows, size_t rows_length);

/* Writes the table that holds the rows of the first and those of the second, moved by dx, dy, dz, to the front of `out`,
 * in the table's order; the rest of it is untouched. `out` has REDSTONE_MERGE_BYTES, whatever the tables have. A position
 * that both have is written once. No profile is given, and rows of bulbs are good. Answers how many rows there are. */
uint32_t redstone_merge(
    const uint8_t *first, size_t first_length,
    const uint8_t *second, size_t second_length,
    int32_t dx, int32_t dy, int32_t dz,
    uint8_t *out, size_t out_length);

/* Takes away all rows that redstone_supports lists, then all that it lists of what is left, and so on, until it lists
 * none. Writes the rows that are kept to the front of `kept`, in the table's order; the rest of it is untouched. `kept`
 * has as many bytes as the table, and is another buffer. Writes to `passes`, which has one entry a row of the table, the
 * pass in which each row went, from 1 on, or 0 where it is kept. The rows of a pass go together: until it is over each of
 * them holds up what stands on it. Rows that hold each other up are never listed, and are kept; so is one that holds itself
 * up. There are at most as many passes as rows. What is kept is the largest set of rows in which each that needs support
 * has it; under the same profile it is an accepted table, of which nothing would go. Answers how many rows are kept. */
uint32_t redstone_clear(
    const uint8_t *profile, size_t profile_length,
    const uint8_t *table, size_t table_length,
    uint8_t *kept, size_t kept_length,
    uint16_t *passes, size_t passes_length);

/* Writes the feeders of every row to `list`, which has REDSTONE_MOST_FEEDERS entries a row of the table. They are by the
 * arms that the table has: after redstone_redraw they may be others, after redstone_switch they are the same. Answers how
 * many rows there are. */
uint32_t redstone_feeders(
    const uint8_t *profile, size_t profile_length,
    const uint8_t *table, size_t table_length,
    uint16_t *list, size_t list_length);

/* Writes the 32 bytes of `new_row` over the row of number `row`, from 0, which stands at the same position. In the list of
 * feeders it writes afresh the entries of that row, and those of dust at most two cells away from it on every axis, as
 * they are in the table after it. All other entries stay as they were. If the list was the one that redstone_feeders
 * writes of the table before, under this profile, it is now the one that it writes of the table after. What the entries of
 * the list are is not tested. Answers how many rows there are. */
uint32_t redstone_replace(
    const uint8_t *profile, size_t profile_length,
    uint8_t *table, size_t table_length,
    uint16_t row,
    const uint8_t *new_row, size_t new_row_length,
    uint16_t *list, size_t list_length);

#ifdef __cplusplus
}
#endif

#endif
