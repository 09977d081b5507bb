/* Damage beyond the promise can be told: a field with one hole, and the same with two holes, which is read as another payload. */
#include "varmintfoil.h"

#include <stdbool.h>
#include <stdio.h>
#include <string.h>

static size_t apart(size_t one, size_t other) {
    return one < other ? other - one : one - other;
}

/* May two cells be of one hole of at most t connected cells or, where a window rules, of one window? Of one hole they are less than t
 * apart: the sum of the absolute differences of row, plane and column. */
static bool near_enough(varmintfoil_shape_t shape, size_t one, size_t other) {
    size_t columns = shape.columns, rows = shape.rows;
    size_t down = apart(one / columns % rows, other / columns % rows), right = apart(one % columns, other % columns);
    if (shape.strength == 0) {
        return down < shape.window_rows && right < shape.window_columns;
    }
    return down + apart(one / columns / rows, other / columns / rows) + right < shape.strength;
}

/* May the damage have been one hole of at most t connected cells or, where a window rules, inside one window? The shape is one that was
 * not refused, `before` the field as it was read, `after` as varmintfoil_correct left it.
 *
 * Where it was, the cells that varmintfoil_correct flips are at most t, or the window's, and any two of them are near enough. Where they
 * are not, the damage was beyond the promise, and the payload may be another one.
 *
 * The test is for fields without erased cells. Each of these that is filled counts as flipped, so that two holes of them, which are
 * within the promise, are told as beyond it. */
static bool within_promise(varmintfoil_shape_t shape, const uint8_t *before, const uint8_t *after) {
    size_t flipped[VARMINTFOIL_MAX_CLASSES], count = 0;
    size_t most = shape.strength == 0 ? shape.window_rows * shape.window_columns : shape.strength;
    for (size_t cell = 0; cell < shape.columns * shape.rows * shape.planes; cell++) {
        if (before[cell] == after[cell]) {
            continue;
        }
        if (count == most) {
            return false;
        }
        for (size_t i = 0; i < count; i++) {
            if (!near_enough(shape, flipped[i], cell)) {
                return false;
            }
        }
        flipped[count++] = cell;
    }
    return true;
}

enum { COLUMNS = 16, ROWS = 16, CELLS = COLUMNS * ROWS, BYTES = 26 };

static const varmintfoil_shape_t shape = {.columns = COLUMNS, .rows = ROWS, .planes = 1, .strength = 4};

/* Flips four cells in a square; the row and the column are those of the first. */
static void punch(uint8_t *field, size_t row, size_t column) {
    size_t first = row * COLUMNS + column;
    field[first] ^= 1;
    field[first + 1] ^= 1;
    field[first + COLUMNS] ^= 1;
    field[first + COLUMNS + 1] ^= 1;
}

/* Reads a field, and says what the test tells; false where the field is refused. */
static bool read_field(const char *name, const uint8_t *field) {
    uint8_t payload[BYTES], corrected[CELLS];
    varmintfoil_count_t read = varmintfoil_decode(shape, payload, BYTES, field, CELLS);
    memcpy(corrected, field, CELLS);
    if (read.number != VARMINTFOIL_OK || varmintfoil_correct(shape, corrected, CELLS).number != VARMINTFOIL_OK) {
        return false;
    }
    printf("%s: %.*s, %zu cells flipped, %s the promise\n", name, (int)BYTES, (const char *)payload, read.count,
           within_promise(shape, field, corrected) ? "within" : "beyond");
    return true;
}

int main(void) {
    uint8_t field[CELLS];
    if (varmintfoil_encode(shape, (const uint8_t *)"abcdefghijklmnopqrstuvwxyz", BYTES, field, CELLS) != VARMINTFOIL_OK) {
        return 1;
    }
    punch(field, 5, 4);
    if (!read_field("one hole", field)) {
        return 1;
    }
    punch(field, 13, 4);
    return read_field("two holes", field) ? 0 : 1;
}
