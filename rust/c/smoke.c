/* The worked card, called from C and C++: 5 by 5 cells, strength 3, payload a5. */
#include "varmintfoil.h"

#include <stdio.h>
#include <string.h>

static int failures = 0;

static void expect(int holds, const char *what) {
    if (!holds) {
        printf("failed: %s\n", what);
        failures++;
    }
}

static const varmintfoil_shape_t card = {.columns = 5, .rows = 5, .planes = 1, .strength = 3};

static const uint8_t written[25] = {
    1, 0, 0, 1, 1,
    0, 0, 1, 0, 1,
    1, 0, 1, 0, 0,
    1, 0, 1, 0, 1,
    1, 0, 1, 1, 0,
};

/* The card as it was written before, with zeros for padding. */
static const uint8_t earlier[25] = {
    1, 1, 0, 1, 1,
    0, 0, 1, 0, 1,
    1, 0, 1, 0, 0,
    0, 0, 1, 0, 1,
    1, 0, 1, 0, 0,
};

static void the_plan(void) {
    varmintfoil_plan_t plan = varmintfoil_plan(card);
    expect(plan.number == VARMINTFOIL_OK, "plan succeeds");
    expect(plan.classes == 5 && plan.capacity == 10 && plan.bytes == 1 && plan.cells == 25, "plan of the worked card");
    expect(plan.used == 5 && plan.digits == 0, "all of its classes hold a cell, and none six");
    plan = varmintfoil_plan(VARMINTFOIL_SHAPE(.columns = 17, .rows = 241, .planes = 15, .strength = 6));
    expect(plan.number == VARMINTFOIL_OK && plan.classes == 38, "a stack of four different numbers has 38 classes");
    expect(plan.cells == 61455 && plan.capacity == 61037 && plan.bytes == 7629 && plan.used == 38, "and its figures");
    expect(plan.digits == 51110, "five digits for each of its words");
    plan = varmintfoil_plan(VARMINTFOIL_SHAPE(.columns = 9, .rows = 9, .planes = 1, .window_rows = 512, .window_columns = 1));
    expect(plan.number == VARMINTFOIL_OK, "a window of 512 rows is accepted");
    expect(plan.classes == 512 && plan.capacity == 45 && plan.bytes == 5 && plan.cells == 81 && plan.used == 9,
           "of 512 classes 9 hold a cell");
}

static void the_limits(void) {
    varmintfoil_plan_t plan = varmintfoil_plan(VARMINTFOIL_SHAPE(.columns = 257, .rows = 1, .planes = 1, .strength = 1));
    expect(plan.number == VARMINTFOIL_BAD_SIZE, "257 columns are a bad size");
    expect(plan.classes == 0 && plan.capacity == 0 && plan.bytes == 0 && plan.cells == 0 && plan.used == 0 && plan.digits == 0,
           "figures of a refusal are 0");
    plan = varmintfoil_plan(VARMINTFOIL_SHAPE(.columns = 65537, .rows = 1, .planes = 1, .strength = 1));
    expect(plan.number == VARMINTFOIL_BAD_SIZE, "65,537 columns are not taken for 1");
    plan = varmintfoil_plan(VARMINTFOIL_SHAPE(.columns = SIZE_MAX, .rows = SIZE_MAX, .planes = 1, .strength = 1));
    expect(plan.number == VARMINTFOIL_BAD_SIZE, "huge sides are a bad size");
    plan = varmintfoil_plan(VARMINTFOIL_SHAPE(.columns = 5, .rows = 5, .planes = 1, .strength = 33));
    expect(plan.number == VARMINTFOIL_BAD_STRENGTH, "33 is a bad strength");
    plan = varmintfoil_plan(VARMINTFOIL_SHAPE(.columns = 5, .rows = 5, .planes = 1));
    expect(plan.number == VARMINTFOIL_BAD_STRENGTH, "a strength left out is 0, a bad one");
    plan = varmintfoil_plan(VARMINTFOIL_SHAPE(.columns = 5, .rows = 5, .planes = 1, .strength = 3, .window_rows = 2));
    expect(plan.number == VARMINTFOIL_BAD_WINDOW, "a window beside a strength");
    plan = varmintfoil_plan(VARMINTFOIL_SHAPE(.columns = 5, .rows = 5, .planes = 1, .window_columns = 3));
    expect(plan.number == VARMINTFOIL_BAD_WINDOW, "a window with no rows");
    plan = varmintfoil_plan(VARMINTFOIL_SHAPE(.columns = 5, .rows = 5, .planes = 2, .window_rows = 2, .window_columns = 3));
    expect(plan.number == VARMINTFOIL_BAD_WINDOW, "a window in two planes");
    plan = varmintfoil_plan(VARMINTFOIL_SHAPE(.columns = 5, .rows = 5, .planes = 1, .window_rows = 23, .window_columns = 23));
    expect(plan.number == VARMINTFOIL_BAD_WINDOW, "a window of 529 cells");
    plan = varmintfoil_plan(
        VARMINTFOIL_SHAPE(.columns = 5, .rows = 5, .planes = 1, .window_rows = SIZE_MAX, .window_columns = SIZE_MAX));
    expect(plan.number == VARMINTFOIL_BAD_WINDOW && plan.cells == 0, "huge sides of a window");
}

static void the_classes(void) {
    varmintfoil_shape_t shape = VARMINTFOIL_SHAPE(.columns = 256, .rows = 256, .planes = 1, .strength = 4);
    varmintfoil_class_t answer = varmintfoil_class(shape, 1, 0, 0);
    expect(answer.number == VARMINTFOIL_OK && answer.class_index == 3, "strength 4, row 1 is of class 3");
    shape.strength = 5;
    answer = varmintfoil_class(shape, 12, 0, 0);
    expect(answer.number == VARMINTFOIL_OK && answer.class_index == 5, "strength 5, row 12 is of class 5");
    answer = varmintfoil_class(card, 5, 0, 0);
    expect(answer.number == VARMINTFOIL_OUTSIDE_SHAPE && answer.class_index == 0, "row 5 lies outside the shape");
}

/* Does a card read a5 whole, and with three cells lost, two in the third row and one below them, and is it then corrected? */
static int is_read(const uint8_t *whole) {
    uint8_t before[1] = {0x3c}, after[1] = {0x3c};
    uint8_t field[25];
    varmintfoil_count_t clean, damaged, corrected;

    memcpy(field, whole, 25);
    clean = varmintfoil_decode(card, before, 1, field, 25);
    field[12] = 0;
    field[13] = 1;
    field[17] = 0;
    damaged = varmintfoil_decode(card, after, 1, field, 25);
    corrected = varmintfoil_correct(card, field, 25);
    return clean.number == VARMINTFOIL_OK && clean.count == 0 && before[0] == 0xa5
        && damaged.number == VARMINTFOIL_OK && damaged.count == 3 && after[0] == 0xa5
        && corrected.number == VARMINTFOIL_OK && corrected.count == 3 && memcmp(field, whole, 25) == 0;
}

static void the_card(void) {
    uint8_t payload[1] = {0xa5};
    uint8_t field[25];
    varmintfoil_count_t count;

    memset(field, 9, sizeof field);
    expect(varmintfoil_encode(card, payload, 0, field, 24) == VARMINTFOIL_PAYLOAD_LENGTH, "the payload's length comes first");
    expect(varmintfoil_encode(card, payload, 1, field, 24) == VARMINTFOIL_FIELD_LENGTH, "a field of 24 cells is too short");
    expect(field[0] == 9 && field[24] == 9, "a refusal changes nothing");
    expect(varmintfoil_encode(card, payload, 1, field, 25) == VARMINTFOIL_OK, "encode succeeds");
    expect(memcmp(field, written, 25) == 0, "the field of a5");
    expect(is_read(written), "the card is read, and corrected in 3 cells");
    expect(is_read(earlier), "so is the card as it was written before");

    field[7] = 3;
    payload[0] = 0x3c;
    count = varmintfoil_decode(card, payload, 1, field, 25);
    expect(count.number == VARMINTFOIL_BAD_CELL && count.count == 0 && payload[0] == 0x3c, "3 is no cell");
}

static void the_erased_cells(void) {
    uint8_t payload[1] = {0x3c};
    uint8_t field[25];
    varmintfoil_count_t count;

    memcpy(field, written, 25);
    memset(field, VARMINTFOIL_ERASED, 5);
    count = varmintfoil_decode(card, payload, 1, field, 25);
    expect(count.number == VARMINTFOIL_OK && count.count == 5 && payload[0] == 0xa5, "the card without its first row reads a5");
    count = varmintfoil_correct(card, field, 25);
    expect(count.number == VARMINTFOIL_OK && count.count == 5, "its first row is filled");
    expect(memcmp(field, written, 25) == 0, "the filled card is the written one");

    memset(field, VARMINTFOIL_ERASED, 15);
    payload[0] = 0x3c;
    count = varmintfoil_decode(card, payload, 1, field, 25);
    expect(count.number == VARMINTFOIL_TOO_MANY_ERASURES && count.count == 0 && payload[0] == 0x3c, "three rows are too many");
}

static void the_window(void) {
    varmintfoil_shape_t torn = VARMINTFOIL_SHAPE(.columns = 5, .rows = 5, .planes = 1, .window_rows = 2, .window_columns = 3);
    varmintfoil_plan_t plan = varmintfoil_plan(torn);
    varmintfoil_class_t last = varmintfoil_class(torn, 3, 0, 4);
    uint8_t payload[1] = {0xa5};
    uint8_t field[25], damaged[25];
    varmintfoil_count_t count;

    expect(plan.number == VARMINTFOIL_OK && plan.classes == 6 && plan.cells == 25, "plan of a window of 2 by 3");
    expect(plan.capacity == 9 && plan.bytes == 1, "and its payload");
    expect(last.number == VARMINTFOIL_OK && last.class_index == 4, "row 3 and column 4 are of class 4");
    expect(varmintfoil_encode(torn, payload, 1, field, 25) == VARMINTFOIL_OK, "encode by a window");
    memcpy(damaged, field, 25);
    /* Rows 1 and 2, columns 1 to 3, across corners. */
    damaged[6] ^= 1;
    damaged[12] ^= 1;
    damaged[8] ^= 1;
    payload[0] = 0x3c;
    count = varmintfoil_decode(torn, payload, 1, damaged, 25);
    expect(count.number == VARMINTFOIL_OK && count.count == 3 && payload[0] == 0xa5, "torn corners are read with 3 mended");
    count = varmintfoil_correct(torn, damaged, 25);
    expect(count.number == VARMINTFOIL_OK && count.count == 3 && memcmp(damaged, field, 25) == 0, "and corrected");
}

static void the_padding(void) {
    varmintfoil_shape_t strip = VARMINTFOIL_SHAPE(.columns = 3, .rows = 1, .planes = 1, .strength = 1);
    uint8_t one[3] = {1, 1, 1}, two[5] = {0, 1, 1, 1, 1};
    varmintfoil_count_t count = varmintfoil_correct(strip, one, 3);
    expect(count.number == VARMINTFOIL_OK && count.count == 0, "the codeword 1 1 1 holds a 1 as padding");
    strip.columns = 5;
    count = varmintfoil_correct(strip, two, 5);
    expect(count.number == VARMINTFOIL_BAD_PADDING && count.count == 0, "the codeword 0 1 1 1 1 holds 1 1 as padding");
}

static void the_levels(void) {
    varmintfoil_shape_t strip = VARMINTFOIL_SHAPE(.columns = 12, .rows = 1, .planes = 1, .strength = 2);
    static const uint8_t digits[10] = {1, 2, 3, 4, 5, 6, 7, 8, 9, 10}, levels[12] = {21, 12, 1, 2, 3, 4, 5, 6, 7, 8, 9, 10};
    uint8_t payload[10] = {0}, field[12] = {0};
    varmintfoil_count_t count;

    expect(varmintfoil_plan(strip).digits == 10, "two words hold ten digits");
    expect(varmintfoil_encode_levels(strip, digits, 10, field, 12) == VARMINTFOIL_OK, "encode levels");
    expect(memcmp(field, levels, 12) == 0, "the field of the digits 1 to 10");
    field[4] += 3;
    field[5] -= 1;
    count = varmintfoil_decode_levels(strip, payload, 10, field, 12);
    expect(count.number == VARMINTFOIL_OK && count.count == 2 && memcmp(payload, digits, 10) == 0, "two cells changed are read");
    count = varmintfoil_correct_levels(strip, field, 12);
    expect(count.number == VARMINTFOIL_OK && count.count == 2 && memcmp(field, levels, 12) == 0, "and corrected");

    strip.columns = 7;
    strip.strength = 1;
    memset(field, 0, 12);
    field[1] = 3;
    field[6] = 9;
    count = varmintfoil_decode_levels(strip, payload, 5, field, 7);
    expect(count.number == VARMINTFOIL_OK && count.count == 1 && payload[0] == 0, "the seventh cell is ignored");
    count = varmintfoil_correct_levels(strip, field, 7);
    expect(count.number == VARMINTFOIL_OK && count.count == 2 && field[1] == 0 && field[6] == 0, "and corrected to 0");
    field[6] = VARMINTFOIL_MAX_LEVEL + 1;
    count = varmintfoil_correct_levels(strip, field, 7);
    expect(count.number == VARMINTFOIL_BAD_LEVEL && count.count == 0 && field[6] == 25, "25 is no level, in no cell");
    field[0] = VARMINTFOIL_MAX_LEVEL;
    field[6] = 0;
    count = varmintfoil_decode_levels(strip, payload, 5, field, 7);
    expect(count.number == VARMINTFOIL_OUT_OF_REACH && count.count == 0, "a word that comes from 25 is out of reach");
}

static void no_bytes(void) {
    varmintfoil_shape_t two = VARMINTFOIL_SHAPE(.columns = 2, .rows = 1, .planes = 1, .strength = 1);
    uint8_t cells[2] = {0, 1};
    varmintfoil_count_t count = varmintfoil_decode(two, NULL, 0, cells, 2);
    expect(count.number == VARMINTFOIL_OK && count.count == 1, "cells 0 1 read with count 1 and an empty payload");
    cells[0] = 1;
    count = varmintfoil_decode(two, NULL, 0, cells, 2);
    expect(count.number == VARMINTFOIL_OUT_OF_REACH && count.count == 0, "cells 1 1 are out of reach");
    expect(varmintfoil_encode(two, NULL, 0, NULL, 0) == VARMINTFOIL_FIELD_LENGTH, "null buffers of length 0");
}

static void the_distance_test(void) {
    varmintfoil_distance_t answer = varmintfoil_distance_test(7, 2, 3, 3);
    expect(answer.number == VARMINTFOIL_OK && answer.holds == 1 && answer.tried == 12, "7, 2, 3 holds at strength 3");
    expect(answer.row == 0 && answer.plane == 0 && answer.column == 0, "and gives no triple");
    answer = varmintfoil_distance_test(7, 2, 3, 4);
    expect(answer.number == VARMINTFOIL_OK && answer.holds == 0 && answer.tried == 9, "7, 2, 3 fails at strength 4");
    expect(answer.row == 0 && answer.plane == 2 && answer.column == -1, "at (0, 2, -1)");
    expect(varmintfoil_distance_test(0, 0, 0, 19).number == VARMINTFOIL_BAD_STRENGTH, "the strength comes before the settings");
    expect(varmintfoil_distance_test(0, 0, 0, 1).number == VARMINTFOIL_BAD_SETTINGS, "no classes are bad settings");
}

int main(void) {
    the_plan();
    the_limits();
    the_classes();
    the_card();
    the_erased_cells();
    the_window();
    the_padding();
    the_levels();
    no_bytes();
    the_distance_test();
    if (failures == 0) {
        printf("the worked card holds\n");
    }
    return failures == 0 ? 0 : 1;
}
