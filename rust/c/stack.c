/* How much stack each function takes: it is run on a stack painted with one byte, and the lowest byte that changed is looked for. All
 * bytes below the caller's own count, arguments in memory and the return address among them; printed is the most over some shapes,
 * each with a cell flipped and with one erased, and with its padding as it is written and as it was written before; a field of levels
 * with a cell as it was written, and 1, 2 and 3 higher. */
#include "varmintfoil.h"

#include <stdio.h>
#include <string.h>
#include <ucontext.h>

enum { SIZE = 1 << 16, PAINT = 0xa5 };

static unsigned char stack[SIZE];
static unsigned char *caller;

/* The caller's stack pointer, before it lays out any argument. */
#define HERE __asm__ volatile("mov %%rsp, %0" : "=r"(caller))

static varmintfoil_shape_t shape;
static uint8_t payload[VARMINTFOIL_MAX_DIGITS], field[VARMINTFOIL_MAX_CELLS];
static size_t bytes, cells, digits, number;

static void plan(void) {
    varmintfoil_plan_t answer;
    HERE;
    answer = varmintfoil_plan(shape);
    number = answer.number;
    bytes = answer.bytes;
    cells = answer.cells;
    digits = answer.digits;
}

static void class_of(void) {
    HERE;
    number = varmintfoil_class(shape, shape.rows - 1, shape.planes - 1, shape.columns - 1).number;
}

static void encode(void) {
    HERE;
    number = varmintfoil_encode(shape, payload, bytes, field, cells);
}

static void decode(void) {
    HERE;
    number = varmintfoil_decode(shape, payload, bytes, field, cells).number;
}

static void correct(void) {
    HERE;
    number = varmintfoil_correct(shape, field, cells).number;
}

static void encode_levels(void) {
    HERE;
    number = varmintfoil_encode_levels(shape, payload, digits, field, cells);
}

static void decode_levels(void) {
    HERE;
    number = varmintfoil_decode_levels(shape, payload, digits, field, cells).number;
}

static void correct_levels(void) {
    HERE;
    number = varmintfoil_correct_levels(shape, field, cells).number;
}

/* Settings that hold at the greatest strength, so that every triple is tried. */
static void distance_test(void) {
    HERE;
    number = varmintfoil_distance_test(4093, 550, 2331, 18).number;
}

/* The bytes that a call takes; 0 where it is refused. */
static size_t taken(void (*call)(void)) {
    ucontext_t here, there;
    size_t lowest = 0;
    memset(stack, PAINT, SIZE);
    getcontext(&there);
    there.uc_stack.ss_sp = stack;
    there.uc_stack.ss_size = SIZE;
    there.uc_link = &here;
    makecontext(&there, call, 0);
    swapcontext(&here, &there);
    while (stack[lowest] == PAINT) {
        lowest++;
    }
    return number == VARMINTFOIL_OK ? (size_t)(caller - (stack + lowest)) : 0;
}

static const struct {
    const char *name;
    void (*call)(void);
    int levels;
} calls[] = {
    {"plan", plan, 0},
    {"class", class_of, 0},
    {"encode", encode, 0},
    {"decode", decode, 0},
    {"correct", correct, 0},
    {"encode_levels", encode_levels, 1},
    {"decode_levels", decode_levels, 1},
    {"correct_levels", correct_levels, 1},
    {"distance_test", distance_test, 0},
};

static const varmintfoil_shape_t shapes[] = {
    {.columns = 5, .rows = 5, .planes = 1, .strength = 3},
    {.columns = 256, .rows = 256, .planes = 1, .strength = 1},
    {.columns = 256, .rows = 256, .planes = 1, .strength = 32},
    {.columns = 256, .rows = 16, .planes = 16, .strength = 8},
    {.columns = 17, .rows = 241, .planes = 15, .strength = 6},
    {.columns = 256, .rows = 256, .planes = 1, .window_rows = 22, .window_columns = 23},
    {.columns = 256, .rows = 256, .planes = 1, .window_rows = 1, .window_columns = 512},
    {.columns = 256, .rows = 256, .planes = 1, .window_rows = 512, .window_columns = 1},
};

int main(void) {
    for (size_t i = 0; i < sizeof calls / sizeof *calls; i++) {
        size_t most = 0;
        for (size_t j = 0; j < 4 * (sizeof shapes / sizeof *shapes); j++) {
            size_t now;
            shape = shapes[j / 4];
            plan();
            encode();
            /* The payload is zeros, and so was its field; and so is that of levels. */
            if (j / 2 % 2 == 1 || calls[i].levels) {
                memset(field, 0, cells);
            }
            if (calls[i].levels) {
                field[0] = (uint8_t)(j % 4);
            } else {
                field[0] = j % 2 == 0 ? field[0] ^ 1 : VARMINTFOIL_ERASED;
            }
            now = taken(calls[i].call);
            if (now == 0) {
                printf("varmintfoil_%s refused a shape with %zu\n", calls[i].name, number);
                return 1;
            }
            most = now > most ? now : most;
        }
        printf("varmintfoil_%s %zu\n", calls[i].name, most);
    }
    return 0;
}
