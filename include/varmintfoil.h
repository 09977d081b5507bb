/* Varmintfoil: a payload in a field of black and white cells that outlives any one hole of at most t connected cells or, by another
 * setting, any damage inside one window of p rows by q columns; or in a field of cells of 25 levels, where each cell of the hole or the
 * window may be read as at most 3 higher or 1 lower than it was written.
 *
 * For x86-64 with the System V calling convention. Link crates/varmintfoil/out/libvarmintfoil.a, which `rt lib --cpu x86-64` writes in
 * crates/varmintfoil; it needs the C library's memset and nothing else. Header and archive must be of one version.
 *
 * A shape is six numbers: columns W and rows H from 1 to 256, planes D from 1 to 16, W * H * D at most 65,536, the strength t, 1 to 32
 * where D is 1 and 1 to 8 where D is above, and the rows p and columns q of a window, both 0. Or, for damage that tears across corners,
 * the strength is 0 and the window rules: D is 1, p and q are at least 1, and p * q is at most 512; p may exceed H, and q W. Then any
 * cells flipped inside one p by q window are undone, wherever it lies, also over the field's edge; a patch of t cells that touch by
 * sides or corners lies in a window of t by t.
 *
 * A field is W * H * D bytes, one for each cell, 0 for white and 1 for black; a cell of a field that is decoded or corrected may be
 * erased, 2, a cell that was not read. The cell (row, plane, column) is byte (plane * H + row) * W + column. A payload has the number of
 * bytes that varmintfoil_plan gives.
 *
 * A field of levels is as many bytes, one for each cell, 0 to 24. Its payload is digits 0 to 24, one a byte, as many as varmintfoil_plan
 * gives. The cells of each class, in byte order, are cut into words of six; the last ones of a class, fewer than six, belong to no word
 * and are ignored. A word is lawful where 1, 5, 6, 11, 16 and 21 times its cells, in their order, add up to a multiple of 25. Its first
 * cell is its check; the digits fill the other cells of all words, in byte order over the field. What is undone: any cells of one hole of
 * at most t connected cells, or inside one window, each read as at most 3 higher or 1 lower than written, and as a level.
 *
 * Padding is the cells after the payload's last bit that hold no check, at most 7. It is written as 1, 0, 1, 0 and on, from its first
 * cell in byte order. Before version 0.4.0 it was written as zeros: such a field is read too, and corrected to the field with zeros.
 *
 * Every function takes any numbers at all. It answers the number VARMINTFOIL_OK for success, or the number of the first refusal that
 * applies, in the order in which they are listed with it. On a refusal every other figure of the answer is 0 and no byte of any lent
 * buffer has changed.
 *
 * What the library cannot see, and the caller answers for:
 *   - a pointer is valid for its length: readable, and writable where it is not const, for that many bytes;
 *   - the two buffers of one call do not overlap;
 *   - a pointer is null only where its length is 0;
 *   - no other thread writes a lent buffer, or reads one that is written, during the call.
 *
 * The functions keep nothing between calls and may run in several threads at once. They allocate nothing. */
#ifndef VARMINTFOIL_H
#define VARMINTFOIL_H

#include <stddef.h>
#include <stdint.h>

#define VARMINTFOIL_VERSION_MAJOR 0
#define VARMINTFOIL_VERSION_MINOR 6
#define VARMINTFOIL_VERSION_PATCH 0
#define VARMINTFOIL_VERSION "0.6.0"

/* The numbers that the functions give. The card program gives 8 besides, for a fault of form. */
#define VARMINTFOIL_OK 0                 /* success */
#define VARMINTFOIL_BAD_SIZE 1           /* W, H, D or their product outside the limits */
#define VARMINTFOIL_BAD_STRENGTH 2       /* a strength outside the limits, or 0 where both sides of the window are 0 */
#define VARMINTFOIL_PAYLOAD_LENGTH 3     /* a payload length that is not the plan's */
#define VARMINTFOIL_FIELD_LENGTH 4       /* a field length that is not the plan's */
#define VARMINTFOIL_OUTSIDE_SHAPE 4      /* a row, plane or column outside the shape, in varmintfoil_class */
#define VARMINTFOIL_BAD_CELL 5           /* a cell above 2 */
#define VARMINTFOIL_OUT_OF_REACH 6       /* some class that stands for no codeword, in the words of varmintfoil_decode, or some word of
                                            levels that stands for no lawful one, in those of varmintfoil_decode_levels */
#define VARMINTFOIL_BAD_PADDING 7        /* padding that is neither 1, 0, 1, 0 and on nor all zeros after correction */
#define VARMINTFOIL_BAD_SETTINGS 9       /* settings of the distance test outside its limits */
#define VARMINTFOIL_TOO_MANY_ERASURES 10 /* some class with three erased cells or more */
#define VARMINTFOIL_BAD_WINDOW 11        /* strength 0 and p or q 0, p * q above 512 or D above 1; another strength and p or q not 0 */
#define VARMINTFOIL_BAD_LEVEL 12         /* a digit or a cell of a field of levels above 24 */

/* The value of an erased cell. */
#define VARMINTFOIL_ERASED 2

/* The greatest level: of a cell, and of a digit. */
#define VARMINTFOIL_MAX_LEVEL 24

/* The most that any accepted shape has, for buffers of a fixed size. */
#define VARMINTFOIL_MAX_CELLS 65536        /* cells, the bytes of a field */
#define VARMINTFOIL_MAX_PAYLOAD_BYTES 8189 /* bytes of a payload */
#define VARMINTFOIL_MAX_CLASSES 512        /* interleaving classes */
#define VARMINTFOIL_MAX_DIGITS 54610       /* digits of a payload of levels */

/* An answer that is dropped is a refusal that goes unseen: the compiler warns of it where it can. */
#if (defined(__cplusplus) && __cplusplus >= 201703L) || (defined(__STDC_VERSION__) && __STDC_VERSION__ >= 202311L)
#define VARMINTFOIL_NODISCARD [[nodiscard]]
#elif defined(__GNUC__)
#define VARMINTFOIL_NODISCARD __attribute__((warn_unused_result))
#else
#define VARMINTFOIL_NODISCARD
#endif

/* C makes a member that is left out 0; in C++ its declaration says so, else compilers warn of it. */
#if defined(__cplusplus) && __cplusplus >= 201402L
#define VARMINTFOIL_LEFT_OUT = 0
#else
#define VARMINTFOIL_LEFT_OUT
#endif

#ifdef __cplusplus
extern "C" {
#endif

/* The numbers of a shape, of any size. */
typedef struct varmintfoil_shape {
    size_t columns VARMINTFOIL_LEFT_OUT;        /* W */
    size_t rows VARMINTFOIL_LEFT_OUT;           /* H */
    size_t planes VARMINTFOIL_LEFT_OUT;         /* D */
    size_t strength VARMINTFOIL_LEFT_OUT;       /* t; 0 where a window rules */
    size_t window_rows VARMINTFOIL_LEFT_OUT;    /* p */
    size_t window_columns VARMINTFOIL_LEFT_OUT; /* q */
} varmintfoil_shape_t;

/* A shape by the names of its members, as VARMINTFOIL_SHAPE(.columns = 5, .rows = 5, .planes = 1, .strength = 3) or
 * VARMINTFOIL_SHAPE(.columns = 5, .rows = 5, .planes = 1, .window_rows = 2, .window_columns = 3). A member left out is 0; a later
 * version may have more members, and at 0 they change nothing. In C++ it takes C++20 and the members in the order above; before C++20
 * make a shape whose members are all 0, varmintfoil_shape_t shape = varmintfoil_shape_t(), and set them by their names. */
#ifndef __cplusplus
#define VARMINTFOIL_SHAPE(...) ((varmintfoil_shape_t){__VA_ARGS__})
#elif __cplusplus > 201703L
#define VARMINTFOIL_SHAPE(...) (varmintfoil_shape_t{__VA_ARGS__})
#endif

typedef struct {
    size_t number;   /* 0, or the refusal */
    size_t classes;  /* the number of interleaving classes, m; p * q where a window rules */
    size_t capacity; /* the number of cells that hold no check, K */
    size_t bytes;    /* the payload's length, K / 8 rounded down */
    size_t cells;    /* the field's length, W * H * D */
    size_t used;     /* the number of classes that hold at least one cell, at most m */
    size_t digits;   /* the length of the payload of a field of levels, five for each word */
} varmintfoil_plan_t;

typedef struct {
    size_t number;      /* 0, or the refusal */
    size_t class_index; /* the class of the cell, 0 to m - 1 */
} varmintfoil_class_t;

typedef struct {
    size_t number; /* 0, or the refusal */
    size_t count;  /* the number of cells that correction changes, erased ones among them; for varmintfoil_decode_levels those of words */
} varmintfoil_count_t;

typedef struct {
    size_t number;  /* 0, or the refusal */
    size_t holds;   /* 1 where the settings hold, else 0 */
    int32_t row;    /* the difference triple found; 0, 0, 0 where the settings hold */
    int32_t plane;
    int32_t column;
    size_t tried;   /* the number of triples tried, the one found included */
} varmintfoil_distance_t;

/* What follows from a shape alone. Refusals: 1, 2, 11. */
VARMINTFOIL_NODISCARD varmintfoil_plan_t varmintfoil_plan(varmintfoil_shape_t shape);

/* The interleaving class of a cell: (column - b * row - c * plane) mod m, by the settings of the shape, or, where a window rules,
 * (row mod p) * q + (column mod q). Refusals: 1, 2, 11, 4 (a row, plane or column outside the shape). */
VARMINTFOIL_NODISCARD varmintfoil_class_t varmintfoil_class(varmintfoil_shape_t shape, size_t row, size_t plane, size_t column);

/* Writes the field of a payload. What the field held before does not matter. Gives the number itself. Refusals: 1, 2, 11, 3, 4. */
VARMINTFOIL_NODISCARD size_t varmintfoil_encode(varmintfoil_shape_t shape, const uint8_t *payload, size_t payload_len, uint8_t *field,
                                                size_t field_len);

/* Reads a field: fills the payload from the field of codewords that it stands for, and counts the cells where it differs from that. A
 * class with one or two cells erased stands for the one codeword that agrees with every cell that was read, and any other for the one
 * that differs in at most one cell. Where the damage took two or more cells of one class, that codeword need not be the one that was
 * written, save where all of them are erased. What the payload held before does not matter. Refusals: 1, 2, 11, 3, 4, 5, 10, 6, 7. */
VARMINTFOIL_NODISCARD varmintfoil_count_t varmintfoil_decode(varmintfoil_shape_t shape, uint8_t *payload, size_t payload_len,
                                                             const uint8_t *field, size_t field_len);

/* Corrects a field where it lies: leaves the field of codewords that it stands for, in which no cell is erased, and counts the cells
 * that it changed; of damage to two or more cells of one class the same holds. Refusals: 1, 2, 11, 4, 5, 10, 6, 7. */
VARMINTFOIL_NODISCARD varmintfoil_count_t varmintfoil_correct(varmintfoil_shape_t shape, uint8_t *field, size_t field_len);

/* Writes the field of levels of some digits: the digits, the check of each word, and 0 in the cells that are ignored. What the field held
 * before does not matter. Gives the number itself. Refusals: 1, 2, 11, 3, 4, 12 (a digit above 24). */
VARMINTFOIL_NODISCARD size_t varmintfoil_encode_levels(varmintfoil_shape_t shape, const uint8_t *payload, size_t payload_len,
                                                       uint8_t *field, size_t field_len);

/* Reads a field of levels: fills the payload with the digits of the lawful words that its words stand for, and counts the cells of words
 * where it differs from them. A word stands for the lawful word of levels 0 to 24 from which it comes by a change of -1, 1, 2 or 3, read
 * less written, in at most one cell. Where the damage was more, that word need not be the one that was written. What the payload held
 * before does not matter. Refusals: 1, 2, 11, 3, 4, 12 (a cell above 24, an ignored one too), 6. */
VARMINTFOIL_NODISCARD varmintfoil_count_t varmintfoil_decode_levels(varmintfoil_shape_t shape, uint8_t *payload, size_t payload_len,
                                                                    const uint8_t *field, size_t field_len);

/* Corrects a field of levels where it lies: leaves the lawful words that its words stand for, and 0 in the cells that are ignored, and
 * counts all cells that it changed. Refusals: 1, 2, 11, 4, 12, 6. */
VARMINTFOIL_NODISCARD varmintfoil_count_t varmintfoil_correct_levels(varmintfoil_shape_t shape, uint8_t *field, size_t field_len);

/* Are all different cells of one class, (column - b * row - c * plane) mod m, at least t apart in an endless stack? Tries the difference
 * triples of absolute sum 1 to t - 1 whose first number that is not 0 is positive, in rising order of row, then plane, then column, and
 * stops at the first that joins two cells of one class. t is from 1 to 18, m from 1 to 4,096, b and c below m. Refusals: 2 (t), 9 (m, b
 * or c). */
VARMINTFOIL_NODISCARD varmintfoil_distance_t varmintfoil_distance_test(size_t m, size_t b, size_t c, size_t t);

#ifdef __cplusplus
}
#endif

#endif
