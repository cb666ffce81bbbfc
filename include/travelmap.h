/* Travel maps of a lens: the functions of libtravelmap.a for C and C++.

   A list holds three numbers a vertex: focus, first shift, second shift. It is a travel map when it has at most 1,024
   vertices, every number is -512 to 512, the vertices rise strictly, and every line parallel to an axis holds an even
   number of them. A cell is permitted when the number of vertices with all three numbers not above the cell's codes is
   odd.

   What is passed. A slice is two arguments: a pointer, and a length in numbers (not in bytes and not in vertices). The
   pointer is aligned as int16_t is, and not null, also where the length is 0; as many numbers as the length says can
   be read there, and in a result written. A result shares no memory with a list, with wishes or with another result.
   Beyond that every argument may have any value: a list need not be valid, and every number that is asked about may be
   any int16_t.
   Nothing is kept after a call, no memory is taken, and functions may be called from several threads at once. Working
   arrays stand on the stack: have 64 KB of it free for a call (measured, with an earlier toolchain: at most
   46 KB; docs/BENCH.md).

   What comes back. Every function answers one uint64_t, laid out as

       bits 56 to 63   the number: 0 when all is done, else why the call was refused (below)
       bits 48 to 55   the operand: the list that is refused, or the half of a split that does not fit, from 1; else 0
       bits 32 to 47   the place: the vertex that is refused, from 0; else 0
       bits 16 to 31   the second count, where a call makes two lists; else 0
       bits  0 to 15   the count of the vertices (pairs) of the list that was made; else 0

   The number stands there in every answer; the plane query has none, and its bits there are 0. After a refusal the
   operand and the place stand there too, the lower 32 bits are 0, and a result is untouched. After success the list
   stands at the front of the result, and everything behind it is untouched. Functions that make no list use the bits
   below the operand for what they give, as they say below: the cell query, the corner report and the distance the
   lower 32, the plane query and nearest the lower 48. */

#ifndef TRAVELMAP_H
#define TRAVELMAP_H

#include <stddef.h>
#include <stdint.h>

#ifdef __cplusplus
extern "C" {
#endif

/* The numbers of answers, each with its cause. Order: 8 or 9; then 1, 2, 3, 4, 5 of the first list, each over the whole
   list before the next; then the same of the second; then 7 or 6. */
enum travelmap_number {
    TRAVELMAP_DONE = 0,
    TRAVELMAP_NOT_TRIPLES = 1,   /* the list's length is not a multiple of 3 */
    TRAVELMAP_TOO_MANY = 2,      /* the list has more than 1,024 vertices */
    TRAVELMAP_OUT_OF_RANGE = 3,  /* a number outside -512 to 512; place: the first such vertex, from 0 */
    TRAVELMAP_NOT_RISING = 4,    /* a vertex not above the one before it; place: the first such vertex */
    TRAVELMAP_ODD_LINE = 5,      /* an odd line; place: the first vertex, in list order, on any odd line */
    TRAVELMAP_NO_ROOM = 6,       /* the correct result has more vertices (pairs, cells) than fit, or a list over 1,024 */
    TRAVELMAP_EMPTY = 7,         /* nearest asked of the empty list */
    TRAVELMAP_BAD_OPERATION = 8, /* operation not 1 to 4 */
    TRAVELMAP_BAD_NUMBER = 9,    /* axis not 0 to 2, section code or split number out of range, bad box ends */
    TRAVELMAP_ILL_FORMED = 10,   /* map or wish text ill formed; place: the line, from 1 */
    TRAVELMAP_WRONG_SUM = 11,    /* closing sum wrong */
    TRAVELMAP_TOO_LONG = 12      /* program input over 19,214 bytes */
};

/* The parts of an answer. The number is that of every answer but travelmap_plane's, which has none: there it gives 0. The
   operand and the place are those of a refusal; of a nearest cell that was found, whose focus stands where a place would,
   TRAVELMAP_NEAREST_PLACE gives 0. The counts are those of the functions that make lists. */
#define TRAVELMAP_NUMBER(answer) ((unsigned)((uint64_t)(answer) >> 56))
#define TRAVELMAP_OPERAND(answer) ((unsigned)((uint64_t)(answer) >> 48 & 0xFF))
#define TRAVELMAP_PLACE(answer) ((unsigned)((uint64_t)(answer) >> 32 & 0xFFFF))
#define TRAVELMAP_SECOND_COUNT(answer) ((unsigned)((uint64_t)(answer) >> 16 & 0xFFFF))
#define TRAVELMAP_COUNT(answer) ((unsigned)((uint64_t)(answer) & 0xFFFF))

/* The cell query: 1 for yes, 0 for no. */
#define TRAVELMAP_YES(answer) ((unsigned)((uint64_t)(answer) & 1))

/* The corner report: the mask of the eight cells, how many of them are permitted, and the kind. */
#define TRAVELMAP_MASK(answer) ((unsigned)((uint64_t)(answer) & 0xFF))
#define TRAVELMAP_HOW_MANY(answer) ((unsigned)((uint64_t)(answer) >> 8 & 0xFF))
#define TRAVELMAP_KIND(answer) ((unsigned)((uint64_t)(answer) >> 16 & 0xFF))

/* The plane query: where the part starts in the list, and its length, both in numbers. */
#define TRAVELMAP_START(answer) ((size_t)((uint64_t)(answer) >> 32))
#define TRAVELMAP_LENGTH(answer) ((size_t)((uint64_t)(answer) & 0xFFFFFFFF))

/* Nearest: the three codes of the cell, 0 after a refusal; and the place of a refusal, 0 where there is a cell. Each takes
   the number of the answer into account, so that no part of a refusal is taken for a code. */
static inline int16_t travelmap_code(uint64_t answer, unsigned from) {
    int32_t bits = (int32_t)(answer >> from & 0xFFFF);
    if (TRAVELMAP_NUMBER(answer) != 0) return 0;
    return (int16_t)(bits < 0x8000 ? bits : bits - 0x10000);
}
static inline unsigned travelmap_nearest_place(uint64_t answer) {
    return TRAVELMAP_NUMBER(answer) != 0 ? TRAVELMAP_PLACE(answer) : 0;
}
#define TRAVELMAP_NEAREST_FOCUS(answer) travelmap_code((answer), 32)
#define TRAVELMAP_NEAREST_FIRST(answer) travelmap_code((answer), 16)
#define TRAVELMAP_NEAREST_SECOND(answer) travelmap_code((answer), 0)
#define TRAVELMAP_NEAREST_PLACE(answer) travelmap_nearest_place(answer)

/* The distance to the nearest cell. */
#define TRAVELMAP_DISTANCE(answer) ((uint32_t)((uint64_t)(answer) & 0xFFFFFFFF))

/* Is the list a travel map? 0, or one of 1 to 5 with operand 1. */
uint64_t travelmap_check(const int16_t *list, size_t length);

/* Makes the map of a box from its low and high end on each axis; a box's cells go from the low end to below the high
   one. A low end is -512 to 511, a high end is above the low one and at most 512: else 9. The result needs room for
   24 numbers: else 6. Done: the count is 8, and the eight vertices stand at the front of the result. */
uint64_t travelmap_box(int16_t focus_low, int16_t focus_high, int16_t first_low, int16_t first_high, int16_t second_low,
                       int16_t second_high, int16_t *result, size_t result_length);

/* Is the cell permitted? Outside the codes, -512 to 511, the answer is no. Bit 0 says yes; an invalid list is answered
   with its refusal (1 to 5, operand 1) and no. */
uint64_t travelmap_cell(const int16_t *list, size_t length, int16_t focus, int16_t first, int16_t second);

/* The corner report. Bits 0 to 7: the mask of the permitted cells round the corner; its bit 4i + 2j + k is the cell
   whose codes are the corner's numbers, less 1 on each axis where i, j, k (in axis order) is 0. Bits 8 to 15: how many
   they are. Bits 16 to 23: the kind, 0 no vertex, 1 V3, 2 V4, 3 V4N1, 4 V4N2, 5 V5N, 6 V6, 7 V6N1, 8 V6N2. An invalid
   list is answered with its refusal (1 to 5, operand 1) and 0 in all three. */
uint64_t travelmap_corner(const int16_t *list, size_t length, int16_t focus, int16_t first, int16_t second);

/* The vertices with that focus number, as a part of the list. Bits 32 to 63: where it starts. Bits 0 to 31: its length.
   Both in numbers, so that the part is list[start] to list[start + length - 1]. 0 where it is empty; for an invalid
   list that is its refusal. */
uint64_t travelmap_plane(const int16_t *list, size_t length, int16_t focus);

/* The operations of a join. */
enum travelmap_operation {
    TRAVELMAP_UNION = 1,
    TRAVELMAP_OVERLAP = 2,
    TRAVELMAP_WITHOUT = 3,  /* the first map without the second */
    TRAVELMAP_EXCLUSIVE = 4 /* exclusive or */
};

/* Joins two maps: a cell is in the result exactly when the operation holds of its two memberships. 8 where the operation
   is none of the four; 1 to 5 with operand 1 or 2 where a list is not valid; 6 where the result's list has more than
   1,024 vertices, or three times its vertices is more than the result's length. Done: the count of its vertices, and
   the list stands at the front of the result. */
uint64_t travelmap_join(uint32_t operation, const int16_t *first, size_t first_length, const int16_t *second,
                        size_t second_length, int16_t *result, size_t result_length);

/* The axes of a section and of a split. */
enum travelmap_axis {
    TRAVELMAP_FOCUS = 0,
    TRAVELMAP_FIRST_SHIFT = 1,
    TRAVELMAP_SECOND_SHIFT = 2
};

/* The section at a code of an axis: the permitted squares there, as a list of pairs of numbers on the other two axes,
   in axis order; a pair is listed when an odd number of its four surrounding squares are permitted. 9 where the axis is
   none of the three, or the code not -512 to 511; 1 to 5 with operand 1 where the list is not valid; 6 where there are
   more than 1,024 pairs, or twice their count is more than the result's length. Done: the count of the pairs, and they
   stand at the front of the result, rising strictly. */
uint64_t travelmap_section(const int16_t *list, size_t length, uint32_t axis, int16_t code, int16_t *result,
                           size_t result_length);

/* Splits a map at a number of an axis: low gets the map of the permitted cells with a code below it, high that of the
   others. 9 where the axis is none of the three, or the number not -512 to 512; 1 to 5 with operand 1 where the list is
   not valid; 6 where a half's list has more than 1,024 vertices, or three times its vertices is more than the length
   of its result: with operand 1 where low does not fit, else 2. Done: the count in bits 0 to 15 is low's, the second
   count in bits 16 to 31 is high's, and each list stands at the front of its result. */
uint64_t travelmap_split(const int16_t *list, size_t length, uint32_t axis, int16_t at, int16_t *low, size_t low_length,
                         int16_t *high, size_t high_length);

/* The permitted cell nearest to a wish. The distance is the sum of the three differences without sign; of several cells
   the one with the lowest focus, then the lowest first shift, then the lowest second shift. Done: the cell's codes in
   two's complement, focus in bits 32 to 47, first shift in 16 to 31, second shift in 0 to 15. Refused: 1 to 5 of an
   invalid list, with operand 1 and the place, or 7 of the empty list; the codes are then 0. */
uint64_t travelmap_nearest(const int16_t *list, size_t length, int16_t focus, int16_t first, int16_t second);

/* The distance from a wish to the nearest permitted cell, in bits 0 to 31. An invalid list is answered with its refusal
   (1 to 5, operand 1), the empty list with 7, and the distance is then 0. */
uint64_t travelmap_nearest_distance(const int16_t *list, size_t length, int16_t focus, int16_t first, int16_t second);

/* The permitted cells nearest to many wishes, three numbers each, of a map that is checked once: each cell is the one that
   travelmap_nearest gives. 1 to 5 with operand 1 where the list is not valid; 1 with operand 2 where the length of the
   wishes is not a multiple of 3; 7 of the empty list, also where there is no wish; 6 where the wishes have more numbers
   than the result. Done: the cells stand at the front of the result, three codes each, in the order of the wishes; no
   list is made, and the count is 0. */
uint64_t travelmap_nearest_each(const int16_t *list, size_t length, const int16_t *wishes, size_t wishes_length,
                                int16_t *result, size_t result_length);

#ifdef __cplusplus
}
#endif

#endif
