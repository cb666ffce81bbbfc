/* Calls the library as C and C++ firmware does, through include/travelmap.h, and compares the answers with those of
   document 01. Status 0 when all are right, 1 when not. It is both C99 and C++. */

#include <stdio.h>
#include <stdlib.h>
#include <string.h>

#include "travelmap.h"

static unsigned compared, wrong;

/* Compares one answer. */
static void same(const char *name, long due, long given) {
    compared++;
    if (due == given) return;
    wrong++;
    printf("%s should be %ld and is %ld\n", name, due, given);
}

/* A slice with its length, in memory of its own, so that a tool that watches memory sees a step beyond it. */
struct slice {
    int16_t *at;
    size_t length;
};

/* The slice of these numbers. */
static struct slice slice_of(const int16_t *numbers, size_t length) {
    struct slice slice;
    slice.length = length;
    slice.at = (int16_t *)malloc(length * sizeof *numbers + (length == 0));
    if (!slice.at) exit(2);
    if (length) memcpy(slice.at, numbers, length * sizeof *numbers);
    return slice;
}

#define SLICE(array) slice_of(array, sizeof array / sizeof array[0])
#define LENT(slice) (slice).at, (slice).length

/* Compares numbers at the front of a slice, and that those behind them are still 7. */
static void same_list(const char *name, const int16_t *due, size_t length, struct slice given) {
    size_t i;
    for (i = 0; i < given.length; i++) same(name, i < length ? due[i] : 7, given.at[i]);
}

/* Fills a slice with 7. */
static void fill(struct slice slice) {
    size_t i;
    for (i = 0; i < slice.length; i++) slice.at[i] = 7;
}

/* The printed map: the one cell (-1,0,0). */
static const int16_t printed[] = {-1, 0, 0, -1, 0, 1, -1, 1, 0, -1, 1, 1, 0, 0, 0, 0, 0, 1, 0, 1, 0, 0, 1, 1};
/* Focus 0 to 2, 2 to 4 and 0 to 4, with unit shifts (example 9). */
static const int16_t low[] = {0, 0, 0, 0, 0, 1, 0, 1, 0, 0, 1, 1, 2, 0, 0, 2, 0, 1, 2, 1, 0, 2, 1, 1};
static const int16_t high[] = {2, 0, 0, 2, 0, 1, 2, 1, 0, 2, 1, 1, 4, 0, 0, 4, 0, 1, 4, 1, 0, 4, 1, 1};
static const int16_t both[] = {0, 0, 0, 0, 0, 1, 0, 1, 0, 0, 1, 1, 4, 0, 0, 4, 0, 1, 4, 1, 0, 4, 1, 1};
/* Room for a list of eight vertices and a little more, and for too few. */
static const int16_t room[30] = {0};
static const int16_t short_room[23] = {0};

/* The check, the cell query, the corner report and the plane query. */
static void asks(struct slice map) {
    uint64_t odd = travelmap_check(map.at, 21);
    uint64_t corner = travelmap_corner(LENT(map), 0, 1, 1);
    uint64_t plane = travelmap_plane(LENT(map), 0);
    same("check", 0, (long)travelmap_check(LENT(map)));
    same("check of the empty list", 0, (long)travelmap_check(map.at, 0));
    same("check, odd line", TRAVELMAP_ODD_LINE, TRAVELMAP_NUMBER(odd));
    same("check, operand", 1, TRAVELMAP_OPERAND(odd));
    same("check, place", 3, TRAVELMAP_PLACE(odd));
    same("check, no triples", TRAVELMAP_NOT_TRIPLES, TRAVELMAP_NUMBER(travelmap_check(map.at, 23)));
    same("cell", 1, TRAVELMAP_YES(travelmap_cell(LENT(map), -1, 0, 0)));
    same("cell above", 0, TRAVELMAP_YES(travelmap_cell(LENT(map), 0, 0, 0)));
    same("cell far away", 0, TRAVELMAP_YES(travelmap_cell(LENT(map), 32767, -32768, 0)));
    same("mask", 1, TRAVELMAP_MASK(corner));
    same("how many", 1, TRAVELMAP_HOW_MANY(corner));
    same("kind", 1, TRAVELMAP_KIND(corner));
    same("corner far away", 0, (long)travelmap_corner(LENT(map), -32768, 0, 0));
    same("plane, start", 12, (long)TRAVELMAP_START(plane));
    same("plane, length", 12, (long)TRAVELMAP_LENGTH(plane));
    same("no plane", 0, (long)travelmap_plane(LENT(map), 1));
}

/* The printed case of the program: two wishes, and their distances. */
static void wishes(struct slice map) {
    uint64_t near = travelmap_nearest(LENT(map), -3, 0, 0);
    uint64_t far = travelmap_nearest(LENT(map), 5, 5, 5);
    same("nearest, number", 0, TRAVELMAP_NUMBER(near));
    same("nearest, focus", -1, TRAVELMAP_NEAREST_FOCUS(near));
    same("nearest, first", 0, TRAVELMAP_NEAREST_FIRST(near));
    same("nearest, second", 0, TRAVELMAP_NEAREST_SECOND(near));
    same("nearest to another wish", (long)near, (long)far);
    same("distance", 2, (long)TRAVELMAP_DISTANCE(travelmap_nearest_distance(LENT(map), -3, 0, 0)));
    same("distance of another", 16, (long)TRAVELMAP_DISTANCE(travelmap_nearest_distance(LENT(map), 5, 5, 5)));
    same("nearest of the empty list", TRAVELMAP_EMPTY, TRAVELMAP_NUMBER(travelmap_nearest(map.at, 0, 0, 0, 0)));
    same("distance of the empty list", TRAVELMAP_EMPTY, TRAVELMAP_NUMBER(travelmap_nearest_distance(map.at, 0, 0, 0, 0)));
}

/* The same two wishes in one call, and calls that are refused. */
static void many_wishes(struct slice map, struct slice result) {
    static const int16_t two[] = {-3, 0, 0, 5, 5, 5}, cells[] = {-1, 0, 0, -1, 0, 0};
    struct slice asked = SLICE(two);
    uint64_t part;
    fill(result);
    part = travelmap_nearest_each(LENT(map), asked.at, 5, LENT(result));
    same("each, no triples", TRAVELMAP_NOT_TRIPLES, TRAVELMAP_NUMBER(part));
    same("each, no triples, operand", 2, TRAVELMAP_OPERAND(part));
    same("each, list", 1, TRAVELMAP_OPERAND(travelmap_nearest_each(map.at, 23, LENT(asked), LENT(result))));
    same("each of the empty list", TRAVELMAP_EMPTY,
         TRAVELMAP_NUMBER(travelmap_nearest_each(map.at, 0, LENT(asked), LENT(result))));
    same("each, no room", TRAVELMAP_NO_ROOM,
         TRAVELMAP_NUMBER(travelmap_nearest_each(LENT(map), LENT(asked), result.at, 5)));
    same_list("each, refused", cells, 0, result);
    same("each", 0, (long)travelmap_nearest_each(LENT(map), LENT(asked), LENT(result)));
    same_list("each, cells", cells, 6, result);
    free(asked.at);
}

/* The box, done and refused. */
static void boxes(struct slice result, struct slice small) {
    fill(result);
    same("box", 8, (long)travelmap_box(0, 4, 0, 1, 0, 1, LENT(result)));
    same_list("box, list", both, 24, result);
    fill(small);
    same("box, no room", TRAVELMAP_NO_ROOM, TRAVELMAP_NUMBER(travelmap_box(0, 4, 0, 1, 0, 1, LENT(small))));
    same("box, bad ends", TRAVELMAP_BAD_NUMBER, TRAVELMAP_NUMBER(travelmap_box(0, 513, 0, 1, 0, 1, LENT(small))));
    same_list("box, refused", both, 0, small);
}

/* Example 9, and joins that are refused. */
static void joins(struct slice result, struct slice small) {
    struct slice one = SLICE(low), other = SLICE(high);
    fill(result);
    same("union", 8, (long)travelmap_join(TRAVELMAP_UNION, LENT(one), LENT(other), LENT(result)));
    same_list("union, list", both, 24, result);
    fill(result);
    same("overlap", 0, (long)travelmap_join(TRAVELMAP_OVERLAP, LENT(one), LENT(other), LENT(result)));
    same_list("overlap, list", both, 0, result);
    same("without", 8, (long)travelmap_join(TRAVELMAP_WITHOUT, LENT(one), LENT(other), LENT(result)));
    same_list("without, list", low, 24, result);
    fill(result);
    same("exclusive or", 0, (long)travelmap_join(TRAVELMAP_EXCLUSIVE, LENT(one), LENT(one), LENT(result)));
    same("join, operation", TRAVELMAP_BAD_OPERATION,
         TRAVELMAP_NUMBER(travelmap_join(5, LENT(one), LENT(other), LENT(result))));
    same("join, second list", 2,
         TRAVELMAP_OPERAND(travelmap_join(TRAVELMAP_UNION, LENT(one), other.at, 23, LENT(result))));
    fill(small);
    same("join, no room", TRAVELMAP_NO_ROOM,
         TRAVELMAP_NUMBER(travelmap_join(TRAVELMAP_UNION, LENT(one), LENT(other), LENT(small))));
    same_list("join, refused", both, 0, small);
    free(one.at);
    free(other.at);
}

/* Examples 13 and 14, and cuts that are refused. */
static void cuts(struct slice map, struct slice result, struct slice small) {
    static const int16_t square[] = {0, 0, 0, 1, 1, 0, 1, 1};
    uint64_t halves;
    fill(result);
    same("section", 4, (long)travelmap_section(LENT(map), TRAVELMAP_FOCUS, -1, LENT(result)));
    same_list("section, list", square, 8, result);
    fill(result);
    same("section, none", 0, (long)travelmap_section(LENT(map), TRAVELMAP_FOCUS, 0, LENT(result)));
    same("section, axis", TRAVELMAP_BAD_NUMBER, TRAVELMAP_NUMBER(travelmap_section(LENT(map), 3, 0, LENT(result))));
    same("section, code", TRAVELMAP_BAD_NUMBER, TRAVELMAP_NUMBER(travelmap_section(LENT(map), 0, 512, LENT(result))));
    same("section, no room", TRAVELMAP_NO_ROOM,
         TRAVELMAP_NUMBER(travelmap_section(LENT(map), TRAVELMAP_SECOND_SHIFT, 0, result.at, 7)));
    same_list("section, refused", square, 0, result);
    fill(small);
    halves = travelmap_split(LENT(map), TRAVELMAP_FOCUS, -512, LENT(small), LENT(result));
    same("split, low", 0, TRAVELMAP_COUNT(halves));
    same("split, high", 8, TRAVELMAP_SECOND_COUNT(halves));
    same_list("split, low list", printed, 0, small);
    same_list("split, high list", printed, 24, result);
    fill(result);
    halves = travelmap_split(LENT(map), TRAVELMAP_FIRST_SHIFT, 512, LENT(small), LENT(result));
    same("split, no room", TRAVELMAP_NO_ROOM, TRAVELMAP_NUMBER(halves));
    same("split, half", 1, TRAVELMAP_OPERAND(halves));
    same("split, other half", 2,
         TRAVELMAP_OPERAND(travelmap_split(LENT(map), TRAVELMAP_FIRST_SHIFT, -1, LENT(result), LENT(small))));
    same_list("split, refused", printed, 0, result);
    same_list("split, refused", printed, 0, small);
}

int main(void) {
    struct slice map = SLICE(printed), result = SLICE(room), small = SLICE(short_room);
    asks(map);
    wishes(map);
    many_wishes(map, result);
    boxes(result, small);
    joins(result, small);
    cuts(map, result, small);
    free(map.at);
    free(result.at);
    free(small.at);
    printf("%u answers, %u wrong\n", compared, wrong);
    return wrong != 0;
}
