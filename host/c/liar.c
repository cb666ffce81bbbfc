/* A wrong library: every answer is 0, nothing is written, and the check reads one number too many. call.c must report
   it, and a tool that watches memory must report the check. */

#include "travelmap.h"

#define ASKED int16_t focus, int16_t first, int16_t second
#define UNUSED (void)list, (void)length, (void)focus

uint64_t travelmap_check(const int16_t *list, size_t length) { return *(const volatile int16_t *)(list + length) == 99; }
uint64_t travelmap_box(int16_t focus_low, int16_t focus_high, int16_t first_low, int16_t first_high, int16_t second_low,
                       int16_t second_high, int16_t *result, size_t result_length) {
    (void)focus_low, (void)focus_high, (void)first_low, (void)first_high, (void)second_low, (void)second_high;
    (void)result, (void)result_length;
    return 0;
}
uint64_t travelmap_cell(const int16_t *list, size_t length, ASKED) { return UNUSED, (void)first, (void)second, 0; }
uint64_t travelmap_corner(const int16_t *list, size_t length, ASKED) { return UNUSED, (void)first, (void)second, 0; }
uint64_t travelmap_plane(const int16_t *list, size_t length, int16_t focus) { return UNUSED, 0; }
uint64_t travelmap_nearest(const int16_t *list, size_t length, ASKED) { return UNUSED, (void)first, (void)second, 0; }
uint64_t travelmap_nearest_distance(const int16_t *list, size_t length, ASKED) {
    return UNUSED, (void)first, (void)second, 0;
}
uint64_t travelmap_nearest_each(const int16_t *list, size_t length, const int16_t *wishes, size_t wishes_length,
                                int16_t *result, size_t result_length) {
    (void)list, (void)length, (void)wishes, (void)wishes_length, (void)result;
    return (void)result_length, 0;
}
uint64_t travelmap_join(uint32_t operation, const int16_t *first, size_t first_length, const int16_t *second,
                        size_t second_length, int16_t *result, size_t result_length) {
    (void)operation, (void)first, (void)first_length, (void)second, (void)second_length, (void)result;
    return (void)result_length, 0;
}
uint64_t travelmap_section(const int16_t *list, size_t length, uint32_t axis, int16_t code, int16_t *result,
                           size_t result_length) {
    (void)list, (void)length, (void)axis, (void)code, (void)result;
    return (void)result_length, 0;
}
uint64_t travelmap_split(const int16_t *list, size_t length, uint32_t axis, int16_t at, int16_t *low, size_t low_length,
                         int16_t *high, size_t high_length) {
    (void)list, (void)length, (void)axis, (void)at, (void)low, (void)low_length, (void)high;
    return (void)high_length, 0;
}
