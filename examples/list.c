/* Example in C: the live load of an interior column at its floors, from a list of line records. */
#include "bungero.h"

#include <inttypes.h>
#include <stdio.h>

#define INTERIOR_COLUMN 1

/* Prints what the list gives at a floor: hundredths of a newton as newtons, dm2 as m2. */
static void show(const bungero_line *lines, size_t count, uint64_t floor)
{
    bungero_listed listed = bungero_figure_of(INTERIOR_COLUMN, lines, count, floor);
    printf("floor %" PRIu64 ": ", floor);
    if (listed.number == BUNGERO_NO_SUCH_FLOOR) {
        printf("no line has this floor\n");
    } else if (listed.number != BUNGERO_ACCEPTED) {
        printf("line %" PRIu64 " of the list is refused with number %" PRIu64 "\n", listed.place, listed.number);
    } else {
        printf("%" PRIu64 ".%02" PRIu64 " N", listed.figure / 100, listed.figure % 100);
        printf(" over %" PRIu64 " floor(s)", listed.floors);
        printf(", influence area %" PRIu64 ".%02" PRIu64 " m2\n", listed.influence / 100, listed.influence % 100);
    }
}

int main(void)
{
    bungero_line lines[] = {
        {.floor = 1, .use_class = 1, .load = 6000, .area = 10000},
        {.floor = 2, .use_class = 1, .load = 2000, .area = 100},
    };
    size_t count = sizeof lines / sizeof lines[0];
    printf("6000 N/m2 on 100 m2 above 2000 N/m2 on 1 m2\n");
    for (uint64_t floor = 1; floor <= 3; floor++) {
        show(lines, count, floor);
    }
    lines[1].use_class = 4;
    printf("the same with class 4 in the second line\n");
    show(lines, count, 1);
    return 0;
}
