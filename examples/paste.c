/* Example in C: forty lines from a spreadsheet pasted on a column, with a mistyped load in one of them, then mended. */
#include "bungero.h"

#include <inttypes.h>
#include <stdio.h>

#define INTERIOR_COLUMN 1
#define COUNT 40

/* Fills a list: four offices of 2,500 N/m2 on each of ten floors. */
static void fill(bungero_line lines[COUNT])
{
    for (uint64_t i = 0; i < COUNT; i++) {
        lines[i] = (bungero_line){.floor = 1 + i / 4, .use_class = 1, .load = 2500, .area = 400 + 10 * i};
    }
}

/* Prints what a column of so many lines carries at its lowest floor: hundredths of a newton as newtons. */
static void show(const bungero_column *column, unsigned count, uint64_t floor)
{
    bungero_figure asked = bungero_column_ask(column, floor);
    printf("the column holds %u lines, and carries %" PRIu64 ".%02" PRIu64 " N at floor %" PRIu64 "\n", count,
           asked.figure / 100, asked.figure % 100, floor);
}

int main(void)
{
    bungero_line lines[COUNT];
    fill(lines);
    lines[12].load = 250000;
    bungero_column column = bungero_open(INTERIOR_COLUMN).column;
    bungero_pasted pasted = bungero_column_paste(&column, lines, COUNT);
    if (pasted.number != BUNGERO_ACCEPTED) {
        printf("line %d of %d is refused with number %" PRIu64 "; the %d before it are kept\n", pasted.kept + 1, COUNT,
               pasted.number, pasted.kept);
    }
    show(&column, pasted.count, 3);
    lines[12].load = 2500;
    size_t first = pasted.kept; /* go on from the refused line, which is mended */
    pasted = bungero_column_paste(&column, lines + first, COUNT - first);
    const char *refused = pasted.number == BUNGERO_ACCEPTED ? "none is" : "one is";
    printf("with its load mended, %d more are kept, and %s refused\n", pasted.kept, refused);
    show(&column, pasted.count, 10);
    return 0;
}
