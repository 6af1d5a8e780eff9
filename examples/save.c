/* Example in C: reads a text sheet, enters one more line on its column, and saves it: writes the sheet into a buffer,
   reads it again to see that it says the same, and prints it. For a refused sheet it shows the line that is wrong, and
   ends with status 1. */
#include "bungero.h"

#include <inttypes.h>
#include <stdio.h>

#define REFUSED 1
#define FAILED 2

/* One byte more than a sheet may have: a longer text is refused for its length, so no more of it is needed. */
static uint8_t text[32768 + 1];

/* Whether two columns answer alike at every floor. */
static int alike(const bungero_column *one, const bungero_column *other)
{
    for (uint64_t floor = 1; floor <= 64; floor++) {
        bungero_figure here = bungero_column_ask(one, floor), there = bungero_column_ask(other, floor);
        if (here.number != there.number || here.floors != there.floors || here.influence != there.influence ||
            here.figure != there.figure) {
            return 0;
        }
    }
    return 1;
}

/* Whether six effects are the same as six others. */
static int same(bungero_sheet_effects one, bungero_sheet_effects other)
{
    return one.dead == other.dead && one.roof == other.roof && one.snow == other.snow && one.rain == other.rain &&
           one.wind == other.wind && one.quake == other.quake;
}

/* Writes a sheet, sees that it is read as the same, and prints it. Gives the status. */
static int save(const bungero_reading *sheet)
{
    uint8_t out[BUNGERO_SHEET_ROOM];
    bungero_written written = bungero_column_write(&sheet->column, bungero_doubles_of(sheet->effects), out, sizeof out);
    if (written.number != BUNGERO_ACCEPTED) {
        printf("the sheet is not written, number %" PRIu64 "\n", written.number);
        return REFUSED;
    }
    bungero_reading again = bungero_read(out, written.length);
    if (again.number != BUNGERO_ACCEPTED || !alike(&again.column, &sheet->column) ||
        !same(again.effects, sheet->effects)) {
        fprintf(stderr, "what was written says something else\n");
        return FAILED;
    }
    fwrite(out, 1, written.length, stdout);
    return fflush(stdout) == 0 && !ferror(stdout) ? 0 : FAILED;
}

int main(int count, char **arguments)
{
    FILE *sheet = count > 1 ? fopen(arguments[1], "rb") : stdin;
    if (sheet == NULL) {
        perror(arguments[1]);
        return FAILED;
    }
    size_t length = fread(text, 1, sizeof text, sheet);
    if (ferror(sheet)) {
        perror("the sheet");
        return FAILED;
    }
    bungero_reading reading = bungero_read(text, length);
    if (reading.number != BUNGERO_ACCEPTED) {
        printf("line %" PRIu64 " is refused with number %" PRIu64 ": ", reading.line, reading.number);
        fwrite(text + reading.start, 1, reading.end - reading.start, stdout);
        printf("\n");
        return REFUSED;
    }
    bungero_line office = {.floor = 3, .use_class = 1, .load = 2000, .area = 1600};
    uint64_t number = bungero_column_enter(&reading.column, office);
    if (number != BUNGERO_ACCEPTED) {
        printf("the office is refused with number %" PRIu64 "\n", number);
        return REFUSED;
    }
    return save(&reading);
}
