/* Example in C: reads a text sheet, enters one more line on its column, and asks for the live load there. For a refused sheet
   it shows the line that is wrong, and ends with status 1. */
#include "bungero.h"

#include <inttypes.h>
#include <stdio.h>

/* One byte more than a sheet may have: a longer text is refused for its length, so no more of it is needed. */
static uint8_t text[32768 + 1];

int main(int count, char **arguments)
{
    FILE *sheet = count > 1 ? fopen(arguments[1], "rb") : stdin;
    if (sheet == NULL) {
        perror(arguments[1]);
        return 2;
    }
    size_t length = fread(text, 1, sizeof text, sheet);
    if (ferror(sheet)) {
        perror("the sheet");
        return 2;
    }
    bungero_reading reading = bungero_read(text, length);
    if (reading.number != BUNGERO_ACCEPTED) {
        printf("line %" PRIu64 " is refused with number %" PRIu64 ": ", reading.line, reading.number);
        fwrite(text + reading.start, 1, reading.end - reading.start, stdout);
        printf("\n");
        return 1;
    }
    printf("dead load %" PRId64 " N\n", reading.effects.dead);
    bungero_line garage = {.floor = 3, .use_class = 2, .load = 2500, .area = 1000};
    uint64_t number = bungero_column_enter(&reading.column, garage);
    if (number != BUNGERO_ACCEPTED) {
        printf("the garage is refused with number %" PRIu64 "\n", number);
        return 1;
    }
    bungero_figure asked = bungero_column_ask(&reading.column, garage.floor);
    printf("live load with a garage at floor 3: %" PRIu64 ".%02" PRIu64 " N\n", asked.figure / 100, asked.figure % 100);
    return 0;
}
