/* Example in C: prints the report of a text sheet, from the file that is named or else from standard input. For a refused
   sheet it prints what takedown prints, and ends with status 1. */
#include "bungero.h"

#include <inttypes.h>
#include <stdio.h>

#define REFUSED 1
#define FAILED 2

/* One byte more than a sheet may have: a longer text is refused for its length, so no more of it is needed. */
static uint8_t text[32768 + 1];

int main(int count, char **arguments)
{
    FILE *sheet = count > 1 ? fopen(arguments[1], "rb") : stdin;
    if (sheet == NULL) {
        perror(arguments[1]);
        return FAILED;
    }
    size_t length = fread(text, 1, sizeof text, sheet);
    if (ferror(sheet)) {
        perror("the sheet");
        return FAILED;
    }
    uint8_t out[BUNGERO_REPORT_ROOM];
    bungero_reported reported = bungero_report(text, length, out);
    if (reported.number != BUNGERO_ACCEPTED) {
        printf("refused=%" PRIu64 " line=%" PRIu64 "\n", reported.number, reported.line);
        return fflush(stdout) == 0 ? REFUSED : FAILED;
    }
    fwrite(out, 1, reported.length, stdout);
    return fflush(stdout) == 0 && !ferror(stdout) ? 0 : FAILED;
}
