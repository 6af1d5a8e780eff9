/* Example in C: seven effects checked and combined, and the rows that govern. */
#include "bungero.h"

#include <inttypes.h>
#include <stdio.h>

static const char *const names[] = {"dead", "live", "roof", "snow", "rain", "wind", "quake"};

/* Prints a governing row: tenths of a newton as newtons. */
static void show_row(const char *which, bungero_governing_row governing)
{
    printf("%s sum: %.1f N at row %" PRIu64 "\n", which, governing.value / 10, governing.row);
}

/* Checks the effects and combines them, or says which is refused. */
static void show(bungero_effects effects)
{
    bungero_checked checked = bungero_check(effects);
    if (checked.number != BUNGERO_ACCEPTED) {
        const char *why = checked.number == BUNGERO_NOT_WHOLE ? "not a whole number" : "beyond the limit";
        printf("the %s effect is refused: %.1f N is %s\n", names[checked.place - 1], checked.value, why);
        return;
    }
    printf("dead %" PRId64 " N, wind %" PRId64 " N, no other effects\n", checked.newtons.dead, checked.newtons.wind);
    bungero_combined combined = bungero_combine(effects);
    show_row("greatest", combined.governing.greatest);
    show_row("least", combined.governing.least);
}

int main(void)
{
    bungero_effects effects = {.dead = 100000, .wind = 60000};
    show(effects);
    effects.wind = 60000.5;
    show(effects);
    effects.wind = 2e12;
    show(effects);
    return 0;
}
