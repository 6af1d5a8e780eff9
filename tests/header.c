/* Tries the header's calls from C and from C++: each field of what is lent and given, refusals, wide numbers, and flags. */
#include "bungero.h"

#include <fenv.h>
#include <inttypes.h>
#include <stdio.h>
#include <stdlib.h>
#include <string.h>

/* Looks like 1 where only the lowest 32 bits are read. */
static const uint64_t wide_one = (UINT64_C(1) << 32) + 1;

/* Stops where two numbers differ. */
static void expect(const char *what, uint64_t given, uint64_t wanted)
{
    if (given != wanted) {
        printf("%s: %" PRIu64 ", not %" PRIu64 "\n", what, given, wanted);
        exit(1);
    }
}

/* The same for numbers of either sign. */
static void expect_signed(const char *what, int64_t given, int64_t wanted)
{
    if (given != wanted) {
        printf("%s: %" PRId64 ", not %" PRId64 "\n", what, given, wanted);
        exit(1);
    }
}

/* The same for doubles that are no NaN. */
static void expect_double(const char *what, double given, double wanted)
{
    if (given != wanted) {
        printf("%s: %.17g, not %.17g\n", what, given, wanted);
        exit(1);
    }
}

static bungero_line line_of(uint64_t floor, uint64_t use_class, uint64_t load, uint64_t area)
{
    bungero_line line;
    line.floor = floor;
    line.use_class = use_class;
    line.load = load;
    line.area = area;
    return line;
}

/* A line that must be refused, with the column as before. The bytes between its members have no value to compare. */
static void expect_refused(bungero_column *column, bungero_line line, uint64_t number)
{
    bungero_column before = *column;
    expect("entering", bungero_column_enter(column, line), number);
    expect("the column's code as before", column->member.code, before.member.code);
    expect("the column's count as before", column->count, before.count);
    expect("the column's places as before", memcmp(before.held, column->held, sizeof before.held) == 0, 1);
}

/* What asking at a floor must give. */
static void expect_working(const bungero_column *column, uint64_t floor, uint64_t floors, uint64_t influence, uint64_t figure)
{
    bungero_figure asked = bungero_column_ask(column, floor);
    expect("asking", asked.number, BUNGERO_ACCEPTED);
    expect("floors", asked.floors, floors);
    expect("influence area", asked.influence, influence);
    expect("figure", asked.figure, figure);
}

/* Asking that must be refused, with nothing else in the answer. */
static void expect_no_floor(const bungero_column *column, uint64_t floor)
{
    bungero_figure asked = bungero_column_ask(column, floor);
    expect("asking", asked.number, BUNGERO_NO_SUCH_FLOOR);
    expect("floors, refused", asked.floors, 0);
    expect("influence area, refused", asked.influence, 0);
    expect("figure, refused", asked.figure, 0);
}

/* Opening without the places: the number and the member of bungero_open, whose column has places of 0. */
static void try_open_member(uint64_t code)
{
    static const uint64_t empty[BUNGERO_LINES] = {0};
    bungero_opened opened = bungero_open(code);
    bungero_opened_member member = bungero_open_member(code);
    expect("opening a member", member.number, opened.number);
    expect("the member's code", member.member.code, opened.column.member.code);
    expect("no line", opened.column.count, 0);
    expect("empty places", memcmp(opened.column.held, empty, sizeof empty) == 0, 1);
}

/* The sample's two lines with refused ones after them, and a full column. */
static void try_column(void)
{
    expect("code 0", bungero_open(0).number, BUNGERO_CODE);
    expect("code 13", bungero_open(13).number, BUNGERO_CODE);
    expect("code 2^32 + 1", bungero_open(wide_one).number, BUNGERO_CODE);
    bungero_opened opened = bungero_open(1);
    expect("code 1", opened.number, BUNGERO_ACCEPTED);
    bungero_column column = opened.column;
    expect_no_floor(&column, 1);
    expect("floor 1", bungero_column_enter(&column, line_of(1, 1, 2000, 1600)), BUNGERO_ACCEPTED);
    expect_refused(&column, line_of(wide_one, 1, 2000, 1600), BUNGERO_FLOOR);
    expect("floor 2", bungero_column_enter(&column, line_of(2, 1, 2000, 1600)), BUNGERO_ACCEPTED);
    expect_refused(&column, line_of(1, 1, 2000, 1600), BUNGERO_FLOOR);
    expect_refused(&column, line_of(2, 4, 0, 0), BUNGERO_CLASS);
    expect_refused(&column, line_of(2, wide_one, 2000, 1600), BUNGERO_CLASS);
    expect_refused(&column, line_of(2, 1, 50001, 0), BUNGERO_LOAD);
    expect_refused(&column, line_of(2, 1, wide_one, 1600), BUNGERO_LOAD);
    expect_refused(&column, line_of(2, 1, 2000, 200001), BUNGERO_AREA);
    expect_refused(&column, line_of(2, 1, 2000, wide_one), BUNGERO_AREA);
    expect_working(&column, 1, 1, 6400, 2628800);
    expect_working(&column, 2, 2, 12800, 4185600);
    expect_no_floor(&column, wide_one);
    for (int held = 2; held < 256; held++) {
        expect("lines held", column.count, held);
        expect("more lines", bungero_column_enter(&column, line_of(64, 3, 1, 1)), BUNGERO_ACCEPTED);
    }
    expect_refused(&column, line_of(64, 3, 1, 1), BUNGERO_FULL);
    expect_working(&column, 64, 3, 12800, 4185600 + 254);
}

/* What pasting must give, and how many lines the column then holds. */
static void expect_pasted(bungero_column *column, const bungero_line *lines, size_t count, uint64_t number, uint64_t kept)
{
    uint64_t held = column->count;
    bungero_pasted pasted = bungero_column_paste(column, lines, count);
    expect("pasting, number", pasted.number, number);
    expect("pasting, kept", pasted.kept, kept);
    expect("pasting, count", pasted.count, held + kept);
    expect("the column's count", column->count, held + kept);
}

/* The sample's two lines pasted, then with each kind of refused line between them, no list at all, and a full column. */
static void try_paste(void)
{
    bungero_line lines[3] = {line_of(1, 1, 2000, 1600), line_of(2, 1, 2000, 1600), line_of(2, 1, 2000, 1600)};
    bungero_column column = bungero_open(1).column;
    expect_pasted(&column, NULL, 0, BUNGERO_ACCEPTED, 0);
    expect_pasted(&column, lines, 2, BUNGERO_ACCEPTED, 2);
    expect_working(&column, 2, 2, 12800, 4185600);
    expect_pasted(&column, lines, 2, BUNGERO_FLOOR, 0);
    const bungero_line wrong[4] = {line_of(wide_one, 1, 2000, 1600), line_of(2, wide_one, 2000, 1600),
                                   line_of(2, 1, wide_one, 1600), line_of(2, 1, 2000, wide_one)};
    for (int which = 0; which < 4; which++) {
        column = bungero_open(1).column;
        lines[1] = wrong[which];
        expect_pasted(&column, lines, 3, (uint64_t)(BUNGERO_FLOOR + which), 1);
        expect_working(&column, 1, 1, 6400, 2628800);
        expect_no_floor(&column, 2);
    }
    for (int held = 1; held < 255; held++) {
        expect_pasted(&column, &lines[2], 1, BUNGERO_ACCEPTED, 1);
    }
    lines[1] = line_of(3, 4, 0, 0);
    expect_pasted(&column, &lines[2], 1, BUNGERO_ACCEPTED, 1);
    expect_pasted(&column, &lines[1], 2, BUNGERO_FULL, 0);
    expect_pasted(&column, NULL, 0, BUNGERO_ACCEPTED, 0);
}

/* What the list call must give: the sample's working at its second floor where nothing is refused. */
static void expect_listed(uint64_t code, const bungero_line *lines, uint64_t floor, uint64_t number, uint64_t place)
{
    bungero_listed listed = bungero_figure_of(code, lines, 2, floor);
    int accepted = number == BUNGERO_ACCEPTED;
    expect("list, number", listed.number, number);
    expect("list, place", listed.place, place);
    expect("list, floors", listed.floors, accepted ? 2 : 0);
    expect("list, influence area", listed.influence, accepted ? 12800 : 0);
    expect("list, figure", listed.figure, accepted ? 4185600 : 0);
}

/* The sample's lines as a list, and wide numbers in each field of the second one, for the code and for the floor. */
static void try_list(void)
{
    bungero_line lines[2] = {line_of(1, 1, 2000, 1600), line_of(2, 1, 2000, 1600)};
    uint64_t *fields[4] = {&lines[1].floor, &lines[1].use_class, &lines[1].load, &lines[1].area};
    expect_listed(1, lines, 2, BUNGERO_ACCEPTED, 0);
    expect_listed(wide_one, lines, 2, BUNGERO_CODE, 0);
    expect_listed(1, lines, wide_one + 1, BUNGERO_NO_SUCH_FLOOR, 0);
    for (int at = 0; at < 4; at++) {
        uint64_t good = *fields[at];
        *fields[at] = wide_one;
        expect_listed(1, lines, 2, BUNGERO_FLOOR + at, 2);
        *fields[at] = good;
    }
}

/* What reducing a load must give. */
static void expect_reduced(bungero_reduced given, uint64_t number, uint64_t reduced)
{
    expect("reducing", given.number, number);
    expect("reduced load", given.reduced, reduced);
}

/* Two of the paper's figures, and the order of its numbers 4 and 5. */
static void try_reduced_load(void)
{
    expect_reduced(bungero_reduced_load(2000, 1, 1, 6400), BUNGERO_ACCEPTED, 1643);
    expect_reduced(bungero_reduced_load(5000, 1, 2, 10000), BUNGERO_ACCEPTED, 3535);
    expect_reduced(bungero_reduced_load(0, 4, 1, 6400), BUNGERO_CLASS, 0);
    expect_reduced(bungero_reduced_load(wide_one, 1, 1, 6400), BUNGERO_LOAD, 0);
}

/* Effects of 1 newton (dead) to 7 newtons (quake), so that no field can stand in for another. */
static bungero_effects one_to_seven(void)
{
    bungero_effects effects;
    effects.dead = 1;
    effects.live = 2;
    effects.roof = 3;
    effects.snow = 4;
    effects.rain = 5;
    effects.wind = 6;
    effects.quake = 7;
    return effects;
}

/* What checking these must give, field by field. */
static void try_check(void)
{
    bungero_checked checked = bungero_check(one_to_seven());
    expect("checking", checked.number, BUNGERO_ACCEPTED);
    expect("effect, none refused", checked.place, 0);
    expect_double("value, none refused", checked.value, 0);
    expect_signed("dead", checked.newtons.dead, 1);
    expect_signed("live", checked.newtons.live, 2);
    expect_signed("roof", checked.newtons.roof, 3);
    expect_signed("snow", checked.newtons.snow, 4);
    expect_signed("rain", checked.newtons.rain, 5);
    expect_signed("wind", checked.newtons.wind, 6);
    expect_signed("quake", checked.newtons.quake, 7);
}

/* A refused effect in each field in turn, by both calls: its number, its place and its double. */
static void try_refused_effects(double refused, uint64_t number)
{
    bungero_effects effects;
    double *fields[7] = {&effects.dead, &effects.live, &effects.roof, &effects.snow,
                         &effects.rain, &effects.wind, &effects.quake};
    for (int at = 0; at < 7; at++) {
        effects = one_to_seven();
        *fields[at] = refused;
        bungero_checked checked = bungero_check(effects);
        expect("checking, refused", checked.number, number);
        expect("checking, effect", checked.place, at + 1);
        expect_double("checking, value", checked.value, refused);
        expect_signed("checking, no newtons", checked.newtons.dead, 0);
        bungero_combined combined = bungero_combine(effects);
        expect("combining, refused", combined.number, number);
        expect("combining, effect", combined.place, at + 1);
        expect_double("combining, value", combined.value, refused);
        expect("combining, no row", combined.governing.greatest.row, 0);
    }
}

/* A governing row. */
static void expect_row(const char *what, bungero_governing_row given, uint64_t row, int64_t tenths)
{
    expect(what, given.row, row);
    expect_signed(what, given.tenths, tenths);
    expect_double(what, given.value, (double)tenths);
}

/* The paper's case of dead and wind, and one with a sum below 0. */
static void try_combine(void)
{
    bungero_effects effects = {100000, 0, 0, 0, 0, 60000, 0};
    bungero_combined combined = bungero_combine(effects);
    expect("combining", combined.number, BUNGERO_ACCEPTED);
    expect("effect, none refused", combined.place, 0);
    expect_double("value, none refused", combined.value, 0);
    expect_row("greatest", combined.governing.greatest, 14, 1800000);
    expect_row("least", combined.governing.least, 23, 300000);
    effects.wind = 100000;
    expect_row("least, below 0", bungero_combine(effects).governing.least, 23, -100000);
}

/* The paper's sample, whose report is printed by examples/report. */
static const char sample[] = "member=1\n"
                             "floor=1 class=1 load=2000 area=1600\n"
                             "floor=2 class=1 load=2000 area=1600\n"
                             "dead=100000\nroof=-2\nsnow=3\nrain=-4\nwind=5\nquake=-6\n";

/* Reading that must be refused: the number, the line and the part of the text. */
static void expect_unread(const char *text, size_t length, uint64_t number, uint64_t line, size_t start, size_t end)
{
    bungero_reading reading = bungero_read((const uint8_t *)text, length);
    expect("reading, refused", reading.number, number);
    expect("reading, line", reading.line, line);
    expect("reading, start", reading.start, start);
    expect("reading, end", reading.end, end);
}

/* The sample read, each field of it, and its column entered on; refused texts, one of them lent from nowhere. */
static void try_read(void)
{
    static const char too_long[32769] = {0};
    size_t length = sizeof sample - 1;
    bungero_reading reading = bungero_read((const uint8_t *)sample, length);
    expect("reading", reading.number, BUNGERO_ACCEPTED);
    expect("reading, last line", reading.line, 9);
    expect("reading, start of nothing", reading.start, length);
    expect("reading, end of nothing", reading.end, length);
    expect_signed("sheet, dead", reading.effects.dead, 100000);
    expect_signed("sheet, roof", reading.effects.roof, -2);
    expect_signed("sheet, snow", reading.effects.snow, 3);
    expect_signed("sheet, rain", reading.effects.rain, -4);
    expect_signed("sheet, wind", reading.effects.wind, 5);
    expect_signed("sheet, quake", reading.effects.quake, -6);
    expect_working(&reading.column, 2, 2, 12800, 4185600);
    expect("sheet, one line more", bungero_column_enter(&reading.column, line_of(3, 3, 1, 1)), BUNGERO_ACCEPTED);
    expect_working(&reading.column, 3, 3, 12800, 4185600 + 1);
    expect_unread(NULL, 0, BUNGERO_FORM, 1, 0, 0);
    expect_unread(sample, length - 1, BUNGERO_FORM, 9, length - 9, length - 1);
    expect_unread(sample, 9, BUNGERO_FORM, 2, 9, 9);
    expect_unread("member=13\n", 10, BUNGERO_CODE, 1, 0, 9);
    expect_unread(too_long, sizeof too_long, BUNGERO_TOO_LONG, 0, 0, 0);
}

/* What writing a column into a buffer of so many bytes must give, and that all past the text is as it was before. */
static void expect_written(const bungero_column *column, bungero_sheet_doubles effects, size_t room, uint64_t number,
                           const char *written_text)
{
    uint8_t out[BUNGERO_SHEET_ROOM], as_before[BUNGERO_SHEET_ROOM];
    memset(as_before, 0xa5, sizeof as_before);
    memcpy(out, as_before, sizeof out);
    bungero_column before = *column;
    bungero_written written = bungero_column_write(column, effects, out, room);
    size_t length = strlen(written_text);
    expect("writing, number", written.number, number);
    expect("writing, length", written.length, length);
    expect("the text", memcmp(out, written_text, length) == 0, 1);
    expect("the buffer past the text", memcmp(out + length, as_before, sizeof out - length) == 0, 1);
    expect("the column's places as before", memcmp(before.held, column->held, sizeof before.held) == 0, 1);
    if (number != BUNGERO_NOT_WHOLE && number != BUNGERO_BEYOND_LIMIT) {
        expect("writing, no effect", written.place, 0);
        expect_double("writing, no value", written.value, 0);
    }
}

/* A refused effect in each of the six fields in turn, with no room and with enough: its number, place and double. */
static void expect_unwritten(const bungero_column *column, double refused, uint64_t number)
{
    bungero_sheet_doubles effects;
    double *fields[6] = {&effects.dead, &effects.roof, &effects.snow, &effects.rain, &effects.wind, &effects.quake};
    for (int at = 0; at < 6; at++) {
        bungero_sheet_doubles good = {1, 2, 3, 4, 5, 6};
        effects = good;
        *fields[at] = refused;
        bungero_written written = bungero_column_write(column, effects, NULL, 0);
        expect("writing, refused", written.number, number);
        expect("writing, effect", written.place, at + 1);
        expect_double("writing, value", written.value, refused);
        expect("writing, no text", written.length, 0);
        expect_written(column, effects, BUNGERO_SHEET_ROOM, number, "");
    }
}

/* The sample written back, with room and without; with a line more and other effects; and refused effects. */
static void try_write(void)
{
    size_t length = sizeof sample - 1;
    bungero_reading reading = bungero_read((const uint8_t *)sample, length);
    bungero_sheet_doubles effects = bungero_doubles_of(reading.effects);
    expect_written(&reading.column, effects, length, BUNGERO_ACCEPTED, sample);
    expect_written(&reading.column, effects, length - 1, BUNGERO_NO_ROOM, "");
    expect_written(&reading.column, effects, BUNGERO_SHEET_ROOM, BUNGERO_ACCEPTED, sample);
    expect("nowhere", bungero_column_write(&reading.column, effects, NULL, 0).number, BUNGERO_NO_ROOM);
    expect("a line more", bungero_column_enter(&reading.column, line_of(64, 3, 50000, 200000)), BUNGERO_ACCEPTED);
    bungero_sheet_doubles others = {-0.0, 1000000000000.0, -1000000000000.0, 12, -345, 6};
    expect_written(&reading.column, others, BUNGERO_SHEET_ROOM, BUNGERO_ACCEPTED,
                   "member=1\nfloor=1 class=1 load=2000 area=1600\nfloor=2 class=1 load=2000 area=1600\n"
                   "floor=64 class=3 load=50000 area=200000\ndead=0\nroof=1000000000000\nsnow=-1000000000000\n"
                   "rain=12\nwind=-345\nquake=6\n");
    expect_unwritten(&reading.column, 0.5, BUNGERO_NOT_WHOLE);
    expect_unwritten(&reading.column, 1000000000001.0, BUNGERO_BEYOND_LIMIT);
}

/* A buffer that the report of a text was written to, and whether all past the report is as it was before. */
static void expect_report(const char *text, size_t length, uint64_t number, uint64_t line, const char *report)
{
    uint8_t out[BUNGERO_REPORT_ROOM], as_before[BUNGERO_REPORT_ROOM];
    memset(as_before, 0xa5, sizeof as_before);
    memcpy(out, as_before, sizeof out);
    bungero_reported reported = bungero_report((const uint8_t *)text, length, out);
    expect("report, number", reported.number, number);
    expect("report, line", reported.line, line);
    expect("report, length", reported.length, strlen(report));
    expect("report", memcmp(out, report, strlen(report)) == 0, 1);
    expect("the buffer past the report", memcmp(out + strlen(report), as_before, sizeof out - strlen(report)) == 0, 1);
}

/* The report of the sample, and of texts that are refused, one of them lent from nowhere: these write nothing. */
static void try_report(void)
{
    size_t length = sizeof sample - 1;
    expect_report(sample, length, BUNGERO_ACCEPTED, 9, "floor=1 floors=1 influence=6400 figure=2628800\n"
                                                       "floor=2 floors=2 influence=12800 figure=4185600\n"
                                                       "max=1869711 row=3\nmin=899940 row=24\n");
    expect_report(NULL, 0, BUNGERO_FORM, 1, "");
    expect_report(sample, length - 1, BUNGERO_FORM, 9, "");
    expect_report("member=13\n", 10, BUNGERO_CODE, 1, "");
}

/* The column of a refused opening: entering, pasting, asking and writing refuse, and nothing is touched. */
static void try_unopened(void)
{
    bungero_column column = bungero_open(13).column;
    const bungero_line line = line_of(1, 1, 2000, 1600);
    const bungero_sheet_doubles not_whole = {0.5, 0, 0, 0, 0, 0};
    expect_written(&column, not_whole, BUNGERO_SHEET_ROOM, BUNGERO_CODE, "");
    expect_pasted(&column, &line, 1, BUNGERO_CODE, 0);
    expect_pasted(&column, NULL, 0, BUNGERO_CODE, 0);
    expect_refused(&column, line_of(1, 1, 2000, 1600), BUNGERO_CODE);
    expect_no_floor(&column, 1);
    column = bungero_read(NULL, 0).column;
    expect_refused(&column, line_of(1, 1, 2000, 1600), BUNGERO_CODE);
    expect_no_floor(&column, 0);
}

/* Only a signalling NaN raises a flag: beside it a quiet one, an infinity, 1/2, a number beyond the limit, the least double. */
static void try_flags(void)
{
    static const uint64_t bits[] = {0x7ff0000000000001, 0x7ff8000000000001, 0x7ff0000000000000, 0x3fe0000000000000,
                                    0x4271f71fb04cb000, 0x0000000000000001};
    const bungero_column column = bungero_open(1).column;
    for (int at = 0; at < 6; at++) {
        bungero_effects effects = one_to_seven();
        memcpy(&effects.wind, &bits[at], sizeof effects.wind);
        feclearexcept(FE_ALL_EXCEPT);
        bungero_checked checked = bungero_check(effects);
        bungero_combined combined = bungero_combine(effects);
        int raised = fetestexcept(FE_ALL_EXCEPT);
        expect("a raised flag", raised, at == 0 ? FE_INVALID : 0);
        expect("checking and combining alike", checked.number, combined.number);
        expect("the refused double, bit for bit", memcmp(&checked.value, &bits[at], sizeof bits[at]) == 0, 1);
        bungero_sheet_doubles six = {1, 2, 3, 4, 5, 6};
        memcpy(&six.wind, &bits[at], sizeof six.wind);
        feclearexcept(FE_ALL_EXCEPT);
        bungero_written written = bungero_column_write(&column, six, NULL, 0);
        expect("a raised flag, writing", fetestexcept(FE_ALL_EXCEPT), at == 0 ? FE_INVALID : 0);
        expect("checking and writing alike", checked.number, written.number);
        expect("the unwritten double, bit for bit", memcmp(&written.value, &bits[at], sizeof bits[at]) == 0, 1);
    }
}

int main(void)
{
    expect("the layout", bungero_layout_1(), 1);
    for (uint64_t code = 0; code <= 14; code++) {
        try_open_member(code);
    }
    try_open_member(wide_one);
    try_column();
    try_paste();
    try_unopened();
    try_list();
    try_reduced_load();
    try_check();
    try_refused_effects(0.5, BUNGERO_NOT_WHOLE);
    try_refused_effects(-1000000000001.0, BUNGERO_BEYOND_LIMIT);
    try_combine();
    try_flags();
    try_read();
    try_write();
    try_report();
#ifdef __cplusplus
    const char *language = "C++";
#else
    const char *language = "C";
#endif
    printf("the header's calls from %s give the paper's figures, each field and each refusal as they should\n", language);
    return 0;
}
