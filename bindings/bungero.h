/* Bungero for programs in C and C++: the calls of the proved static library libexports.a (x86-64 Linux, C11 or C++11).

   What is right is decided by paper 01, "Column live loads by CIRSOC 101, and their combinations", and by the requests of paper
   02. Every call answers every input, as the comment on it says; but a column that is handed over must be as these calls gave
   it. A `number` in an answer is 0 where no condition of the papers holds, else the number of the first one that does
   (`bungero_refusal`); all else in the answer is then 0 unless the comment says otherwise. Where something is refused, a
   `place` counts the records of a list, the seven effects or the six of a sheet, a `line` the lines of a sheet, each
   from 1.

   Structs go by value. What is lent by pointer is only read, but for `out` of bungero_report and bungero_write and a
   column's places in bungero_enter and bungero_paste; where something is refused it is all as before, but for the lines
   before the refused one, which bungero_paste keeps. Lent places and lines must be aligned to 8 bytes; texts and `out`
   may stand anywhere. Some structs have padding, whose bytes have no value: compare members, not whole structs by
   memcmp. bungero.rs has the same names.

   No call keeps a pointer or anything else: there is no state, no heap, and no function of the C library is called but memcpy
   and memset. So calls may run in several threads at once, and in a signal handler, as long as none writes to memory that
   another uses. No call ends the program or sets errno. A signalling NaN that is handed in raises the invalid flag of the
   floating-point environment, or its trap where that is set.

   Of the stack each call needs at most, beside its arguments and its answer, and what memcpy and memset need (where they are
   bound lazily, at their first call the dynamic linker's few KB):
       bungero_report                                      12,288 bytes
       bungero_read                                         8,192 bytes
       bungero_open, bungero_figure_of                      3,072 bytes
       bungero_write                                        1,024 bytes
       all others                                             512 bytes */
#ifndef BUNGERO_H
#define BUNGERO_H

#include <assert.h>
#include <stddef.h>
#include <stdint.h>

#ifdef __cplusplus
extern "C" {
#endif

/* The mark of the layout. Every object file that includes this header refers to it, so that one which was compiled for other
   structs than those of the library does not link. Whoever changes a struct or a call of this header gives the mark the next
   number, here, in bungero.rs and in crates/exports. The call gives that number. */
uint64_t bungero_layout_1(void);
#if defined(__has_attribute)
#if __has_attribute(retain)
__attribute__((retain)) /* by a linker that leaves out what is not used, too */
#endif
#endif
__attribute__((used)) static uint64_t (*const bungero_layout)(void) = bungero_layout_1;

/* The bytes of the buffer that bungero_report writes to; no report is longer than 3,960. */
#define BUNGERO_REPORT_ROOM 4096

/* The bytes of a buffer in which bungero_write has room for every sheet; none that it writes is longer than 10,371. */
#define BUNGERO_SHEET_ROOM 12288

/* The most lines that a column holds. */
#define BUNGERO_LINES 256

/* The refusals, with the paper's numbers, in the order of its table. */
enum bungero_refusal {
    BUNGERO_ACCEPTED = 0,          /* no condition holds */
    BUNGERO_CODE = 1,              /* opening a member: code not 1 to 12 */
    BUNGERO_FULL = 2,              /* entering a line: 256 lines held */
    BUNGERO_FLOOR = 3,             /* floor not 1 to 64, or a smaller number than the last accepted line's */
    BUNGERO_CLASS = 4,             /* class not 1 to 3 */
    BUNGERO_LOAD = 5,              /* load not 1 to 50,000 */
    BUNGERO_AREA = 6,              /* area not 1 to 200,000 */
    BUNGERO_NO_SUCH_FLOOR = 7,     /* asking at a floor: no accepted line has that floor */
    BUNGERO_NOT_WHOLE = 8,         /* an effect is not a whole number (NaN and infinities too) */
    BUNGERO_BEYOND_LIMIT = 9,      /* an effect is beyond +-1,000,000,000,000 */
    BUNGERO_FORM = 10,             /* a line of a sheet has not the form, is missing, or is left over */
    BUNGERO_TOO_LONG = 11,         /* a sheet is longer than 32,768 bytes */
    BUNGERO_NO_ROOM = 12           /* writing a sheet: the buffer is shorter than the text */
};

/* A line as a caller lends it. */
typedef struct bungero_line {
    uint64_t floor;                /* 1 (the top) to 64 */
    uint64_t use_class;            /* the paper's class: 1 ordinary, 2 passenger-car garage, 3 public assembly */
    uint64_t load;                 /* Lo, 1 to 50,000 N/m2 */
    uint64_t area;                 /* tributary area, 1 to 200,000 dm2 */
} bungero_line;

/* What is known of a member beside its lines. */
typedef struct bungero_member {
    uint8_t code;
} bungero_member;

/* A member and its accepted lines, each as one number. Opaque: a caller may copy it whole, and lend it to the calls below, and
   no more. A column must be one that bungero_open or bungero_read with number 0 gave, or made as bungero_open_member says, and
   changed by bungero_enter and bungero_paste alone; of any other nothing is promised. */
typedef struct bungero_column {
    bungero_member member;
    uint16_t count;
    uint64_t held[BUNGERO_LINES];
} bungero_column;

/* What bungero_open gives. */
typedef struct bungero_opened {
    uint64_t number;
    bungero_column column;
} bungero_opened;

/* What bungero_open_member gives. */
typedef struct bungero_opened_member {
    uint64_t number;
    bungero_member member;
} bungero_opened_member;

/* What bungero_enter gives. */
typedef struct bungero_entered {
    uint64_t number;
    uint16_t count;                /* how many lines the column then holds */
} bungero_entered;

/* What bungero_paste gives. */
typedef struct bungero_pasted {
    uint64_t number;               /* of the first refused line; 0 where all lines are kept */
    uint16_t kept;                 /* how many lines of the list are kept: those before the refused one */
    uint16_t count;                /* how many lines the column then holds */
} bungero_pasted;

/* What bungero_ask gives: at a floor, of the lines carried there. */
typedef struct bungero_figure {
    uint64_t number;
    uint64_t floors;               /* the count n of distinct floors */
    uint64_t influence;            /* the influence area X in dm2 */
    uint64_t figure;               /* the figure in hundredths of a newton */
} bungero_figure;

/* What bungero_reduced_load gives. */
typedef struct bungero_reduced {
    uint64_t number;
    uint64_t reduced;              /* the reduced load R in N/m2 */
} bungero_reduced;

/* What bungero_figure_of gives. */
typedef struct bungero_listed {
    uint64_t number;
    uint64_t place;                /* of the refused line, counted from 1; 0 where number is 0, 1 or 7 */
    uint64_t floors;               /* the count n of distinct floors */
    uint64_t influence;            /* the influence area X in dm2 */
    uint64_t figure;               /* the figure in hundredths of a newton */
} bungero_listed;

/* The seven effects in newtons, as doubles. */
typedef struct bungero_effects {
    double dead, live, roof, snow, rain, wind, quake;
} bungero_effects;

/* The seven effects in whole newtons. */
typedef struct bungero_newtons {
    int64_t dead, live, roof, snow, rain, wind, quake;
} bungero_newtons;

/* What bungero_check gives. */
typedef struct bungero_checked {
    uint64_t number;
    uint64_t place;                /* of the refused effect, 1 (dead) to 7 (quake); 0 where number is 0 */
    double value;                  /* its double as it came, bit for bit; 0 where number is 0 */
    bungero_newtons newtons;
} bungero_checked;

/* A row of the 25 combinations and its sum. */
typedef struct bungero_governing_row {
    uint64_t row;                  /* 1 to 25 */
    int64_t tenths;                /* the sum in whole tenths of a newton */
    double value;                  /* the same number as a double, nothing lost; 0 is plus zero */
} bungero_governing_row;

/* The rows with the greatest and the least sum; equal sums give the lowest row. */
typedef struct bungero_governing {
    bungero_governing_row greatest;
    bungero_governing_row least;
} bungero_governing;

/* What bungero_combine gives. */
typedef struct bungero_combined {
    uint64_t number;
    uint64_t place;                /* of the refused effect, 1 (dead) to 7 (quake); 0 where number is 0 */
    double value;                  /* its double as it came, bit for bit; 0 where number is 0 */
    bungero_governing governing;
} bungero_combined;

/* The six effects of a sheet in whole newtons; the live effect follows from its column. */
typedef struct bungero_sheet_effects {
    int64_t dead, roof, snow, rain, wind, quake;
} bungero_sheet_effects;

/* The six effects of a sheet in newtons, as doubles. */
typedef struct bungero_sheet_doubles {
    double dead, roof, snow, rain, wind, quake;
} bungero_sheet_doubles;

/* What bungero_read gives. */
typedef struct bungero_reading {
    uint64_t number;
    uint64_t line;                 /* the refused line K, counted from 1; 0 for number 11, and the last line for number 0 */
    size_t start;                  /* the part of the text that is refused, without its newline: */
    size_t end;                    /* from text[start] to before text[end] */
    bungero_column column;
    bungero_sheet_effects effects;
} bungero_reading;

/* What bungero_report gives. */
typedef struct bungero_reported {
    uint64_t number;
    uint64_t line;                 /* as in bungero_reading */
    size_t length;                 /* how many bytes of `out` were written */
} bungero_reported;

/* What bungero_write gives. */
typedef struct bungero_written {
    uint64_t number;
    uint64_t place;                /* of the refused effect, 1 (dead) to 6 (quake); 0 where number is not 8 or 9 */
    double value;                  /* its double as it came, bit for bit; 0 where number is not 8 or 9 */
    size_t length;                 /* how many bytes of `out` were written */
} bungero_written;

/* Opens a member: for a code of 1 to 12, number 0 and its column without lines. For any other code number 1, and in the
   column's place one with member code 0, which bungero_column_enter, _paste, _ask and _write refuse. */
bungero_opened bungero_open(uint64_t code);

/* The same without the column's 2 KB, for a binding that keeps columns itself: number 0 and the member for a code of 1 to 12,
   of which this member, a count of 0 and 256 places that are all 0 make the column that bungero_open gives. For any other code
   number 1, and a member of code 0. */
bungero_opened_member bungero_open_member(uint64_t code);

/* The calls of the library behind bungero_column_enter, _paste, _ask and _write, which are what a program uses: a
   column is lent in its parts, and entering and pasting write to the places where a line is accepted and give the
   column's new count. The parts must be those of one such column; of others nothing is promised. bungero_paste takes
   the lines as numbers, four a line, and `numbers` counts these, so it is four times the count of lines; one to three
   left over at the end are no line. They are only read, may not overlap the places, and `lines` may be NULL where there
   are none. Entering and pasting write no place before the count: where they are cut off, by a signal or the end of a
   thread, the column with its old count has the lines that it had, until the caller stores the count that is given.
   That the calls go on from it as from the column before is tried, and not proved. */
bungero_entered bungero_enter(uint64_t held[BUNGERO_LINES], bungero_member member, uint16_t count, uint64_t floor,
                              uint64_t use_class, uint64_t load, uint64_t area);
bungero_pasted bungero_paste(uint64_t held[BUNGERO_LINES], bungero_member member, uint16_t count, const uint64_t *lines,
                             size_t numbers);
bungero_figure bungero_ask(const uint64_t held[BUNGERO_LINES], bungero_member member, uint16_t count, uint64_t floor);
bungero_written bungero_write(const uint64_t held[BUNGERO_LINES], bungero_member member, uint16_t count,
                              bungero_sheet_doubles effects, uint8_t *out, size_t room);

/* Enters a line at the end of the accepted lines of a column, one as these calls gave it: number 0, and the column has the
   line. Else number 2, 3, 4, 5 or 6, the first whose condition holds in this order, and the column is as before. Number 1, and
   nothing is touched, where no member was opened: the column of a refused bungero_open, or of a sheet that bungero_read
   refuses at its member line or for its length. */
static inline uint64_t bungero_column_enter(bungero_column *column, bungero_line line) {
    if (column->member.code == 0) {
        return BUNGERO_CODE;
    }
    bungero_entered entered = bungero_enter(column->held, column->member, column->count, line.floor, line.use_class,
                                            line.load, line.area);
    column->count = entered.count;
    return entered.number;
}

/* Enters `count` lines on a column, one as these calls gave it, in order, up to and with the first refused one: number 0, and
   the column has them all. Else number 2, 3, 4, 5 or 6, as entering the line lines[kept] gives it. The lines before that one
   are kept, so the column is not as before where there are any; those after it are not looked at. Number 1, and nothing is
   touched, where no member was opened. `lines` is only read, may not overlap the column, and may be NULL where `count` is 0. */
static inline bungero_pasted bungero_column_paste(bungero_column *column, const bungero_line *lines, size_t count) {
    bungero_pasted pasted = {BUNGERO_CODE, 0, 0};
    if (column->member.code != 0) {
        pasted = bungero_paste(column->held, column->member, column->count, (const uint64_t *)lines, 4 * count);
        column->count = pasted.count;
    }
    return pasted;
}

/* Asks at a floor of a column, one as these calls gave it: number 0 and n, X and the figure over the accepted lines with floor
   at most `floor`. Number 7 where no accepted line has that floor, as with every floor that is not 1 to 64, and where no
   member was opened. The column is only read. */
static inline bungero_figure bungero_column_ask(const bungero_column *column, uint64_t floor) {
    if (column->member.code == 0) {
        bungero_figure refused = {BUNGERO_NO_SUCH_FLOOR, 0, 0, 0};
        return refused;
    }
    return bungero_ask(column->held, column->member, column->count, floor);
}

/* Writes the sheet of a column, one as these calls gave it, and of six effects to the start of `out`, a buffer of
   `room` bytes: number 0, and the text is `length` bytes, at most 10,371; no zero byte is added, and the other bytes of
   `out` stay as they were. Reading it gives the same column and effects, minus zero as 0, and a sheet that was read is
   written back byte for byte. Else the first effect, dead to quake, that is not a whole number (8; NaN and infinities
   too) or is whole and beyond +-1,000,000,000,000 (9): its number, which one it is and its double as it came, bit for
   bit. Else number 12 where the buffer is shorter than the text. Number 1, before all these, where no member was
   opened. Where something is refused no byte of `out` is written. The column is only read. `out` may not overlap it,
   and may be NULL where `room` is 0. */
static inline bungero_written bungero_column_write(const bungero_column *column, bungero_sheet_doubles effects,
                                                   uint8_t *out, size_t room) {
    if (column->member.code == 0) {
        bungero_written refused = {BUNGERO_CODE, 0, 0, 0};
        return refused;
    }
    return bungero_write(column->held, column->member, column->count, effects, out, room);
}

/* The effects of a sheet as doubles, so that what was read can be written: the same numbers for all within the limits,
   as those of a sheet that is read are. */
static inline bungero_sheet_doubles bungero_doubles_of(bungero_sheet_effects effects) {
    bungero_sheet_doubles doubles = {(double)effects.dead, (double)effects.roof, (double)effects.snow,
                                     (double)effects.rain, (double)effects.wind, (double)effects.quake};
    return doubles;
}

/* The reduced load R of one line, where the lines carried have n = `floors` (0 is taken as 1) and X = `influence`: number 0
   and the least whole number not below share x load. Every n and X is taken. Number 4 where the class is not 1 to 3, else
   number 5 where the load is not 1 to 50,000. */
bungero_reduced bungero_reduced_load(uint64_t load, uint64_t use_class, uint64_t floors, uint64_t influence);

/* The figure at a floor of a member with the lent lines, `count` of them from the top down: number 0 and n, X and the
   figure. It checks the code, then every line as bungero_enter does, then the floor. Number 1 (place 0) for the code; else
   2 to 6 and the place of the first refused line, 2 only at place 257; else 7 (place 0) where no line has that floor.
   `lines` points to `count` records, which are only read; it may be NULL where `count` is 0. */
bungero_listed bungero_figure_of(uint64_t code, const bungero_line *lines, size_t count, uint64_t floor);

/* Checks seven effects, dead to quake: number 0 and each in whole newtons, minus zero as 0. Else the first effect that is
   not a whole number (8; NaN and infinities too) or is whole and beyond +-1,000,000,000,000 (9): its number, which one it is
   and its double as it came, bit for bit. */
bungero_checked bungero_check(bungero_effects effects);

/* Combines seven effects: number 0 and, of the 25 combinations, the rows with the greatest and the least sum; equal sums give
   the lowest row. Else what bungero_check gives as number, place and value. */
bungero_combined bungero_combine(bungero_effects effects);

/* Reads a text of `length` bytes as a sheet: number 0, its column, as bungero_open and bungero_column_enter would give
   it, so that it can be asked, entered on and written, its effects, and the empty part at the end of the text. Else 1
   to 6, 9, 10 or 11, the line K and the part of the text that is refused: the line without its newline, the empty part
   at the end where a line is missing, the empty part at the start for 11. Column and effects are then what was read
   before that line, for whoever wants to show it; the column has no member where that line is the member's. The text
   may hold any bytes and be of any length (above 32,768 it is refused with 11), and is only read; it may be NULL where
   `length` is 0. */
bungero_reading bungero_read(const uint8_t *text, size_t length);

/* What takedown prints for a sheet of `length` bytes, written to the start of `out`: number 0, and each floor's working and the
   governing rows, `length` bytes, at most 3,960; no zero byte is added, and the other bytes of `out` stay as they were. Else
   number and line as bungero_read gives them, length 0, and no byte of `out` is written; takedown prints
   `refused=NUMBER line=LINE` then. The text is taken as by bungero_read. `out` must be 4,096 bytes that do not overlap it. */
bungero_reported bungero_report(const uint8_t *text, size_t length, uint8_t out[BUNGERO_REPORT_ROOM]);

/* The layout that the library was built for: the size of each struct and where each of its members stands. */
#define BUNGERO_SIZE(type, size) static_assert(sizeof(bungero_##type) == size, "size of bungero_" #type)
#define BUNGERO_AT(type, member, offset) static_assert(offsetof(bungero_##type, member) == offset, "bungero_" #type "." #member)
BUNGERO_SIZE(line, 32); BUNGERO_AT(line, floor, 0); BUNGERO_AT(line, use_class, 8); BUNGERO_AT(line, load, 16);
BUNGERO_AT(line, area, 24);
BUNGERO_SIZE(member, 1); BUNGERO_AT(member, code, 0);
BUNGERO_SIZE(column, 2056); BUNGERO_AT(column, member, 0); BUNGERO_AT(column, count, 2); BUNGERO_AT(column, held, 8);
BUNGERO_SIZE(opened, 2064); BUNGERO_AT(opened, number, 0); BUNGERO_AT(opened, column, 8);
BUNGERO_SIZE(opened_member, 16); BUNGERO_AT(opened_member, number, 0); BUNGERO_AT(opened_member, member, 8);
BUNGERO_SIZE(entered, 16); BUNGERO_AT(entered, number, 0); BUNGERO_AT(entered, count, 8);
BUNGERO_SIZE(pasted, 16); BUNGERO_AT(pasted, number, 0); BUNGERO_AT(pasted, kept, 8); BUNGERO_AT(pasted, count, 10);
BUNGERO_SIZE(figure, 32); BUNGERO_AT(figure, number, 0); BUNGERO_AT(figure, floors, 8); BUNGERO_AT(figure, influence, 16);
BUNGERO_AT(figure, figure, 24);
BUNGERO_SIZE(reduced, 16); BUNGERO_AT(reduced, number, 0); BUNGERO_AT(reduced, reduced, 8);
BUNGERO_SIZE(listed, 40); BUNGERO_AT(listed, number, 0); BUNGERO_AT(listed, place, 8); BUNGERO_AT(listed, floors, 16);
BUNGERO_AT(listed, influence, 24); BUNGERO_AT(listed, figure, 32);
BUNGERO_SIZE(effects, 56); BUNGERO_AT(effects, dead, 0); BUNGERO_AT(effects, live, 8); BUNGERO_AT(effects, roof, 16);
BUNGERO_AT(effects, snow, 24); BUNGERO_AT(effects, rain, 32); BUNGERO_AT(effects, wind, 40); BUNGERO_AT(effects, quake, 48);
BUNGERO_SIZE(newtons, 56); BUNGERO_AT(newtons, dead, 0); BUNGERO_AT(newtons, live, 8); BUNGERO_AT(newtons, roof, 16);
BUNGERO_AT(newtons, snow, 24); BUNGERO_AT(newtons, rain, 32); BUNGERO_AT(newtons, wind, 40); BUNGERO_AT(newtons, quake, 48);
BUNGERO_SIZE(checked, 80); BUNGERO_AT(checked, number, 0); BUNGERO_AT(checked, place, 8); BUNGERO_AT(checked, value, 16);
BUNGERO_AT(checked, newtons, 24);
BUNGERO_SIZE(governing_row, 24); BUNGERO_AT(governing_row, row, 0); BUNGERO_AT(governing_row, tenths, 8);
BUNGERO_AT(governing_row, value, 16);
BUNGERO_SIZE(governing, 48); BUNGERO_AT(governing, greatest, 0); BUNGERO_AT(governing, least, 24);
BUNGERO_SIZE(combined, 72); BUNGERO_AT(combined, number, 0); BUNGERO_AT(combined, place, 8);
BUNGERO_AT(combined, value, 16); BUNGERO_AT(combined, governing, 24);
BUNGERO_SIZE(sheet_effects, 48); BUNGERO_AT(sheet_effects, dead, 0); BUNGERO_AT(sheet_effects, roof, 8);
BUNGERO_AT(sheet_effects, snow, 16); BUNGERO_AT(sheet_effects, rain, 24); BUNGERO_AT(sheet_effects, wind, 32);
BUNGERO_AT(sheet_effects, quake, 40);
BUNGERO_SIZE(sheet_doubles, 48); BUNGERO_AT(sheet_doubles, dead, 0); BUNGERO_AT(sheet_doubles, roof, 8);
BUNGERO_AT(sheet_doubles, snow, 16); BUNGERO_AT(sheet_doubles, rain, 24); BUNGERO_AT(sheet_doubles, wind, 32);
BUNGERO_AT(sheet_doubles, quake, 40);
BUNGERO_SIZE(reading, 2136); BUNGERO_AT(reading, number, 0); BUNGERO_AT(reading, line, 8); BUNGERO_AT(reading, start, 16);
BUNGERO_AT(reading, end, 24); BUNGERO_AT(reading, column, 32); BUNGERO_AT(reading, effects, 2088);
BUNGERO_SIZE(reported, 24); BUNGERO_AT(reported, number, 0); BUNGERO_AT(reported, line, 8);
BUNGERO_AT(reported, length, 16);
BUNGERO_SIZE(written, 32); BUNGERO_AT(written, number, 0); BUNGERO_AT(written, place, 8);
BUNGERO_AT(written, value, 16); BUNGERO_AT(written, length, 24);
#undef BUNGERO_SIZE
#undef BUNGERO_AT

#ifdef __cplusplus
}
#endif

#endif
