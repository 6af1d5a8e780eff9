/* Tries what bungero.h says of memory. Each call runs on a painted stack of its own, with inputs that take it all the way, and
   the paint that is gone is at most what the header says. Lines are entered and pasted while the places before the count may
   only be read: a write to one of them would be a fault. And a column goes on where either was cut off before its count. */
#include "bungero.h"

#include <stdio.h>
#include <stdlib.h>
#include <string.h>
#include <sys/mman.h>
#include <ucontext.h>

#define ROOM 65536
#define PAINT 0xa5
#define PAGE 4096

/* What is lent stands outside the stack that is measured. */
static uint8_t stack[ROOM] __attribute__((aligned(16)));
static ucontext_t back, there;
static uint8_t text[32769], out[BUNGERO_REPORT_ROOM], saved[BUNGERO_SHEET_ROOM];
static size_t length;
static bungero_line lines[BUNGERO_LINES];
static bungero_opened opened;
static bungero_reading reading;
static bungero_effects effects = {1, 2, 3, 4, 5, 6, 7};
static bungero_sheet_doubles doubles;
static bungero_written written;
static volatile uint64_t kept;

static void call_nothing(void) { kept = 0; }
static void call_open(void) { opened = bungero_open(1); }
static void call_open_member(void) { kept = bungero_open_member(1).number; }
static void call_read(void) { reading = bungero_read(text, length); }
static void call_report(void) { kept = bungero_report(text, length, out).number; }
static void call_figure_of(void) { kept = bungero_figure_of(1, lines, BUNGERO_LINES, 64).figure; }
static void call_enter(void) { kept = bungero_column_enter(&opened.column, lines[0]); }
static void call_paste(void) { kept = bungero_column_paste(&opened.column, lines, BUNGERO_LINES).number; }
static void call_ask(void) { kept = bungero_column_ask(&reading.column, 64).figure; }
static void call_write(void) { written = bungero_column_write(&reading.column, doubles, saved, sizeof saved); }
static void call_reduced_load(void) { kept = bungero_reduced_load(4999, 1, 2, 9999).reduced; }
static void call_check(void) { kept = bungero_check(effects).number; }
static void call_combine(void) { kept = bungero_combine(effects).number; }

/* How much of a fresh stack a call takes. */
static size_t taken(void (*call)(void))
{
    memset(stack, PAINT, ROOM);
    getcontext(&there);
    there.uc_stack.ss_sp = stack;
    there.uc_stack.ss_size = ROOM;
    there.uc_link = &back;
    makecontext(&there, call, 0);
    swapcontext(&back, &there);
    size_t lowest = 0;
    while (lowest < ROOM && stack[lowest] == PAINT) {
        lowest++;
    }
    return ROOM - lowest;
}

/* Stops where a call takes more than is said; `by_value` is the size of what it takes and gives, which its caller has on the
   stack too. */
static void expect_within(const char *what, void (*call)(void), size_t by_value, size_t most)
{
    size_t need = taken(call) - taken(call_nothing);
    if (need > most + by_value) {
        printf("%s takes %zu bytes of the stack, more than %zu, as bungero.h says, and %zu\n", what, need, most, by_value);
        exit(1);
    }
}

/* A sheet of 256 lines on 64 floors, as a text and as a list. */
static void make_inputs(void)
{
    length = (size_t)sprintf((char *)text, "member=1\n");
    for (unsigned at = 0; at < BUNGERO_LINES; at++) {
        bungero_line line = {1 + at / 4, 1 + at % 3, 1 + at * 19, 1 + at * 7};
        lines[at] = line;
        length += (size_t)sprintf((char *)text + length, "floor=%u class=%u load=%u area=%u\n", 1 + at / 4, 1 + at % 3,
                                  1 + at * 19, 1 + at * 7);
    }
    length += (size_t)sprintf((char *)text + length, "dead=1\nroof=-2\nsnow=1000000000000\nrain=4\nwind=-987654321098\n"
                                                     "quake=-1000000000000\n");
}

/* Stops where what should hold does not. */
static void expect(const char *what, int holds)
{
    if (!holds) {
        printf("it does not hold that %s\n", what);
        exit(1);
    }
}

/* Pastes the lines from an index on. */
static bungero_pasted paste_from(uint64_t *held, bungero_column column, unsigned first)
{
    return bungero_paste(held, column.member, column.count, (const uint64_t *)(lines + first), 4 * (BUNGERO_LINES - first));
}

/* Enters the lines one by one, the held ones on a page that may only be read meanwhile and the free places on the next; and
   pastes so all that are left, in place of each. */
static void try_entering(void)
{
    uint8_t *pages = (uint8_t *)mmap(NULL, 2 * PAGE, PROT_READ | PROT_WRITE, MAP_PRIVATE | MAP_ANONYMOUS, -1, 0);
    expect("there is memory", pages != MAP_FAILED);
    bungero_column column = bungero_open(1).column;
    for (unsigned count = 0; count < BUNGERO_LINES; count++) {
        bungero_line line = lines[count];
        uint64_t *held = (uint64_t *)(void *)(pages + PAGE - 8 * count);
        memcpy(held, column.held, sizeof column.held);
        expect("a page is protected", mprotect(pages, PAGE, PROT_READ) == 0);
        bungero_entered entered = bungero_enter(held, column.member, column.count, line.floor, line.use_class,
                                                line.load, line.area);
        uint64_t place = held[count];
        held[count] = column.held[count];
        bungero_pasted pasted = paste_from(held, column, count);
        expect("a page is given back", mprotect(pages, PAGE, PROT_READ | PROT_WRITE) == 0);
        expect("the line is accepted", entered.number == BUNGERO_ACCEPTED && entered.count == count + 1);
        expect("the lines are pasted", pasted.number == BUNGERO_ACCEPTED && pasted.count == BUNGERO_LINES);
        expect("entered and pasted alike", held[count] == place);
        column.held[count] = place;
        column.count = entered.count;
    }
    uint64_t figure = bungero_figure_of(1, lines, BUNGERO_LINES, 64).figure;
    expect("the column has the lines", bungero_column_ask(&column, 64).figure == figure);
    munmap(pages, 2 * PAGE);
}

/* Stops where two columns do not answer alike at every floor. */
static void expect_alike(const bungero_column *one, const bungero_column *other)
{
    for (uint64_t floor = 0; floor <= 65; floor++) {
        bungero_figure here = bungero_column_ask(one, floor), there = bungero_column_ask(other, floor);
        expect("both columns answer alike", here.number == there.number && here.floors == there.floors &&
                                                here.influence == there.influence && here.figure == there.figure);
    }
}

/* Enters each line, and pastes all that are left, as if it were cut off, its count not stored, and goes on: with asking, and
   with the next line. */
static void try_cut_off(void)
{
    bungero_column column = bungero_open(1).column;
    for (unsigned count = 0; count < BUNGERO_LINES; count++) {
        bungero_column cut = column;
        bungero_line line = lines[count], other = {64, 3, 50000, 200000};
        bungero_enter(cut.held, cut.member, cut.count, other.floor, other.use_class, other.load, other.area);
        expect("a place is written", cut.held[count] != column.held[count]);
        expect_alike(&cut, &column);
        expect("a place is pasted to", paste_from(cut.held, cut, count).kept == BUNGERO_LINES - count);
        expect_alike(&cut, &column);
        expect("both take the line", bungero_column_enter(&cut, line) == bungero_column_enter(&column, line));
        expect_alike(&cut, &column);
    }
}

int main(void)
{
    make_inputs();
    try_entering();
    try_cut_off();
    expect_within("bungero_open", call_open, sizeof(bungero_opened), 3072);
    expect_within("bungero_open_member", call_open_member, sizeof(bungero_opened_member), 512);
    expect_within("bungero_read", call_read, sizeof(bungero_reading), 8192);
    expect("the sheet is read", reading.number == BUNGERO_ACCEPTED);
    doubles = bungero_doubles_of(reading.effects);
    expect_within("bungero_write", call_write, sizeof(bungero_sheet_doubles) + sizeof(bungero_written), 1024);
    expect("the sheet is written back", written.length == length && memcmp(saved, text, length) == 0);
    expect_within("bungero_report", call_report, sizeof(bungero_reported), 12288);
    expect_within("bungero_figure_of", call_figure_of, sizeof(bungero_listed), 3072);
    expect_within("bungero_enter", call_enter, sizeof(bungero_entered), 512);
    expect_within("bungero_paste", call_paste, sizeof(bungero_pasted), 512);
    expect("the column is full", opened.column.count == BUNGERO_LINES);
    expect_within("bungero_ask", call_ask, sizeof(bungero_figure), 512);
    expect_within("bungero_reduced_load", call_reduced_load, sizeof(bungero_reduced), 512);
    expect_within("bungero_check", call_check, sizeof(bungero_effects) + sizeof(bungero_checked), 512);
    expect_within("bungero_combine", call_combine, sizeof(bungero_effects) + sizeof(bungero_combined), 512);
    printf("no call takes more of the stack than the header says, entering and pasting write no place before the count, and a "
           "column goes on where they were cut off\n");
    return 0;
}
