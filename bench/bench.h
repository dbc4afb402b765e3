// The parts of the benchmark. What they measure goes to one file of results, from which bench/plot.py makes tables and plots.
#ifndef BENCH_H
#define BENCH_H

#include "draw.h"
#include "programs.h"

#include <stdio.h>

enum {
    TABLE_ROOM = 4194304 + 64, // words: the largest need and a guard
    GUARD = 64,                // words beyond the need, bytes beyond the levels and the text
    LEVELS_ROOM = 64 + GUARD,
    TEXT_BYTES = 4096,
    INSIDE = 16384 // words of the table in the logger's call
};

// The table that is lent to everything that is measured.
extern uint32_t bench_table[TABLE_ROOM];

// Sheets of a need of 16,384 words, and of 4,194,304.
enum { LOGGER_SHAPES = 3, FULL_SHAPES = 4, SHAPES = LOGGER_SHAPES + FULL_SHAPES };

// The sheet that is planned afresh: 64 jobs.
enum { AFRESH_SHAPE = LOGGER_SHAPES };
extern const struct shape bench_shapes[SHAPES];

// A drawn sheet of this shape, with a deadline just above the least time; it has a plan.
void make_sheet(struct sheet *sheet, struct shape shape);

// Ends the run where any program answers anything else than the others.
void compare_all(void);
void compare_sheet(const struct sheet *sheet);

// The whole call with a lent table; the same with a table one word short of the need, which is refused right after the sheet
// is read; the logger's call; and planning afresh after half of the jobs.
enum call { WHOLE, READER, TEXT, AFRESH, CALLS };
extern const char *const call_names[CALLS];

void make_call(const struct program *program, enum call call, const struct sheet *sheet);

// A line of results, without its value.
void write_place(FILE *results, const char *table, const struct sheet *sheet, const struct program *program,
                 const char *figure);

void write_result(FILE *results, const char *table, const struct sheet *sheet, const struct program *program,
                  const char *figure, double value);

void time_sheets(FILE *results);
void time_afresh(FILE *results);
void time_growth(FILE *results);
void measure_stack(FILE *results);

#endif
