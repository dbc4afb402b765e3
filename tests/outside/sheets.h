// Sheets to try: document 01's own, sheets written from figures, drawn figures, and edits of a sheet's bytes.
#ifndef SHEETS_H
#define SHEETS_H

#include "check.h"

// The sheet that document 01 prints.
extern const char printed_sheet[];

// Fields at both ends of the ranges and next to them, and fields of another form.
enum { CRITICAL_FIELDS = 47 };
extern const char *const critical_fields[CRITICAL_FIELDS];

void set_name(struct sheet *sheet, const char *format, ...) __attribute__((format(printf, 2, 3)));

void set_text(struct sheet *sheet, const char *text);

void load_sheet(struct sheet *sheet, const char *path);

void write_sheet(struct sheet *sheet, const struct plain_frame *frame);

// The next number of a fixed row, below the given one.
uint64_t draw(uint64_t *seed, uint64_t below);

// Figures of a sheet with at most so many jobs and levels and a need near so many words or below. Its limits are near what a drawn
// list takes.
void draw_frame(uint64_t *seed, uint64_t jobs_max, uint64_t levels_max, uint64_t words, struct plain_frame *frame);

// Whether some level's steady state is rounded from an exact half: from one above an odd number, or else above an even one.
bool has_half(const struct plain_frame *frame, bool above_odd);

// A list of levels, one for each job.
void draw_list(uint64_t *seed, const struct plain_frame *frame, uint8_t *levels);

// Gives such a list another length, or levels that are too high, or both; how many levels it then has, LIST_ROOM at most.
size_t spoil_list(uint64_t *seed, const struct plain_frame *frame, uint8_t *levels);

// What is read after so many more jobs of a list's run without steps.
struct plain_reading reading_after(const struct plain_frame *frame, const struct plain_reading *from, const uint8_t *levels,
                                   uint32_t count);

// A reading of such a run, or one near it, or one at the limits, or one with a figure at or next to the end of its range.
struct plain_reading draw_reading(uint64_t *seed, const struct plain_frame *frame, const uint8_t *levels);

// A part of a sheet's bytes.
struct span {
    size_t at, length;
};

size_t count_lines(const struct sheet *sheet);

// A line with its byte 10, counted from 1, or the last one.
struct span find_line(const struct sheet *sheet, size_t line);

size_t count_fields(const struct sheet *sheet, size_t line);

// A field without its tab, counted from 1, or the line's last one.
struct span find_field(const struct sheet *sheet, size_t line, size_t field);

// Puts bytes in the place of a part; the sheet stays as it is where it would get too long.
void replace(struct sheet *sheet, struct span span, const void *bytes, size_t length);

void set_field(struct sheet *sheet, size_t line, size_t field, const char *value);

#endif
