// Groups of checks, what a failed one says, and memory to lend with guards around it.
#ifndef CHECK_H
#define CHECK_H

#include "plain.h"

enum {
    SHEET_ROOM = 24576,
    LIST_ROOM = 4096,
    FILL = 0xA5 // lent memory is filled by this before a call, or by its complement
};

struct sheet {
    char name[128]; // which sheet, and what was done to it
    size_t length;
    uint8_t bytes[SHEET_ROOM];
};

// Begins a group of checks; ends the one that is under way, and prints its counts.
void begin_group(const char *name);
void end_group(void);

unsigned long all_checks(void);

// Counts a check; where it does not hold, says so of the call under way or of the sheet that was lent last, and ends the program.
void check(bool holds, const char *format, ...) __attribute__((format(printf, 2, 3)));

// Counts an answer to a sheet, a refusal or 0 for a plan, and hands back how many were counted before.
unsigned long count_answer(unsigned refusal);

// Checks that so many answers of the group or more were this refusal, or a plan, 0.
void check_answered(unsigned refusal, unsigned long least);

// Puts a sheet, or a list of levels, in front of a page that nothing may touch, so that reading beyond its end is seen.
const uint8_t *lend_sheet(const struct sheet *sheet);
const uint8_t *lend_list(const uint8_t *levels, size_t count);

// Begins a call on the sheet that was lent last, with what it lends, for the message; ends it: what it may only read has to be as
// it was.
void begin_call(const char *format, ...) __attribute__((format(printf, 1, 2)));
void end_call(void);

// Fills memory before it is lent. No two bytes next to each other are alike, and none is a level, no word a time; by the fill's
// complement every bit is another.
void fill_lent(void *area, size_t size, uint8_t fill);

// Lent memory with its guards, all sizes in bytes: a call leaves what is due at the start and the fill in every other place.
struct lent {
    const char *unit; // "byte", "word" or "figure", for the message
    size_t unit_size;
    const void *area;
    size_t guard, size;
    const void *due;
    size_t due_size;
    uint8_t fill;
};

void check_lent(const struct lent *lent);

#endif
