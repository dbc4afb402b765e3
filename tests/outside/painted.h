// How much stack a call takes: it runs on a stack of its own, filled with a pattern, and what is overwritten is counted.
#ifndef PAINTED_H
#define PAINTED_H

#include <stddef.h>
#include <stdint.h>

// The bytes that are overwritten when this is run; what it takes itself is known from a run of it that makes an empty call.
size_t painted_stack(void (*run)(void));

// The library's calls.
enum library_call {
    LIBRARY_PLAN_TEXT,
    LIBRARY_PLAN,
    LIBRARY_MEASURE,
    LIBRARY_NEED,
    LIBRARY_PLAN_AFRESH,
    LIBRARY_CALLS
};
extern const char *const library_names[LIBRARY_CALLS];

// The stack of one of them on a sheet of so many jobs: a list of as many levels 0 is measured, 64 at most, and it is planned
// afresh after half of them.
size_t library_stack(enum library_call call, const uint8_t *sheet, size_t sheet_len, size_t jobs);

#endif
