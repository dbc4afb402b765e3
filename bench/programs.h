// The planners that are compared.
#ifndef PROGRAMS_H
#define PROGRAMS_H

#include <begbija.h>

// The library's three planning calls.
typedef int64_t plan_call(const uint8_t *sheet, size_t sheet_len, uint32_t *table, size_t table_len, uint8_t *levels,
                          size_t levels_len, struct begbija_reply *reply);
typedef int64_t text_call(const uint8_t *sheet, size_t sheet_len, uint8_t *text, size_t text_len);
typedef int64_t afresh_call(const uint8_t *sheet, size_t sheet_len, uint32_t done, uint32_t level, uint32_t time, uint32_t energy,
                            uint32_t temperature, uint32_t *table, size_t table_len, uint8_t *levels, size_t levels_len,
                            struct begbija_reply *reply);

struct program {
    const char *name;
    plan_call *plan;
    text_call *text;
    afresh_call *afresh;
};

enum { PROGRAMS = 4, LIBRARY = 0, HOISTED = 2 };

extern const struct program programs[PROGRAMS];

#endif
