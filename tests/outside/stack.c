// The stack of the library's calls, held to the header's figures. `stack TOP`, linked with -Wl,-z,now, takes the most over stored
// and changed sheets. `stack CALL SHEET`, linked with -Wl,-z,lazy, makes one call, which is the first of its process to call
// memcpy and memset; calls are numbered from 0.
#include "painted.h"
#include "sheets.h"

#include <begbija.h>

#include <glob.h>
#include <stdio.h>
#include <stdlib.h>

static const size_t stated[LIBRARY_CALLS] = {BEGBIJA_PLAN_TEXT_STACK, BEGBIJA_PLAN_STACK, BEGBIJA_MEASURE_STACK,
                                             BEGBIJA_NEED_STACK, BEGBIJA_PLAN_AFRESH_STACK};
static size_t most[LIBRARY_CALLS];
static struct sheet sheet, changed;

// As many as the H line says.
static size_t jobs_of(const struct sheet *from)
{
    struct span field = find_field(from, 2, 2);
    size_t jobs = 0;
    for (size_t i = 0; i < field.length && jobs <= JOBS_MAX; i++)
        jobs = jobs * 10 + (size_t)(from->bytes[field.at + i] - '0') % 10;
    return jobs;
}

// Makes every call on a sheet, and keeps the most of each.
static void try_sheet(const struct sheet *tried)
{
    for (enum library_call call = 0; call < LIBRARY_CALLS; call++) {
        size_t bytes = library_stack(call, tried->bytes, tried->length, jobs_of(tried));
        most[call] = bytes > most[call] ? bytes : most[call];
    }
}

// Every sheet that a pattern finds.
static void try_stored(const char *top, const char *pattern)
{
    char path[512];
    glob_t found = {0};
    snprintf(path, sizeof path, "%s/%s", top, pattern);
    if (glob(path, 0, NULL, &found) != 0) {
        fprintf(stderr, "stack: no sheets in %s\n", path);
        exit(1);
    }
    for (size_t i = 0; i < found.gl_pathc; i++) {
        load_sheet(&sheet, found.gl_pathv[i]);
        try_sheet(&sheet);
    }
    globfree(&found);
}

// The printed sheet cut after each byte, and with each field changed: every refusal of a sheet at every kind of line.
static void try_changed(void)
{
    set_text(&sheet, printed_sheet);
    for (size_t length = 0; length <= sheet.length; length++) {
        changed = sheet;
        changed.length = length;
        try_sheet(&changed);
    }
    for (size_t line = 1; line <= count_lines(&sheet); line++)
        for (size_t field = 1; field <= count_fields(&sheet, line); field++)
            for (size_t i = 0; i < CRITICAL_FIELDS; i++) {
                changed = sheet;
                set_field(&changed, line, field, critical_fields[i]);
                try_sheet(&changed);
            }
}

// Whether a call takes no more than the header states, with so many bytes more for a link that binds lazily.
static bool hold(enum library_call call, size_t bytes, size_t more, const char *link)
{
    printf("%zu bytes of stack in %s, %s, at most %zu by the header\n", bytes, library_names[call], link, stated[call] + more);
    if (bytes > stated[call] + more)
        fprintf(stderr, "stack: %s takes more stack than the header states\n", library_names[call]);
    return bytes <= stated[call] + more;
}

// The most of every call over all sheets.
static bool hold_all(const char *top)
{
    bool holds = true;
    try_stored(top, "tests/vectors/*.sheet");
    try_stored(top, "tests/vectors/w1/*.sheet");
    try_stored(top, "tests/vectors/w2/*.sheet");
    try_stored(top, "tests/sheets/*.sheet");
    try_stored(top, "examples/*.sheet");
    try_stored(top, "examples/refused/*.sheet");
    try_changed();
    for (enum library_call call = 0; call < LIBRARY_CALLS; call++)
        holds &= hold(call, most[call], 0, "bound");
    return holds;
}

// One call on one sheet, before any other.
static bool hold_first(enum library_call call, const char *path)
{
    load_sheet(&sheet, path);
    size_t bytes = library_stack(call, sheet.bytes, sheet.length, jobs_of(&sheet));
    return hold(call, bytes, BEGBIJA_LAZY_STACK, "bound lazily");
}

int main(int count, char **words)
{
    if (count == 2)
        return hold_all(words[1]) ? 0 : 1;
    if (count == 3)
        return hold_first((enum library_call)(atoi(words[1]) % LIBRARY_CALLS), words[2]) ? 0 : 1;
    fprintf(stderr, "usage: stack TOP | stack CALL SHEET\n");
    return 2;
}
