#define _DEFAULT_SOURCE

#include "check.h"

#include <signal.h>
#include <stdarg.h>
#include <stdio.h>
#include <stdlib.h>
#include <string.h>
#include <sys/mman.h>
#include <unistd.h>

enum {
    ANSWERS = 15, // 0 for a plan, and the refusals
    FILL_PERIOD = 13 // bytes; below 16, so that the upper half of every byte is the fill's
};

static const char failed_sheet[] = "target/outside/failed.sheet";

static struct {
    const char *name;
    unsigned long checks, answers, answered[ANSWERS];
} group;

static unsigned long checks;

// The call under way, for the message of a failed check.
static struct {
    const struct sheet *sheet;
    const uint8_t *levels; // NULL where no list is lent
    size_t levels_count;
    char lent[160];
} call;

void begin_group(const char *name)
{
    memset(&group, 0, sizeof group);
    group.name = name;
    call.sheet = NULL;
    call.levels = NULL;
}

void end_group(void)
{
    printf("%s: %lu answers, %lu checks\n", group.name, group.answers, group.checks);
    fflush(stdout);
    checks += group.checks;
}

unsigned long all_checks(void)
{
    return checks;
}

// Writes the sheet of a failed check to a file.
static void keep_failed_sheet(void)
{
    FILE *file = fopen(failed_sheet, "wb");
    if (file == NULL)
        return;
    if (fwrite(call.sheet->bytes, 1, call.sheet->length, file) == call.sheet->length && fclose(file) == 0)
        fprintf(stderr, "outside: that sheet is in %s\n", failed_sheet);
}

// Prints the list of levels of a failed check.
static void print_list(void)
{
    fprintf(stderr, "outside: the list of levels is");
    for (size_t i = 0; i < call.levels_count; i++)
        fprintf(stderr, " %u", call.levels[i]);
    fprintf(stderr, "\n");
}

void check(bool holds, const char *format, ...)
{
    group.checks++;
    if (holds)
        return;
    fprintf(stderr, "outside: %s: %s: %s", group.name, call.sheet == NULL ? "the whole group" : call.sheet->name, call.lent);
    va_list values;
    va_start(values, format);
    vfprintf(stderr, format, values);
    va_end(values);
    fprintf(stderr, "\n");
    if (call.levels != NULL)
        print_list();
    if (call.sheet != NULL)
        keep_failed_sheet();
    exit(1);
}

unsigned long count_answer(unsigned refusal)
{
    group.answered[refusal]++;
    return group.answers++;
}

void check_answered(unsigned refusal, unsigned long least)
{
    unsigned long answered = group.answered[refusal];
    call.sheet = NULL;
    check(answered >= least, "%lu of %lu answers are %u, expected %lu", answered, group.answers, refusal, least);
}

// The fault is raised inside a call, so none of the C library's locks is held.
static void report_fault(int signal_number)
{
    check(false, "signal %d: memory that was not lent is touched", signal_number);
}

// The end of new memory in front of a page that nothing may touch.
static uint8_t *guarded_end(size_t room)
{
    size_t page = (size_t)sysconf(_SC_PAGESIZE);
    room = (room + page - 1) / page * page;
    uint8_t *start = mmap(NULL, room + page, PROT_READ | PROT_WRITE, MAP_PRIVATE | MAP_ANONYMOUS, -1, 0);
    if (start == MAP_FAILED || mprotect(start + room, page, PROT_NONE) != 0) {
        perror("outside: no memory to lend");
        exit(1);
    }
    signal(SIGSEGV, report_fault);
    signal(SIGBUS, report_fault);
    return start + room;
}

// Where a lent sheet ends.
static uint8_t *sheet_end(void)
{
    static uint8_t *end;
    return end != NULL ? end : (end = guarded_end(SHEET_ROOM));
}

// Where a lent list of levels ends.
static uint8_t *list_end(void)
{
    static uint8_t *end;
    return end != NULL ? end : (end = guarded_end(LIST_ROOM));
}

const uint8_t *lend_sheet(const struct sheet *sheet)
{
    call.sheet = sheet;
    call.levels = NULL;
    call.lent[0] = 0;
    return memcpy(sheet_end() - sheet->length, sheet->bytes, sheet->length);
}

const uint8_t *lend_list(const uint8_t *levels, size_t count)
{
    call.levels = levels;
    call.levels_count = count;
    return memcpy(list_end() - count, levels, count);
}

void begin_call(const char *format, ...)
{
    va_list values;
    va_start(values, format);
    vsnprintf(call.lent, sizeof call.lent, format, values);
    va_end(values);
}

void end_call(void)
{
    const uint8_t *sheet = sheet_end() - call.sheet->length;
    check(memcmp(sheet, call.sheet->bytes, call.sheet->length) == 0, "the sheet is written to");
    if (call.levels != NULL)
        check(memcmp(list_end() - call.levels_count, call.levels, call.levels_count) == 0, "the list is written to");
    call.levels = NULL;
    call.lent[0] = 0;
}

// What a byte of filled memory holds.
static uint8_t filled(size_t at, uint8_t fill)
{
    return fill ^ (uint8_t)(at % FILL_PERIOD);
}

void fill_lent(void *area, size_t size, uint8_t fill)
{
    uint8_t *bytes = area;
    size_t at = 0;
    for (; at < size && at < FILL_PERIOD; at++)
        bytes[at] = filled(at, fill);
    for (size_t more; at < size; at += more) {
        more = at < size - at ? at : size - at;
        memcpy(bytes + at, bytes, more);
    }
}

// The first byte from a place of filled memory on that is another now, or the end.
static size_t first_written(const uint8_t *area, size_t start, size_t end, uint8_t fill)
{
    size_t at = start;
    while (at < end && at < start + FILL_PERIOD && area[at] == filled(at, fill))
        at++;
    // Beyond a whole period every byte is as one period before.
    if (at == start + FILL_PERIOD && memcmp(area + start, area + at, end - at) == 0)
        return end;
    while (at < end && area[at] == filled(at, fill))
        at++;
    return at;
}

void check_lent(const struct lent *lent)
{
    const uint8_t *area = lent->area, *start = area + lent->guard, *due = lent->due;
    const size_t due_end = lent->guard + lent->due_size, end = 2 * lent->guard + lent->size;
    if (memcmp(start, due, lent->due_size) != 0) {
        size_t at = 0;
        while (start[at] == due[at])
            at++;
        check(false, "%s %zu of %zu that are due is wrong", lent->unit, at / lent->unit_size, lent->due_size / lent->unit_size);
    }
    size_t before = first_written(area, 0, lent->guard, lent->fill);
    if (before < lent->guard)
        check(false, "%s %zu before the start is written", lent->unit, (lent->guard - before - 1) / lent->unit_size + 1);
    size_t beyond = first_written(area, due_end, end, lent->fill);
    check(beyond == end, "%s %zu is written, which has to stay", lent->unit, (beyond - lent->guard) / lent->unit_size);
}
