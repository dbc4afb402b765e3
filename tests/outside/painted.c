#define _XOPEN_SOURCE 700

#include "painted.h"

#include <begbija.h>

#include <stdio.h>
#include <stdlib.h>
#include <ucontext.h>

enum { STACK_WORDS = 1 << 15 };

#define PATTERN UINT64_C(0xA5A5A5A5A5A5A5A5)

static uint64_t stack[STACK_WORDS];
static ucontext_t caller, callee;

// Ends the program: there is nothing to measure.
static void give_up(const char *message)
{
    fprintf(stderr, "painted stack: %s\n", message);
    exit(1);
}

// Word by word: memset must not be called, so that its lazy binding is seen where the call that is measured binds it.
static void paint(void)
{
    volatile uint64_t *words = stack;
    for (size_t i = 0; i < STACK_WORDS; i++)
        words[i] = PATTERN;
}

size_t painted_stack(void (*run)(void))
{
    paint();
    if (getcontext(&callee) != 0)
        give_up("no context");
    callee.uc_stack = (stack_t){.ss_sp = stack, .ss_size = sizeof stack};
    callee.uc_link = &caller;
    makecontext(&callee, run, 0);
    if (swapcontext(&caller, &callee) != 0)
        give_up("no switch of context");
    size_t untouched = 0;
    while (untouched < STACK_WORDS && stack[untouched] == PATTERN)
        untouched++;
    if (untouched == 0)
        give_up("the call takes all of it");
    return sizeof stack - untouched * sizeof stack[0];
}

// Empty calls, one of each kind.
static int64_t write_nothing(const uint8_t *sheet, size_t sheet_len, uint8_t *text, size_t text_len)
{
    (void)sheet, (void)sheet_len, (void)text, (void)text_len;
    return 0;
}

static int64_t plan_nothing(const uint8_t *sheet, size_t sheet_len, uint32_t *table, size_t table_len, uint8_t *levels,
                            size_t levels_len, struct begbija_reply *reply)
{
    (void)sheet, (void)sheet_len, (void)table, (void)table_len, (void)levels, (void)levels_len, (void)reply;
    return 0;
}

static int64_t measure_nothing(const uint8_t *sheet, size_t sheet_len, const uint8_t *levels, size_t levels_len,
                               struct begbija_margins *margins)
{
    (void)sheet, (void)sheet_len, (void)levels, (void)levels_len, (void)margins;
    return 0;
}

static int64_t need_nothing(const uint8_t *sheet, size_t sheet_len)
{
    (void)sheet, (void)sheet_len;
    return 0;
}

static int64_t plan_nothing_afresh(const uint8_t *sheet, size_t sheet_len, uint32_t done, uint32_t level, uint32_t time,
                                   uint32_t energy, uint32_t temperature, uint32_t *table, size_t table_len, uint8_t *levels,
                                   size_t levels_len, struct begbija_reply *reply)
{
    (void)sheet, (void)sheet_len, (void)done, (void)level, (void)time, (void)energy, (void)temperature;
    (void)table, (void)table_len, (void)levels, (void)levels_len, (void)reply;
    return 0;
}

struct calls {
    int64_t (*plan_text)(const uint8_t *, size_t, uint8_t *, size_t);
    int64_t (*plan)(const uint8_t *, size_t, uint32_t *, size_t, uint8_t *, size_t, struct begbija_reply *);
    int64_t (*measure)(const uint8_t *, size_t, const uint8_t *, size_t, struct begbija_margins *);
    int64_t (*need)(const uint8_t *, size_t);
    int64_t (*plan_afresh)(const uint8_t *, size_t, uint32_t, uint32_t, uint32_t, uint32_t, uint32_t, uint32_t *, size_t,
                           uint8_t *, size_t, struct begbija_reply *);
};

const char *const library_names[LIBRARY_CALLS] = {"begbija_plan_text", "begbija_plan", "begbija_measure", "begbija_need",
                                                  "begbija_plan_afresh"};

static const struct calls library = {begbija_plan_text, begbija_plan, begbija_measure, begbija_need, begbija_plan_afresh};
static const struct calls nothing = {write_nothing, plan_nothing, measure_nothing, need_nothing, plan_nothing_afresh};

// What is run on the painted stack: makecontext hands over no pointers. Which calls are made is not known to the compiler, so it
// makes the empty ones in the same way.
static struct {
    const struct calls *volatile calls;
    enum library_call call;
    const uint8_t *sheet;
    size_t sheet_len, jobs;
} current;

// Makes the call that is measured, or the empty one, on memory that is not on the stack.
static void make_call(void)
{
    static uint8_t text[BEGBIJA_TEXT_MIN], levels[BEGBIJA_JOBS_MAX];
    static uint32_t table[BEGBIJA_TABLE_MAX];
    static struct begbija_reply reply;
    static struct begbija_margins margins;
    static const uint8_t list[BEGBIJA_JOBS_MAX];
    switch (current.call) {
    case LIBRARY_PLAN_TEXT:
        current.calls->plan_text(current.sheet, current.sheet_len, text, sizeof text);
        break;
    case LIBRARY_PLAN:
        current.calls->plan(current.sheet, current.sheet_len, table, BEGBIJA_TABLE_MAX, levels, sizeof levels, &reply);
        break;
    case LIBRARY_MEASURE:
        current.calls->measure(current.sheet, current.sheet_len, list, current.jobs, &margins);
        break;
    case LIBRARY_NEED:
        current.calls->need(current.sheet, current.sheet_len);
        break;
    default:
        current.calls->plan_afresh(current.sheet, current.sheet_len, (uint32_t)current.jobs / 2, 0, 0, 0, 0, table,
                                   BEGBIJA_TABLE_MAX, levels, sizeof levels, &reply);
    }
}

size_t library_stack(enum library_call call, const uint8_t *sheet, size_t sheet_len, size_t jobs)
{
    current.call = call;
    current.sheet = sheet;
    current.sheet_len = sheet_len;
    current.jobs = jobs < BEGBIJA_JOBS_MAX ? jobs : BEGBIJA_JOBS_MAX;
    current.calls = &nothing;
    size_t least = painted_stack(make_call);
    current.calls = &library;
    return painted_stack(make_call) - least;
}
