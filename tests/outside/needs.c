// The words that a sheet needs, worked out by hand, up to the largest need that there can be.
#include "calls.h"
#include "groups.h"
#include "sheets.h"

#include <stdio.h>

static const struct {
    const char *name;
    uint64_t jobs, levels, energy_budget, energy_step, temperature_limit, temperature_step;
    int64_t need;
} cases[] = {
    {"the least need", 1, 1, 0, 1, 0, 1, 1},
    {"limits of 0 and the largest steps", 1, 1, 0, 2000000000, 0, 20000, 1},
    {"limits of 1 and the largest steps", 1, 1, 1, 2000000000, 1, 20000, 4},
    {"limits one below multiples", 3, 2, 99, 10, 499, 100, 396},
    {"limits at multiples", 3, 2, 100, 10, 500, 100, 396},
    {"limits one above multiples", 3, 2, 101, 10, 501, 100, 504},
    {"jobs and levels at their most", 64, 8, 3, 1, 1, 1, 4096},
    {"the table inside", 4, 4, 31, 1, 31, 1, 16384},
    {"one word more than the table inside", 5, 1, 28, 1, 112, 1, 16385},
    {"one word more than the largest table", 5, 1, 396, 1, 2112, 1, 4194305},
    {"a multiple of 2^32", 64, 8, 524287, 1, 15, 1, 4294967296},
    {"above 2^46", 64, 8, 2000000000, 200, 20000, 1, 102405130240512},
    {"the largest need that there can be", 64, 8, 2000000000, 1, 20000, 1, 20481024010240512},
};

enum { CASES = sizeof cases / sizeof cases[0] };

// Jobs that take a microsecond and nothing else, so that there is a plan.
static void easy_frame(size_t number, struct plain_frame *frame)
{
    *frame = (struct plain_frame){
        .jobs = cases[number].jobs,
        .levels = cases[number].levels,
        .deadline = 2000000000,
        .energy_budget = cases[number].energy_budget,
        .temperature_limit = cases[number].temperature_limit,
        .energy_step = cases[number].energy_step,
        .temperature_step = cases[number].temperature_step,
    };
    for (uint64_t i = 0; i < frame->jobs; i++) {
        snprintf(frame->name[i], sizeof frame->name[i], "job-%u", (unsigned)i);
        for (uint64_t level = 0; level < frame->levels; level++)
            frame->job[i][level].time = 1;
    }
}

// begbija_plan takes a table of as many words; one word less is refused by 8, a need above the largest table by 7.
static void check_case(size_t number)
{
    static struct plain_frame frame;
    static struct plain_answer answer;
    static struct sheet sheet;
    static uint32_t table[PLAN_TABLE_WORDS + 1];
    easy_frame(number, &frame);
    write_sheet(&sheet, &frame);
    set_name(&sheet, "%s", cases[number].name);
    answer_sheet(&sheet, table, PLAN_TABLE_WORDS + 1, &answer);
    int64_t need = check_need(&sheet, &answer);
    check(need == cases[number].need, "the need is %lld, expected %lld", (long long)need, (long long)cases[number].need);
    bool too_large = need > TABLE_WORDS_MAX;
    check(answer.refusal.number == (too_large ? 7u : 0u), "the plain planner answers %u", answer.refusal.number);
    check_plan(&sheet, &answer, table, too_large ? 1 : (size_t)need, JOBS_MAX, FILL);
    check_plan(&sheet, &answer, table, too_large ? 0 : (size_t)need - 1, JOBS_MAX, FILL);
    check_text(&sheet, &answer, TEXT_BYTES_MIN, FILL);
}

void test_needs(const char *top)
{
    (void)top;
    for (size_t number = 0; number < CASES; number++)
        check_case(number);
}
