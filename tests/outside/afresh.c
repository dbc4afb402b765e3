// Planning afresh: readings on document 01's sheet with figures worked out by hand, every set of faults of a call, and drawn
// readings on drawn sheets with lent memory of every critical length.
#include "calls.h"
#include "groups.h"
#include "sheets.h"

#include <begbija.h>

#include <string.h>

enum {
    PRINTED_WORDS = 1144, // the printed sheet's need
    SMALL_SHEETS = 6000,
    LARGER_SHEETS = 1000,
    LARGEST_SHEETS = 150,
    READINGS = 4 // drawn for each
};

static struct sheet sheet;
static struct plain_answer answer;
static uint32_t table[PLAN_TABLE_WORDS];

// Readings on the printed sheet, whose plan stands at time 20, energy 48, temperature 2,500 after its first job, and what is
// replied. Both levels are given; a plan for one job has the first alone.
static const struct {
    const char *name;
    struct plain_reading reading;
    unsigned refusal;
    uint8_t levels[2];
    uint32_t time, energy, temperature;
} cases[] = {
    {"the start", {0, 0, 0, 0, 1000}, 0, {1, 0}, 49, 76, 2250},
    {"the start at level 1", {0, 1, 0, 0, 1000}, 0, {1, 0}, 47, 73, 2250},
    {"the start with time 1", {0, 0, 1, 0, 1000}, 0, {1, 0}, 50, 76, 2250},
    {"the start with time 2", {0, 0, 2, 0, 1000}, 10, {0}, 0, 0, 0},
    {"the start with temperature 1001, which is raised to 1100", {0, 0, 0, 0, 1001}, 10, {0}, 0, 0, 0},
    {"the plan kept", {1, 1, 20, 48, 2500}, 0, {0}, 49, 76, 2250},
    {"the other level", {1, 0, 20, 48, 2500}, 0, {0}, 48, 73, 2250},
    {"the latest time", {1, 1, 21, 48, 2500}, 0, {0}, 50, 76, 2250},
    {"time one beyond", {1, 1, 22, 48, 2500}, 10, {0}, 0, 0, 0},
    {"time at the deadline", {1, 1, 50, 48, 2500}, 10, {0}, 0, 0, 0},
    {"time past the deadline", {1, 1, 51, 48, 2500}, 10, {0}, 0, 0, 0},
    {"the largest time", {1, 1, 2000000000, 48, 2500}, 10, {0}, 0, 0, 0},
    {"energy that is raised, but not in the total", {1, 1, 20, 61, 2500}, 0, {0}, 49, 89, 2250},
    {"the most energy", {1, 1, 20, 70, 2500}, 0, {0}, 49, 98, 2250},
    {"energy that fits until it is raised", {1, 1, 20, 71, 2500}, 10, {0}, 0, 0, 0},
    {"energy at the budget", {1, 1, 20, 100, 2500}, 10, {0}, 0, 0, 0},
    {"energy past the budget", {1, 1, 20, 101, 2500}, 10, {0}, 0, 0, 0},
    {"the largest energy", {1, 1, 20, 2000000000, 2500}, 10, {0}, 0, 0, 0},
    {"the warmest for level 1", {1, 1, 20, 48, 1000}, 0, {1}, 35, 88, 2500},
    {"one warmer, which is raised to 1100", {1, 1, 20, 48, 1001}, 0, {0}, 49, 76, 1501},
    {"all cold", {1, 0, 0, 0, 0}, 0, {1}, 17, 43, 2000},
    {"temperature above the limit", {1, 1, 20, 48, 2501}, 5, {0}, 0, 0, 0},
    {"the largest temperature", {1, 1, 20, 48, 20000}, 5, {0}, 0, 0, 0},
    {"temperature out of range", {1, 1, 20, 48, 20001}, 14, {0}, 0, 0, 0},
    {"energy out of range", {1, 1, 20, 2000000001, 2500}, 14, {0}, 0, 0, 0},
    {"time out of range", {1, 1, 2000000001, 48, 2500}, 14, {0}, 0, 0, 0},
    {"level 2", {1, 2, 20, 48, 2500}, 14, {0}, 0, 0, 0},
    {"the largest level", {1, UINT32_MAX, 20, 48, 2500}, 14, {0}, 0, 0, 0},
    {"all jobs done", {2, 0, 49, 76, 2250}, 13, {0}, 0, 0, 0},
    {"one job too many done", {3, 0, 49, 76, 2250}, 13, {0}, 0, 0, 0},
    {"the largest number of jobs done", {UINT32_MAX, 0, 49, 76, 2250}, 13, {0}, 0, 0, 0},
};

// The plain planner's answer to a reading is the one worked out by hand.
static void check_plain(size_t i)
{
    check(answer.refusal.number == cases[i].refusal && answer.refusal.line == 0 && answer.refusal.field == 0,
          "%s: the plain planner answers %u, %u, %u, expected %u", cases[i].name, answer.refusal.number, answer.refusal.line,
          answer.refusal.field, cases[i].refusal);
    if (cases[i].refusal != 0)
        return;
    const struct plain_total *total = &answer.total;
    check(memcmp(answer.levels, cases[i].levels, answer.left) == 0 && total->time == cases[i].time
              && total->energy == cases[i].energy && total->temperature == cases[i].temperature,
          "%s: the plain planner's levels start with %u and take %u, %u, %u", cases[i].name, answer.levels[0], total->time,
          total->energy, total->temperature);
}

// Lent memory just long enough, longer, and a word or a byte short. A refused sheet has no need and no jobs; any will do.
static void check_memory(const struct plain_reading *reading, uint8_t fill)
{
    const size_t need = plain_refused(&answer) ? 1 : answer.need < PLAN_TABLE_WORDS ? answer.need : PLAN_TABLE_WORDS;
    const size_t left = plain_refused(&answer) ? 1 : answer.left;
    check_afresh(&sheet, reading, &answer, table, need, left, fill);
    check_afresh(&sheet, reading, &answer, table, PLAN_TABLE_WORDS, JOBS_MAX, fill);
    check_afresh(&sheet, reading, &answer, table, need - 1, left, fill);
    check_afresh(&sheet, reading, &answer, table, need, left + 1, fill);
    check_afresh(&sheet, reading, &answer, table, need, left > 0 ? left - 1 : 0, fill);
}

static void check_cases(void)
{
    set_text(&sheet, printed_sheet);
    set_name(&sheet, "the printed sheet");
    for (size_t i = 0; i < sizeof cases / sizeof cases[0]; i++) {
        answer_afresh(&sheet, &cases[i].reading, table, PRINTED_WORDS, &answer);
        check_plain(i);
        check_memory(&cases[i].reading, FILL);
        check_memory(&cases[i].reading, (uint8_t)~FILL);
    }
}

// What is lent and read in a call.
enum figure { WORDS, BYTES, DONE, LEVEL, TIME, ENERGY, TEMPERATURE, FIGURES };

// After the first job of the printed sheet a call with these figures has a plan.
static const uint32_t sound[FIGURES] = {PRINTED_WORDS, 1, 1, 1, 20, 48, 2500};

// What may be wrong, the last that is tested first.
static const struct {
    enum figure figure;
    uint32_t value;
    unsigned refusal;
} faults[] = {
    {TIME, 51, 10},
    {ENERGY, 101, 10},
    {TEMPERATURE, 2501, 5},
    {TEMPERATURE, 20001, 14},
    {ENERGY, 2000000001, 14},
    {TIME, 2000000001, 14},
    {LEVEL, 2, 14},
    {DONE, 2, 13},
    {DONE, UINT32_MAX, 13},
    {BYTES, 0, 9},
    {WORDS, PRINTED_WORDS - 1, 8},
};

enum { FAULTS = sizeof faults / sizeof faults[0] };

// A call with the faults of a set, a bit for each; no part is too short where no job is left.
static unsigned make_faults(unsigned long set, uint32_t *call)
{
    unsigned due = 0;
    memcpy(call, sound, sizeof sound);
    for (size_t i = 0; i < FAULTS; i++) {
        if ((set >> i & 1) == 0)
            continue;
        call[faults[i].figure] = faults[i].value;
        if (faults[i].figure != BYTES || call[DONE] < 2)
            due = faults[i].refusal;
    }
    return due;
}

// Every set of faults has the refusal of the one that is tested first; on a refused sheet that of the sheet.
static void check_faults(struct plain_refusal of_sheet)
{
    for (unsigned long set = 0; set < 1ul << FAULTS; set++) {
        uint32_t call[FIGURES];
        unsigned due = make_faults(set, call);
        const struct plain_reading reading = {call[DONE], call[LEVEL], call[TIME], call[ENERGY], call[TEMPERATURE]};
        answer_afresh(&sheet, &reading, table, PLAN_TABLE_WORDS, &answer);
        struct plain_refusal refusal = plain_refusal_with(&answer, &(struct plain_lent){NULL, call[WORDS], call[BYTES], false});
        struct plain_refusal expected = of_sheet.number > 0 ? of_sheet : (struct plain_refusal){due, 0, 0};
        check(memcmp(&refusal, &expected, sizeof expected) == 0, "faults %lx: the plain planner answers %u, expected %u", set,
              refusal.number, expected.number);
        check_afresh(&sheet, &reading, &answer, table, call[WORDS], call[BYTES], set % 2 == 0 ? FILL : (uint8_t)~FILL);
    }
}

static void check_faults_with(const char *name, size_t line, size_t field, const char *value, struct plain_refusal of_sheet)
{
    set_text(&sheet, printed_sheet);
    set_name(&sheet, "%s", name);
    set_field(&sheet, line, field, value);
    check_faults(of_sheet);
}

static void check_all_faults(void)
{
    const struct plain_refusal none = {0, 0, 0};
    check_faults_with("the printed sheet", 1, 2, "1", none);
    check_faults_with("version 9", 1, 2, "9", (struct plain_refusal){4, 1, 2});
    check_faults_with("start temperature 2501", 2, 8, "2501", (struct plain_refusal){5, 2, 8});
    check_faults_with("a name of 17 bytes", 9, 2, "seventeen-bytes-!", (struct plain_refusal){3, 9, 2});
    check_faults_with("energy budget 2000000000", 2, 6, "2000000000", (struct plain_refusal){7, 0, 0});
}

// Drawn readings of a drawn sheet, along the plan where there is one.
static void check_drawn(unsigned long count, uint64_t seed, uint64_t jobs_max, uint64_t levels_max)
{
    static struct plain_frame frame;
    uint8_t levels[JOBS_MAX];
    for (unsigned long number = 0; number < count; number++) {
        draw_frame(&seed, jobs_max, levels_max, PLAN_TABLE_WORDS, &frame);
        draw_list(&seed, &frame, levels);
        write_sheet(&sheet, &frame);
        set_name(&sheet, "drawn sheet %lu", number);
        answer_sheet(&sheet, table, PLAN_TABLE_WORDS, &answer);
        if (answer.refusal.number == 0)
            memcpy(levels, answer.levels, frame.jobs);
        for (int i = 0; i < READINGS; i++) {
            struct plain_reading reading = draw_reading(&seed, &frame, levels);
            answer_afresh(&sheet, &reading, table, PLAN_TABLE_WORDS, &answer);
            check_memory(&reading, i % 2 == 0 ? FILL : (uint8_t)~FILL);
        }
    }
}

void test_planned_afresh(const char *top)
{
    (void)top;
    check_cases();
    check_all_faults();
    check_drawn(SMALL_SHEETS, 10, 4, 3);
    check_drawn(LARGER_SHEETS, 11, 12, LEVELS_MAX);
    check_drawn(LARGEST_SHEETS, 12, JOBS_MAX, LEVELS_MAX);
    check_answered(0, 2000);
    check_answered(5, 100);
    check_answered(NO_PLAN, 2000);
    check_answered(13, 100);
    check_answered(14, 100);
}
