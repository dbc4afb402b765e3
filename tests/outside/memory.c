// Lent memory of every critical length, for each outcome, and the largest table.
#include "calls.h"
#include "groups.h"
#include "rule.h"
#include "sheets.h"

#include <stdio.h>
#include <string.h>

static struct sheet sheet;
static struct plain_answer answer;
static uint32_t answer_table[TABLE_WORDS_MAX];

// The plain planner answers the sheet so; the answer serves the checks that follow.
static void check_answer(unsigned refusal)
{
    answer_sheet(&sheet, answer_table, TABLE_WORDS_MAX, &answer);
    check(answer.refusal.number == refusal, "the plain planner answers %u, expected %u", answer.refusal.number, refusal);
}

// A refused sheet has no jobs and no need; those of the printed sheet will do.
static size_t jobs_tried(void)
{
    return plain_refused(&answer) ? 2 : answer.frame.jobs;
}

static size_t need_tried(void)
{
    return answer.need > 0 && answer.need <= TABLE_WORDS_MAX ? answer.need : 1144;
}

// begbija_plan_text with parts of every critical length.
static void check_texts(uint8_t fill)
{
    char text[TEXT_BYTES_MIN];
    size_t written = plain_print(&answer, text);
    const size_t lengths[] = {0, 1, written - 1, written, written + 1, 4095, 4096, 4097, 8192};
    for (size_t i = 0; i < sizeof lengths / sizeof lengths[0]; i++)
        check_text(&sheet, &answer, lengths[i], fill);
}

// begbija_plan with tables and parts of every critical length.
static void check_plans(uint8_t fill)
{
    size_t need = need_tried(), jobs = jobs_tried();
    const size_t words[] = {0, 1, need - 1, need, need + 1};
    const size_t bytes[] = {0, 1, jobs - 1, jobs, jobs + 1, JOBS_MAX, 4096};
    for (size_t i = 0; i < sizeof words / sizeof words[0]; i++)
        for (size_t j = 0; j < sizeof bytes / sizeof bytes[0]; j++)
            check_plan(&sheet, &answer, answer_table, words[i], bytes[j], fill);
}

// begbija_plan_afresh from a reading, with tables and parts of every critical length.
static void check_reading(const struct plain_reading *reading, uint8_t fill)
{
    static struct plain_answer afresh;
    size_t need = need_tried(), jobs = jobs_tried(), left = jobs - reading->done;
    const size_t words[] = {0, 1, need - 1, need, need + 1};
    const size_t bytes[] = {0, left - (left > 0), left, left + 1, jobs, JOBS_MAX, 4096};
    answer_afresh(&sheet, reading, answer_table, TABLE_WORDS_MAX, &afresh);
    for (size_t i = 0; i < sizeof words / sizeof words[0]; i++)
        for (size_t j = 0; j < sizeof bytes / sizeof bytes[0]; j++)
            check_afresh(&sheet, reading, &afresh, answer_table, words[i], bytes[j], fill);
}

// The start, a cold frame after the first job, and no job left.
static void check_readings(uint8_t fill)
{
    const struct plain_reading first = plain_first_reading(&answer.frame);
    check_reading(&first, fill);
    check_reading(&(struct plain_reading){.done = 1}, fill);
    check_reading(&(struct plain_reading){.done = (uint32_t)jobs_tried()}, fill);
}

// Lists of the jobs' number and of others, with no level that is too high, with one at the end, and with nothing else.
static void check_measures(uint8_t fill)
{
    uint8_t levels[LIST_ROOM] = {0};
    size_t jobs = jobs_tried();
    const size_t lengths[] = {0, 1, jobs - 1, jobs, jobs + 1, JOBS_MAX, LIST_ROOM};
    for (size_t i = 0; i < sizeof lengths / sizeof lengths[0]; i++) {
        size_t length = lengths[i];
        memset(levels, 0, sizeof levels);
        check_measure(&sheet, &answer, levels, length, fill);
        if (length > 0)
            levels[length - 1] = LEVELS_MAX;
        check_measure(&sheet, &answer, levels, length, fill);
        memset(levels, 255, sizeof levels);
        check_measure(&sheet, &answer, levels, length, fill);
    }
}

// Two fills that differ in every bit, so that no written value can pass for one left as it was.
static void check_lengths(unsigned refusal)
{
    check_answer(refusal);
    check_need(&sheet, &answer);
    for (int i = 0; i < 2; i++) {
        uint8_t fill = i == 0 ? FILL : (uint8_t)~FILL;
        check_texts(fill);
        check_plans(fill);
        check_readings(fill);
        check_measures(fill);
    }
}

// The longest names and nearly the largest sums: at each job only the level that was not used before keeps the temperature.
// With 64 jobs the need would be above the table of the logger's call.
static void longest_text(struct plain_frame *frame)
{
    const uint64_t jobs = 63, most = 10000000, sum = 2 * jobs * most;
    *frame = (struct plain_frame){
        .jobs = jobs, .levels = 2, .start_level = 0, .deadline = sum, .energy_budget = sum, .temperature_limit = 19999,
        .start_temperature = 19999, .resistance = 20000, .energy_step = 2 * most, .temperature_step = 19999,
        .power = {10000, 10000}, .change = {{{0, 0}, {most, most}}, {{most, most}, {0, 0}}},
    };
    for (uint64_t i = 0; i < jobs; i++) {
        snprintf(frame->name[i], sizeof frame->name[i], "~longest-name~%02u", (unsigned)i);
        for (uint64_t level = 0; level < 2; level++)
            frame->job[i][level] = (struct plain_job){most, most, level == i % 2 ? 0 : 65536};
    }
}

static void check_longest_text(void)
{
    static struct plain_frame frame;
    longest_text(&frame);
    write_sheet(&sheet, &frame);
    set_name(&sheet, "the longest text");
    check_lengths(0);
    char text[TEXT_BYTES_MIN];
    plain_print(&answer, text);
    const char head[] = "P\t63\t1260000000\t1260000000\t19999\nQ\t~longest-name~00\t1\t20000000\t20000000\t19999\n";
    check(strncmp(text, head, strlen(head)) == 0, "the text starts with %.80s", text);
}

static void check_printed_with(const char *name, size_t line, size_t field, const char *value, unsigned refusal)
{
    set_name(&sheet, "%s", name);
    set_text(&sheet, printed_sheet);
    set_field(&sheet, line, field, value);
    check_lengths(refusal);
}

static void check_printed_of_length(const char *name, size_t length, unsigned refusal)
{
    set_name(&sheet, "%s", name);
    memset(sheet.bytes, '\n', sizeof sheet.bytes);
    set_text(&sheet, printed_sheet);
    sheet.length = length;
    check_lengths(refusal);
}

void test_lent_memory(const char *top)
{
    (void)top;
    size_t printed = strlen(printed_sheet);
    check_printed_of_length("the printed sheet", printed, 0);
    check_longest_text();
    check_printed_with("deadline 48", 2, 5, "48", NO_PLAN);
    check_printed_with("temperature limit 2499", 2, 7, "2499", NO_PLAN);
    check_printed_with("temperature step 1", 2, 11, "1", 0);
    check_printed_of_length("20481 bytes", SHEET_BYTES_MAX + 1, 1);
    check_printed_of_length("the last byte missing", printed - 1, 2);
    check_printed_with("a name of 17 bytes", 9, 2, "seventeen-bytes-!", 3);
    check_printed_with("version 9", 1, 2, "9", 4);
    check_printed_with("start temperature 2501", 2, 8, "2501", 5);
    check_printed_of_length("one byte more", printed + 1, 6);
    check_printed_of_length("20480 bytes", SHEET_BYTES_MAX, 6);
    check_printed_with("energy budget 2000000000", 2, 6, "2000000000", 7);
}

// A frame of the largest need: m 64, l 8, W 63, g 1, C 127, h 1, start temperature 0. With a least energy of 1 for each job, 64
// of them are over the budget.
static void largest_frame(struct plain_frame *frame, uint64_t least_energy)
{
    uint64_t seed = 64;
    *frame = (struct plain_frame){
        .jobs = JOBS_MAX, .levels = LEVELS_MAX, .start_level = 3, .deadline = 2000000000, .energy_budget = 63,
        .temperature_limit = 127, .resistance = 100, .energy_step = 1, .temperature_step = 1,
    };
    for (uint64_t level = 0; level < LEVELS_MAX; level++) {
        frame->power[level] = 2500 * level;
        for (uint64_t entered = 0; entered < LEVELS_MAX; entered++)
            if (entered != level)
                frame->change[level][entered] = (struct plain_change){draw(&seed, 40), draw(&seed, 2)};
    }
    for (uint64_t i = 0; i < JOBS_MAX; i++) {
        snprintf(frame->name[i], sizeof frame->name[i], "job-%u", (unsigned)i);
        for (uint64_t level = 0; level < LEVELS_MAX; level++) {
            uint64_t energy = least_energy + draw(&seed, level + 1) / 2;
            frame->job[i][level] = (struct plain_job){1 + draw(&seed, 900 / (level + 1)), energy, draw(&seed, 65537)};
        }
    }
}

// After half of the jobs; the table is filled whole.
static void check_largest_afresh(void)
{
    const uint32_t half = JOBS_MAX / 2;
    const struct plain_reading reading = {half, 3, 1000, 20, 50};
    answer_afresh(&sheet, &reading, answer_table, TABLE_WORDS_MAX, &answer);
    check_afresh(&sheet, &reading, &answer, answer_table, 4194304, half, FILL);
    check_afresh(&sheet, &reading, &answer, answer_table, 4194303, half, FILL);
    check_afresh(&sheet, &reading, &answer, answer_table, 4194304, half - 1, FILL);
}

static void check_largest(const char *name, uint64_t least_energy, unsigned refusal)
{
    static struct plain_frame frame;
    largest_frame(&frame, least_energy);
    write_sheet(&sheet, &frame);
    set_name(&sheet, "%s", name);
    check_answer(refusal);
    int64_t need = check_need(&sheet, &answer);
    check(need == 4194304, "the need is %lld", (long long)need);
    check_plan(&sheet, &answer, answer_table, 4194304, JOBS_MAX, FILL);
    check_plan(&sheet, &answer, answer_table, 4194304, JOBS_MAX, (uint8_t)~FILL);
    check_plan(&sheet, &answer, answer_table, 4194303, JOBS_MAX, FILL);
    check_plan(&sheet, &answer, answer_table, 4194304, JOBS_MAX - 1, FILL);
    check_text(&sheet, &answer, TEXT_BYTES_MIN, FILL);
    check_largest_afresh();
}

void test_largest_table(const char *top)
{
    (void)top;
    check_largest("the largest need", 0, 0);
    check_largest("the largest need, no plan", 1, NO_PLAN);
    set_field(&sheet, 2, 6, "64");
    set_name(&sheet, "energy budget 64");
    check_answer(7);
    int64_t need = check_need(&sheet, &answer);
    check(need == 4259840, "the need is %lld", (long long)need);
    check_plan(&sheet, &answer, answer_table, 4194304, JOBS_MAX, FILL);
    check_text(&sheet, &answer, TEXT_BYTES_MIN, FILL);
    check_largest_afresh();
}
