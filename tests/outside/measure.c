// Lists of levels measured: every short list on the printed sheet, drawn lists with the limits at and next to what they take, and
// the largest margins on both sides of 0.
#include "calls.h"
#include "groups.h"
#include "rule.h"
#include "sheets.h"

#include <string.h>

enum { SMALL_LISTS = 2500, LARGER_LISTS = 500, LONGEST_LIST = 4, LEVEL_TRIED = 3 };

static struct sheet sheet;
static struct plain_answer answer;

// Reads the sheet for measuring, which needs no table.
static void read_sheet(void)
{
    answer_sheet(&sheet, NULL, 0, &answer);
}

// A list of the right length has these margins, by the plain planner and by the library.
static void check_margins(const uint8_t *levels, int64_t time, int64_t energy, int64_t temperature)
{
    struct plain_margins margins = check_measure(&sheet, &answer, levels, answer.frame.jobs, FILL);
    check(margins.refusal.number == 0 && margins.time == time && margins.energy == energy && margins.temperature == temperature,
          "margins %lld, %lld, %lld, expected %lld, %lld, %lld", (long long)margins.time, (long long)margins.energy,
          (long long)margins.temperature, (long long)time, (long long)energy, (long long)temperature);
}

// The next list of this length, as a number to the base of the levels tried; false after the last one.
static bool next_tried(uint8_t *levels, size_t length)
{
    for (size_t i = length; i > 0; i--) {
        if (++levels[i - 1] <= LEVEL_TRIED)
            return true;
        levels[i - 1] = 0;
    }
    return false;
}

// The printed sheet has two jobs and two levels, so most of these lists are refused by 11 or 12.
static void check_short_lists(void)
{
    set_text(&sheet, printed_sheet);
    set_name(&sheet, "the printed sheet");
    read_sheet();
    for (size_t length = 0; length <= LONGEST_LIST; length++) {
        uint8_t levels[LONGEST_LIST] = {0};
        do
            check_measure(&sheet, &answer, levels, length, FILL);
        while (next_tried(levels, length));
    }
}

// A frame whose limits are that much more than a list takes; false where there is no such sheet.
static bool check_border(const struct plain_frame *frame, const uint8_t *levels, const int64_t more[3])
{
    static struct plain_frame at;
    const struct plain_reading first = plain_first_reading(frame);
    struct plain_total total = plain_run(frame, &first, levels);
    at = *frame;
    at.deadline = total.time + (uint64_t)more[0];
    at.energy_budget = total.energy + (uint64_t)more[1];
    at.temperature_limit = total.highest + (uint64_t)more[2];
    if (at.start_temperature > at.temperature_limit || at.temperature_limit > 20000 || at.energy_budget > 2000000000)
        return false; // 0 less 1 is above the range as well
    write_sheet(&sheet, &at);
    read_sheet();
    check_margins(levels, more[0], more[1], more[2]);
    return true;
}

// Limits at what a drawn list takes, and one of them next to it.
static void check_borders(unsigned long count, uint64_t seed, uint64_t jobs_max, uint64_t levels_max)
{
    static struct plain_frame frame;
    static const int64_t mores[][3] = {{0, 0, 0}, {-1, 0, 0}, {1, 0, 0}, {0, -1, 0}, {0, 1, 0}, {0, 0, -1}, {0, 0, 1}};
    uint8_t levels[JOBS_MAX];
    unsigned long tried = 0;
    for (unsigned long number = 0; number < count; number++) {
        draw_frame(&seed, jobs_max, levels_max, PLAN_TABLE_WORDS, &frame);
        draw_list(&seed, &frame, levels);
        set_name(&sheet, "the limits at a list of drawn sheet %lu", number);
        for (size_t i = 0; i < 7; i++)
            tried += check_border(&frame, levels, mores[i]);
    }
    check(tried >= 4 * count, "%lu sheets have limits at a list, expected %lu", tried, 4 * count);
}

// The longest and hottest run against limits of 0, and the shortest and coolest against the largest limits, for which no table is
// long enough.
static void check_ends(void)
{
    static struct plain_frame frame;
    uint8_t dearest[JOBS_MAX], cheapest[JOBS_MAX] = {0};
    const struct plain_change none = {0, 0}, most = {10000000, 10000000};
    frame = (struct plain_frame){
        .jobs = JOBS_MAX, .levels = 3, .resistance = 20000, .energy_step = 1, .temperature_step = 1, .power = {0, 10000, 10000},
        .change = {{none, most, most}, {most, none, most}, {most, most, none}},
    };
    for (uint64_t i = 0; i < JOBS_MAX; i++) {
        strcpy(frame.name[i], "job");
        frame.job[i][0].time = 1;
        frame.job[i][1] = frame.job[i][2] = (struct plain_job){10000000, 10000000, 0};
        dearest[i] = 1 + i % 2;
    }
    write_sheet(&sheet, &frame);
    set_name(&sheet, "limits of 0");
    read_sheet();
    check_margins(dearest, -1280000000, -1280000000, -20000);
    frame.deadline = frame.energy_budget = 2000000000;
    frame.temperature_limit = 20000;
    write_sheet(&sheet, &frame);
    set_name(&sheet, "the largest limits");
    read_sheet();
    check(answer.refusal.number == 7, "the plain planner answers %u", answer.refusal.number);
    check_margins(cheapest, 1999999936, 2000000000, 20000);
}

// A start above every job end is no job end; document 01: "the highest temperature at a job end".
static void check_cooling(void)
{
    set_text(&sheet, printed_sheet);
    set_field(&sheet, 2, 8, "2400");
    set_field(&sheet, 3, 2, "0");
    set_name(&sheet, "start temperature 2400, power 0");
    read_sheet();
    check_margins((const uint8_t[]){0, 0}, -8, 55, 1300);
}

void test_measured_lists(const char *top)
{
    (void)top;
    check_short_lists();
    check_ends();
    check_cooling();
    check_borders(SMALL_LISTS, 5, 4, 3);
    check_borders(LARGER_LISTS, 6, JOBS_MAX, LEVELS_MAX);
}
