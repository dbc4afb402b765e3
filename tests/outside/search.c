// Small drawn sheets against a search over all lists of levels, with limits at the border of the best list and too little lent
// memory; and the same for the jobs still to do, from readings of the best list's run, around it, and at the limits. What is due
// comes from the search: the plain planner gives it single steps and the figures of a list's run alone.
#include "calls.h"
#include "groups.h"
#include "rule.h"
#include "sheets.h"

#include <string.h>

enum {
    DRAWN_SHEETS = 3000, // each is tried at every border of its best list too
    READ_SHEETS = 4000,  // each is tried with its own limits and at one border
    DRAWN_READINGS = 8,  // for each of these
    JOBS = 5,
    LEVELS = 3,
    DRAWN_WORDS = 2048,
    SEARCHED_WORDS = 4096 // a sheet that needs more is left out
};

struct limits {
    int64_t deadline, energy_budget, temperature_limit;
};

// A list of levels, and what it takes from the job on at which a search starts.
struct list {
    uint8_t levels[JOBS_MAX];
    uint32_t time, energy, highest;
    bool tied; // a later list takes the same time
};

static struct limits limits_of(const struct plain_frame *frame)
{
    return (struct limits){frame->deadline, frame->energy_budget, frame->temperature_limit};
}

// The limits of the request's third demand, where energy and temperature are raised so many times.
static struct limits tightened(const struct plain_frame *frame, uint32_t energy_raises, uint32_t temperature_raises)
{
    struct limits limits = limits_of(frame);
    limits.energy_budget -= (int64_t)energy_raises * (frame->energy_step - 1);
    limits.temperature_limit -= (int64_t)temperature_raises * (frame->temperature_step - 1);
    return limits;
}

static bool within(const struct plain_state *state, const struct limits *limits)
{
    return state->time <= limits->deadline && state->energy <= limits->energy_budget
        && state->temperature <= limits->temperature_limit;
}

// Whether the list stays within limits after every job from a job and a state on, rounded or not, and what it takes.
static bool meets(const struct plain_frame *frame, uint32_t first, struct plain_state state, const struct limits *limits,
                  bool rounded, struct list *list)
{
    list->highest = 0;
    for (uint32_t i = first; i < frame->jobs; i++) {
        state = plain_after(frame, rounded ? plain_raised(frame, state) : state, i, list->levels[i]);
        if (!within(&state, limits))
            return false;
        list->highest = state.temperature > list->highest ? state.temperature : list->highest;
    }
    list->time = state.time;
    list->energy = state.energy;
    return true;
}

// The next list in level order for the jobs from one on; false after the last list.
static bool next_list(const struct plain_frame *frame, uint32_t first, uint8_t *levels)
{
    for (uint32_t i = frame->jobs; i > first; i--) {
        if (++levels[i - 1] < frame->levels)
            return true;
        levels[i - 1] = 0;
    }
    return false;
}

// The fastest list within limits, the first of equals in level order; false where there is none.
static bool search_lists(const struct plain_frame *frame, uint32_t first, struct plain_state state,
                         const struct limits *limits, bool rounded, struct list *fastest)
{
    struct list list = {.tied = false};
    bool found = false;
    do {
        if (!meets(frame, first, state, limits, rounded, &list))
            continue;
        if (!found || list.time < fastest->time)
            *fastest = list;
        else if (list.time == fastest->time)
            fastest->tied = true;
        found = true;
    } while (next_list(frame, first, list.levels));
    return found;
}

// Every word in document 01's order, by all lists of the jobs that are left; how many there are. The deadline does not count.
static size_t search_words(const struct plain_frame *frame, uint32_t *table)
{
    const uint64_t g = frame->energy_step, h = frame->temperature_step;
    struct limits limits = limits_of(frame);
    limits.deadline = INT64_MAX;
    size_t word = 0;
    for (uint32_t done = 0; done < frame->jobs; done++)
        for (uint32_t level = 0; level < frame->levels; level++)
            for (uint64_t energy = 0; energy < frame->energy_budget + g; energy += g)
                for (uint64_t temperature = 0; temperature < frame->temperature_limit + h; temperature += h) {
                    struct plain_state cell = {level, 0, (uint32_t)energy, (uint32_t)temperature};
                    struct list fastest;
                    bool found = search_lists(frame, done, cell, &limits, true, &fastest);
                    table[word++] = found ? fastest.time : NO_WAY;
                }
    return word;
}

// The answer that is due by demand 2 of the request, from a reading on, with a table of so many words; whether another list takes
// the same time.
static bool search_answer(const struct plain_frame *frame, const struct plain_reading *from, size_t words,
                          struct plain_answer *due)
{
    const struct limits limits = limits_of(frame);
    struct list fastest;
    bool found = search_lists(frame, from->done, plain_state_read(from), &limits, true, &fastest);
    memset(due, 0, sizeof *due);
    due->frame = *frame;
    due->need = words;
    due->left = frame->jobs - from->done;
    due->refusal.number = found ? 0 : NO_PLAN;
    if (found) {
        memcpy(due->levels, fastest.levels + from->done, due->left);
        due->total = plain_run(frame, from, due->levels);
    }
    return found && fastest.tied;
}

// Demand 3 of the request: a list within the tightened limits, run without steps, is no faster than the plan. Whether there is
// such a list.
static bool check_tightened(const struct plain_answer *due, const struct plain_reading *from, const struct limits *tight)
{
    struct list fastest;
    if (!search_lists(&due->frame, from->done, plain_state_read(from), tight, false, &fastest))
        return false;
    check(due->refusal.number == 0 && due->total.time <= fastest.time,
          "a list within the tightened limits is faster than the plan, or there is no plan");
    return true;
}

// Memory of the need with up to three words and bytes more, then a word short, a byte short, and both.
static void check_memory(const struct sheet *sheet, const struct plain_answer *due, const uint32_t *table, unsigned long number)
{
    const size_t need = due->need, jobs = due->frame.jobs, more = number / 2 % 4;
    const uint8_t fill = number / 8 % 2 == 0 ? FILL : (uint8_t)~FILL;
    check_plan(sheet, due, table, need + more, jobs + more, fill);
    check_plan(sheet, due, table, need - 1, jobs, fill);
    check_plan(sheet, due, table, need, jobs - 1, fill);
    check_plan(sheet, due, table, need - 1, jobs - 1, fill);
}

// Plans that are the first of several fastest lists.
static unsigned long tied;

// All checks of a frame; the refusal that is due.
static unsigned check_searched(const char *name, unsigned long number, const struct plain_frame *frame)
{
    static struct sheet sheet;
    static struct plain_answer due;
    static uint32_t table[SEARCHED_WORDS];
    write_sheet(&sheet, frame);
    set_name(&sheet, "drawn sheet %lu, %s", number, name);
    const struct plain_reading first = plain_first_reading(frame);
    const struct limits tight = tightened(frame, frame->jobs - 1, frame->jobs);
    tied += search_answer(frame, &first, search_words(frame, table), &due);
    check_memory(&sheet, &due, table, number);
    check_tightened(&due, &first, &tight);
    check_sheet(&sheet);
    return due.refusal.number;
}

// Limits around the best list's figures: so much more than it takes.
static const struct border {
    const char *name;
    int deadline, energy_budget, temperature_limit;
} borders[] = {
    {"deadline at the best list", 0, 6, 4},
    {"deadline 1 below", -1, 6, 4},
    {"energy budget at the best list", 9, 0, 4},
    {"energy budget 1 below", 9, -1, 4},
    {"temperature limit at the best list", 9, 6, 0},
    {"temperature limit 1 below", 9, 6, -1},
    {"all limits at the best list", 0, 0, 0},
};

enum { BORDERS = sizeof borders / sizeof borders[0] };

static bool is_below(const struct border *border)
{
    return border->deadline < 0 || border->energy_budget < 0 || border->temperature_limit < 0;
}

// The fastest list within the frame's own energy budget and temperature limit, where it may be that one and there is one, or else
// within the largest ones.
static bool find_best(const struct plain_frame *frame, bool own, struct list *best)
{
    const struct limits limits = {INT64_MAX, frame->energy_budget, frame->temperature_limit};
    const struct limits largest = {INT64_MAX, FRAME_LIMIT_MAX, TEMPERATURE_MAX};
    return (own && search_lists(frame, 0, plain_start(frame), &limits, true, best))
        || search_lists(frame, 0, plain_start(frame), &largest, true, best);
}

static uint32_t limit_at(uint32_t figure, int more, uint32_t least, uint32_t most)
{
    int64_t limit = (int64_t)figure + more;
    return limit < least ? least : limit > most ? most : (uint32_t)limit;
}

// Whether a frame's sheet is not refused by 5 and its words are few enough.
static bool can_search(const struct plain_frame *frame)
{
    const struct plain_table table = plain_table_of(frame, NULL);
    return frame->start_temperature <= frame->temperature_limit && plain_need(&table) <= SEARCHED_WORDS;
}

// A frame with its limits at a border of a list.
static struct plain_frame frame_at(const struct plain_frame *frame, const struct border *border, const struct list *best)
{
    struct plain_frame at = *frame;
    at.deadline = limit_at(best->time, border->deadline, 0, FRAME_LIMIT_MAX);
    at.energy_budget = limit_at(best->energy, border->energy_budget, 0, FRAME_LIMIT_MAX);
    at.temperature_limit = limit_at(best->highest, border->temperature_limit, at.start_temperature, TEMPERATURE_MAX);
    return at;
}

// A frame at every border; counts for each border how often there is no plan.
static void check_borders(unsigned long number, const struct plain_frame *frame, unsigned long *without_plan)
{
    static struct plain_frame at;
    struct list best;
    if (!find_best(frame, number % 2 == 1, &best))
        return;
    for (size_t i = 0; i < BORDERS; i++) {
        const struct border *border = &borders[i];
        at = frame_at(frame, border, &best);
        if (!can_search(&at))
            continue;
        unsigned refusal = check_searched(border->name, number, &at);
        check(refusal == 0 || is_below(border), "no plan, though the best list meets the limits");
        without_plan[i] += refusal == NO_PLAN;
    }
}

void test_all_lists(const char *top)
{
    static struct plain_frame frame;
    unsigned long without_plan[BORDERS] = {0}, above_even = 0, above_odd = 0;
    uint64_t seed = 8;
    (void)top;
    for (unsigned long number = 0; number < DRAWN_SHEETS; number++) {
        draw_frame(&seed, JOBS, LEVELS, DRAWN_WORDS, &frame);
        if (can_search(&frame)) {
            check_searched("as drawn", number, &frame);
            above_even += has_half(&frame, false);
            above_odd += has_half(&frame, true);
        }
        check_borders(number, &frame, without_plan);
    }
    check_answered(0, 5 * DRAWN_SHEETS);
    check_answered(NO_PLAN, DRAWN_SHEETS);
    check(tied >= DRAWN_SHEETS, "%lu plans are the first of several fastest lists, expected %d", tied, DRAWN_SHEETS);
    check(above_even >= DRAWN_SHEETS / 10 && above_odd >= DRAWN_SHEETS / 10,
          "%lu searched sheets have an exact half above an even number, %lu above an odd one, expected %d", above_even, above_odd,
          DRAWN_SHEETS / 10);
    for (size_t i = 0; i < BORDERS; i++)
        check(without_plan[i] >= DRAWN_SHEETS / 8 || !is_below(&borders[i]), "%lu sheets have no plan with the %s",
              without_plan[i], borders[i].name);
}

// Readings from which a list keeps the tightened limits.
static unsigned long promised;

// Whether a reading is not refused by itself.
static bool can_be_read(const struct plain_frame *frame, const struct plain_reading *reading)
{
    return reading->done < frame->jobs && reading->level < frame->levels && reading->time <= FRAME_LIMIT_MAX
        && reading->energy <= FRAME_LIMIT_MAX && reading->temperature <= frame->temperature_limit;
}

// All checks of a reading. Memory is lent as for a whole plan: a little more, then a word or a byte short.
static void check_read(const struct sheet *sheet, const struct plain_frame *frame, const struct plain_reading *reading,
                       const uint32_t *table, size_t words)
{
    static struct plain_answer due;
    if (!can_be_read(frame, reading))
        return;
    tied += search_answer(frame, reading, words, &due);
    const struct limits tight = tightened(frame, due.left, due.left);
    unsigned long number = count_answer(due.refusal.number);
    const size_t more = number % 4;
    const uint8_t fill = number / 4 % 2 == 0 ? FILL : (uint8_t)~FILL;
    check_afresh(sheet, reading, &due, table, words + more, due.left + more, fill);
    check_afresh(sheet, reading, &due, table, words - 1, due.left, fill);
    check_afresh(sheet, reading, &due, table, words, due.left - 1, fill);
    promised += check_tightened(&due, reading, &tight);
}

// Readings of a list's run at every job, and drawn ones.
static void check_readings(const char *name, unsigned long number, const struct plain_frame *frame, const uint8_t *levels)
{
    static struct sheet sheet;
    static uint32_t table[SEARCHED_WORDS];
    const struct plain_reading first = plain_first_reading(frame);
    uint64_t seed = number;
    write_sheet(&sheet, frame);
    set_name(&sheet, "drawn sheet %lu, %s", number, name);
    size_t words = search_words(frame, table);
    for (uint32_t done = 0; done < frame->jobs; done++) {
        struct plain_reading reading = reading_after(frame, &first, levels, done);
        check_read(&sheet, frame, &reading, table, words);
    }
    for (int i = 0; i < DRAWN_READINGS; i++) {
        struct plain_reading reading = draw_reading(&seed, frame, levels);
        check_read(&sheet, frame, &reading, table, words);
    }
}

void test_all_lists_afresh(const char *top)
{
    static struct plain_frame frame, at;
    uint64_t seed = 9;
    (void)top;
    tied = 0;
    for (unsigned long number = 0; number < READ_SHEETS; number++) {
        const struct border *border = &borders[number % BORDERS];
        struct list best;
        draw_frame(&seed, JOBS, LEVELS, DRAWN_WORDS, &frame);
        if (!find_best(&frame, number % 2 == 1, &best))
            continue;
        if (can_search(&frame))
            check_readings("as drawn", number, &frame, best.levels);
        at = frame_at(&frame, border, &best);
        if (can_search(&at))
            check_readings(border->name, number, &at, best.levels);
    }
    check_answered(0, 5 * READ_SHEETS);
    check_answered(NO_PLAN, 2 * READ_SHEETS);
    check(tied >= READ_SHEETS, "%lu plans are the first of several fastest lists, expected %d", tied, READ_SHEETS);
    check(promised >= READ_SHEETS, "%lu readings have a list within the tightened limits, expected %d", promised, READ_SHEETS);
}
