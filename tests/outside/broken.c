// Wrong libraries, each with one defect that the variable DEFECT names. The linker puts these calls in front of the library's
// own (-Wl,--wrap), and the tests have to fail.
#define _POSIX_C_SOURCE 200809L

#include "rule.h"

#include <begbija.h>

#include <sched.h>
#include <stdlib.h>
#include <string.h>

int64_t __real_begbija_plan_text(const uint8_t *sheet, size_t sheet_len, uint8_t *text, size_t text_len);
int64_t __real_begbija_plan(const uint8_t *sheet, size_t sheet_len, uint32_t *table, size_t table_len, uint8_t *levels,
                            size_t levels_len, struct begbija_reply *reply);
int64_t __real_begbija_measure(const uint8_t *sheet, size_t sheet_len, const uint8_t *levels, size_t levels_len,
                               struct begbija_margins *margins);
int64_t __real_begbija_need(const uint8_t *sheet, size_t sheet_len);
int64_t __real_begbija_plan_afresh(const uint8_t *sheet, size_t sheet_len, uint32_t done, uint32_t level, uint32_t time,
                                   uint32_t energy, uint32_t temperature, uint32_t *table, size_t table_len, uint8_t *levels,
                                   size_t levels_len, struct begbija_reply *reply);
int64_t __wrap_begbija_plan_text(const uint8_t *sheet, size_t sheet_len, uint8_t *text, size_t text_len);
int64_t __wrap_begbija_plan(const uint8_t *sheet, size_t sheet_len, uint32_t *table, size_t table_len, uint8_t *levels,
                            size_t levels_len, struct begbija_reply *reply);
int64_t __wrap_begbija_measure(const uint8_t *sheet, size_t sheet_len, const uint8_t *levels, size_t levels_len,
                               struct begbija_margins *margins);
int64_t __wrap_begbija_need(const uint8_t *sheet, size_t sheet_len);
int64_t __wrap_begbija_plan_afresh(const uint8_t *sheet, size_t sheet_len, uint32_t done, uint32_t level, uint32_t time,
                                   uint32_t energy, uint32_t temperature, uint32_t *table, size_t table_len, uint8_t *levels,
                                   size_t levels_len, struct begbija_reply *reply);

// Whether this is the defect that is tried.
static bool is(const char *defect)
{
    const char *chosen = getenv("DEFECT");
    return chosen != NULL && strcmp(chosen, defect) == 0;
}

// What the plain planner knows of a sheet; where it lends a table, the plan as well.
static const struct plain_answer *answer_again(const uint8_t *sheet, size_t length, bool with_table)
{
    static _Thread_local struct plain_answer answer;
    static uint32_t table[TABLE_WORDS_MAX];
    plain_plan(sheet, length, &(struct plain_lent){table, with_table ? TABLE_WORDS_MAX : 0, JOBS_MAX, false}, &answer);
    return &answer;
}

// A text that is right but for a part of 4,095 bytes, which has to be refused.
static int64_t text_in_4095(const uint8_t *sheet, size_t sheet_len, uint8_t *text)
{
    uint8_t whole[TEXT_BYTES_MIN];
    int64_t result = __real_begbija_plan_text(sheet, sheet_len, whole, sizeof whole);
    if (result > 0)
        memcpy(text, whole, (size_t)result);
    return result;
}

// A text by a table that is one word longer than the one inside.
static int64_t text_by_16385(const uint8_t *sheet, size_t sheet_len, uint8_t *text)
{
    char whole[TEXT_BYTES_MIN];
    size_t length = plain_print(answer_again(sheet, sheet_len, true), whole);
    memcpy(text, whole, length);
    return (int64_t)length;
}

// The sheet is copied to memory that all calls share.
static int64_t text_of_copy(const uint8_t *sheet, size_t sheet_len, uint8_t *text, size_t text_len)
{
    static uint8_t copy[SHEET_BYTES_MAX];
    if (sheet_len > sizeof copy)
        return __real_begbija_plan_text(sheet, sheet_len, text, text_len);
    memcpy(copy, sheet, sheet_len);
    sched_yield();
    return __real_begbija_plan_text(copy, sheet_len, text, text_len);
}

// What is done to a text once it is written.
static int64_t harm_text(uint8_t *text, int64_t length)
{
    if (is("byte beyond the text"))
        text[length] = 0;
    if (is("byte before the text"))
        text[-1] = 0;
    if (is("last digit of the text"))
        text[length - 2] ^= 1;
    return is("text one byte short") ? length - 1 : length;
}

int64_t __wrap_begbija_plan_text(const uint8_t *sheet, size_t sheet_len, uint8_t *text, size_t text_len)
{
    if (is("text in 4095 bytes") && text_len == TEXT_BYTES_MIN - 1)
        return text_in_4095(sheet, sheet_len, text);
    if (is("16383 words inside") && __real_begbija_need(sheet, sheet_len) == 16384)
        return -8;
    if (is("16385 words inside") && __real_begbija_need(sheet, sheet_len) == 16385)
        return text_by_16385(sheet, sheet_len, text);
    if (is("sheet in shared memory"))
        return text_of_copy(sheet, sheet_len, text, text_len);
    int64_t result = __real_begbija_plan_text(sheet, sheet_len, text, text_len);
    if (is("byte beyond the sheet read"))
        (void)*(const volatile uint8_t *)(sheet + sheet_len);
    if (is("text touched on 10") && result == -10)
        text[0] = 'R';
    if (is("refusal off by one") && result < 0)
        return result - 1;
    if (is("bytes after the last line taken") && result == -6)
        return __wrap_begbija_plan_text(sheet, sheet_len - 1, text, text_len);
    return result > 0 ? harm_text(text, result) : result;
}

// What is done to the words of a table that is filled.
static void harm_table(const uint8_t *sheet, size_t sheet_len, uint32_t *table, size_t table_len)
{
    size_t need = (size_t)__real_begbija_need(sheet, sheet_len);
    if (is("last word of the need"))
        table[need - 1]--;
    if (is("word beyond the need") && need < table_len)
        table[need] = 0;
}

// Puts each of two figures in the place of the other.
static void swap_figures(uint64_t *one, uint64_t *other)
{
    uint64_t figure = *one;
    *one = *other;
    *other = figure;
}

// What is done to the reply of a plan.
static void harm_reply(const uint8_t *sheet, size_t sheet_len, struct begbija_reply *reply)
{
    if (is("time and energy swapped"))
        swap_figures(&reply->time, &reply->energy);
    if (is("peak of 0"))
        reply->peak = 0;
    if (is("peak of the last job end"))
        reply->peak = reply->temperature;
    if (is("peak above the temperature limit"))
        reply->peak = answer_again(sheet, sheet_len, false)->frame.temperature_limit + 1;
    if (is("figure beyond the reply"))
        (&reply->peak)[1] = 0;
}

// Answers with a refusal.
static int64_t reply_refusal(unsigned number, struct begbija_reply *reply)
{
    *reply = (struct begbija_reply){.refusal = number};
    return -(int64_t)number;
}

// Answers "no plan" and leaves so many levels as they were before.
static int64_t reply_none(size_t count, uint8_t *levels, const uint8_t *before, struct begbija_reply *reply)
{
    memcpy(levels, before, count);
    return reply_refusal(10, reply);
}

// Answers with levels that are written, and the figures of their run.
static int64_t reply_plan(const struct plain_frame *frame, const struct plain_reading *from, const uint8_t *levels,
                          struct begbija_reply *reply)
{
    struct plain_total total = plain_run(frame, from, levels);
    *reply = (struct begbija_reply){0, 0, 0, total.time, total.energy, total.temperature, total.highest};
    return 0;
}

// Turns a plan away whose time is the deadline.
static int64_t strict_deadline(const uint8_t *sheet, size_t sheet_len, uint8_t *levels, const uint8_t *before,
                               struct begbija_reply *reply)
{
    const struct plain_frame *frame = &answer_again(sheet, sheet_len, false)->frame;
    return reply->time < frame->deadline ? 0 : reply_none(frame->jobs, levels, before, reply);
}

// Fills a table of as many words, but lets a job end only below the temperature limit.
static void fill_below_limit(const struct plain_table *table)
{
    struct plain_frame below = *table->frame;
    struct plain_table filled = *table;
    below.temperature_limit--;
    filled.frame = &below;
    if (table->frame->temperature_limit > 0)
        plain_fill(&filled);
    else
        memset(table->words, 0xFF, plain_need(table) * sizeof *table->words); // nothing is below 0
}

// Plans once more by a table that is filled otherwise.
static int64_t plan_by_table(const struct plain_table *table, uint8_t *levels, const uint8_t *before, struct begbija_reply *reply)
{
    const struct plain_frame *frame = table->frame;
    const struct plain_reading first = plain_first_reading(frame);
    if (*plain_word(table, 0, plain_start(frame)) > frame->deadline)
        return reply_none(frame->jobs, levels, before, reply);
    plain_walk(table, &first, levels);
    return reply_plan(frame, &first, levels, reply);
}

// By a table in which nothing may end at the temperature limit.
static int64_t plan_below_limit(const uint8_t *sheet, size_t sheet_len, uint32_t *words, uint8_t *levels, const uint8_t *before,
                                struct begbija_reply *reply)
{
    const struct plain_table table = plain_table_of(&answer_again(sheet, sheet_len, false)->frame, words);
    fill_below_limit(&table);
    return plan_by_table(&table, levels, before, reply);
}

// Rounds an exact half wrongly; any other steady state is the one due.
static uint32_t harm_half(uint32_t product, uint32_t due)
{
    const uint32_t below = product / STEADY_STATE_UNIT;
    if (product % STEADY_STATE_UNIT != STEADY_STATE_UNIT / 2)
        return due;
    if (is("half upwards"))
        return below + 1;
    if (is("half downwards"))
        return below;
    return is("half to the odd one") ? below | 1 : due;
}

// Gives a frame wrong steady states; the line of the first power that is then out of its range, or 0.
static unsigned harm_steady_states(struct plain_frame *frame)
{
    const bool unrounded = is("range tested before rounding");
    unsigned line = 0;
    for (uint32_t level = frame->levels; level > 0; level--) {
        const uint32_t product = frame->power[level - 1] * frame->resistance;
        uint32_t *steady_state = &frame->steady_state[level - 1];
        *steady_state = harm_half(product, *steady_state);
        if (*steady_state > TEMPERATURE_MAX || (unrounded && product > TEMPERATURE_MAX * STEADY_STATE_UNIT))
            line = level + 2;
    }
    return line;
}

// Plans once more by a frame with other steady states.
static int64_t plan_by_frame(const struct plain_frame *frame, uint32_t *words, uint8_t *levels, const uint8_t *before,
                             struct begbija_reply *reply)
{
    const struct plain_table table = plain_table_of(frame, words);
    plain_fill(&table);
    return plan_by_table(&table, levels, before, reply);
}

// Follows a filled table once more, and takes the highest of the levels that take the least time.
static int64_t walk_to_last(const uint8_t *sheet, size_t sheet_len, uint32_t *words, uint8_t *levels,
                            struct begbija_reply *reply)
{
    const struct plain_frame *frame = &answer_again(sheet, sheet_len, false)->frame;
    const struct plain_table table = plain_table_of(frame, words);
    const struct plain_reading first = plain_first_reading(frame);
    struct plain_state state = plain_start(frame);
    for (uint32_t done = 0; done < frame->jobs; done++) {
        uint32_t least = *plain_word(&table, done, state), level = frame->levels - 1;
        state = plain_raised(frame, state);
        while (plain_through(&table, done, state, level) != least)
            level--;
        levels[done] = (uint8_t)level;
        state = plain_after(frame, state, done, level);
    }
    return reply_plan(frame, &first, levels, reply);
}

// What is done to the levels of a plan; what they held before is needed to take it back.
static int64_t harm_levels(const uint8_t *sheet, size_t sheet_len, uint8_t *levels, size_t levels_len, const uint8_t *before,
                           struct begbija_reply *reply)
{
    size_t jobs = answer_again(sheet, sheet_len, false)->frame.jobs;
    if (is("level beyond the jobs") && jobs < levels_len)
        levels[jobs] = 0;
    if (is("all levels 0"))
        memset(levels, 0, jobs);
    return is("10 where the deadline is just met") ? strict_deadline(sheet, sheet_len, levels, before, reply) : 0;
}

// A refusal that is wrong or wrongly replied.
static int64_t harm_refusal(int64_t result, size_t levels_len, const struct begbija_reply *before, struct begbija_reply *reply)
{
    if (is("reply not written on a refusal"))
        *reply = *before;
    if (is("line and field swapped"))
        swap_figures(&reply->line, &reply->field);
    if (!is("9 before 8") || result != -8 || levels_len > 0)
        return result;
    reply->refusal = 9;
    return -9;
}

int64_t __wrap_begbija_plan(const uint8_t *sheet, size_t sheet_len, uint32_t *table, size_t table_len, uint8_t *levels,
                            size_t levels_len, struct begbija_reply *reply)
{
    uint8_t before[JOBS_MAX] = {0};
    struct begbija_reply reply_before = *reply;
    memcpy(before, levels, levels_len < JOBS_MAX ? levels_len : JOBS_MAX);
    if (is("largest need refused") && table_len == TABLE_WORDS_MAX)
        return reply_refusal(7, reply);
    const struct plain_answer *answer = answer_again(sheet, sheet_len, false);
    struct plain_frame harmed = answer->frame;
    const unsigned line = plain_refused(answer) ? 0 : harm_steady_states(&harmed);
    if (line > 0) {
        *reply = (struct begbija_reply){.refusal = 4, .line = line, .field = 2};
        return -4;
    }
    int64_t result = __real_begbija_plan(sheet, sheet_len, table, table_len, levels, levels_len, reply);
    if (result == 0 || result == -10) {
        harm_table(sheet, sheet_len, table, table_len);
        if (is("end at the temperature limit refused in the fill"))
            return plan_below_limit(sheet, sheet_len, table, levels, before, reply);
        if (memcmp(harmed.steady_state, answer->frame.steady_state, sizeof harmed.steady_state) != 0)
            return plan_by_frame(&harmed, table, levels, before, reply);
    }
    if (result == 0 && is("last of equals in the walk"))
        return walk_to_last(sheet, sheet_len, table, levels, reply);
    if (result < 0)
        return harm_refusal(result, levels_len, &reply_before, reply);
    harm_reply(sheet, sheet_len, reply);
    return harm_levels(sheet, sheet_len, levels, levels_len, before, reply);
}

// A refusal that is wrong, or leaves in the margins what was there before.
static int64_t harm_list_refusal(size_t levels_len, const struct begbija_margins *before, struct begbija_margins *margins)
{
    if (is("11 and 12 swapped") && margins->refusal >= 11)
        margins->refusal = 23 - margins->refusal;
    if (is("12 before 11") && margins->refusal == 11 && levels_len > 0)
        margins->refusal = 12;
    if (is("place of 12 from 1") && margins->refusal == 12)
        margins->field++;
    if (is("margins not cleared on a refusal"))
        *margins = (struct begbija_margins){margins->refusal, margins->line, margins->field, before->time, before->energy,
                                            before->temperature};
    return -margins->refusal;
}

// What is done to margins.
static void harm_margins(const uint8_t *sheet, size_t sheet_len, struct begbija_margins *margins)
{
    if (is("sign of a margin"))
        margins->temperature = -margins->temperature;
    if (is("margins of a broken limit 0") && margins->time < 0)
        margins->time = 0;
    if (!is("start temperature as a job end"))
        return;
    const struct plain_frame *frame = &answer_again(sheet, sheet_len, false)->frame;
    int64_t start = (int64_t)(frame->temperature_limit - frame->start_temperature);
    margins->temperature = start < margins->temperature ? start : margins->temperature;
}

int64_t __wrap_begbija_measure(const uint8_t *sheet, size_t sheet_len, const uint8_t *levels, size_t levels_len,
                               struct begbija_margins *margins)
{
    struct begbija_margins before = *margins;
    int64_t result = __real_begbija_measure(sheet, sheet_len, levels, levels_len, margins);
    if (is("byte beyond the list read"))
        (void)*(const volatile uint8_t *)(levels + levels_len);
    if (is("table needed to measure") && __real_begbija_need(sheet, sheet_len) > TABLE_WORDS_MAX) {
        *margins = (struct begbija_margins){.refusal = 7};
        return -7;
    }
    if (result < 0)
        return harm_list_refusal(levels_len, &before, margins);
    harm_margins(sheet, sheet_len, margins);
    return result;
}

int64_t __wrap_begbija_need(const uint8_t *sheet, size_t sheet_len)
{
    int64_t need = __real_begbija_need(sheet, sheet_len);
    if (is("need one less") && need > 0)
        return need - 1;
    if (is("need at most 4194304") && need > TABLE_WORDS_MAX)
        return TABLE_WORDS_MAX;
    if (is("need above 4194304 refused") && need > TABLE_WORDS_MAX)
        return -7;
    if (is("need in 32 bits") && need > 0)
        return (uint32_t)need;
    return need;
}

// A call of planning afresh.
struct afresh {
    const uint8_t *sheet;
    size_t sheet_len;
    struct plain_reading reading;
    uint32_t *table;
    size_t table_len;
    uint8_t *levels;
    size_t levels_len;
    struct begbija_reply *reply;
};

static int64_t real_afresh(const struct afresh *call, struct plain_reading reading)
{
    return __real_begbija_plan_afresh(call->sheet, call->sheet_len, reading.done, reading.level, reading.time, reading.energy,
                                      reading.temperature, call->table, call->table_len, call->levels, call->levels_len,
                                      call->reply);
}

// The reading that is planned from instead of the one given.
static struct plain_reading harm_reading(const struct plain_frame *frame, struct plain_reading reading)
{
    if (is("elapsed time left out of the deadline") && reading.time <= FRAME_LIMIT_MAX)
        reading.time = 0;
    if (is("start level for the level read") && reading.level < frame->levels)
        reading.level = frame->start_level;
    if (is("energy read raised a step too far") && reading.energy + frame->energy_step <= FRAME_LIMIT_MAX)
        reading.energy += frame->energy_step;
    return reading;
}

// How many words of a table that is filled are put back as they were lent.
static size_t words_back(const struct afresh *call, const struct plain_answer *answer)
{
    const struct plain_frame *frame = &answer->frame;
    if (answer->need > call->table_len || answer->need > TABLE_WORDS_MAX || call->reading.done >= frame->jobs)
        return 0;
    if (is("layers of the jobs done left"))
        return answer->need / frame->jobs * call->reading.done;
    return is("table left where the time is past the deadline") && call->reading.time > frame->deadline ? answer->need : 0;
}

// Plans from a reading that may be harmed; totals still count on from the one given.
static int64_t plan_harmed(const struct afresh *call, const struct plain_answer *answer)
{
    static uint32_t before[TABLE_WORDS_MAX];
    const struct plain_reading *given = &call->reading, harmed = harm_reading(&answer->frame, *given);
    const size_t back = words_back(call, answer) * sizeof *before;
    memcpy(before, call->table, back);
    int64_t result = real_afresh(call, harmed);
    if (result == 0 || result == -10)
        memcpy(call->table, before, back);
    if (result == 0) {
        call->reply->time += (uint64_t)given->time - harmed.time;
        call->reply->energy += (uint64_t)given->energy - harmed.energy;
    }
    return result;
}

// Plans once more by the filled table, the energy read not raised before the next job.
static int64_t plan_unraised(const struct afresh *call, const struct plain_frame *frame, const uint8_t *before)
{
    const struct plain_table table = plain_table_of(frame, call->table);
    const struct plain_reading *from = &call->reading;
    struct plain_state state = plain_raised(frame, plain_state_read(from));
    uint32_t least = NO_WAY, first = 0;
    state.energy = from->energy;
    for (uint32_t level = frame->levels; level > 0; level--) {
        uint32_t time = plain_through(&table, from->done, state, level - 1);
        first = time <= least ? level - 1 : first;
        least = time <= least ? time : least;
    }
    if (least == NO_WAY || from->time + least > frame->deadline)
        return reply_none(frame->jobs - from->done, call->levels, before, call->reply);
    state = plain_after(frame, state, from->done, first);
    call->levels[0] = (uint8_t)first;
    const struct plain_reading next = {from->done + 1, state.level, state.time, state.energy, state.temperature};
    plain_walk(&table, &next, call->levels + 1);
    return reply_plan(frame, from, call->levels, call->reply);
}

// A refusal of a reading that is wrong or wrongly replied.
static int64_t harm_reading_refusal(const struct afresh *call, const struct plain_frame *frame, int64_t result)
{
    if (is("13 and 14 swapped") && result <= -13)
        return reply_refusal((unsigned)(27 + result), call->reply);
    if (is("5 of a reading before 14") && result == -14 && call->reading.temperature > frame->temperature_limit)
        return reply_refusal(5, call->reply);
    if (is("place of the start temperature for a reading") && result == -5)
        *call->reply = (struct begbija_reply){.refusal = 5, .line = 2, .field = 8};
    return result;
}

// What is done to a plan for the jobs still to do.
static void harm_afresh(const struct afresh *call, const struct plain_frame *frame)
{
    const struct plain_reading *reading = &call->reading;
    const size_t left = frame->jobs - reading->done;
    if (is("totals from the raised energy"))
        call->reply->energy += plain_raised(frame, plain_state_read(reading)).energy - reading->energy;
    if (is("peak of the temperature read"))
        call->reply->peak = reading->temperature;
    if (is("level beyond the jobs still to do") && left < call->levels_len)
        call->levels[left] = 0;
}

int64_t __wrap_begbija_plan_afresh(const uint8_t *sheet, size_t sheet_len, uint32_t done, uint32_t level, uint32_t time,
                                   uint32_t energy, uint32_t temperature, uint32_t *table, size_t table_len, uint8_t *levels,
                                   size_t levels_len, struct begbija_reply *reply)
{
    const struct plain_reading reading = {done, level, time, energy, temperature};
    const struct afresh call = {sheet, sheet_len, reading, table, table_len, levels, levels_len, reply};
    const struct plain_answer *answer = answer_again(sheet, sheet_len, false);
    uint8_t before[JOBS_MAX] = {0};
    memcpy(before, levels, levels_len < JOBS_MAX ? levels_len : JOBS_MAX);
    if (plain_refused(answer))
        return real_afresh(&call, reading);
    int64_t result = plan_harmed(&call, answer);
    if (is("9 judged by all jobs") && result != -7 && result != -8 && levels_len < answer->frame.jobs)
        return reply_refusal(9, reply);
    if (is("energy read not raised") && (result == 0 || result == -10))
        return plan_unraised(&call, &answer->frame, before);
    if (result < 0)
        return harm_reading_refusal(&call, &answer->frame, result);
    harm_afresh(&call, &answer->frame);
    return result;
}
