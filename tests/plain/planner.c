#include "rule.h"

// At each job the lowest level that still takes the least time.
void plain_walk(const struct plain_table *table, const struct plain_reading *from, uint8_t *levels)
{
    const struct plain_frame *frame = table->frame;
    struct plain_state state = plain_state_read(from);
    for (uint32_t done = from->done; done < frame->jobs; done++) {
        uint32_t least = *plain_word(table, done, state), level = 0;
        state = plain_raised(frame, state);
        while (plain_through(table, done, state, level) != least)
            level++;
        *levels++ = (uint8_t)level;
        state = plain_after(frame, state, done, level);
    }
}

struct plain_total plain_run(const struct plain_frame *frame, const struct plain_reading *from, const uint8_t *levels)
{
    struct plain_state state = plain_state_read(from);
    uint32_t highest = 0;
    for (uint32_t job = from->done; job < frame->jobs; job++) {
        state = plain_after(frame, state, job, *levels++);
        highest = state.temperature > highest ? state.temperature : highest;
    }
    return (struct plain_total){state.time, state.energy, state.temperature, highest};
}

bool plain_refused(const struct plain_answer *answer)
{
    return answer->need == 0;
}

struct plain_refusal plain_refusal_with(const struct plain_answer *answer, const struct plain_lent *lent)
{
    if (plain_refused(answer))
        return answer->refusal;
    if (answer->need > TABLE_WORDS_MAX)
        return (struct plain_refusal){7, 0, 0};
    if (answer->need > lent->words)
        return (struct plain_refusal){8, 0, 0};
    if (lent->bytes < (lent->text ? TEXT_BYTES_MIN : answer->left))
        return (struct plain_refusal){9, 0, 0};
    return answer->refusal;
}

// What is wrong with a reading; the sheet's own start is never refused here.
static struct plain_refusal refuse_reading(const struct plain_frame *frame, const struct plain_reading *reading)
{
    if (reading->done >= frame->jobs)
        return (struct plain_refusal){13, 0, 0};
    if (reading->level >= frame->levels || reading->time > FRAME_LIMIT_MAX || reading->energy > FRAME_LIMIT_MAX
        || reading->temperature > TEMPERATURE_MAX)
        return (struct plain_refusal){14, 0, 0};
    if (reading->temperature > frame->temperature_limit)
        return (struct plain_refusal){5, 0, 0};
    return (struct plain_refusal){0, 0, 0};
}

// Fills the table and finds the plan. Energy over the budget has no word.
static void plan_frame(const struct plain_table *table, const struct plain_reading *from, struct plain_answer *answer)
{
    const struct plain_frame *frame = table->frame;
    plain_fill(table);
    uint32_t least = from->energy > frame->energy_budget ? NO_WAY : *plain_word(table, from->done, plain_state_read(from));
    if (least == NO_WAY || from->time + least > frame->deadline) {
        answer->refusal.number = 10;
        return;
    }
    plain_walk(table, from, answer->levels);
    answer->total = plain_run(frame, from, answer->levels);
}

// Answers a sheet that is read.
static void plan_from(const struct plain_reading *from, const struct plain_lent *lent, struct plain_answer *answer)
{
    const struct plain_frame *frame = &answer->frame;
    const struct plain_table table = plain_table_of(frame, lent->table);
    answer->need = plain_need(&table);
    answer->left = from->done < frame->jobs ? frame->jobs - from->done : 0;
    answer->refusal = plain_refusal_with(answer, lent);
    if (answer->refusal.number == 0)
        answer->refusal = refuse_reading(frame, from);
    if (answer->refusal.number == 0)
        plan_frame(&table, from, answer);
}

// Whether a sheet is not refused by 1 to 6.
static bool read_sheet(const uint8_t *sheet, size_t length, struct plain_answer *answer)
{
    answer->need = 0;
    answer->refusal = plain_read(sheet, length, &answer->frame);
    return answer->refusal.number == 0;
}

void plain_plan(const uint8_t *sheet, size_t length, const struct plain_lent *lent, struct plain_answer *answer)
{
    if (!read_sheet(sheet, length, answer))
        return;
    const struct plain_reading first = plain_first_reading(&answer->frame);
    plan_from(&first, lent, answer);
}

void plain_plan_afresh(const uint8_t *sheet, size_t length, const struct plain_reading *reading, const struct plain_lent *lent,
                       struct plain_answer *answer)
{
    if (read_sheet(sheet, length, answer))
        plan_from(reading, lent, answer);
}
