#include "rule.h"

static uint32_t least_time(const struct plain_table *table, uint32_t done, struct plain_state state)
{
    uint32_t least = NO_WAY;
    for (uint32_t level = 0; level < table->frame->levels; level++) {
        uint32_t time = plain_through(table, done, state, level);
        least = time < least ? time : least;
    }
    return least;
}

static void fill_job(const struct plain_table *table, uint32_t done)
{
    const struct plain_frame *frame = table->frame;
    uint32_t *word = plain_word(table, done, (struct plain_state){0});
    for (uint32_t level = 0; level < frame->levels; level++)
        for (uint32_t a = 0; a < table->energy_cells; a++)
            for (uint32_t b = 0; b < table->temperature_cells; b++) {
                struct plain_state cell = {level, 0, a * frame->energy_step, b * frame->temperature_step};
                *word++ = least_time(table, done, cell);
            }
}

// The last job comes first, as each word rests on those of one more job done.
void plain_fill(const struct plain_table *table)
{
    for (uint32_t done = table->frame->jobs; done > 0; done--)
        fill_job(table, done - 1);
}
