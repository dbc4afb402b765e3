// A job by the rules of document 01 and request W2, and the table's words. They stand inline, as the fill does nothing else for
// every word and level. 32 bits hold all figures: power times resistance is at most 2,000,000,000, times and energies of a run
// are at most 64 * 20,000,000 above a reading of 2,000,000,000, a state within the limits is raised to below 4,000,000,000, and
// no temperature of a run is above 40,000.
#ifndef RULE_H
#define RULE_H

#include "plain.h"

// Where a run stands between two jobs.
struct plain_state {
    uint32_t level, time, energy, temperature;
};

// A table over the cells of a frame.
struct plain_table {
    const struct plain_frame *frame;
    uint32_t energy_cells, temperature_cells;
    uint32_t *words;
};

static inline uint32_t plain_divide_up(uint32_t number, uint32_t by)
{
    return (number + by - 1) / by;
}

// To the nearest whole number, an exact half to the even one.
static inline uint32_t plain_steady_state(uint32_t power, uint32_t resistance)
{
    uint32_t product = power * resistance, half = STEADY_STATE_UNIT / 2;
    uint32_t whole = product / STEADY_STATE_UNIT, remainder = product % STEADY_STATE_UNIT;
    return remainder > half || (remainder == half && whole % 2 == 1) ? whole + 1 : whole;
}

// What is read before the first job: the sheet's start.
static inline struct plain_reading plain_first_reading(const struct plain_frame *frame)
{
    return (struct plain_reading){0, frame->start_level, 0, 0, frame->start_temperature};
}

// Where a run stands by a reading.
static inline struct plain_state plain_state_read(const struct plain_reading *reading)
{
    return (struct plain_state){reading->level, reading->time, reading->energy, reading->temperature};
}

static inline struct plain_state plain_start(const struct plain_frame *frame)
{
    const struct plain_reading first = plain_first_reading(frame);
    return plain_state_read(&first);
}

// A job at a level, from a state on, without steps: its time, its energy and its temperature, each together with the state's.
static inline uint32_t plain_time_after(const struct plain_frame *frame, struct plain_state state, uint32_t job, uint32_t level)
{
    return state.time + frame->change[state.level][level].time + frame->job[job][level].time;
}

static inline uint32_t plain_energy_after(const struct plain_frame *frame, struct plain_state state, uint32_t job,
                                          uint32_t level)
{
    return state.energy + frame->change[state.level][level].energy + frame->job[job][level].energy;
}

static inline uint32_t plain_temperature_after(const struct plain_frame *frame, struct plain_state state, uint32_t job,
                                               uint32_t level)
{
    uint32_t decay = frame->job[job][level].decay;
    return plain_divide_up(decay * state.temperature + (DECAY_MAX - decay) * frame->steady_state[level], DECAY_MAX);
}

// The state after a job at a level, without steps.
static inline struct plain_state plain_after(const struct plain_frame *frame, struct plain_state state, uint32_t job,
                                             uint32_t level)
{
    return (struct plain_state){
        .level = level,
        .time = plain_time_after(frame, state, job, level),
        .energy = plain_energy_after(frame, state, job, level),
        .temperature = plain_temperature_after(frame, state, job, level),
    };
}

// Energy and temperature raised to the next multiples of their steps.
static inline struct plain_state plain_raised(const struct plain_frame *frame, struct plain_state state)
{
    state.energy = plain_divide_up(state.energy, frame->energy_step) * frame->energy_step;
    state.temperature = plain_divide_up(state.temperature, frame->temperature_step) * frame->temperature_step;
    return state;
}

static inline struct plain_table plain_table_of(const struct plain_frame *frame, uint32_t *words)
{
    return (struct plain_table){
        .frame = frame,
        .energy_cells = plain_divide_up(frame->energy_budget, frame->energy_step) + 1,
        .temperature_cells = plain_divide_up(frame->temperature_limit, frame->temperature_step) + 1,
        .words = words,
    };
}

static inline uint64_t plain_need(const struct plain_table *table)
{
    return (uint64_t)table->frame->jobs * table->frame->levels * table->energy_cells * table->temperature_cells;
}

// The word of a state within the limits, once it is raised.
static inline uint32_t *plain_word(const struct plain_table *table, uint32_t done, struct plain_state state)
{
    const struct plain_frame *frame = table->frame;
    size_t row = (size_t)(done * frame->levels + state.level) * table->energy_cells
        + plain_divide_up(state.energy, frame->energy_step);
    return &table->words[row * table->temperature_cells + plain_divide_up(state.temperature, frame->temperature_step)];
}

// The least time from a raised state on, with the next job at this level; it rests on the words of one more job done. A job over
// the energy budget is not worth the work of the thermal rule.
static inline uint32_t plain_through(const struct plain_table *table, uint32_t done, struct plain_state state, uint32_t level)
{
    const struct plain_frame *frame = table->frame;
    struct plain_state next = {.level = level, .energy = plain_energy_after(frame, state, done, level)};
    if (next.energy > frame->energy_budget)
        return NO_WAY;
    next.temperature = plain_temperature_after(frame, state, done, level);
    if (next.temperature > frame->temperature_limit)
        return NO_WAY;
    uint32_t rest = done + 1 < frame->jobs ? *plain_word(table, done + 1, next) : 0;
    return rest == NO_WAY ? NO_WAY : plain_time_after(frame, state, done, level) - state.time + rest;
}

// Every word of the need.
void plain_fill(const struct plain_table *table);

// The first of the fastest lists in level order for the jobs still to do, by a filled table that has a way from the reading.
void plain_walk(const struct plain_table *table, const struct plain_reading *from, uint8_t *levels);

#endif
