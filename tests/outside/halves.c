// Steady-state temperatures at exact halves and around them. The library shows a level's as the end of a job of decay 0. It has to
// be the plain planner's, which is held to the words of request W2 by distances.
#include "calls.h"
#include "groups.h"
#include "rule.h"
#include "sheets.h"

#include <begbija.h>

#include <stdlib.h>

enum {
    RESISTANCE_MAX = 20000,
    TABLE_WORDS = 2,
    RANGE = 4 // the refusal's number
};

static struct sheet sheet;

// One job at one level, from temperature 0 on. The level's line is the third.
static void write_one_job(uint32_t power, uint32_t resistance, uint32_t temperature_limit)
{
    static struct plain_frame frame = {
        .jobs = 1,
        .levels = 1,
        .deadline = 1,
        .energy_step = 1,
        .temperature_step = TEMPERATURE_MAX,
        .name = {"a"},
        .job = {{{.time = 1}}},
    };
    frame.power[0] = power;
    frame.resistance = resistance;
    frame.temperature_limit = temperature_limit;
    write_sheet(&sheet, &frame);
    set_name(&sheet, "power %u, resistance %u, temperature limit %u", power, resistance, temperature_limit);
}

// How far a whole number is from the steady state before it is rounded, in ten-thousandths.
static int64_t distance(int64_t number, uint32_t power, uint32_t resistance)
{
    return llabs(number * STEADY_STATE_UNIT - (int64_t)power * resistance);
}

// Whether no whole number is nearer, and of two as near it is the even one.
static bool is_nearest(int64_t number, uint32_t power, uint32_t resistance)
{
    int64_t own = distance(number, power, resistance);
    int64_t below = distance(number - 1, power, resistance), above = distance(number + 1, power, resistance);
    return own <= below && own <= above && (number % 2 == 0 || (own < below && own < above));
}

// The job ends at the steady state, or the power is refused where that is above its range.
static void check_power(uint32_t power, uint32_t resistance)
{
    uint32_t table[TABLE_WORDS], steady_state = plain_steady_state(power, resistance);
    uint8_t level;
    struct begbija_reply reply;
    write_one_job(power, resistance, TEMPERATURE_MAX);
    int64_t result = begbija_plan(lend_sheet(&sheet), sheet.length, table, TABLE_WORDS, &level, 1, &reply);
    check(is_nearest(steady_state, power, resistance), "the plain planner's steady state is %u", steady_state);
    count_answer(steady_state > TEMPERATURE_MAX ? RANGE : 0);
    if (steady_state > TEMPERATURE_MAX)
        check(result == -RANGE && reply.refusal == RANGE && reply.line == 3 && reply.field == 2,
              "result %lld, line %llu, field %llu, though the steady state is %u", (long long)result,
              (unsigned long long)reply.line, (unsigned long long)reply.field, steady_state);
    else
        check(result == 0 && reply.temperature == steady_state, "result %lld, temperature %llu, expected %u", (long long)result,
              (unsigned long long)reply.temperature, steady_state);
}

// Every power up to the given one.
static void check_powers(uint32_t resistance, uint32_t most)
{
    for (uint32_t power = 0; power <= most; power++)
        check_power(power, resistance);
}

// The last power that is at most half above the range, and the next one, where they can be written.
static void check_range_end(uint32_t resistance)
{
    uint32_t last = (TEMPERATURE_MAX * STEADY_STATE_UNIT + STEADY_STATE_UNIT / 2) / resistance;
    for (uint32_t power = last; power <= last + 1 && power <= POWER_MAX; power++)
        check_power(power, resistance);
}

// The least power that leads to an exact half, or 0 where none does. Its odd multiples lead to the others, by turns above even and
// odd numbers.
static uint32_t least_for_half(uint32_t resistance)
{
    for (uint32_t power = 1; power <= STEADY_STATE_UNIT / 2; power++)
        if (power * resistance % STEADY_STATE_UNIT == STEADY_STATE_UNIT / 2)
            return power;
    return 0;
}

// Two exact halves next to each other: the first ones and drawn ones.
static void check_halves(uint64_t *seed, uint32_t resistance)
{
    uint32_t least = least_for_half(resistance);
    if (least == 0)
        return;
    uint32_t drawn = (uint32_t)draw(seed, POWER_MAX / least / 2 - 1) * 2 + 1;
    check_power(least, resistance);
    check_power(3 * least, resistance);
    check_power(drawn * least, resistance);
    check_power((drawn + 2) * least, resistance);
}

// All five calls with the temperature limit at the steady state and next to it.
static void check_limits(uint32_t power, uint32_t resistance)
{
    uint32_t steady_state = plain_steady_state(power, resistance);
    for (uint32_t limit = steady_state - (steady_state > 0); limit <= steady_state + 1 && limit <= TEMPERATURE_MAX; limit++) {
        write_one_job(power, resistance, limit);
        unsigned refusal = check_sheet(&sheet)->refusal.number;
        check(refusal == (limit < steady_state ? NO_PLAN : 0), "answer %u, though the steady state is %u", refusal, steady_state);
    }
}

// Resistance 1 leads to every remainder, above even and odd numbers; 5,000 to every half of the range.
void test_halves(const char *top)
{
    uint64_t seed = 10;
    (void)top;
    check_powers(1, 40000);
    check_powers(5000, 40010);
    for (uint32_t resistance = 1; resistance <= RESISTANCE_MAX; resistance++) {
        check_range_end(resistance);
        check_halves(&seed, resistance);
    }
    for (uint32_t power = 1; power < 200; power += 2) {
        check_limits(power, 5000);
        check_limits(40002 - power, 5000);
    }
    check_answered(0, 100000);
    check_answered(RANGE, 10000);
    check_answered(NO_PLAN, 100);
}
