// Kept plans: where a plan was kept so far and no reading is above its run without steps, a plan is found that ends no later. Tried
// at every job of drawn sheets, of the sheet's own plan and of plans made afresh; a reading one unit above may find none.
#include "calls.h"
#include "groups.h"
#include "rule.h"
#include "sheets.h"

#include <begbija.h>

enum {
    SMALL_SHEETS = 20000, // drawn; those with a plan are tried
    LARGER_SHEETS = 4000,
    LARGEST_SHEETS = 400,
    WORDS = 4096,
    LOWER_READINGS = 2 // drawn for each job
};

static struct sheet sheet;
static struct plain_frame frame;
static uint32_t table[PLAN_TABLE_WORDS];
static size_t need;

// Readings one unit above a kept plan from which there is none: in time, energy, temperature.
static unsigned long without_plan[3];

// The sheet's plan, with a table of the need; whether there is one.
static bool find_plan(uint8_t *levels, uint32_t *time)
{
    struct begbija_reply reply;
    write_sheet(&sheet, &frame);
    const uint8_t *lent = lend_sheet(&sheet);
    int64_t words = begbija_need(lent, sheet.length);
    if (words < 1 || words > PLAN_TABLE_WORDS)
        return false;
    need = (size_t)words;
    int64_t result = begbija_plan(lent, sheet.length, table, need, levels, frame.jobs, &reply);
    *time = (uint32_t)reply.time;
    count_answer((unsigned)-result);
    return result == 0;
}

// Plans afresh with memory that is just long enough.
static int64_t plan_afresh(const struct plain_reading *reading, uint8_t *levels, struct begbija_reply *reply)
{
    const uint8_t *lent = lend_sheet(&sheet);
    begin_call("begbija_plan_afresh after %u jobs, level %u, time %u, energy %u, temperature %u: ", reading->done,
               reading->level, reading->time, reading->energy, reading->temperature);
    return begbija_plan_afresh(lent, sheet.length, reading->done, reading->level, reading->time, reading->energy,
                               reading->temperature, table, need, levels, frame.jobs - reading->done, reply);
}

// There is a plan from the reading on; it ends no later than this and keeps every limit. Its levels, and when it ends.
static uint32_t check_kept(const struct plain_reading *reading, uint32_t time, uint8_t *levels)
{
    struct begbija_reply reply;
    int64_t result = plan_afresh(reading, levels, &reply);
    check(result == 0 && reply.refusal == 0, "result %lld, though the plan was kept", (long long)result);
    check(reply.time <= time, "time %llu, though the kept plan takes %u", (unsigned long long)reply.time, time);
    for (uint32_t i = 0; i < frame.jobs - reading->done; i++)
        check(levels[i] < frame.levels, "level %u", levels[i]);
    struct plain_total total = plain_run(&frame, reading, levels);
    check(total.time == reply.time && total.energy == reply.energy && total.temperature == reply.temperature,
          "time, energy and temperature are not those of the levels");
    check(total.time <= frame.deadline && total.energy <= frame.energy_budget && total.highest <= frame.temperature_limit,
          "the plan breaks a limit when run without steps");
    end_call();
    return total.time;
}

// The same reading, or below it in time, energy and temperature.
static struct plain_reading draw_below(uint64_t *seed, const struct plain_reading *reading)
{
    struct plain_reading below = *reading;
    below.time -= (uint32_t)draw(seed, below.time + 1);
    below.energy -= (uint32_t)draw(seed, below.energy + 1);
    below.temperature -= (uint32_t)draw(seed, below.temperature + 1);
    return below;
}

// Counts the readings one unit above a kept plan's that find no plan.
static void count_above(const struct plain_reading *kept)
{
    uint8_t levels[JOBS_MAX];
    struct begbija_reply reply;
    for (int i = 0; i < 3; i++) {
        struct plain_reading above = *kept;
        above.time += i == 0;
        above.energy += i == 1;
        above.temperature += i == 2;
        without_plan[i] += plan_afresh(&above, levels, &reply) == -NO_PLAN;
        end_call();
    }
}

// The sheet's own plan, kept up to every job.
static void check_jobs(uint64_t *seed, const uint8_t *levels, uint32_t time)
{
    const struct plain_reading first = plain_first_reading(&frame);
    uint8_t afresh[JOBS_MAX];
    for (uint32_t done = 0; done < frame.jobs; done++) {
        struct plain_reading kept = reading_after(&frame, &first, levels, done);
        check_kept(&kept, time, afresh);
        for (int i = 0; i < LOWER_READINGS; i++) {
            struct plain_reading below = draw_below(seed, &kept);
            check_kept(&below, time, afresh);
        }
        if (done > 0)
            count_above(&kept);
    }
}

// A logger that follows the newest plan that it has.
static void check_newest(uint64_t *seed, uint8_t *levels, uint32_t time)
{
    struct plain_reading now = plain_first_reading(&frame);
    while (now.done + 1 < frame.jobs) {
        struct plain_reading next = reading_after(&frame, &now, levels, 1);
        now = draw(seed, 2) == 0 ? next : draw_below(seed, &next);
        time = check_kept(&now, time, levels);
    }
}

// Drawn sheets; every second one with its deadline at the plan's end, which leaves the plan as it is.
static void check_drawn(unsigned long count, uint64_t seed, uint64_t jobs_max, uint64_t levels_max)
{
    uint8_t levels[JOBS_MAX];
    uint32_t time;
    for (unsigned long number = 0; number < count; number++) {
        draw_frame(&seed, jobs_max, levels_max, WORDS, &frame);
        set_name(&sheet, "drawn sheet %lu", number);
        if (!find_plan(levels, &time))
            continue;
        frame.deadline = number % 2 == 0 ? frame.deadline : time;
        write_sheet(&sheet, &frame);
        check_jobs(&seed, levels, time);
        check_newest(&seed, levels, time);
    }
}

void test_kept_plans(const char *top)
{
    static const char *const names[] = {"time", "energy", "temperature"};
    (void)top;
    check_drawn(SMALL_SHEETS, 13, 4, 3);
    check_drawn(LARGER_SHEETS, 14, 12, LEVELS_MAX);
    check_drawn(LARGEST_SHEETS, 15, JOBS_MAX, LEVELS_MAX);
    check_answered(0, 10000);
    for (int i = 0; i < 3; i++)
        check(without_plan[i] >= 100, "%lu readings one unit above in %s have no plan, expected 100", without_plan[i], names[i]);
}
