// Drawn sheets against the plain planner.
#include "calls.h"
#include "groups.h"
#include "rule.h"
#include "sheets.h"

enum {
    SMALL_SHEETS = 14000, // drawn; each with a plan is tried with tighter limits too
    LARGER_SHEETS = 4000,
    LARGEST_SHEETS = 1000
};

static const struct plain_answer *check_frame(const char *name, unsigned long number, const struct plain_frame *frame)
{
    static struct sheet sheet;
    write_sheet(&sheet, frame);
    set_name(&sheet, "%s %lu", name, number);
    return check_sheet(&sheet);
}

// A planned frame with its deadline at the plan's time and one below, and with its energy budget one below the plan's energy.
static void check_tighter(unsigned long number, struct plain_frame *frame, const struct plain_answer *answer)
{
    struct plain_state state = plain_start(frame);
    for (uint32_t i = 0; i < frame->jobs; i++)
        state = plain_after(frame, plain_raised(frame, state), i, answer->levels[i]);
    frame->deadline = state.time;
    check_frame("deadline at the plan of sheet", number, frame);
    frame->deadline--;
    answer = check_frame("deadline below the plan of sheet", number, frame);
    check(answer->refusal.number == NO_PLAN, "answer %u, expected 10", answer->refusal.number);
    frame->deadline = FRAME_LIMIT_MAX;
    frame->energy_budget = state.energy - (state.energy > 0);
    check_frame("energy budget below the plan of sheet", number, frame);
}

static void check_drawn(unsigned long count, uint64_t seed, uint64_t jobs_max, uint64_t levels_max)
{
    static struct plain_frame frame;
    for (unsigned long number = 0; number < count; number++) {
        draw_frame(&seed, jobs_max, levels_max, PLAN_TABLE_WORDS, &frame);
        const struct plain_answer *answer = check_frame("drawn sheet", number, &frame);
        if (answer->refusal.number == 0)
            check_tighter(number, &frame, answer);
    }
}

void test_random_sheets(const char *top)
{
    (void)top;
    check_drawn(SMALL_SHEETS, 1, 4, 3);
    check_drawn(LARGER_SHEETS, 2, 12, LEVELS_MAX);
    check_drawn(LARGEST_SHEETS, 4, JOBS_MAX, LEVELS_MAX);
    check_answered(0, 10000);
    check_answered(NO_PLAN, 10000);
}
