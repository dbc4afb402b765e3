#include "calls.h"
#include "sheets.h"

#include <begbija.h>

#include <string.h>

enum {
    GUARD_BYTES = 61, // odd, so that a lent part of bytes starts at no aligned address
    GUARD_WORDS = 16,
    GUARD_FIGURES = 64, // bytes
    PART_ROOM = 16384,
    REPLY_FIGURES = 7,
    MARGINS_FIGURES = 6
};

static const char *const reply_figures[REPLY_FIGURES] = {"refusal", "line", "field", "time", "energy", "temperature", "peak"};
static const char *const margins_figures[MARGINS_FIGURES] = {"refusal", "line", "field", "time's margin", "energy's margin",
                                                             "temperature's margin"};

struct guarded_reply {
    uint8_t before[GUARD_FIGURES];
    struct begbija_reply reply;
    uint8_t after[GUARD_FIGURES];
};

struct guarded_margins {
    uint8_t before[GUARD_FIGURES];
    struct begbija_margins margins;
    uint8_t after[GUARD_FIGURES];
};

// What a planning call is lent.
static struct {
    uint32_t table[TABLE_WORDS_MAX + 1 + 2 * GUARD_WORDS];
    uint8_t levels[PART_ROOM + 2 * GUARD_BYTES];
    struct guarded_reply reply;
} planning;

unsigned long answer_sheet(const struct sheet *sheet, uint32_t *table, size_t words, struct plain_answer *answer)
{
    plain_plan(lend_sheet(sheet), sheet->length, &(struct plain_lent){table, words, JOBS_MAX, false}, answer);
    return count_answer(answer->refusal.number);
}

unsigned long answer_afresh(const struct sheet *sheet, const struct plain_reading *reading, uint32_t *table, size_t words,
                            struct plain_answer *answer)
{
    const struct plain_lent lent = {table, words, JOBS_MAX, false};
    plain_plan_afresh(lend_sheet(sheet), sheet->length, reading, &lent, answer);
    return count_answer(answer->refusal.number);
}

// The number that a call returns is the one due.
static void check_result(int64_t result, int64_t due)
{
    check(result == due, "result %lld, expected %lld", (long long)result, (long long)due);
}

// The figures of a reply or of margins, which have no padding: each is the one due.
static void check_figures(const char *const *names, size_t count, const void *figures, const void *due)
{
    for (size_t i = 0; i < count; i++) {
        int64_t figure, figure_due;
        memcpy(&figure, (const uint8_t *)figures + i * sizeof figure, sizeof figure);
        memcpy(&figure_due, (const uint8_t *)due + i * sizeof figure, sizeof figure);
        check(figure == figure_due, "%s %lld, expected %lld", names[i], (long long)figure, (long long)figure_due);
    }
}

void check_text(const struct sheet *sheet, const struct plain_answer *answer, size_t bytes, uint8_t fill)
{
    static uint8_t area[PART_ROOM + 2 * GUARD_BYTES];
    char due[TEXT_BYTES_MIN];
    unsigned refusal = plain_refusal_with(answer, &(struct plain_lent){NULL, PLAN_TABLE_WORDS, bytes, true}).number;
    size_t written = refusal == 0 ? plain_print(answer, due) : 0;
    fill_lent(area, bytes + 2 * GUARD_BYTES, fill);
    const uint8_t *lent = lend_sheet(sheet);
    begin_call("begbija_plan_text with %zu bytes: ", bytes);
    int64_t result = begbija_plan_text(lent, sheet->length, area + GUARD_BYTES, bytes);
    check_result(result, refusal == 0 ? (int64_t)written : -(int64_t)refusal);
    check_lent(&(struct lent){"byte", 1, area, GUARD_BYTES, bytes, due, written, fill});
    end_call();
}

// Every figure of a reply, the peak of a plan by its two bounds.
static void check_reply(const struct guarded_reply *area, const struct plain_answer *answer, struct plain_refusal refusal,
                        uint8_t fill)
{
    const struct begbija_reply *reply = &area->reply;
    struct begbija_reply due = {.refusal = refusal.number, .line = refusal.line, .field = refusal.field};
    if (refusal.number == 0) {
        const struct plain_total *total = &answer->total;
        uint64_t limit = answer->frame.temperature_limit;
        check(reply->peak >= total->highest && reply->peak <= limit, "peak %llu, expected %llu to %llu",
              (unsigned long long)reply->peak, (unsigned long long)total->highest, (unsigned long long)limit);
        due = (struct begbija_reply){0, 0, 0, total->time, total->energy, total->temperature, reply->peak};
    }
    check_figures(reply_figures, REPLY_FIGURES, reply, &due);
    check_lent(&(struct lent){"figure", sizeof(uint64_t), area, GUARD_FIGURES, sizeof due, &due, sizeof due, fill});
}

static void fill_planning(size_t words, size_t bytes, uint8_t fill)
{
    fill_lent(planning.table, (words + 2 * GUARD_WORDS) * sizeof *planning.table, fill);
    fill_lent(planning.levels, bytes + 2 * GUARD_BYTES, fill);
    fill_lent(&planning.reply, sizeof planning.reply, fill);
}

// What a planning call returns, and every word, byte and figure that it was lent.
static void check_planning(int64_t result, const struct plain_answer *answer, const uint32_t *answer_table, size_t words,
                           size_t bytes, uint8_t fill)
{
    const size_t word = sizeof *planning.table;
    struct plain_refusal refusal = plain_refusal_with(answer, &(struct plain_lent){NULL, words, bytes, false});
    size_t filled = refusal.number == 0 || refusal.number == NO_PLAN ? answer->need : 0;
    size_t written = refusal.number == 0 ? answer->left : 0;
    check_result(result, -(int64_t)refusal.number);
    check_lent(&(struct lent){"word", word, planning.table, GUARD_WORDS * word, words * word, answer_table, filled * word, fill});
    check_lent(&(struct lent){"byte", 1, planning.levels, GUARD_BYTES, bytes, answer->levels, written, fill});
    check_reply(&planning.reply, answer, refusal, fill);
    end_call();
}

void check_plan(const struct sheet *sheet, const struct plain_answer *answer, const uint32_t *answer_table, size_t words,
                size_t bytes, uint8_t fill)
{
    fill_planning(words, bytes, fill);
    const uint8_t *lent = lend_sheet(sheet);
    begin_call("begbija_plan with %zu words and %zu bytes: ", words, bytes);
    int64_t result = begbija_plan(lent, sheet->length, planning.table + GUARD_WORDS, words, planning.levels + GUARD_BYTES, bytes,
                                  &planning.reply.reply);
    check_planning(result, answer, answer_table, words, bytes, fill);
}

void check_afresh(const struct sheet *sheet, const struct plain_reading *reading, const struct plain_answer *answer,
                  const uint32_t *answer_table, size_t words, size_t bytes, uint8_t fill)
{
    fill_planning(words, bytes, fill);
    const uint8_t *lent = lend_sheet(sheet);
    begin_call("begbija_plan_afresh after %u jobs, level %u, time %u, energy %u, temperature %u, with %zu words and %zu bytes: ",
               reading->done, reading->level, reading->time, reading->energy, reading->temperature, words, bytes);
    int64_t result = begbija_plan_afresh(lent, sheet->length, reading->done, reading->level, reading->time, reading->energy,
                                         reading->temperature, planning.table + GUARD_WORDS, words,
                                         planning.levels + GUARD_BYTES, bytes, &planning.reply.reply);
    check_planning(result, answer, answer_table, words, bytes, fill);
}

struct plain_margins check_measure(const struct sheet *sheet, const struct plain_answer *answer, const uint8_t *levels,
                                   size_t count, uint8_t fill)
{
    struct guarded_margins area;
    struct plain_margins plain = plain_measure(answer, levels, count);
    struct begbija_margins due = {plain.refusal.number, plain.refusal.line, plain.refusal.field, plain.time, plain.energy,
                                  plain.temperature};
    fill_lent(&area, sizeof area, fill);
    const uint8_t *lent = lend_sheet(sheet), *lent_list = lend_list(levels, count);
    begin_call("begbija_measure with %zu levels: ", count);
    int64_t result = begbija_measure(lent, sheet->length, lent_list, count, &area.margins);
    check_result(result, -due.refusal);
    check_figures(margins_figures, MARGINS_FIGURES, &area.margins, &due);
    check_lent(&(struct lent){"figure", sizeof(int64_t), &area, GUARD_FIGURES, sizeof due, &due, sizeof due, fill});
    end_call();
    return plain;
}

int64_t check_need(const struct sheet *sheet, const struct plain_answer *answer)
{
    const uint8_t *lent = lend_sheet(sheet);
    begin_call("begbija_need: ");
    int64_t result = begbija_need(lent, sheet->length);
    check_result(result, plain_refused(answer) ? -(int64_t)answer->refusal.number : (int64_t)answer->need);
    end_call();
    return result;
}

// Where the need fits, a table of as many words is long enough, and one of a word less is not.
static void check_table(const struct sheet *sheet, const struct plain_answer *answer, const uint32_t *answer_table, uint8_t fill)
{
    int64_t need = check_need(sheet, answer);
    bool fits = need > 0 && need <= PLAN_TABLE_WORDS;
    if (fits)
        check_plan(sheet, answer, answer_table, (size_t)need - 1, JOBS_MAX, fill);
    check_plan(sheet, answer, answer_table, fits && fill == FILL ? (size_t)need : PLAN_TABLE_WORDS, JOBS_MAX, fill);
}

// What is drawn for: a refused sheet has no jobs and levels; any will do.
static const struct plain_frame *drawn_for(const struct plain_answer *answer, uint64_t *seed)
{
    static struct plain_frame any;
    any = (struct plain_frame){.jobs = 1 + draw(seed, JOBS_MAX), .levels = LEVELS_MAX};
    return plain_refused(answer) ? &any : &answer->frame;
}

// A drawn list, the same spoiled, and the levels of a plan.
static void check_lists(const struct sheet *sheet, const struct plain_answer *answer, uint64_t seed, uint8_t fill)
{
    const struct plain_frame *frame = drawn_for(answer, &seed);
    uint8_t list[LIST_ROOM];
    draw_list(&seed, frame, list);
    check_measure(sheet, answer, list, frame->jobs, fill);
    size_t count = spoil_list(&seed, frame, list);
    check_measure(sheet, answer, list, count, fill);
    if (answer->refusal.number == 0)
        check_measure(sheet, answer, answer->levels, answer->frame.jobs, fill);
}

// Demand 3 of the request: run without steps, a plan meets every limit after every job. Time and energy do not fall.
static void check_sound(const struct plain_answer *answer)
{
    const struct plain_frame *frame = &answer->frame;
    const struct plain_total *total = &answer->total;
    if (answer->refusal.number != 0)
        return;
    check(total->time <= frame->deadline && total->energy <= frame->energy_budget && total->highest <= frame->temperature_limit,
          "the plan breaks a limit when run without steps");
}

// A drawn reading, with a table of the need where it fits.
static void check_reading(const struct sheet *sheet, const struct plain_answer *answer, uint64_t seed, uint8_t fill)
{
    static struct plain_answer afresh;
    static uint32_t table[PLAN_TABLE_WORDS];
    const struct plain_frame *frame = drawn_for(answer, &seed);
    uint8_t list[JOBS_MAX];
    draw_list(&seed, frame, list);
    struct plain_reading reading = draw_reading(&seed, frame, answer->refusal.number == 0 ? answer->levels : list);
    size_t words = answer->need < PLAN_TABLE_WORDS ? answer->need : PLAN_TABLE_WORDS;
    plain_plan_afresh(lend_sheet(sheet), sheet->length, &reading, &(struct plain_lent){table, words, JOBS_MAX, false}, &afresh);
    check_afresh(sheet, &reading, &afresh, table, words, JOBS_MAX, fill);
    check_sound(&afresh);
}

const struct plain_answer *check_sheet(const struct sheet *sheet)
{
    static struct plain_answer answer;
    static uint32_t table[PLAN_TABLE_WORDS];
    unsigned long number = answer_sheet(sheet, table, PLAN_TABLE_WORDS, &answer);
    uint8_t fill = number % 2 == 1 ? FILL : (uint8_t)~FILL;
    check_text(sheet, &answer, TEXT_BYTES_MIN, fill);
    check_table(sheet, &answer, table, fill);
    check_lists(sheet, &answer, number, fill);
    check_reading(sheet, &answer, number, fill);
    check_sound(&answer);
    return &answer;
}
