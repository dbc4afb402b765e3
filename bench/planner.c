// The planner of tests/plain behind the library's three planning calls, to be compared with it. Its table fill is that of
// tests/plain or hoisted.c; the rest is shared.
#include "../tests/plain/plain.h"
#include "programs.h"

#include <string.h>

plan_call planner_plan;
text_call planner_plan_text;
afresh_call planner_plan_afresh;

// What a call with a lent table hands back.
static int64_t hand_back(const struct plain_answer *answer, uint8_t *levels, struct begbija_reply *reply)
{
    const struct plain_refusal *refusal = &answer->refusal;
    *reply = (struct begbija_reply){.refusal = refusal->number, .line = refusal->line, .field = refusal->field};
    if (refusal->number != 0)
        return -(int64_t)refusal->number;
    const struct plain_total *total = &answer->total;
    *reply = (struct begbija_reply){0, 0, 0, total->time, total->energy, total->temperature, total->highest};
    memcpy(levels, answer->levels, answer->left);
    return 0;
}

int64_t planner_plan(const uint8_t *sheet, size_t sheet_len, uint32_t *table, size_t table_len, uint8_t *levels,
                     size_t levels_len, struct begbija_reply *reply)
{
    struct plain_answer answer;
    plain_plan(sheet, sheet_len, &(struct plain_lent){table, table_len, levels_len, false}, &answer);
    return hand_back(&answer, levels, reply);
}

int64_t planner_plan_afresh(const uint8_t *sheet, size_t sheet_len, uint32_t done, uint32_t level, uint32_t time, uint32_t energy,
                            uint32_t temperature, uint32_t *table, size_t table_len, uint8_t *levels, size_t levels_len,
                            struct begbija_reply *reply)
{
    const struct plain_reading reading = {done, level, time, energy, temperature};
    struct plain_answer answer;
    plain_plan_afresh(sheet, sheet_len, &reading, &(struct plain_lent){table, table_len, levels_len, false}, &answer);
    return hand_back(&answer, levels, reply);
}

int64_t planner_plan_text(const uint8_t *sheet, size_t sheet_len, uint8_t *text, size_t text_len)
{
    uint32_t table[PLAN_TABLE_WORDS];
    struct plain_answer answer;
    plain_plan(sheet, sheet_len, &(struct plain_lent){table, PLAN_TABLE_WORDS, text_len, true}, &answer);
    if (answer.refusal.number != 0)
        return -(int64_t)answer.refusal.number;
    return (int64_t)plain_print(&answer, (char *)text);
}
