// The library's calls on lent memory, each held to the plain planner's answer.
#ifndef CALLS_H
#define CALLS_H

#include "check.h"

enum { NO_PLAN = 10 }; // the refusal's number

// The plain planner's answer with a table of so many words, counted for the group; how many were counted before.
unsigned long answer_sheet(const struct sheet *sheet, uint32_t *table, size_t words, struct plain_answer *answer);

// The same for the jobs still to do, from a reading on.
unsigned long answer_afresh(const struct sheet *sheet, const struct plain_reading *reading, uint32_t *table, size_t words,
                            struct plain_answer *answer);

// begbija_plan_text with a part of so many bytes. The plain planner's answer is one for a table of PLAN_TABLE_WORDS or more.
void check_text(const struct sheet *sheet, const struct plain_answer *answer, size_t bytes, uint8_t fill);

// begbija_plan with a table of so many words and a part of so many bytes. The plain planner's answer is one for a table of as
// many words or more, and answer_table is that table.
void check_plan(const struct sheet *sheet, const struct plain_answer *answer, const uint32_t *answer_table, size_t words,
                size_t bytes, uint8_t fill);

// begbija_plan_afresh from a reading on; the plain planner's answer is one for that reading.
void check_afresh(const struct sheet *sheet, const struct plain_reading *reading, const struct plain_answer *answer,
                  const uint32_t *answer_table, size_t words, size_t bytes, uint8_t fill);

// begbija_measure with a list of so many levels, and what is due.
struct plain_margins check_measure(const struct sheet *sheet, const struct plain_answer *answer, const uint8_t *levels,
                                   size_t count, uint8_t fill);

// begbija_need, which is handed back.
int64_t check_need(const struct sheet *sheet, const struct plain_answer *answer);

// All five calls as the logger makes them, against the plain planner, whose answer to the whole sheet is handed back.
const struct plain_answer *check_sheet(const struct sheet *sheet);

#endif
