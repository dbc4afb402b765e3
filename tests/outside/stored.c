// The stored calls of planning afresh: tests/vectors/w1 has a sheet, and one call with its answer to each line of a .cases file.
// Both the plain planner and the library are held to them.
#define _DEFAULT_SOURCE

#include "calls.h"
#include "groups.h"
#include "sheets.h"

#include <begbija.h>

#include <glob.h>
#include <stdio.h>
#include <stdlib.h>
#include <string.h>

enum {
    STORED_SHEETS = 40,
    STORED_CALLS = 606,
    LINE_ROOM = 1024,
    WORD_BEFORE = 7, // what every word and every byte holds before a call
    BYTE_BEFORE = 204,
    GUARD = 64 // bytes
};

// A line's fields.
struct stored_call {
    struct plain_reading reading;
    uint32_t words, bytes;
    struct plain_refusal refusal;
    struct plain_total total;
    uint8_t part[LINE_ROOM]; // every byte of it afterwards
    uint32_t table;          // the CRC-32 of its words afterwards
};

static struct sheet sheet;
static struct stored_call stored;

// The CRC-32 of zlib, bit by bit.
static uint32_t crc_32(const void *bytes, size_t count)
{
    uint32_t crc = UINT32_MAX;
    for (size_t i = 0; i < count; i++) {
        crc ^= ((const uint8_t *)bytes)[i];
        for (int bit = 0; bit < 8; bit++)
            crc = crc >> 1 ^ (crc % 2 == 1 ? 0xEDB88320u : 0);
    }
    return ~crc;
}

static uint32_t take_number(char **at)
{
    return (uint32_t)strtoul(*at, at, 10);
}

// The bytes of a part, by commas, or - for none.
static void take_part(char **at)
{
    *at += strspn(*at, "\t-");
    for (uint32_t i = 0; i < stored.bytes; i++) {
        *at += i > 0;
        stored.part[i] = (uint8_t)take_number(at);
    }
}

static void take_call(char *at)
{
    uint32_t *const numbers[] = {
        &stored.reading.done, &stored.reading.level, &stored.reading.time, &stored.reading.energy, &stored.reading.temperature,
        &stored.words, &stored.bytes, &stored.refusal.number, &stored.refusal.line, &stored.refusal.field, &stored.total.time,
        &stored.total.energy, &stored.total.temperature, &stored.total.highest,
    };
    for (size_t i = 0; i < sizeof numbers / sizeof numbers[0]; i++)
        *numbers[i] = take_number(&at);
    check(stored.words <= PLAN_TABLE_WORDS && stored.bytes <= LINE_ROOM, "a stored call lends too much");
    take_part(&at);
    stored.table = take_number(&at);
    check(*at == '\n', "a stored call has something else at its end: %s", at);
}

// The plain planner's answer, with its table as the library has to leave its own.
static void check_plain(struct plain_answer *answer, uint32_t *table)
{
    const struct plain_lent lent = {table, stored.words, stored.bytes, false};
    for (size_t i = 0; i < stored.words; i++)
        table[i] = WORD_BEFORE;
    plain_plan_afresh(lend_sheet(&sheet), sheet.length, &stored.reading, &lent, answer);
    count_answer(answer->refusal.number);
    check(memcmp(&answer->refusal, &stored.refusal, sizeof stored.refusal) == 0, "the plain planner answers %u, stored is %u",
          answer->refusal.number, stored.refusal.number);
    if (stored.refusal.number == 0)
        check(memcmp(&answer->total, &stored.total, sizeof stored.total) == 0
                  && memcmp(answer->levels, stored.part, answer->left) == 0,
              "the plain planner's plan is another than is stored");
    check(crc_32(table, stored.words * sizeof *table) == stored.table, "the plain planner's table is another than is stored");
}

// What the library replies; a plan's peak is at least the highest temperature at a job end and at most the limit.
static void check_stored_reply(const struct begbija_reply *reply, uint32_t limit)
{
    const struct plain_total *total = &stored.total;
    const struct begbija_reply due = {stored.refusal.number, stored.refusal.line, stored.refusal.field, total->time,
                                      total->energy, total->temperature, reply->peak};
    check(memcmp(reply, &due, sizeof due) == 0, "the reply is %llu, %llu, %llu, %llu, %llu, %llu",
          (unsigned long long)reply->refusal, (unsigned long long)reply->line, (unsigned long long)reply->field,
          (unsigned long long)reply->time, (unsigned long long)reply->energy, (unsigned long long)reply->temperature);
    check(reply->peak >= total->highest && reply->peak <= (due.refusal == 0 ? limit : 0), "peak %llu, expected %u to %u",
          (unsigned long long)reply->peak, total->highest, limit);
}

// Makes the call as it is stored, in the middle of filled memory.
static void check_call(const struct plain_answer *answer, const uint32_t *answer_table)
{
    static uint32_t table[PLAN_TABLE_WORDS + 2 * GUARD / sizeof(uint32_t)];
    uint8_t part[LINE_ROOM + 2 * GUARD];
    uint32_t *words = table + GUARD / sizeof *table;
    struct begbija_reply reply;
    fill_lent(table, stored.words * sizeof *table + 2 * GUARD, FILL);
    fill_lent(part, stored.bytes + 2 * GUARD, FILL);
    fill_lent(&reply, sizeof reply, FILL);
    for (size_t i = 0; i < stored.words; i++)
        words[i] = WORD_BEFORE;
    memset(part + GUARD, BYTE_BEFORE, stored.bytes);
    const uint8_t *lent = lend_sheet(&sheet);
    int64_t result = begbija_plan_afresh(lent, sheet.length, stored.reading.done, stored.reading.level, stored.reading.time,
                                         stored.reading.energy, stored.reading.temperature, words, stored.words, part + GUARD,
                                         stored.bytes, &reply);
    check(result == -(int64_t)stored.refusal.number, "result %lld", (long long)result);
    check_stored_reply(&reply, answer->frame.temperature_limit);
    check(crc_32(words, stored.words * sizeof *words) == stored.table, "the table is another than is stored");
    check_lent(&(struct lent){"word", sizeof *table, table, GUARD, stored.words * sizeof *table, answer_table,
                              stored.words * sizeof *table, FILL});
    check_lent(&(struct lent){"byte", 1, part, GUARD, stored.bytes, stored.part, stored.bytes, FILL});
    end_call();
}

// Every line of the file beside a sheet; how many there are.
static size_t check_cases(const char *sheet_path)
{
    static struct plain_answer answer;
    static uint32_t table[PLAN_TABLE_WORDS];
    char path[512], line[LINE_ROOM];
    size_t count = 0;
    load_sheet(&sheet, sheet_path);
    snprintf(path, sizeof path, "%.*s.cases", (int)(strlen(sheet_path) - strlen(".sheet")), sheet_path);
    FILE *file = fopen(path, "r");
    check(file != NULL, "no file %s", path);
    for (; fgets(line, sizeof line, file) != NULL; count++) {
        set_name(&sheet, "%.64s, call %zu", strrchr(path, '/') + 1, count + 1);
        take_call(line);
        check_plain(&answer, table);
        check_call(&answer, table);
    }
    fclose(file);
    return count;
}

void test_stored_calls(const char *top)
{
    char pattern[512];
    size_t calls = 0;
    glob_t found = {0};
    snprintf(pattern, sizeof pattern, "%s/tests/vectors/w1/*.sheet", top);
    glob(pattern, 0, NULL, &found);
    check(found.gl_pathc == STORED_SHEETS, "%zu sheets in %s, expected %d", found.gl_pathc, pattern, STORED_SHEETS);
    for (size_t i = 0; i < found.gl_pathc; i++)
        calls += check_cases(found.gl_pathv[i]);
    globfree(&found);
    check(calls == STORED_CALLS, "%zu stored calls, expected %d", calls, STORED_CALLS);
}
