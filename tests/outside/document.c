// The cases that document 01 and request W2 state, with the figures printed there or worked by hand. None of the expectations comes
// from the plain planner.
#include "calls.h"
#include "groups.h"
#include "sheets.h"

#include <begbija.h>

#include <stdio.h>
#include <stdlib.h>
#include <string.h>

static const char same_plan[] = "P\t2\t49\t76\t2250\n"
                                "Q\tlog\t1\t20\t48\t2500\n"
                                "Q\tsend\t0\t49\t76\t2250\n";

static const char cooler_plan[] = "P\t2\t58\t45\t1750\n"
                                  "Q\tlog\t0\t30\t20\t1500\n"
                                  "Q\tsend\t0\t58\t45\t1750\n";

// Named fields of the printed sheet changed, and what `plan` prints. A field of 0 changes nothing.
static const struct {
    const char *name;
    struct {
        size_t line, field;
        const char *value;
    } change[2];
    const char *prints;
} cases[] = {
    {"the printed sheet", {{0, 0, ""}}, same_plan},
    {"D 49", {{2, 5, "49"}}, same_plan},
    {"D 48", {{2, 5, "48"}}, "R\t10\t0\t0\n"},
    {"C 2499", {{2, 7, "2499"}}, "R\t10\t0\t0\n"},
    {"C 2499 and D 58", {{2, 7, "2499"}, {2, 5, "58"}}, cooler_plan},
    {"h 300", {{2, 11, "300"}}, "R\t10\t0\t0\n"},
    {"W 78", {{2, 6, "78"}}, same_plan},
    {"W 77", {{2, 6, "77"}}, "R\t10\t0\t0\n"},
    {"W 76 and g 1", {{2, 6, "76"}, {2, 10, "1"}}, same_plan},
    {"h 1000", {{2, 11, "1000"}}, same_plan},
    {"version 9", {{1, 2, "9"}}, "R\t4\t1\t2\n"},
    {"start 2501", {{2, 8, "2501"}}, "R\t5\t2\t8\n"},
};

static const char equal_levels[] = "V\t1\n"
                                   "H\t1\t2\t1\t10\t10\t10\t0\t0\t1\t1\n"
                                   "L\t0\n"
                                   "L\t0\n"
                                   "S\t0\t0\n"
                                   "S\t0\t0\n"
                                   "S\t0\t0\n"
                                   "S\t0\t0\n"
                                   "J\tone\n"
                                   "B\t5\t5\t0\n"
                                   "B\t5\t5\t0\n";

// A job of decay 0, which ends at the steady state of its level.
static const char one_job[] = "V\t1\n"
                              "H\t1\t1\t0\t10\t10\t20000\t0\t0\t1\t20000\n"
                              "L\t0\n"
                              "S\t0\t0\n"
                              "J\tone\n"
                              "B\t5\t5\t0\n";

// Powers and resistances whose steady state is rounded from an exact half, and what `plan` prints.
static const struct {
    const char *name, *power, *resistance, *prints;
} halves[] = {
    {"274.5", "1500", "1830", "P\t1\t5\t5\t274\nQ\tone\t0\t5\t5\t274\n"},
    {"275.5", "1450", "1900", "P\t1\t5\t5\t276\nQ\tone\t0\t5\t5\t276\n"},
    {"20,000.5", "40001", "5000", "P\t1\t5\t5\t20000\nQ\tone\t0\t5\t5\t20000\n"},
    {"20,001.5", "40003", "5000", "R\t4\t3\t2\n"},
};

static struct sheet sheet;

// The plain planner prints the same, so that what is held to it is held to the document as well.
static void check_plain(const char *prints)
{
    static struct plain_answer answer;
    static uint32_t table[PLAN_TABLE_WORDS];
    char text[TEXT_BYTES_MIN];
    answer_sheet(&sheet, table, PLAN_TABLE_WORDS, &answer);
    size_t length = plain_print(&answer, text);
    check(length == strlen(prints) && memcmp(text, prints, length) == 0, "the plain planner prints %.*s", (int)length, text);
}

// What begbija_plan has to reply where `plan` prints this: the figures of the P line or the R line.
static struct begbija_reply reply_for(const char *prints)
{
    unsigned long long one, two, three;
    struct begbija_reply reply = {0};
    if (sscanf(prints, "R\t%llu\t%llu\t%llu\n", &one, &two, &three) == 3)
        reply = (struct begbija_reply){.refusal = one, .line = two, .field = three};
    else if (sscanf(prints, "P\t%*u\t%llu\t%llu\t%llu\n", &one, &two, &three) == 3)
        reply = (struct begbija_reply){.time = one, .energy = two, .temperature = three};
    return reply;
}

// The highest temperature of the printed Q lines, each line's last field.
static uint64_t highest_printed(const char *prints)
{
    uint64_t highest = 0;
    for (const char *line = strstr(prints, "\nQ"); line != NULL; line = strstr(line + 1, "\nQ")) {
        unsigned long long temperature = 0;
        sscanf(line, "\nQ\t%*s\t%*u\t%*u\t%*u\t%llu", &temperature);
        highest = temperature > highest ? temperature : highest;
    }
    return highest;
}

// The sheet's own, field 7 of its H line.
static uint64_t temperature_limit(void)
{
    return strtoull((const char *)sheet.bytes + find_field(&sheet, 2, 7).at, NULL, 10);
}

// Every figure of a reply beside what `plan` prints, the peak by its two bounds.
static void check_reply(const struct begbija_reply *reply, const char *prints)
{
    struct begbija_reply due = reply_for(prints);
    uint64_t least = highest_printed(prints), most = prints[0] == 'P' ? temperature_limit() : 0;
    check(reply->peak >= least && reply->peak <= most, "peak %llu, expected %llu to %llu", (unsigned long long)reply->peak,
          (unsigned long long)least, (unsigned long long)most);
    due.peak = reply->peak;
    check(memcmp(reply, &due, sizeof due) == 0, "begbija_plan replies %llu, %llu, %llu, %llu, %llu, %llu, expected %s",
          (unsigned long long)reply->refusal, (unsigned long long)reply->line, (unsigned long long)reply->field,
          (unsigned long long)reply->time, (unsigned long long)reply->energy, (unsigned long long)reply->temperature, prints);
}

// What the planning calls have to return for what `plan` prints.
static void check_prints(const char *prints)
{
    static uint8_t text[TEXT_BYTES_MIN];
    static uint32_t table[PLAN_TABLE_WORDS];
    uint8_t levels[JOBS_MAX];
    struct begbija_reply reply;
    memset(&reply, FILL, sizeof reply);
    int64_t refused = -(int64_t)reply_for(prints).refusal;
    int64_t due = refused < 0 ? refused : (int64_t)strlen(prints);
    const uint8_t *lent = lend_sheet(&sheet);
    int64_t result = begbija_plan_text(lent, sheet.length, text, sizeof text);
    check(result == due, "begbija_plan_text: result %lld, expected %lld", (long long)result, (long long)due);
    if (refused == 0)
        check(memcmp(text, prints, strlen(prints)) == 0, "begbija_plan_text writes %.*s", (int)due, (const char *)text);
    result = begbija_plan(lent, sheet.length, table, PLAN_TABLE_WORDS, levels, sizeof levels, &reply);
    check(result == refused, "begbija_plan: result %lld, expected %lld", (long long)result, (long long)refused);
    check_reply(&reply, prints);
    check_plain(prints);
}

// The levels of a plan, with a part of one byte for each job.
static void check_levels(const char *name, const char *text, const uint8_t *due, size_t jobs)
{
    static uint32_t table[PLAN_TABLE_WORDS];
    uint8_t levels[JOBS_MAX] = {9, 9};
    struct begbija_reply reply;
    set_text(&sheet, text);
    set_name(&sheet, "%s", name);
    int64_t result = begbija_plan(lend_sheet(&sheet), sheet.length, table, PLAN_TABLE_WORDS, levels, jobs, &reply);
    check(result == 0 && memcmp(levels, due, jobs) == 0, "begbija_plan: result %lld, the first level %u", (long long)result,
          levels[0]);
}

// What begbija_plan returns for a table of so many words.
static void check_words(size_t words, int64_t due)
{
    static uint32_t table[PLAN_TABLE_WORDS];
    uint8_t levels[JOBS_MAX];
    struct begbija_reply reply;
    int64_t result = begbija_plan(lend_sheet(&sheet), sheet.length, table, words, levels, sizeof levels, &reply);
    check(result == due, "begbija_plan with %zu words: result %lld, expected %lld", words, (long long)result, (long long)due);
}

// What begbija_need returns.
static void check_need_is(int64_t due)
{
    int64_t result = begbija_need(lend_sheet(&sheet), sheet.length);
    check(result == due, "begbija_need: result %lld, expected %lld", (long long)result, (long long)due);
}

// What begbija_measure returns and writes for a list of levels.
static void check_measured(const uint8_t *levels, size_t count, struct begbija_margins due)
{
    struct begbija_margins margins;
    memset(&margins, FILL, sizeof margins);
    const uint8_t *lent = lend_sheet(&sheet);
    int64_t result = begbija_measure(lent, sheet.length, lend_list(levels, count), count, &margins);
    check(result == -due.refusal && memcmp(&margins, &due, sizeof due) == 0,
          "begbija_measure: result %lld; %lld, %lld, %lld, margins %lld, %lld, %lld", (long long)result,
          (long long)margins.refusal, (long long)margins.line, (long long)margins.field, (long long)margins.time,
          (long long)margins.energy, (long long)margins.temperature);
}

// The printed sheet's own margins, and refusals 11 and 12.
static void check_lists(void)
{
    check_measured((const uint8_t[]){0, 1}, 2, (struct begbija_margins){0, 0, 0, 3, 37, -250});
    check_measured((const uint8_t[]){1, 0}, 2, (struct begbija_margins){0, 0, 0, 1, 24, 0});
    check_measured((const uint8_t[]){0, 0}, 2, (struct begbija_margins){0, 0, 0, -8, 55, 750});
    check_measured((const uint8_t[]){0}, 1, (struct begbija_margins){.refusal = 11});
    check_measured((const uint8_t[]){2, 0, 0}, 3, (struct begbija_margins){.refusal = 11});
    check_measured((const uint8_t[]){0, 2}, 2, (struct begbija_margins){.refusal = 12, .field = 1});
    check_measured((const uint8_t[]){2, 9}, 2, (struct begbija_margins){.refusal = 12, .field = 0});
}

// Sheets whose one steady state is an exact half before it is rounded.
static void check_halves(void)
{
    for (size_t i = 0; i < sizeof halves / sizeof halves[0]; i++) {
        set_text(&sheet, one_job);
        set_name(&sheet, "steady state %s", halves[i].name);
        set_field(&sheet, 2, 9, halves[i].resistance);
        set_field(&sheet, 3, 2, halves[i].power);
        check_prints(halves[i].prints);
    }
}

void test_document(const char *top)
{
    (void)top;
    for (size_t i = 0; i < sizeof cases / sizeof cases[0]; i++) {
        set_text(&sheet, printed_sheet);
        set_name(&sheet, "%s", cases[i].name);
        for (size_t j = 0; j < 2 && cases[i].change[j].field > 0; j++)
            set_field(&sheet, cases[i].change[j].line, cases[i].change[j].field, cases[i].change[j].value);
        check_prints(cases[i].prints);
    }
    set_text(&sheet, "");
    set_name(&sheet, "the empty sheet");
    check_prints("R\t2\t1\t0\n");
    check_need_is(-2);
    check_measured((const uint8_t[]){9}, 1, (struct begbija_margins){.refusal = 2, .line = 1});
    check_levels("two equal levels", equal_levels, (const uint8_t[]){0}, 1);
    check_prints("P\t1\t5\t5\t0\nQ\tone\t0\t5\t5\t0\n");
    check_levels("the printed sheet's levels", printed_sheet, (const uint8_t[]){1, 0}, 2);
    check_need_is(1144);
    check_words(1144, 0);
    check_words(1143, -8);
    check_lists();
    check_halves();
}
