// The stored vectors and examples as they are, and sheets with bytes cut off, put in or changed, and with fields changed.
#define _DEFAULT_SOURCE

#include "calls.h"
#include "groups.h"
#include "sheets.h"

#include <glob.h>
#include <stdio.h>
#include <string.h>

// The plain planner is held to what is stored, so that the library, which is held to it, is held to what is stored as well.
static void check_stored(const char *sheet_path, const struct plain_answer *answer)
{
    char path[512];
    int stem = (int)(strlen(sheet_path) - strlen(".sheet"));
    snprintf(path, sizeof path, "%.*s.expected", stem, sheet_path);
    static struct sheet stored;
    load_sheet(&stored, path);
    char text[TEXT_BYTES_MIN];
    size_t length = plain_print(answer, text);
    check(length == stored.length && memcmp(text, stored.bytes, length) == 0,
          "the plain planner prints something else than is stored: %.*s", (int)length, text);
}

static void check_stored_sheets(const char *top, const char *sheets, size_t count)
{
    char pattern[512];
    snprintf(pattern, sizeof pattern, "%s/%s", top, sheets);
    glob_t found = {0};
    glob(pattern, 0, NULL, &found);
    check(found.gl_pathc == count, "%zu sheets in %s, expected %zu", found.gl_pathc, pattern, count);
    for (size_t i = 0; i < found.gl_pathc; i++) {
        static struct sheet sheet;
        load_sheet(&sheet, found.gl_pathv[i]);
        check_stored(found.gl_pathv[i], check_sheet(&sheet));
    }
    globfree(&found);
}

void test_vectors(const char *top)
{
    check_stored_sheets(top, "tests/vectors/*.sheet", 264);
    check_stored_sheets(top, "tests/vectors/w2/*.sheet", 60);
}

// A stored sheet that is refused by 8 for the table inside, and planned with a lent one.
static void check_lent_table(const char *top, const char *name)
{
    static struct sheet sheet;
    static struct plain_answer answer;
    static uint32_t table[TABLE_WORDS_MAX];
    char path[512];
    snprintf(path, sizeof path, "%s/%s", top, name);
    load_sheet(&sheet, path);
    answer_sheet(&sheet, table, TABLE_WORDS_MAX, &answer);
    check(answer.refusal.number == 0, "the plain planner answers %u", answer.refusal.number);
    check_plan(&sheet, &answer, table, answer.need, JOBS_MAX, FILL);
    check_plan(&sheet, &answer, table, PLAN_TABLE_WORDS, JOBS_MAX, FILL);
    check_text(&sheet, &answer, TEXT_BYTES_MIN, FILL);
}

void test_examples(const char *top)
{
    check_stored_sheets(top, "examples/*.sheet", 4);
    check_stored_sheets(top, "examples/refused/*.sheet", 9);
    check_lent_table(top, "examples/long_frame.sheet");
}

// A sheet that needs every word of the table inside has a plan; one that needs one word more is refused by 8.
void test_table_inside(const char *top)
{
    check_stored_sheets(top, "tests/sheets/*.sheet", 2);
    check_answered(0, 1);
    check_answered(8, 1);
    check_lent_table(top, "tests/sheets/need_16385.sheet");
}

static struct sheet changed;

static void check_cuts(const struct sheet *sheet)
{
    for (size_t length = 0; length <= sheet->length; length++) {
        changed = *sheet;
        changed.length = length;
        set_name(&changed, "%.64s, the first %zu bytes", sheet->name, length);
        check_sheet(&changed);
    }
}

static void check_put_in(const struct sheet *sheet, size_t at, uint8_t byte)
{
    changed = *sheet;
    replace(&changed, (struct span){at, 0}, &byte, 1);
    set_name(&changed, "%.64s, byte %u put in at %zu", sheet->name, byte, at);
    check_sheet(&changed);
}

static void check_changed(const struct sheet *sheet, size_t at, uint8_t byte)
{
    changed = *sheet;
    changed.bytes[at] = byte;
    set_name(&changed, "%.64s, byte %zu changed to %u", sheet->name, at, byte);
    check_sheet(&changed);
}

static const uint8_t critical_bytes[] = {0, 9, 10, 13, 32, 33, 43, 45, 48, 49, 50, 57, 66, 74, 126, 127, 128, 255};

enum { CRITICAL_BYTES = sizeof critical_bytes };

// Every critical byte at every place.
static void check_each_byte(const struct sheet *sheet)
{
    for (size_t i = 0; i < CRITICAL_BYTES; i++) {
        for (size_t at = 0; at < sheet->length; at++) {
            check_put_in(sheet, at, critical_bytes[i]);
            check_changed(sheet, at, critical_bytes[i]);
        }
        check_put_in(sheet, sheet->length, critical_bytes[i]);
    }
}

// One critical byte at every place, another at the next: for sheets that take long to plan.
static void check_some_byte(const struct sheet *sheet)
{
    for (size_t at = 0; at < sheet->length; at++)
        check_changed(sheet, at, critical_bytes[at % CRITICAL_BYTES]);
}

static void check_changed_field(const struct sheet *sheet, size_t line, size_t field, const char *value)
{
    changed = *sheet;
    set_field(&changed, line, field, value);
    set_name(&changed, "%.64s, line %zu field %zu changed to '%s'", sheet->name, line, field, value);
    check_sheet(&changed);
}

static void check_each_field(const struct sheet *sheet)
{
    for (size_t line = 1; line <= count_lines(sheet); line++)
        for (size_t field = 1; field <= count_fields(sheet, line); field++)
            for (size_t i = 0; i < CRITICAL_FIELDS; i++)
                check_changed_field(sheet, line, field, critical_fields[i]);
}

static void check_changes(const struct sheet *sheet)
{
    check_cuts(sheet);
    check_each_byte(sheet);
    check_each_field(sheet);
}

void test_changed_sheets(const char *top)
{
    static const char *const small[] = {"small-11-3", "damaged-11-1", "damaged-11-61", "w2/halves-22-54"};
    static const char *const large[] = {"large-11-5", "large-11-7"};
    static struct sheet sheet;
    char path[512];
    set_name(&sheet, "the printed sheet");
    set_text(&sheet, printed_sheet);
    check_changes(&sheet);
    for (size_t i = 0; i < sizeof small / sizeof small[0]; i++) {
        snprintf(path, sizeof path, "%s/tests/vectors/%s.sheet", top, small[i]);
        load_sheet(&sheet, path);
        check_changes(&sheet);
    }
    for (size_t i = 0; i < sizeof large / sizeof large[0]; i++) {
        snprintf(path, sizeof path, "%s/tests/vectors/%s.sheet", top, large[i]);
        load_sheet(&sheet, path);
        check_cuts(&sheet);
        check_some_byte(&sheet);
    }
}
