// All programs must answer alike before anything is measured: number, reply, every word of the table, every byte of levels and
// text, and the lent memory beyond.
#include "bench.h"

#include <stdbool.h>
#include <stdlib.h>
#include <string.h>

enum { FILL = 0xA5, DRAWN_SHAPES = 400 };

struct answer {
    int64_t number;
    struct begbija_reply reply;
    uint8_t levels[LEVELS_ROOM], text[TEXT_BYTES + GUARD];
};

static uint32_t tables[2][TABLE_ROOM];

static void differ(const struct sheet *sheet, const struct program *program, const char *what)
{
    FILE *file = fopen("target/bench/differs.sheet", "wb");
    if (file != NULL) {
        fwrite(sheet->bytes, 1, sheet->length, file);
        fclose(file);
    }
    fprintf(stderr, "bench: %s and %s differ in %s on target/bench/differs.sheet\n", programs[0].name, program->name, what);
    exit(1);
}

// The call with so many words lent, from a reading where there is one; the guard is beyond the need, or beyond what is lent.
static struct answer plan(const struct program *program, const struct sheet *sheet, const struct reading *from, uint32_t *table,
                          size_t words)
{
    struct answer answer;
    memset(&answer, FILL, sizeof answer);
    memset(table, FILL, (sheet->need + GUARD) * sizeof *table);
    if (from == NULL)
        answer.number =
            program->plan(sheet->bytes, sheet->length, table, words, answer.levels, sheet->shape.jobs, &answer.reply);
    else
        answer.number = program->afresh(sheet->bytes, sheet->length, from->done, from->level, from->time, from->energy,
                                        from->temperature, table, words, answer.levels, sheet->shape.jobs, &answer.reply);
    return answer;
}

static struct answer text(const struct program *program, const struct sheet *sheet)
{
    struct answer answer;
    memset(&answer, FILL, sizeof answer);
    answer.number = program->text(sheet->bytes, sheet->length, answer.text, TEXT_BYTES);
    return answer;
}

// Document 01 leaves a plan's peak open.
static bool same_reply(const struct begbija_reply *first, struct begbija_reply other)
{
    other.peak = first->peak;
    return memcmp(first, &other, sizeof other) == 0;
}

static void compare_answers(const struct sheet *sheet, const struct program *program, const struct answer *first,
                            const struct answer *other)
{
    if (first->number != other->number)
        differ(sheet, program, "the number returned");
    if (!same_reply(&first->reply, other->reply))
        differ(sheet, program, "the reply");
    if (memcmp(first->levels, other->levels, sizeof first->levels) != 0)
        differ(sheet, program, "the levels");
    if (memcmp(first->text, other->text, sizeof first->text) != 0)
        differ(sheet, program, "the text");
}

static int64_t compare_plan(const struct sheet *sheet, const struct reading *from, size_t words)
{
    struct answer first = plan(&programs[0], sheet, from, tables[0], words);
    for (size_t i = 1; i < PROGRAMS; i++) {
        struct answer other = plan(&programs[i], sheet, from, tables[1], words);
        compare_answers(sheet, &programs[i], &first, &other);
        if (memcmp(tables[0], tables[1], (sheet->need + GUARD) * sizeof(uint32_t)) != 0)
            differ(sheet, &programs[i], "the table");
    }
    return first.number;
}

static int64_t compare_text(const struct sheet *sheet)
{
    struct answer first = text(&programs[0], sheet);
    for (size_t i = 1; i < PROGRAMS; i++) {
        struct answer other = text(&programs[i], sheet);
        compare_answers(sheet, &programs[i], &first, &other);
    }
    return first.number;
}

void compare_sheet(const struct sheet *sheet)
{
    compare_plan(sheet, NULL, sheet->need);
    compare_plan(sheet, &sheet->half, sheet->need);
    compare_text(sheet);
    if (compare_plan(sheet, NULL, sheet->need - 1) != -8 || compare_plan(sheet, &sheet->half, sheet->need - 1) != -8) {
        fprintf(stderr, "bench: a sheet of %zu words is not refused for a table of one word less\n", sheet->need);
        exit(1);
    }
}

void make_sheet(struct sheet *sheet, struct shape shape)
{
    draw_sheet(sheet, shape, 2000000000);
    struct answer answer = plan(&programs[HOISTED], sheet, NULL, tables[0], sheet->need);
    uint32_t least = (uint32_t)answer.reply.time;
    if (answer.number != 0) {
        fprintf(stderr, "bench: a drawn sheet of %zu words has no plan\n", sheet->need);
        exit(1);
    }
    draw_sheet(sheet, shape, least + least / 64);
}

// Tables of all kinds of small shapes, with a plan or without, and readings within the limits and beyond.
static void compare_drawn(void)
{
    static struct sheet sheet;
    for (uint32_t i = 0; i < DRAWN_SHAPES; i++) {
        struct shape shape = {1 + i % 11, 1 + i % 8, 2 + i * 7 % 61, 2 + i * 5 % 47};
        draw_sheet(&sheet, shape, 2000000000);
        compare_sheet(&sheet);
        struct reading from = {
            .done = i / 2 % (shape.jobs + 1),
            .level = i / 3 % (shape.levels + 1),
            .time = sheet.half.time * (i / 5 % 6),
            .energy = sheet.half.energy * (i / 7 % 4),
            .temperature = sheet.half.temperature * (i / 11 % 4),
        };
        compare_plan(&sheet, &from, sheet.need);
    }
}

// One byte of a sheet in turn changed to each of those that matter to the reader.
static void compare_byte(struct sheet *sheet, size_t at)
{
    static const uint8_t bytes[] = {'\t', '\n', '\r', ' ', '0', '1', '9', 'A', 'B', 'J', 127, 255};
    uint8_t byte = sheet->bytes[at];
    for (size_t i = 0; i < sizeof bytes; i++) {
        sheet->bytes[at] = bytes[i];
        compare_text(sheet);
    }
    sheet->bytes[at] = byte;
}

// Each byte of a small sheet changed, the sheet cut there, and two bytes of its first two lines changed.
static void compare_changed(void)
{
    static struct sheet sheet;
    draw_sheet(&sheet, (struct shape){3, 2, 9, 9}, 2000000000);
    const size_t length = sheet.length, lines = 40;
    for (size_t at = 0; at < length; at++) {
        compare_byte(&sheet, at);
        sheet.length = at;
        compare_text(&sheet);
        sheet.length = length;
    }
    for (size_t at = 0; at < lines; at++) {
        uint8_t byte = sheet.bytes[at];
        sheet.bytes[at] = at % 2 == 0 ? '9' : 'x';
        for (size_t other = at + 1; other < lines; other++)
            compare_byte(&sheet, other);
        sheet.bytes[at] = byte;
    }
}

void compare_all(void)
{
    static struct sheet sheet;
    for (size_t i = 0; i < SHAPES; i++) {
        make_sheet(&sheet, bench_shapes[i]);
        compare_sheet(&sheet);
    }
    longest_sheet(&sheet);
    compare_sheet(&sheet);
    compare_drawn();
    compare_changed();
}
