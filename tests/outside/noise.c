// Bytes that are hardly a sheet: drawn bytes, and sheets with bytes, fields and lines put in the wrong places.
#include "calls.h"
#include "groups.h"
#include "sheets.h"

#include <string.h>

enum { DRAWN_BYTES = 3000, LONG_BYTES = 40, DAMAGED_SHEETS = 24000 };

static struct sheet sheet;

static struct span draw_line(uint64_t *seed)
{
    return find_line(&sheet, 1 + draw(seed, count_lines(&sheet) + 1));
}

// A field, often one of the H line, which has most of the figures.
static struct span draw_field(uint64_t *seed)
{
    size_t line = draw(seed, 3) == 0 ? 2 : 1 + draw(seed, count_lines(&sheet) + 1);
    return find_field(&sheet, line, 1 + draw(seed, count_fields(&sheet, line)));
}

static struct span draw_byte(uint64_t *seed)
{
    size_t at = draw(seed, sheet.length + 1);
    return (struct span){at, at < sheet.length};
}

static struct span draw_part(uint64_t *seed)
{
    uint64_t kind = draw(seed, 3);
    return kind == 0 ? draw_line(seed) : kind == 1 ? draw_field(seed) : draw_byte(seed);
}

static void swap_parts(struct span one, struct span other)
{
    static struct sheet before;
    before = sheet;
    struct span first = one.at <= other.at ? one : other;
    struct span last = one.at <= other.at ? other : one;
    if (first.at + first.length > last.at)
        return;
    // The later part first, so that the earlier one's place stays.
    replace(&sheet, last, before.bytes + first.at, first.length);
    replace(&sheet, first, before.bytes + last.at, last.length);
}

static void duplicate_part(struct span part)
{
    static struct sheet before;
    before = sheet;
    replace(&sheet, (struct span){part.at, 0}, before.bytes + part.at, part.length);
}

static void damage(uint64_t *seed)
{
    uint8_t byte = (uint8_t)draw(seed, 256);
    struct span line = draw_line(seed), field = draw_field(seed);
    const char *value = critical_fields[draw(seed, CRITICAL_FIELDS)];
    switch (draw(seed, 6)) {
    case 0:
        swap_parts(line, draw_line(seed));
        break;
    case 1:
        swap_parts(field, draw_field(seed));
        break;
    case 2:
        duplicate_part(draw_part(seed));
        break;
    case 3:
        replace(&sheet, draw_part(seed), "", 0);
        break;
    case 4:
        replace(&sheet, draw_byte(seed), &byte, 1);
        break;
    default:
        replace(&sheet, field, value, strlen(value));
    }
}

static void check_damaged(uint64_t *seed, unsigned long number)
{
    static struct plain_frame frame;
    draw_frame(seed, 4, 3, PLAN_TABLE_WORDS, &frame);
    write_sheet(&sheet, &frame);
    set_name(&sheet, "damaged sheet %lu", number);
    for (uint64_t i = 1 + draw(seed, 2); i > 0; i--)
        damage(seed);
    check_sheet(&sheet);
}

// Any bytes, or only those that sheets are made of.
static void check_drawn_bytes(uint64_t *seed, unsigned long number, size_t length)
{
    static const char used[] = "VHLSJB0123456789\t\t\t\t\n\n";
    bool any = draw(seed, 2) == 0;
    sheet.length = length;
    for (size_t i = 0; i < length; i++)
        sheet.bytes[i] = any ? (uint8_t)draw(seed, 256) : (uint8_t)used[draw(seed, sizeof used - 1)];
    if (draw(seed, 2) == 0)
        memcpy(sheet.bytes, "V\t1\nH\t", length < 6 ? length : 6);
    set_name(&sheet, "drawn bytes %lu", number);
    check_sheet(&sheet);
}

void test_noise(const char *top)
{
    (void)top;
    uint64_t seed = 3;
    for (unsigned long number = 0; number < DRAWN_BYTES; number++)
        check_drawn_bytes(&seed, number, draw(&seed, 200));
    for (unsigned long number = 0; number < LONG_BYTES; number++)
        check_drawn_bytes(&seed, DRAWN_BYTES + number, SHEET_BYTES_MAX - 2 + draw(&seed, 6));
    for (unsigned long number = 0; number < DAMAGED_SHEETS; number++)
        check_damaged(&seed, number);
    for (unsigned refusal = 0; refusal <= NO_PLAN; refusal++)
        if (refusal != 9) // which is for a part that is too short
            check_answered(refusal, 10);
}
