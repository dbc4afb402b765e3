#include "rule.h"
#include "sheets.h"

#include <stdarg.h>
#include <stdio.h>
#include <stdlib.h>
#include <string.h>

const char printed_sheet[] = "V\t1\n"
                             "H\t2\t2\t0\t50\t100\t2500\t1000\t2000\t10\t100\n"
                             "L\t10000\n"
                             "L\t20000\n"
                             "S\t0\t0\n"
                             "S\t2\t3\n"
                             "S\t1\t3\n"
                             "S\t0\t0\n"
                             "J\tlog\n"
                             "B\t30\t20\t32768\n"
                             "B\t18\t45\t32768\n"
                             "J\tsend\n"
                             "B\t28\t25\t32768\n"
                             "B\t15\t40\t32768\n";

const char *const critical_fields[CRITICAL_FIELDS] = {
    "", "0", "1", "2", "3", "8", "9", "64", "65", "00", "01", "+1", "-1", " 1", "1 ", "1\r", "1.0", "20000", "20001", "65536",
    "65537", "100000", "100001", "10000000", "10000001", "2000000000", "2000000001", "4294967295", "4294967296", "9999999999",
    "10000000000", "18446744073709551616", "sixteen-bytes-!!", "seventeen-bytes-!", "\x7f", "\xff", "V", "H", "L", "S", "J",
    "B", "BB", "\t", "\n", "\t\t", "\n\n",
};

void set_name(struct sheet *sheet, const char *format, ...)
{
    va_list values;
    va_start(values, format);
    vsnprintf(sheet->name, sizeof sheet->name, format, values);
    va_end(values);
}

void set_text(struct sheet *sheet, const char *text)
{
    sheet->length = strlen(text);
    memcpy(sheet->bytes, text, sheet->length);
}

void load_sheet(struct sheet *sheet, const char *path)
{
    FILE *file = fopen(path, "rb");
    if (file == NULL) {
        perror(path);
        exit(1);
    }
    sheet->length = fread(sheet->bytes, 1, SHEET_ROOM, file);
    fclose(file);
    const char *name = strrchr(path, '/');
    set_name(sheet, "%s", name == NULL ? path : name + 1);
}

static void add_field(struct sheet *sheet, uint32_t number)
{
    sheet->length += (size_t)sprintf((char *)sheet->bytes + sheet->length, "\t%u", (unsigned)number);
}

static void add_text(struct sheet *sheet, const char *text)
{
    memcpy(sheet->bytes + sheet->length, text, strlen(text));
    sheet->length += strlen(text);
}

static void add_line(struct sheet *sheet, const char *letter, const uint32_t *numbers, size_t count)
{
    add_text(sheet, letter);
    for (size_t i = 0; i < count; i++)
        add_field(sheet, numbers[i]);
    add_text(sheet, "\n");
}

static void write_job(struct sheet *sheet, const struct plain_frame *frame, uint64_t i)
{
    add_text(sheet, "J\t");
    add_text(sheet, frame->name[i]);
    add_text(sheet, "\n");
    for (uint64_t level = 0; level < frame->levels; level++) {
        const struct plain_job *job = &frame->job[i][level];
        add_line(sheet, "B", (uint32_t[]){job->time, job->energy, job->decay}, 3);
    }
}

void write_sheet(struct sheet *sheet, const struct plain_frame *frame)
{
    set_text(sheet, "V\t1\n");
    const uint32_t head[] = {frame->jobs, frame->levels, frame->start_level, frame->deadline, frame->energy_budget,
                             frame->temperature_limit, frame->start_temperature, frame->resistance, frame->energy_step,
                             frame->temperature_step};
    add_line(sheet, "H", head, 10);
    for (uint64_t level = 0; level < frame->levels; level++)
        add_line(sheet, "L", &frame->power[level], 1);
    for (uint64_t left = 0; left < frame->levels; left++)
        for (uint64_t entered = 0; entered < frame->levels; entered++) {
            const struct plain_change *change = &frame->change[left][entered];
            add_line(sheet, "S", (uint32_t[]){change->time, change->energy}, 2);
        }
    for (uint64_t i = 0; i < frame->jobs; i++)
        write_job(sheet, frame, i);
}

// The generator splitmix64.
uint64_t draw(uint64_t *seed, uint64_t below)
{
    uint64_t x = *seed += 0x9E3779B97F4A7C15u;
    x = (x ^ x >> 30) * 0xBF58476D1CE4E5B9u;
    x = (x ^ x >> 27) * 0x94D049BB133111EBu;
    return (x ^ x >> 31) % below;
}

static uint64_t draw_of(uint64_t *seed, const uint64_t *numbers, size_t count)
{
    return numbers[draw(seed, count)];
}

static uint64_t draw_decay(uint64_t *seed)
{
    static const uint64_t decays[] = {0, 1, 32768, 65535, 65536};
    return draw(seed, 2) == 0 ? draw(seed, 65537) : draw_of(seed, decays, 5);
}

static void draw_name(uint64_t *seed, char *name)
{
    uint64_t length = 1 + draw(seed, NAME_BYTES_MAX);
    for (uint64_t i = 0; i < length; i++)
        name[i] = (char)(33 + draw(seed, 94));
    name[length] = 0;
}

// Small scales make ties and zeros, the largest tries the ends of the ranges.
static void draw_jobs(uint64_t *seed, struct plain_frame *frame, uint64_t time_scale, uint64_t energy_scale)
{
    for (uint64_t i = 0; i < frame->jobs; i++) {
        draw_name(seed, frame->name[i]);
        for (uint64_t level = 0; level < frame->levels; level++) {
            uint64_t energy = draw(seed, 4) == 0 ? 0 : draw(seed, energy_scale + 1);
            frame->job[i][level] = (struct plain_job){1 + draw(seed, time_scale), energy, draw_decay(seed)};
        }
    }
}

static void draw_changes(uint64_t *seed, struct plain_frame *frame, uint64_t time_scale, uint64_t energy_scale)
{
    uint64_t time_below = draw(seed, 3) == 0 ? 1 : time_scale / 2 + 1;
    uint64_t energy_below = draw(seed, 3) == 0 ? 1 : energy_scale / 2 + 1;
    for (uint64_t left = 0; left < frame->levels; left++)
        for (uint64_t entered = 0; entered < frame->levels; entered++)
            if (left != entered)
                frame->change[left][entered] = (struct plain_change){draw(seed, time_below), draw(seed, energy_below)};
}

// A number up to the given one, often one of the highest.
static uint64_t draw_up_to(uint64_t *seed, uint64_t most)
{
    uint64_t below = draw(seed, 4) == 0 ? draw(seed, 4) : draw(seed, most + 1);
    return most - (below < most ? below : most);
}

// Many steady states are rounded from an exact half: multiples of 5 at the resistances 500 and 1000, odd powers at 5000. The
// highest may be half above the scale, an even number, and are then rounded down to it.
static void draw_powers(uint64_t *seed, struct plain_frame *frame, uint64_t temperature_scale)
{
    static const uint64_t resistances[] = {0, 1, 500, 777, 1000, 2000, 5000, 5000, 10000, 20000};
    frame->resistance = draw_of(seed, resistances, 10);
    const uint32_t factor = frame->resistance == 500 || frame->resistance == 1000 ? 5 : 1;
    uint64_t most = frame->resistance == 0 ? POWER_MAX : (temperature_scale * STEADY_STATE_UNIT + STEADY_STATE_UNIT / 2) / frame->resistance;
    for (uint64_t level = 0; level < frame->levels; level++) {
        frame->power[level] = draw_up_to(seed, (most < POWER_MAX ? most : POWER_MAX) / factor) * factor;
        frame->steady_state[level] = plain_steady_state(frame->power[level], frame->resistance);
    }
}

// A level with the figures of the one below it and free changes between the two, so that lists tie.
static void repeat_level(struct plain_frame *frame, uint32_t level)
{
    const uint32_t below = level - 1;
    frame->power[level] = frame->power[below];
    frame->steady_state[level] = frame->steady_state[below];
    memcpy(frame->change[level], frame->change[below], sizeof frame->change[level]);
    for (uint32_t left = 0; left < frame->levels; left++)
        frame->change[left][level] = frame->change[left][below];
    for (uint32_t i = 0; i < frame->jobs; i++)
        frame->job[i][level] = frame->job[i][below];
}

// The cells on each axis that keep the need near so many words.
static uint64_t cells_within(const struct plain_frame *frame, uint64_t words)
{
    uint64_t cells = 2;
    while ((cells + 4) * (cells + 4) * frame->jobs * frame->levels < words)
        cells++;
    return cells;
}

// A step that parts the range into some cells.
static uint64_t draw_step(uint64_t *seed, uint64_t cells_max, uint64_t range, uint64_t most)
{
    uint64_t step = range / (1 + draw(seed, cells_max)) + draw(seed, 2);
    return step < 1 ? 1 : step > most ? most : step;
}

// A limit at a figure, one or some more above it, or one below it.
static uint64_t draw_limit(uint64_t *seed, uint64_t figure, uint64_t most)
{
    uint64_t kind = draw(seed, 8);
    uint64_t limit = kind < 2 ? figure : kind < 4 ? figure + 1 : kind < 6 ? figure + figure / 8 : figure - (figure > 0);
    return limit < most ? limit : most;
}

// Limits near what a drawn list takes by the rounded rule.
static void draw_limits(uint64_t *seed, struct plain_frame *frame)
{
    struct plain_state state = plain_start(frame);
    uint64_t warmest = state.temperature;
    for (uint64_t i = 0; i < frame->jobs; i++) {
        state = plain_after(frame, plain_raised(frame, state), i, draw(seed, frame->levels));
        state.energy = state.energy < FRAME_LIMIT_MAX ? state.energy : FRAME_LIMIT_MAX; // no budget is above it
        warmest = state.temperature > warmest ? state.temperature : warmest;
    }
    frame->deadline = draw_limit(seed, state.time, FRAME_LIMIT_MAX);
    frame->energy_budget = draw_limit(seed, state.energy, FRAME_LIMIT_MAX);
    frame->temperature_limit = draw_limit(seed, warmest, TEMPERATURE_MAX);
}

void draw_frame(uint64_t *seed, uint64_t jobs_max, uint64_t levels_max, uint64_t words, struct plain_frame *frame)
{
    static const uint64_t time_scales[] = {1, 3, 20, 1000, 10000000};
    static const uint64_t energy_scales[] = {0, 2, 9, 50, 10000000};
    static const uint64_t temperature_scales[] = {0, 6, 40, 3000, 20000}; // all even
    memset(frame, 0, sizeof *frame);
    frame->jobs = 1 + draw(seed, jobs_max);
    frame->levels = 1 + draw(seed, levels_max);
    frame->start_level = draw(seed, frame->levels);
    uint64_t time_scale = draw_of(seed, time_scales, 5);
    uint64_t energy_scale = draw_of(seed, energy_scales, 5);
    uint64_t temperature_scale = draw_of(seed, temperature_scales, 5);
    draw_powers(seed, frame, temperature_scale);
    draw_changes(seed, frame, time_scale, energy_scale);
    draw_jobs(seed, frame, time_scale, energy_scale);
    if (frame->levels > 1 && draw(seed, 4) == 0)
        repeat_level(frame, 1 + draw(seed, frame->levels - 1));
    frame->start_temperature = draw(seed, temperature_scale + 1);
    uint64_t cells = cells_within(frame, words);
    frame->energy_step = draw_step(seed, cells, frame->jobs * energy_scale, FRAME_LIMIT_MAX);
    frame->temperature_step = draw_step(seed, cells, temperature_scale, TEMPERATURE_MAX);
    draw_limits(seed, frame);
}

bool has_half(const struct plain_frame *frame, bool above_odd)
{
    const uint32_t half = STEADY_STATE_UNIT / 2 + above_odd * STEADY_STATE_UNIT;
    for (uint32_t level = 0; level < frame->levels; level++)
        if (frame->power[level] * frame->resistance % (2 * STEADY_STATE_UNIT) == half)
            return true;
    return false;
}

void draw_list(uint64_t *seed, const struct plain_frame *frame, uint8_t *levels)
{
    for (uint64_t i = 0; i < frame->jobs; i++)
        levels[i] = (uint8_t)draw(seed, frame->levels);
}

// Puts a level that is just too high, or far too high, at a drawn place.
static void raise_level(uint64_t *seed, const struct plain_frame *frame, uint8_t *levels, size_t count)
{
    uint8_t level = draw(seed, 2) == 0 ? (uint8_t)frame->levels : (uint8_t)(frame->levels + draw(seed, 256 - frame->levels));
    if (count > 0)
        levels[draw(seed, count)] = level;
}

size_t spoil_list(uint64_t *seed, const struct plain_frame *frame, uint8_t *levels)
{
    const size_t jobs = frame->jobs, lengths[] = {jobs, jobs, jobs - 1, jobs + 1, 0, JOBS_MAX, jobs + 256, LIST_ROOM};
    uint64_t kind = draw(seed, 8);
    size_t count = lengths[kind];
    if (count > jobs)
        memset(levels + jobs, 0, count - jobs);
    if (kind < 2 || draw(seed, 2) == 0)
        raise_level(seed, frame, levels, count);
    if (draw(seed, 2) == 0)
        raise_level(seed, frame, levels, count);
    return count;
}

struct plain_reading reading_after(const struct plain_frame *frame, const struct plain_reading *from, const uint8_t *levels,
                                   uint32_t count)
{
    struct plain_state state = plain_state_read(from);
    for (uint32_t i = 0; i < count; i++)
        state = plain_after(frame, state, from->done + i, levels[i]);
    return (struct plain_reading){from->done + count, state.level, state.time, state.energy, state.temperature};
}

// A figure at, next to, or somewhere below another.
static uint32_t draw_near(uint64_t *seed, uint32_t figure)
{
    const uint32_t near[] = {figure, figure + 1, figure - (figure > 0), (uint32_t)draw(seed, (uint64_t)figure + 1)};
    return near[draw(seed, 4)];
}

// A figure at or next to a limit or the end of a range, or beyond it.
static uint32_t draw_end(uint64_t *seed, uint32_t limit, uint32_t most)
{
    const uint32_t ends[] = {0, limit - (limit > 0), limit, limit + 1, most, most + 1, UINT32_MAX};
    return ends[draw(seed, 7)];
}

// One figure at the end of its range.
static void draw_ends(uint64_t *seed, const struct plain_frame *frame, struct plain_reading *reading)
{
    switch (draw(seed, 5)) {
    case 0:
        reading->done = draw_end(seed, frame->jobs, JOBS_MAX);
        break;
    case 1:
        reading->level = draw_end(seed, frame->levels, LEVELS_MAX);
        break;
    case 2:
        reading->time = draw_end(seed, frame->deadline, FRAME_LIMIT_MAX);
        break;
    case 3:
        reading->energy = draw_end(seed, frame->energy_budget, FRAME_LIMIT_MAX);
        break;
    default:
        reading->temperature = draw_end(seed, frame->temperature_limit, TEMPERATURE_MAX);
    }
}

struct plain_reading draw_reading(uint64_t *seed, const struct plain_frame *frame, const uint8_t *levels)
{
    const struct plain_reading first = plain_first_reading(frame);
    struct plain_reading reading = reading_after(frame, &first, levels, (uint32_t)draw(seed, frame->jobs));
    uint64_t kind = draw(seed, 8);
    if (kind >= 2) {
        reading.time = draw_near(seed, kind == 2 ? frame->deadline : reading.time);
        reading.energy = draw_near(seed, kind == 3 ? frame->energy_budget : reading.energy);
        reading.temperature = draw_near(seed, kind == 4 ? frame->temperature_limit : reading.temperature);
    }
    if (kind == 5)
        reading.level = (uint32_t)draw(seed, frame->levels);
    if (kind >= 6)
        draw_ends(seed, frame, &reading);
    return reading;
}

// How many bytes stand from a place on before this one, or before the end.
static size_t length_until(const struct sheet *sheet, size_t at, size_t end, uint8_t byte)
{
    size_t length = 0;
    while (at + length < end && sheet->bytes[at + length] != byte)
        length++;
    return length;
}

static size_t count_byte(const struct sheet *sheet, struct span span, uint8_t byte)
{
    size_t count = 0;
    for (size_t i = 0; i < span.length; i++)
        count += sheet->bytes[span.at + i] == byte;
    return count;
}

size_t count_lines(const struct sheet *sheet)
{
    return count_byte(sheet, (struct span){0, sheet->length}, '\n');
}

struct span find_line(const struct sheet *sheet, size_t line)
{
    struct span span = {0, 0};
    for (size_t i = 0; i < line && span.at + span.length < sheet->length; i++) {
        span.at += span.length;
        span.length = length_until(sheet, span.at, sheet->length - 1, '\n') + 1;
    }
    return span;
}

size_t count_fields(const struct sheet *sheet, size_t line)
{
    return count_byte(sheet, find_line(sheet, line), '\t') + 1;
}

struct span find_field(const struct sheet *sheet, size_t line, size_t field)
{
    struct span whole = find_line(sheet, line);
    size_t end = whole.at + length_until(sheet, whole.at, whole.at + whole.length, '\n');
    struct span span = {whole.at, length_until(sheet, whole.at, end, '\t')};
    for (size_t i = 1; i < field && span.at + span.length < end; i++) {
        span.at += span.length + 1;
        span.length = length_until(sheet, span.at, end, '\t');
    }
    return span;
}

void replace(struct sheet *sheet, struct span span, const void *bytes, size_t length)
{
    if (sheet->length - span.length + length > SHEET_ROOM)
        return;
    size_t after = span.at + span.length;
    memmove(sheet->bytes + span.at + length, sheet->bytes + after, sheet->length - after);
    memcpy(sheet->bytes + span.at, bytes, length);
    sheet->length = sheet->length - span.length + length;
}

void set_field(struct sheet *sheet, size_t line, size_t field, const char *value)
{
    replace(sheet, find_field(sheet, line, field), value, strlen(value));
}
