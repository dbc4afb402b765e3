#include "draw.h"

#include <stdio.h>
#include <string.h>

enum { RESISTANCE = 2000 };

#define FRAME_LIMIT_MAX 2000000000u

// The generator splitmix64.
static uint32_t draw(uint64_t *seed, uint32_t below)
{
    uint64_t x = *seed += 0x9E3779B97F4A7C15u;
    x = (x ^ x >> 30) * 0xBF58476D1CE4E5B9u;
    x = (x ^ x >> 27) * 0x94D049BB133111EBu;
    return (uint32_t)((x ^ x >> 31) % below);
}

static void add_line(struct sheet *sheet, char letter, const uint32_t *numbers, size_t count)
{
    char *at = (char *)sheet->bytes + sheet->length;
    *at++ = letter;
    for (size_t i = 0; i < count; i++)
        at += sprintf(at, "\t%u", numbers[i]);
    *at++ = '\n';
    sheet->length = (size_t)(at - (char *)sheet->bytes);
}

static void add_name(struct sheet *sheet, const char *format, uint32_t number)
{
    sheet->length += (size_t)sprintf((char *)sheet->bytes + sheet->length, format, number);
}

// A range of so many cells: its step, and the limit, a little below the last cell or, for some, at it.
struct axis {
    uint32_t step, limit;
};

static struct axis energy_axis(uint32_t cells)
{
    const uint32_t step = 1237;
    return (struct axis){step, (cells - 1) * step - (cells % 2 == 0 ? step / 3 : 0)};
}

static struct axis temperature_axis(uint32_t cells)
{
    const uint32_t step = cells < 9001 ? 9000 / (cells - 1) : 1;
    return (struct axis){step, (cells - 1) * step - step / 64 - (step > 1)};
}

static void add_head(struct sheet *sheet, uint32_t deadline, struct axis energy, struct axis temperature)
{
    const struct shape *shape = &sheet->shape;
    const uint32_t head[] = {
        shape->jobs, shape->levels, shape->levels / 3, deadline, energy.limit, temperature.limit, temperature.limit / 5,
        RESISTANCE, energy.step, temperature.step,
    };
    sheet->half = (struct reading){shape->jobs / 2, shape->levels / 3, deadline / 4, energy.limit / 2, temperature.limit / 2};
    add_line(sheet, 'V', (uint32_t[]){1}, 1);
    add_line(sheet, 'H', head, 10);
}

// Steady states from 0.4 to 1.5 of the temperature limit: the higher levels are too hot to stay at.
static void add_levels(struct sheet *sheet, uint32_t temperature_limit)
{
    for (uint32_t level = 0; level < sheet->shape.levels; level++) {
        uint32_t steady_state = temperature_limit * (40 + 110 * level / sheet->shape.levels) / 100;
        add_line(sheet, 'L', (uint32_t[]){steady_state * (10000 / RESISTANCE)}, 1);
    }
}

static void add_changes(struct sheet *sheet, uint64_t *seed, uint32_t share)
{
    for (uint32_t left = 0; left < sheet->shape.levels; left++)
        for (uint32_t entered = 0; entered < sheet->shape.levels; entered++) {
            uint32_t change[] = {40 + draw(seed, 2000), 1 + draw(seed, share / 4 + 1)};
            if (left == entered)
                change[0] = change[1] = 0;
            add_line(sheet, 'S', change, 2);
        }
}

// A higher level is faster and takes more energy, around the job's share of the budget. A job that uses energy moves at least
// one energy cell, so on a short axis not every job may use some at the lowest level.
static void add_job(struct sheet *sheet, uint64_t *seed, uint32_t i, uint32_t share)
{
    const struct shape *shape = &sheet->shape;
    uint32_t users = (shape->energy_cells - 1) * 2 / 3;
    uint32_t time = 4000 + draw(seed, 400000), energy = share * (60 + draw(seed, 80)) / 100;
    int idle = users < shape->jobs && (i + 1) * users / shape->jobs == i * users / shape->jobs;
    add_name(sheet, "J\tjob-%u\n", i);
    for (uint32_t level = 0; level < shape->levels; level++) {
        const uint32_t job[] = {
            time * 10 / (10 + 10 * level / shape->levels) + draw(seed, 500),
            level == 0 && idle ? 0 : energy * (35 + 90 * level / shape->levels) / 100 + draw(seed, 40),
            6000 + draw(seed, 56000),
        };
        add_line(sheet, 'B', job, 3);
    }
}

void draw_sheet(struct sheet *sheet, struct shape shape, uint32_t deadline)
{
    uint64_t seed = shape.jobs * shape.levels + shape.energy_cells;
    struct axis energy = energy_axis(shape.energy_cells), temperature = temperature_axis(shape.temperature_cells);
    uint32_t share = energy.limit / shape.jobs;
    sheet->shape = shape;
    sheet->need = (size_t)shape.jobs * shape.levels * shape.energy_cells * shape.temperature_cells;
    sheet->length = 0;
    add_head(sheet, deadline, energy, temperature);
    add_levels(sheet, temperature.limit);
    add_changes(sheet, &seed, share);
    for (uint32_t i = 0; i < shape.jobs; i++)
        add_job(sheet, &seed, i, share);
}

void longest_sheet(struct sheet *sheet)
{
    const uint32_t most = 10000000;
    sheet->shape = (struct shape){64, 8, 2, 2};
    sheet->need = 64 * 8 * 2 * 2;
    sheet->length = 0;
    add_head(sheet, FRAME_LIMIT_MAX, (struct axis){FRAME_LIMIT_MAX, FRAME_LIMIT_MAX}, (struct axis){20000, 20000});
    for (uint32_t level = 0; level < 8; level++)
        add_line(sheet, 'L', (uint32_t[]){100000}, 1);
    for (uint32_t change = 0; change < 64; change++)
        add_line(sheet, 'S', change % 9 == 0 ? (uint32_t[]){0, 0} : (uint32_t[]){most, most}, 2);
    for (uint32_t i = 0; i < 64; i++) {
        add_name(sheet, "J\tlongest-name-%03u\n", i);
        for (uint32_t level = 0; level < 8; level++)
            add_line(sheet, 'B', (uint32_t[]){most, most, 65536}, 3);
    }
}
