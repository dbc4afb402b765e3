// Sheets to measure with, drawn from fixed seeds.
#ifndef DRAW_H
#define DRAW_H

#include <stddef.h>
#include <stdint.h>

enum { SHEET_ROOM = 20480 };

// Jobs, levels, and cells of the two axes of the table.
struct shape {
    uint32_t jobs, levels, energy_cells, temperature_cells;
};

// What is read after some jobs.
struct reading {
    uint32_t done, level, time, energy, temperature;
};

struct sheet {
    struct shape shape;
    struct reading half; // after half of the jobs, with half of the energy and a quarter of the time spent
    size_t need;         // words
    size_t length;
    uint8_t bytes[SHEET_ROOM];
};

// A sheet of this shape with figures off the grid of its steps. The limits bite: without them a frame would be faster.
void draw_sheet(struct sheet *sheet, struct shape shape, uint32_t deadline);

// The longest sheet that is read: every number and name at its longest.
void longest_sheet(struct sheet *sheet);

#endif
