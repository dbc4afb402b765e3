// `bench RESULTS` compares the programs, then measures them and writes the results. `bench count PROGRAM CALL SHAPE`, all three
// numbers from 0, makes one call, whose instructions bench/run counts, and prints a line of results without its value.
#include "bench.h"

#include <stdlib.h>
#include <string.h>

uint32_t bench_table[TABLE_ROOM];

const struct shape bench_shapes[SHAPES] = {
    {32, 4, 64, 2},   {16, 8, 32, 4},   {16, 8, 16, 8},
    {64, 8, 128, 64}, {8, 8, 256, 256}, {8, 8, 2048, 32}, {8, 8, 32, 2048},
};

void write_place(FILE *results, const char *table, const struct sheet *sheet, const struct program *program,
                 const char *figure)
{
    const struct shape *shape = &sheet->shape;
    fprintf(results, "%s,%u,%u,%u,%u,%zu,%zu,%s,%s", table, shape->jobs, shape->levels, shape->energy_cells,
            shape->temperature_cells, sheet->need, sheet->length, program->name, figure);
}

void write_result(FILE *results, const char *table, const struct sheet *sheet, const struct program *program,
                  const char *figure, double value)
{
    write_place(results, table, sheet, program, figure);
    fprintf(results, ",%.1f\n", value);
}

static int count(const struct program *program, enum call call, size_t shape)
{
    static struct sheet sheet;
    if (shape < SHAPES)
        make_sheet(&sheet, bench_shapes[shape]);
    else
        longest_sheet(&sheet);
    make_call(program, call, &sheet);
    write_place(stdout, "instructions", &sheet, program, call_names[call]);
    return 0;
}

static int measure(const char *path)
{
    FILE *results = fopen(path, "w");
    if (results == NULL) {
        perror(path);
        return 1;
    }
    fprintf(results, "table,jobs,levels,energy_cells,temperature_cells,words,bytes,program,figure,value\n");
    compare_all();
    puts("all programs answer alike");
    time_sheets(results);
    time_afresh(results);
    time_growth(results);
    measure_stack(results);
    return fclose(results) == 0 ? 0 : 1;
}

int main(int argc, char **argv)
{
    if (argc == 2)
        return measure(argv[1]);
    if (argc == 5 && strcmp(argv[1], "count") == 0)
        return count(&programs[atoi(argv[2]) % PROGRAMS], (enum call)(atoi(argv[3]) % CALLS), (size_t)atoi(argv[4]));
    fprintf(stderr, "usage: bench RESULTS | bench count PROGRAM CALL SHAPE\n");
    return 2;
}
