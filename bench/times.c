// Times, interleaved: in each round every program makes every call, and the medians of the rounds are kept.
#define _POSIX_C_SOURCE 200809L
#include "bench.h"

#include <stdlib.h>
#include <time.h>

enum {
    ROUNDS_MAX = 101,
    ROUNDS_LARGE = 21,        // for a need above SMALL_NEED
    SMALL_NEED = 100000,      // words
    SAMPLE_NANOSECONDS = 1000000,
    GROWTH_WORDS = 1000000    // for growth with the number of levels
};

const char *const call_names[CALLS] = {"whole", "reader", "text", "afresh"};

struct samples {
    size_t calls; // in one sample, so that it is long enough to be timed
    double nanoseconds[ROUNDS_MAX];
};

static uint8_t levels[LEVELS_ROOM], text[TEXT_BYTES];
static struct begbija_reply reply;

// Processor time, so that other work on the machine counts as little as it can.
static double now(void)
{
    struct timespec time;
    clock_gettime(CLOCK_PROCESS_CPUTIME_ID, &time);
    return (double)time.tv_sec * 1e9 + (double)time.tv_nsec;
}

void make_call(const struct program *program, enum call call, const struct sheet *sheet)
{
    const struct reading *half = &sheet->half;
    if (call == TEXT)
        program->text(sheet->bytes, sheet->length, text, TEXT_BYTES);
    else if (call == AFRESH)
        program->afresh(sheet->bytes, sheet->length, half->done, half->level, half->time, half->energy, half->temperature,
                        bench_table, sheet->need, levels, sizeof levels, &reply);
    else
        program->plan(sheet->bytes, sheet->length, bench_table, sheet->need - (call == READER), levels, sizeof levels, &reply);
}

static double sample(const struct program *program, enum call call, const struct sheet *sheet, size_t calls)
{
    double start = now();
    for (size_t i = 0; i < calls; i++)
        make_call(program, call, sheet);
    return (now() - start) / (double)calls;
}

// The first call also warms the memory up.
static size_t calls_in_sample(const struct program *program, enum call call, const struct sheet *sheet)
{
    sample(program, call, sheet, 1);
    double once = sample(program, call, sheet, 1);
    return 1 + (size_t)(SAMPLE_NANOSECONDS / once);
}

static int compare_times(const void *one, const void *other)
{
    double a = *(const double *)one, b = *(const double *)other;
    return (a > b) - (a < b);
}

static double median(double *times, size_t count)
{
    qsort(times, count, sizeof *times, compare_times);
    return times[count / 2];
}

static void write_times(FILE *results, const char *table, const struct sheet *sheet, struct samples samples[PROGRAMS][CALLS],
                        size_t calls, size_t rounds)
{
    for (size_t p = 0; p < PROGRAMS; p++) {
        double fill[ROUNDS_MAX];
        for (size_t i = 0; i < rounds; i++)
            fill[i] = samples[p][WHOLE].nanoseconds[i] - samples[p][READER].nanoseconds[i];
        write_result(results, table, sheet, &programs[p], "fill", median(fill, rounds));
        for (size_t call = 0; call < calls; call++)
            write_result(results, table, sheet, &programs[p], call_names[call],
                         median(samples[p][call].nanoseconds, rounds));
    }
}

// Samples of the calls from `first` to before `end`; returns the number of rounds.
static size_t take_samples(struct samples samples[PROGRAMS][CALLS], const struct sheet *sheet, enum call first, enum call end)
{
    const size_t rounds = sheet->need > SMALL_NEED ? ROUNDS_LARGE : ROUNDS_MAX;
    for (size_t p = 0; p < PROGRAMS; p++)
        for (enum call call = first; call < end; call++)
            samples[p][call].calls = calls_in_sample(&programs[p], call, sheet);
    for (size_t i = 0; i < rounds; i++)
        for (size_t p = 0; p < PROGRAMS; p++)
            for (enum call call = first; call < end; call++)
                samples[p][call].nanoseconds[i] = sample(&programs[p], call, sheet, samples[p][call].calls);
    return rounds;
}

static void time_sheet(FILE *results, const char *table, const struct sheet *sheet)
{
    static struct samples samples[PROGRAMS][CALLS];
    const enum call end = sheet->need > INSIDE ? TEXT : TEXT + 1;
    write_times(results, table, sheet, samples, end, take_samples(samples, sheet, WHOLE, end));
}

static void time_shape(FILE *results, const char *table, struct shape shape)
{
    static struct sheet sheet;
    make_sheet(&sheet, shape);
    compare_sheet(&sheet);
    time_sheet(results, table, &sheet);
}

void time_sheets(FILE *results)
{
    static struct sheet longest;
    for (size_t i = 0; i < SHAPES; i++)
        time_shape(results, i < LOGGER_SHAPES ? "logger" : "full", bench_shapes[i]);
    longest_sheet(&longest);
    time_sheet(results, "longest", &longest);
}

// Planning afresh fills the whole table, as a plan from the start does, so that one sheet is enough.
void time_afresh(FILE *results)
{
    static struct sheet sheet;
    static struct samples samples[PROGRAMS][CALLS];
    make_sheet(&sheet, bench_shapes[AFRESH_SHAPE]);
    const size_t rounds = take_samples(samples, &sheet, AFRESH, CALLS);
    if (reply.refusal != 0) {
        fprintf(stderr, "bench: the sheet that is planned afresh has no plan\n");
        exit(1);
    }
    for (size_t p = 0; p < PROGRAMS; p++)
        write_result(results, "full", &sheet, &programs[p], call_names[AFRESH],
                     median(samples[p][AFRESH].nanoseconds, rounds));
}

// The greatest square table of so many words.
static uint32_t square_cells(uint32_t jobs, uint32_t levels, uint32_t words)
{
    uint32_t cells = 2;
    while ((cells + 1) * (cells + 1) * jobs * levels <= words)
        cells++;
    return cells;
}

void time_growth(FILE *results)
{
    const uint32_t jobs = 8;
    for (uint32_t cells = 4; cells <= 256; cells *= 2)
        time_shape(results, "words", (struct shape){jobs, 8, cells, cells});
    for (uint32_t l = 1; l <= 8; l++) {
        uint32_t cells = square_cells(jobs, l, GROWTH_WORDS);
        time_shape(results, "levels", (struct shape){jobs, l, cells, cells});
    }
}
