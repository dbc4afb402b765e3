// A plain planner straight from document 01 and the change requests. It shares no code with the library, which the tests hold to
// it and the benchmark measures beside it.
#ifndef PLAIN_H
#define PLAIN_H

#include <stdbool.h>
#include <stddef.h>
#include <stdint.h>

enum {
    SHEET_BYTES_MAX = 20480,
    JOBS_MAX = 64,
    LEVELS_MAX = 8,
    NAME_BYTES_MAX = 16,
    DECAY_MAX = 65536, // leaves the temperature where it was
    TABLE_WORDS_MAX = 4194304,
    PLAN_TABLE_WORDS = 16384, // the table of the logger's call and of `plan`
    TEXT_BYTES_MIN = 4096     // a shorter part for text is refused; every plan's text fits it
};

#define FRAME_LIMIT_MAX 2000000000u // deadline, energy budget, energy step, time and energy read
#define TEMPERATURE_MAX 20000u
#define POWER_MAX 100000u
#define STEADY_STATE_UNIT 10000u // power times resistance, for a steady state of 1
#define NO_WAY UINT32_MAX // a table's word where no way exists

struct plain_refusal {
    unsigned number, line, field;
};

struct plain_change {
    uint32_t time, energy;
};

struct plain_job {
    uint32_t time, energy, decay;
};

// The figures of a sheet.
struct plain_frame {
    uint32_t jobs, levels, start_level;
    uint32_t deadline;
    uint32_t energy_budget;     // ration
    uint32_t temperature_limit; // ceiling
    uint32_t start_temperature, resistance;
    uint32_t energy_step;      // energy grain
    uint32_t temperature_step; // temperature grain
    uint32_t power[LEVELS_MAX];
    uint32_t steady_state[LEVELS_MAX]; // steady rise
    struct plain_change change[LEVELS_MAX][LEVELS_MAX]; // by level left, then level entered
    char name[JOBS_MAX][NAME_BYTES_MAX + 1];
    struct plain_job job[JOBS_MAX][LEVELS_MAX];
};

// What is read after so many jobs: the present level, the elapsed time, the energy spent and the temperature.
struct plain_reading {
    uint32_t done, level, time, energy, temperature;
};

// A run without steps to the frame's end: how it ends, and the highest temperature at the end of a job that it ran.
struct plain_total {
    uint32_t time, energy, temperature, highest;
};

// What is answered to a sheet. Refused by 1 to 6, it has no figures and a need of 0; refused at all, no levels and no total.
struct plain_answer {
    struct plain_refusal refusal; // all 0 for a plan
    struct plain_frame frame;
    uint64_t need;
    uint32_t left; // jobs still to do, and levels of a plan
    uint8_t levels[JOBS_MAX];
    struct plain_total total;
};

// What a call lends: a table, and a part for levels, or for text.
struct plain_lent {
    uint32_t *table;
    size_t words, bytes;
    bool text;
};

// What a list of levels leaves of the limits; all 0 for a refusal.
struct plain_margins {
    struct plain_refusal refusal;
    int64_t time, energy, temperature;
};

// The refusal of 1 to 6, or 0 and the figures.
struct plain_refusal plain_read(const uint8_t *sheet, size_t length, struct plain_frame *frame);

// Answers a sheet. The table is filled for a plan and for 10, else left alone; the part is not written to.
void plain_plan(const uint8_t *sheet, size_t length, const struct plain_lent *lent, struct plain_answer *answer);

// Answers a sheet for the jobs still to do, from what is read after the others. The table is filled whole, for the same answers.
void plain_plan_afresh(const uint8_t *sheet, size_t length, const struct plain_reading *reading, const struct plain_lent *lent,
                       struct plain_answer *answer);

// Whether the answered sheet itself is refused, by 1 to 6.
bool plain_refused(const struct plain_answer *answer);

// The refusal where the answered sheet is lent other memory; the answer's own table has to have as many words or more.
struct plain_refusal plain_refusal_with(const struct plain_answer *answer, const struct plain_lent *lent);

// Runs the jobs still to do, one level for each.
struct plain_total plain_run(const struct plain_frame *frame, const struct plain_reading *from, const uint8_t *levels);

// Measures a list of so many levels on the answered sheet.
struct plain_margins plain_measure(const struct plain_answer *answer, const uint8_t *levels, size_t count);

// Writes what the program `plan` prints for an answer, and returns its length, TEXT_BYTES_MIN at most.
size_t plain_print(const struct plain_answer *answer, char *text);

#endif
