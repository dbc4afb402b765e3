/*
 * Begbija: a proved frame planner for borehole loggers.
 *
 * A job sheet comes in as bytes; out comes one voltage level for each job: of the frames that keep a deadline, an energy budget
 * and a temperature limit, energy and temperature rounded up to the sheet's steps before each job, the one of least total time,
 * and among equals the one that has the lower level where they first differ; or a refusal. The README has the sheet's format, and
 * what the steps cost. Link with -lbegbija (libbegbija.a).
 *
 *     begbija_plan_text   plans a sheet and writes the plan as text; the table is inside the call
 *     begbija_plan        plans a sheet with a table that the caller lends: levels, and a reply with their figures
 *     begbija_plan_afresh plans the jobs still to do, from what is read after a job; the caller lends a table here too
 *     begbija_measure     tells what any list of levels leaves of the three limits
 *     begbija_need        tells how many words of table a sheet needs
 *
 * Units: times in microseconds, energies in microjoules, temperatures in hundredths of a kelvin above the rock at the logger.
 * Lengths count elements: bytes of a sheet, a text or a list of levels, words of a table.
 *
 * Every call takes any bytes as a sheet, any figures as readings and memory of any length, and always returns. The calls keep no
 * state, allocate nothing, and call nothing but memcpy and memset. They may run at once, on any number of threads, also on one sheet.
 *
 * What the caller owes, here as for any C function: each pointer is not null, also where the length is 0, and points to that
 * many bytes or words, or to one struct; a table is aligned for uint32_t, a struct for its type; while the call runs, nothing
 * else writes to what is lent, nor reads what the call writes; the memory that is written (text, table, levels but for those of
 * begbija_measure, reply, margins) overlaps nothing else that is lent.
 *
 * What the machine code asks. The archive is for x86-64, with no later extension, and no other processor.
 *
 * - SSE2. Firmware that starts on the bare processor switches SSE on before the first call. No floating-point number is used.
 * - The System V calling convention: its registers, a stack pointer on a multiple of 16 at the call, the direction flag clear.
 * - The red zone. At any moment of a call the 128 bytes below the stack pointer are in use. An interrupt that runs on the same
 *   stack must leave them alone (by a stack of its own, or by starting 128 bytes further down) and hand back every register,
 *   xmm0 to xmm15 too. Where it does not, figures change under the planner, and sound sheets are refused.
 * - memcpy and memset as C defines them, from the caller's C library or firmware.
 * - Room for code and stack, by the figures below. The code is position-independent and has no writable data.
 */
#ifndef BEGBIJA_H
#define BEGBIJA_H

#include <stddef.h>
#include <stdint.h>

#ifdef __cplusplus
extern "C" {
#endif

/*
 * The version of this interface, as one number to compare with: 1.2.3 would be 10203. From 2.0.0 on an exact half of a steady-state
 * temperature goes to the even number; before, it went upwards.
 */
#define BEGBIJA_VERSION_MAJOR 2
#define BEGBIJA_VERSION_MINOR 0
#define BEGBIJA_VERSION_PATCH 0
#define BEGBIJA_VERSION (BEGBIJA_VERSION_MAJOR * 10000 + BEGBIJA_VERSION_MINOR * 100 + BEGBIJA_VERSION_PATCH)

/* The limits of a sheet: bytes, jobs, voltage levels. */
#define BEGBIJA_SHEET_MAX 20480
#define BEGBIJA_JOBS_MAX 64
#define BEGBIJA_LEVELS_MAX 8

/* The least part for plan text, in bytes; every plan's text fits it. */
#define BEGBIJA_TEXT_MIN 4096

/* Words of the table that begbija_plan_text has inside, and of the largest table that a sheet may need (16 MiB). */
#define BEGBIJA_TABLE_INSIDE 16384
#define BEGBIJA_TABLE_MAX 4194304

/* A word of a filled table that stands for: no way. */
#define BEGBIJA_NO_WAY 4294967295u

/* The most bytes of code, constants included: what `size` calls text, of the whole archive. */
#define BEGBIJA_CODE_BYTES 24576

/*
 * The most bytes of stack that a call takes. They are measured, on sheets of every kind, by running a call on a stack that is
 * filled with a pattern, and rounded up. memcpy and memset are glibc's there, which take next to nothing; what others take comes
 * on top.
 */
#define BEGBIJA_PLAN_TEXT_STACK 90112 /* 65,536 of them are the table */
#define BEGBIJA_PLAN_STACK 21504
#define BEGBIJA_PLAN_AFRESH_STACK 21504
#define BEGBIJA_MEASURE_STACK 8704
#define BEGBIJA_NEED_STACK 8704

/*
 * What comes on top on Linux where the link binds lazily, that is, without -Wl,-z,now: the first time that memcpy or memset is
 * called, the dynamic linker looks it up on the caller's stack and saves the vector registers there. Under 2,700 bytes with glibc
 * 2.36 on a processor with AVX-512, as measured, and rounded up here. Static links and bare metal have none of it.
 */
#define BEGBIJA_LAZY_STACK 4096

/*
 * The refusals: what is wrong and, in brackets, the line and the field that are told with the number. Lines and fields count from
 * 1, a line's letter being field 1. The first that is met is told: 1; then line by line 2, and in a line field by field 3 and 4;
 * 5 at the end of line 2; then 6; then, in planning, 7 to 10, in planning afresh 7, 8, 9, 13, 14, 5 by what is read, and 10, and
 * in measuring 11 and 12.
 */
enum begbija_refusal {
    BEGBIJA_SHEET_TOO_LONG = 1,  /* sheet over BEGBIJA_SHEET_MAX bytes (0, 0) */
    BEGBIJA_LINE = 2,            /* line missing, wrong letter or wrong number of fields (line, 0) */
    BEGBIJA_FORM = 3,            /* a number or a job's name is not of the written form (line, field) */
    BEGBIJA_RANGE = 4,           /* a number is out of its range (line, field) */
    BEGBIJA_HOT_START = 5,       /* start temperature (2, 8) or temperature read (0, 0) above the temperature limit */
    BEGBIJA_TRAILING = 6,        /* bytes after the last line (the number of the line after it, 0) */
    BEGBIJA_TABLE_TOO_LARGE = 7, /* the sheet needs more than BEGBIJA_TABLE_MAX words: its steps are too fine (0, 0) */
    BEGBIJA_TABLE_TOO_SHORT = 8, /* the sheet needs more words than the table has (0, 0) */
    BEGBIJA_PART_TOO_SHORT = 9,  /* levels under one byte for each job to do, or text under BEGBIJA_TEXT_MIN bytes (0, 0) */
    BEGBIJA_NO_PLAN = 10,        /* no list of levels, rounded up to the steps, keeps the limits (0, 0) */
    BEGBIJA_LIST_LENGTH = 11,    /* measuring: the list is not as long as there are jobs (0, 0) */
    BEGBIJA_LIST_LEVEL = 12,     /* measuring: a level that the sheet does not have (0, its first place in the list, from 0) */
    BEGBIJA_JOBS_DONE = 13,      /* planning afresh: all jobs of the sheet are done, or more (0, 0) */
    BEGBIJA_READING = 14         /* planning afresh: level, time, energy or temperature read is out of its range (0, 0) */
};

/*
 * What begbija_plan and begbija_plan_afresh answer. Time, energy and final temperature are those of the frame as it will run,
 * without rounding. A frame planned afresh runs from what is read: time and energy count on from there, and the peak is that of
 * the jobs still to do.
 */
struct begbija_reply {
    uint64_t refusal;     /* 0 for a plan, or one of begbija_refusal */
    uint64_t line;        /* line and */
    uint64_t field;       /* field of the refusal; 0 for a plan */
    uint64_t time;        /* total time; this and all below are 0 for a refusal */
    uint64_t energy;      /* total energy */
    uint64_t temperature; /* temperature at the end of the last job */
    uint64_t peak;        /* at least the highest temperature at the end of a job, and at most the temperature limit */
};

/* What begbija_measure answers. A margin below 0 is a broken limit; one of 0 is met. */
struct begbija_margins {
    int64_t refusal;     /* 0 for margins, or one of begbija_refusal */
    int64_t line;        /* line and */
    int64_t field;       /* field of the refusal (for BEGBIJA_LIST_LEVEL the place in the list); 0 for margins */
    int64_t time;        /* deadline less total time; this and all below are 0 for a refusal */
    int64_t energy;      /* energy budget less total energy */
    int64_t temperature; /* temperature limit less the highest temperature at the end of a job */
};

/*
 * Plans a sheet and writes the plan as text: a line `P` with the number of jobs, time, energy and final temperature, and for each
 * job a line `Q` with its name, its level, and time, energy and temperature after it. Fields are parted by tabs, lines end with
 * a newline; there is no byte 0 at the end. The program `plan` prints the same.
 *
 * Returns the number of bytes written to the start of `text`, 1 to BEGBIJA_TEXT_MIN, or minus a refusal, 1 to 10, whose line and
 * field are begbija_plan's to tell. Bytes of `text` beyond those written stay as they were; a refusal leaves all of them.
 *
 * The table is inside: a sheet that needs more than BEGBIJA_TABLE_INSIDE words is refused by 8.
 */
int64_t begbija_plan_text(const uint8_t *sheet, size_t sheet_len, uint8_t *text, size_t text_len);

/*
 * Plans a sheet with a table that the caller lends. What table and levels hold before does not matter.
 *
 * Returns 0 for a plan: one level for each job, in order, at the start of `levels`, nothing beyond. Otherwise returns minus a
 * refusal, 1 to 10, and leaves `levels` as it was. Every return writes all seven figures of `reply`.
 *
 * A plan and BEGBIJA_NO_PLAN write as many words as the sheet needs to the start of `table`, nothing beyond. With the letters of
 * begbija_need, word ((i * l + p) * A + a) * B + b is the least time in which the jobs from i on (from 0) can be done within W
 * and C by the rounded rule, whatever the deadline, from level p, energy a * g and temperature b * h, or BEGBIJA_NO_WAY. Every
 * other refusal leaves `table` as it was.
 */
int64_t begbija_plan(const uint8_t *sheet, size_t sheet_len, uint32_t *table, size_t table_len, uint8_t *levels,
                     size_t levels_len, struct begbija_reply *reply);

/*
 * Plans the jobs still to do of a frame, from what is read once `done` jobs are done: the present level (one of the sheet), the
 * time since the frame's start and the energy spent since then (each at most 2,000,000,000), and the temperature (at most
 * 20,000). The limits are the sheet's, for the whole frame. Energy and temperature read are rounded up to the steps before the
 * next job, as between any two jobs. With `done` 0 this plans a frame that starts otherwise than its sheet says. The planner takes
 * the figures as they are: round what the gauges show up to whole units, give 0 for a temperature below the rock, and for `time`
 * the moment at which the next job will start, as this call takes as long as begbija_plan.
 *
 * Returns 0 for a plan: one level for each job still to do, in order, at the start of `levels`, nothing beyond; levels[0] is that
 * of the next job. Otherwise returns minus a refusal, 1 to 10, 13 or 14, and leaves `levels` as it was. Every return writes all
 * seven figures of `reply`. What table and levels hold before does not matter.
 *
 * A plan and BEGBIJA_NO_PLAN fill `table` as begbija_plan does, for all jobs, whatever is done; every other refusal leaves it as
 * it was. Where the time read is past the deadline or the energy read past the energy budget, the answer is BEGBIJA_NO_PLAN.
 *
 * A plan that is kept is not lost. If the jobs done since begbija_plan or an earlier call of this kind ran at the levels of its
 * plan (`level` is the last one's, or as before where no job was done since), time, energy and temperature read are at most those
 * that this plan has there, run without rounding, and what is lent is long enough, then there is a plan, and it ends no later.
 * With a reading one unit above, the answer may be BEGBIJA_NO_PLAN. For any reading, with r jobs still to do and the letters of
 * begbija_need: no list of levels that keeps the deadline, W - r * (g - 1) and C - r * (h - 1) from there on ends sooner than the
 * plan, and where there is no plan, no list keeps these (a figure below 0 is kept by none).
 */
int64_t begbija_plan_afresh(const uint8_t *sheet, size_t sheet_len, uint32_t done, uint32_t level, uint32_t time,
                            uint32_t energy, uint32_t temperature, uint32_t *table, size_t table_len, uint8_t *levels,
                            size_t levels_len, struct begbija_reply *reply);

/*
 * Runs a list of levels, one for each job, without rounding, and tells what it leaves of the sheet's limits. It has no table: a
 * sheet that needs too many words for begbija_plan is measured all the same.
 *
 * Returns 0, or minus a refusal: 1 to 6 of the sheet, then 11, then 12. Every return writes all six figures of `margins`.
 */
int64_t begbija_measure(const uint8_t *sheet, size_t sheet_len, const uint8_t *levels, size_t levels_len,
                        struct begbija_margins *margins);

/*
 * Returns how many words of table a sheet needs, also where they are more than BEGBIJA_TABLE_MAX (below 2^55), or minus a refusal
 * of the sheet, 1 to 6. Up to BEGBIJA_TABLE_MAX, a table of as many words is not refused by 8, and one of a word less is.
 *
 * For m jobs and l levels, energy budget W with step g, temperature limit C with step h, let A = W / g rounded up, plus 1, and
 * B = C / h rounded up, plus 1: a sheet needs m * l * A * B words. So a board for known sheets has a table of the largest of
 * their needs, and one for every sheet that can be planned has BEGBIJA_TABLE_MAX words. A board with less asks here before it
 * plans, and where its table is too short has the sheet written with larger steps.
 */
int64_t begbija_need(const uint8_t *sheet, size_t sheet_len);

#ifdef __cplusplus
}
#endif

#endif
