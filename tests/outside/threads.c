// All five calls on four threads at once, on the same sheets, each with memory of its own: every answer has to be the one that a
// single thread got before.
#define _POSIX_C_SOURCE 200809L

#include "calls.h"
#include "groups.h"
#include "sheets.h"

#include <begbija.h>

#include <pthread.h>
#include <string.h>

enum { THREADS = 4, SHEETS = 40, ROUNDS = 50 };

// What a planning call gives.
struct planned {
    int64_t result;
    struct begbija_reply reply;
    uint8_t levels[JOBS_MAX];
    uint32_t table[PLAN_TABLE_WORDS];
};

// What the calls give for a sheet; written whole, so that it can be compared byte by byte.
struct results {
    int64_t text, measured, need;
    struct planned plan, afresh;
    struct begbija_margins margins;
    uint8_t written[TEXT_BYTES_MIN];
};

static struct sheet sheets[SHEETS];
static size_t jobs[SHEETS]; // as many levels are measured, and after half of them it is planned afresh
static struct results alone[SHEETS], together[THREADS];
static pthread_barrier_t start;

// Makes every call on a sheet.
static void make_calls(size_t number, struct results *results)
{
    static const uint8_t list[JOBS_MAX];
    const struct sheet *sheet = &sheets[number];
    struct planned *plan = &results->plan, *afresh = &results->afresh;
    memset(results, FILL, sizeof *results);
    results->text = begbija_plan_text(sheet->bytes, sheet->length, results->written, sizeof results->written);
    plan->result = begbija_plan(sheet->bytes, sheet->length, plan->table, PLAN_TABLE_WORDS, plan->levels, JOBS_MAX,
                                &plan->reply);
    afresh->result = begbija_plan_afresh(sheet->bytes, sheet->length, (uint32_t)jobs[number] / 2, 0, 0, 0, 0, afresh->table,
                                         PLAN_TABLE_WORDS, afresh->levels, JOBS_MAX, &afresh->reply);
    results->measured = begbija_measure(sheet->bytes, sheet->length, list, jobs[number], &results->margins);
    results->need = begbija_need(sheet->bytes, sheet->length);
}

// Goes through all sheets again and again from a place of its own; the first sheet that is answered otherwise, or NULL.
static void *run_thread(void *results)
{
    size_t first = (size_t)((struct results *)results - together) * SHEETS / THREADS;
    pthread_barrier_wait(&start);
    for (size_t i = 0; i < ROUNDS * SHEETS; i++) {
        size_t number = (first + i) % SHEETS;
        make_calls(number, results);
        if (memcmp(results, &alone[number], sizeof *alone) != 0)
            return &sheets[number];
    }
    return NULL;
}

// Drawn sheets, every fifth of them cut; the plain planner says what a single thread has to get.
static void draw_sheets(void)
{
    static struct plain_frame frame;
    uint64_t seed = 7;
    for (size_t i = 0; i < SHEETS; i++) {
        draw_frame(&seed, i % 2 == 0 ? 4 : 12, 4, PLAN_TABLE_WORDS, &frame);
        write_sheet(&sheets[i], &frame);
        set_name(&sheets[i], "drawn sheet %zu", i);
        if (i % 5 == 4)
            sheets[i].length -= sheets[i].length / 3;
        jobs[i] = frame.jobs;
        check_sheet(&sheets[i]);
        make_calls(i, &alone[i]);
    }
}

void test_threads(const char *top)
{
    (void)top;
    pthread_t threads[THREADS];
    draw_sheets();
    pthread_barrier_init(&start, NULL, THREADS);
    for (size_t i = 0; i < THREADS; i++)
        check(pthread_create(&threads[i], NULL, run_thread, &together[i]) == 0, "thread %zu is not started", i);
    for (size_t i = 0; i < THREADS; i++) {
        void *other;
        pthread_join(threads[i], &other);
        if (other != NULL)
            lend_sheet(other);
        check(other == NULL, "thread %zu gets another answer than a single thread", i);
    }
    pthread_barrier_destroy(&start);
    check_answered(0, 5);
    check_answered(2, 5);
    check_answered(NO_PLAN, 5);
}
