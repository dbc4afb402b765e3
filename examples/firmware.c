/*
 * What a logger's firmware does with a sheet, with every call of the library. At the start of a frame it asks how long a table
 * the sheet needs, plans with the table of its board, and writes the plan as text where the table inside the call is long enough.
 * It also measures what every job at level 0 would leave of the limits; where there is no plan, that may tell which limit is too
 * tight. Then it runs the frame job by job, reads its gauges after each, and plans the jobs still to do afresh. On a logger the
 * sheet comes over the wire and the gauges are read; here both are files, and the jobs are not run. The README has the command
 * that builds it.
 */
#include <begbija.h>
#include <stdio.h>
#include <stdlib.h>

/* The board's table: as long as the longest that begbija_need told for the sheets it was built for. */
enum { TABLE_WORDS = 4000000 };

static uint8_t sheet[BEGBIJA_SHEET_MAX + 1];
static uint32_t table[TABLE_WORDS];
static uint8_t levels[BEGBIJA_JOBS_MAX];
static uint8_t text[BEGBIJA_TEXT_MIN];

/* Where a frame stands: jobs done, the level of the last one, and what the gauges show. */
struct reading {
    uint32_t done, level, time, energy, temperature;
};

static FILE *open_file(const char *path)
{
    FILE *file = fopen(path, "rb");
    if (file == NULL) {
        perror(path);
        exit(2);
    }
    return file;
}

/* A longer sheet is cut one byte beyond the longest that is taken, which is enough for the planner to refuse it. */
static size_t read_sheet(const char *path)
{
    FILE *file = open_file(path);
    size_t size = fread(sheet, 1, sizeof sheet, file);
    fclose(file);
    return size;
}

/* A logger knows its jobs; here they are the lines that start with J. */
static size_t count_jobs(size_t size)
{
    size_t jobs = 0;
    for (size_t i = 1; i < size && jobs < BEGBIJA_JOBS_MAX; i++)
        jobs += sheet[i - 1] == '\n' && sheet[i] == 'J';
    return jobs;
}

/* Whether the board's table is long enough. A refused sheet has no need; begbija_plan tells why. */
static int table_fits(size_t size)
{
    int64_t need = begbija_need(sheet, size);
    if (need > TABLE_WORDS)
        printf("the sheet needs %lld words, the table has %d\n", (long long)need, TABLE_WORDS);
    else if (need > 0)
        printf("the sheet needs %lld words\n", (long long)need);
    return need <= TABLE_WORDS;
}

/* Sets the levels of the frame. */
static int plan(size_t size, size_t jobs)
{
    struct begbija_reply reply;
    if (begbija_plan(sheet, size, table, TABLE_WORDS, levels, sizeof levels, &reply) < 0) {
        printf("refused by %d, line %d, field %d\n", (int)reply.refusal, (int)reply.line, (int)reply.field);
        return 0;
    }
    printf("time %llu, energy %llu, temperature %llu, peak %llu\n", (unsigned long long)reply.time,
           (unsigned long long)reply.energy, (unsigned long long)reply.temperature, (unsigned long long)reply.peak);
    printf("levels");
    for (size_t i = 0; i < jobs; i++)
        printf(" %d", levels[i]);
    printf("\n");
    return 1;
}

/* The plan as text, job by job, for whoever reads the logger's memory; a sheet that needs a longer table has none. */
static void keep_text(size_t size)
{
    int64_t length = begbija_plan_text(sheet, size, text, sizeof text);
    if (length > 0)
        fwrite(text, 1, (size_t)length, stdout);
}

/* What every job at level 0 leaves of the limits. */
static void measure_lowest(size_t size, size_t jobs)
{
    static const uint8_t lowest[BEGBIJA_JOBS_MAX];
    struct begbija_margins margins;
    if (begbija_measure(sheet, size, lowest, jobs, &margins) == 0)
        printf("level 0 leaves time %lld, energy %lld, temperature %lld\n", (long long)margins.time, (long long)margins.energy,
               (long long)margins.temperature);
}

/*
 * Sets the levels of the jobs still to do. Where the call refuses (no plan, or a reading too hot or out of range), it leaves
 * `levels`, whose first is that of the job just done. The next job then runs at level 0, at which this board heats and spends least;
 * the deadline may be missed. After that job there may be a plan again.
 */
static void plan_afresh(size_t size, struct reading now)
{
    struct begbija_reply reply;
    if (begbija_plan_afresh(sheet, size, now.done, now.level, now.time, now.energy, now.temperature, table, TABLE_WORDS, levels,
                            sizeof levels, &reply) < 0) {
        printf("afresh refused by %d, line %d, field %d: level 0 next\n", (int)reply.refusal, (int)reply.line, (int)reply.field);
        levels[0] = 0;
        return;
    }
    printf("afresh time %llu, energy %llu, temperature %llu: level %d next\n", (unsigned long long)reply.time,
           (unsigned long long)reply.energy, (unsigned long long)reply.temperature, levels[0]);
}

/* Runs the next job, at the first of the levels that are planned, and reads the gauges: a line of the file for each job. */
static int run_next(FILE *gauges, struct reading *now)
{
    now->done++;
    now->level = levels[0];
    if (fscanf(gauges, "%u %u %u", &now->time, &now->energy, &now->temperature) != 3)
        return 0;
    printf("job %u at level %u: time %u, energy %u, temperature %u\n", now->done, now->level, now->time, now->energy,
           now->temperature);
    return 1;
}

static void run_frame(const char *path, size_t size, size_t jobs)
{
    FILE *gauges = open_file(path);
    struct reading now = {0, 0, 0, 0, 0};
    while (run_next(gauges, &now) && now.done < jobs)
        plan_afresh(size, now);
    fclose(gauges);
}

int main(int argc, char **argv)
{
    if (argc != 2 && argc != 3) {
        fprintf(stderr, "usage: firmware SHEET [READINGS]\n");
        return 2;
    }
    size_t size = read_sheet(argv[1]), jobs = count_jobs(size);
    int planned = table_fits(size) && plan(size, jobs);
    if (planned)
        keep_text(size);
    measure_lowest(size, jobs);
    if (planned && argc == 3)
        run_frame(argv[2], size, jobs);
    return planned ? 0 : 1;
}
