// How much stack the calls take: all of the library's, and two of each C planner.
#include "../tests/outside/painted.h"
#include "bench.h"

static const char *const figures[LIBRARY_CALLS] = {"text", "plan", "measure", "need", "afresh"};

// The most of each call; of a C planner, of the first two.
typedef size_t most_of[PROGRAMS][LIBRARY_CALLS];

// What is run on the painted stack, which hands over no pointers.
static const struct sheet *current;
static const struct program *running;

// A C planner's text.
static void run_text(void)
{
    static uint8_t text[TEXT_BYTES];
    running->text(current->bytes, current->length, text, TEXT_BYTES);
}

// A C planner's plan with a lent table.
static void run_plan(void)
{
    static uint8_t levels[LEVELS_ROOM];
    static struct begbija_reply reply;
    running->plan(current->bytes, current->length, bench_table, TABLE_ROOM, levels, sizeof levels, &reply);
}

// Empty calls, whose stack is taken off.
static int64_t plan_nothing(const uint8_t *sheet, size_t sheet_len, uint32_t *table, size_t table_len, uint8_t *levels,
                            size_t levels_len, struct begbija_reply *reply)
{
    (void)sheet, (void)sheet_len, (void)table, (void)table_len, (void)levels, (void)levels_len, (void)reply;
    return 0;
}

static int64_t write_nothing(const uint8_t *sheet, size_t sheet_len, uint8_t *text, size_t text_len)
{
    (void)sheet, (void)sheet_len, (void)text, (void)text_len;
    return 0;
}

// The stack of a call on the current sheet.
static size_t stack_of(size_t program, enum library_call call)
{
    static const struct program nothing = {"nothing", plan_nothing, write_nothing, NULL};
    void (*run)(void) = call == LIBRARY_PLAN_TEXT ? run_text : run_plan;
    if (program == LIBRARY)
        return library_stack(call, current->bytes, current->length, current->shape.jobs);
    running = &nothing;
    size_t least = painted_stack(run);
    running = &programs[program];
    return painted_stack(run) - least;
}

// Every call of every program, and the most of each.
static void try_sheet(const struct sheet *sheet, most_of most)
{
    current = sheet;
    for (size_t p = 0; p < PROGRAMS; p++)
        for (enum library_call call = 0; call < (p == LIBRARY ? LIBRARY_CALLS : LIBRARY_MEASURE); call++) {
            size_t bytes = stack_of(p, call);
            most[p][call] = bytes > most[p][call] ? bytes : most[p][call];
        }
}

// A sheet cut after each of its bytes, refused by 2, and with each byte changed, refused by 2, 3, 4 or 7, or planned.
static void try_refused(struct sheet *sheet, most_of most)
{
    const size_t length = sheet->length;
    for (size_t at = 0; at < length; at++) {
        sheet->length = at;
        try_sheet(sheet, most);
        sheet->length = length;
        uint8_t byte = sheet->bytes[at];
        sheet->bytes[at] = '9';
        try_sheet(sheet, most);
        sheet->bytes[at] = byte;
    }
}

void measure_stack(FILE *results)
{
    static struct sheet sheet;
    most_of most = {{0}};
    for (size_t i = 0; i < SHAPES; i++) {
        make_sheet(&sheet, bench_shapes[i]);
        try_sheet(&sheet, most);
    }
    longest_sheet(&sheet);
    try_sheet(&sheet, most);
    sheet.length = 20480;
    try_sheet(&sheet, most);
    draw_sheet(&sheet, (struct shape){3, 2, 5, 5}, 0);
    try_refused(&sheet, most);
    for (size_t p = 0; p < PROGRAMS; p++)
        for (enum library_call call = 0; call < (p == LIBRARY ? LIBRARY_CALLS : LIBRARY_MEASURE); call++)
            write_result(results, "stack", &sheet, &programs[p], figures[call], (double)most[p][call]);
}
