// The header by itself, before any other. It is compiled as C99, C11, C++98 and C++17, every warning an error; the program makes
// each call once on the empty sheet, and its status is 0 where all of them answer as they should, or the number of the first that
// does not.
#include <begbija.h>
#include <begbija.h>

// A version can be tested before the program is compiled, and is what its parts say.
#if BEGBIJA_VERSION < 20000 || BEGBIJA_VERSION / 10000 != BEGBIJA_VERSION_MAJOR \
    || BEGBIJA_VERSION / 100 % 100 != BEGBIJA_VERSION_MINOR || BEGBIJA_VERSION % 100 != BEGBIJA_VERSION_PATCH
#error "BEGBIJA_VERSION is not made of its parts"
#endif

// A condition that the compiler holds, in all four languages.
#define HOLDS(name, condition) typedef char name[(condition) ? 1 : -1]

// The figures stand one after the other, eight bytes each, with nothing between them and nothing after the last.
#define FIGURE(type, figure, place) \
    HOLDS(type##_##figure, offsetof(struct type, figure) == 8 * (place) && sizeof(((struct type *)0)->figure) == 8)
FIGURE(begbija_reply, refusal, 0);
FIGURE(begbija_reply, line, 1);
FIGURE(begbija_reply, field, 2);
FIGURE(begbija_reply, time, 3);
FIGURE(begbija_reply, energy, 4);
FIGURE(begbija_reply, temperature, 5);
FIGURE(begbija_reply, peak, 6);
HOLDS(reply_size, sizeof(struct begbija_reply) == 56);
FIGURE(begbija_margins, refusal, 0);
FIGURE(begbija_margins, line, 1);
FIGURE(begbija_margins, field, 2);
FIGURE(begbija_margins, time, 3);
FIGURE(begbija_margins, energy, 4);
FIGURE(begbija_margins, temperature, 5);
HOLDS(margins_size, sizeof(struct begbija_margins) == 48);

HOLDS(last_refusals, BEGBIJA_LIST_LEVEL == 12 && BEGBIJA_JOBS_DONE == 13 && BEGBIJA_READING == 14);
HOLDS(no_way, BEGBIJA_NO_WAY == UINT32_MAX);
HOLDS(sheet_max, BEGBIJA_SHEET_MAX == 20480 && BEGBIJA_JOBS_MAX == 64 && BEGBIJA_LEVELS_MAX == 8);
HOLDS(table_max, BEGBIJA_TABLE_MAX == 4194304 && BEGBIJA_TABLE_INSIDE == 16384 && BEGBIJA_TEXT_MIN == 4096);

static uint8_t sheet[1], text[BEGBIJA_TEXT_MIN], levels[BEGBIJA_JOBS_MAX];
static uint32_t table[1];

int main(void)
{
    struct begbija_reply reply;
    struct begbija_margins margins;
    int64_t refused = -BEGBIJA_LINE;
    if (begbija_plan_text(sheet, 0, text, sizeof text) != refused)
        return 1;
    if (begbija_plan(sheet, 0, table, 1, levels, sizeof levels, &reply) != refused || reply.refusal != BEGBIJA_LINE)
        return 2;
    if (begbija_measure(sheet, 0, levels, 0, &margins) != refused || margins.refusal != BEGBIJA_LINE)
        return 3;
    if (begbija_need(sheet, 0) != refused)
        return 4;
    if (begbija_plan_afresh(sheet, 0, 0, 0, 0, 0, 0, table, 1, levels, sizeof levels, &reply) != refused
        || reply.refusal != BEGBIJA_LINE)
        return 5;
    return 0;
}
