#include "rule.h"

// A tab and a number in base ten; where it ends.
static char *put_number(char *at, uint32_t number)
{
    char digits[10];
    size_t count = 0;
    do {
        digits[count++] = (char)('0' + number % 10);
        number /= 10;
    } while (number > 0);
    *at++ = '\t';
    while (count > 0)
        *at++ = digits[--count];
    return at;
}

// The last three numbers of a line.
static char *put_figures(char *at, uint32_t one, uint32_t two, uint32_t three)
{
    at = put_number(put_number(put_number(at, one), two), three);
    *at++ = '\n';
    return at;
}

static char *put_job(char *at, const char *name, struct plain_state after)
{
    *at++ = 'Q';
    *at++ = '\t';
    while (*name != 0)
        *at++ = *name++;
    return put_figures(put_number(at, after.level), after.time, after.energy, after.temperature);
}

size_t plain_print(const struct plain_answer *answer, char *text)
{
    const struct plain_refusal *refusal = &answer->refusal;
    const struct plain_frame *frame = &answer->frame;
    const struct plain_total *total = &answer->total;
    char *at = text;
    *at++ = refusal->number != 0 ? 'R' : 'P';
    if (refusal->number != 0)
        return (size_t)(put_figures(at, refusal->number, refusal->line, refusal->field) - text);
    at = put_figures(put_number(at, frame->jobs), total->time, total->energy, total->temperature);
    struct plain_state state = plain_start(frame);
    for (uint32_t job = 0; job < frame->jobs; job++) {
        state = plain_after(frame, state, job, answer->levels[job]);
        at = put_job(at, frame->name[job], state);
    }
    return (size_t)(at - text);
}
