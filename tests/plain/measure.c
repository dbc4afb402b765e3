#include "rule.h"

struct plain_margins plain_measure(const struct plain_answer *answer, const uint8_t *levels, size_t count)
{
    const struct plain_frame *frame = &answer->frame;
    if (plain_refused(answer))
        return (struct plain_margins){.refusal = answer->refusal};
    if (count != frame->jobs)
        return (struct plain_margins){.refusal = {11, 0, 0}};
    for (unsigned place = 0; place < count; place++)
        if (levels[place] >= frame->levels)
            return (struct plain_margins){.refusal = {12, 0, place}};
    const struct plain_reading first = plain_first_reading(frame);
    struct plain_total total = plain_run(frame, &first, levels);
    return (struct plain_margins){
        .time = (int64_t)frame->deadline - total.time,
        .energy = (int64_t)frame->energy_budget - total.energy,
        .temperature = (int64_t)frame->temperature_limit - total.highest,
    };
}
