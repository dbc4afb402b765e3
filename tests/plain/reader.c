// One pass over the bytes. The last newline is looked for once: up to there a line is known to end, so that no byte within it
// needs a test for the sheet's end. Only where a field is at fault the line's fields are counted, as their number (2) goes before
// a field's form and range (3, 4).
#include "rule.h"

enum { DIGITS_MAX = 10 };

#define JOB_FIGURE_MAX 10000000u // time or energy of a job or a change

struct reader {
    const uint8_t *at, *end; // the end is right after the last newline
    const uint8_t *first;    // of the line that is read
    unsigned line, fields;
    struct plain_refusal refusal;
};

static bool refuse(struct reader *reader, unsigned number, unsigned line, unsigned field)
{
    reader->refusal = (struct plain_refusal){number, line, field};
    return false;
}

// A line whose fields come next.
static bool open_line(struct reader *reader, uint8_t letter, unsigned fields)
{
    reader->line++;
    reader->first = reader->at;
    reader->fields = fields;
    if (reader->at == reader->end || reader->at[0] != letter || reader->at[1] != '\t')
        return refuse(reader, 2, reader->line, 0);
    reader->at += 2;
    return true;
}

// A field's fault, where the line has as many fields as it should.
static bool refuse_field(struct reader *reader, unsigned number, unsigned place)
{
    unsigned fields = 1;
    for (const uint8_t *at = reader->first; *at != '\n'; at++)
        fields += *at == '\t';
    return fields == reader->fields ? refuse(reader, number, reader->line, place) : refuse(reader, 2, reader->line, 0);
}

static inline bool read_number(struct reader *reader, unsigned place, uint32_t least, uint32_t most, uint32_t *number)
{
    const uint8_t *first = reader->at, *at = first;
    uint64_t sum = 0;
    uint8_t digit;
    for (; (digit = (uint8_t)(*at - '0')) < 10; at++)
        sum = sum * 10 + digit;
    size_t digits = (size_t)(at - first);
    if (digits < 1 || digits > DIGITS_MAX || (*first == '0' && digits > 1) || *at != (place < reader->fields ? '\t' : '\n'))
        return refuse_field(reader, 3, place);
    if (sum < least || sum > most)
        return refuse_field(reader, 4, place);
    reader->at = at + 1;
    *number = (uint32_t)sum;
    return true;
}

static bool read_head(struct reader *reader, struct plain_frame *frame)
{
    return open_line(reader, 'H', 11)
        && read_number(reader, 2, 1, JOBS_MAX, &frame->jobs)
        && read_number(reader, 3, 1, LEVELS_MAX, &frame->levels)
        && read_number(reader, 4, 0, frame->levels - 1, &frame->start_level)
        && read_number(reader, 5, 0, FRAME_LIMIT_MAX, &frame->deadline)
        && read_number(reader, 6, 0, FRAME_LIMIT_MAX, &frame->energy_budget)
        && read_number(reader, 7, 0, TEMPERATURE_MAX, &frame->temperature_limit)
        && read_number(reader, 8, 0, TEMPERATURE_MAX, &frame->start_temperature)
        && read_number(reader, 9, 0, TEMPERATURE_MAX, &frame->resistance)
        && read_number(reader, 10, 1, FRAME_LIMIT_MAX, &frame->energy_step)
        && read_number(reader, 11, 1, TEMPERATURE_MAX, &frame->temperature_step)
        && (frame->start_temperature <= frame->temperature_limit || refuse(reader, 5, 2, 8));
}

static bool read_levels(struct reader *reader, struct plain_frame *frame)
{
    for (uint32_t level = 0; level < frame->levels; level++) {
        if (!open_line(reader, 'L', 2) || !read_number(reader, 2, 0, POWER_MAX, &frame->power[level]))
            return false;
        frame->steady_state[level] = plain_steady_state(frame->power[level], frame->resistance);
        if (frame->steady_state[level] > TEMPERATURE_MAX)
            return refuse(reader, 4, reader->line, 2);
    }
    return true;
}

static bool read_changes(struct reader *reader, struct plain_frame *frame)
{
    for (uint32_t left = 0; left < frame->levels; left++)
        for (uint32_t entered = 0; entered < frame->levels; entered++) {
            struct plain_change *change = &frame->change[left][entered];
            uint32_t most = left == entered ? 0 : JOB_FIGURE_MAX;
            if (!open_line(reader, 'S', 3)
                || !read_number(reader, 2, 0, most, &change->time)
                || !read_number(reader, 3, 0, most, &change->energy))
                return false;
        }
    return true;
}

static bool read_name(struct reader *reader, char name[NAME_BYTES_MAX + 1])
{
    if (!open_line(reader, 'J', 2))
        return false;
    const uint8_t *at = reader->at;
    size_t length = 0;
    for (; at[length] >= 33 && at[length] <= 126 && length < NAME_BYTES_MAX; length++)
        name[length] = (char)at[length];
    if (length < 1 || at[length] != '\n')
        return refuse_field(reader, 3, 2);
    name[length] = 0;
    reader->at = at + length + 1;
    return true;
}

static bool read_job(struct reader *reader, struct plain_job *job)
{
    return open_line(reader, 'B', 4)
        && read_number(reader, 2, 1, JOB_FIGURE_MAX, &job->time)
        && read_number(reader, 3, 0, JOB_FIGURE_MAX, &job->energy)
        && read_number(reader, 4, 0, DECAY_MAX, &job->decay);
}

static bool read_jobs(struct reader *reader, struct plain_frame *frame)
{
    for (uint32_t i = 0; i < frame->jobs; i++) {
        if (!read_name(reader, frame->name[i]))
            return false;
        for (uint32_t level = 0; level < frame->levels; level++)
            if (!read_job(reader, &frame->job[i][level]))
                return false;
    }
    return true;
}

struct plain_refusal plain_read(const uint8_t *sheet, size_t length, struct plain_frame *frame)
{
    if (length > SHEET_BYTES_MAX)
        return (struct plain_refusal){1, 0, 0};
    const uint8_t *end = sheet + length;
    while (end > sheet && end[-1] != '\n')
        end--;
    struct reader reader = {.at = sheet, .end = end};
    uint32_t version;
    if (open_line(&reader, 'V', 2)
        && read_number(&reader, 2, 1, 1, &version)
        && read_head(&reader, frame)
        && read_levels(&reader, frame)
        && read_changes(&reader, frame)
        && read_jobs(&reader, frame)
        && reader.at != sheet + length)
        refuse(&reader, 6, reader.line + 1, 0);
    return reader.refusal;
}
