// The table fill hoisted by hand for speed, in the place of tests/plain/fill.c: no division and no thermal rule in an inner loop.
//
// A job at a level, entered from another, moves every state by the same number of energy cells, and the next temperature cell
// depends on the temperature cell alone. So for each level of the job the words that follow it are laid out once by the
// temperature cell before it ("ahead"); a word is then the least over the levels of a word there, at a constant distance, and a
// constant time.
#include "../tests/plain/rule.h"

#include <stdbool.h>
#include <string.h>

// Blocks of a constant number of words: gcc turns loops over them into SSE2 code at -O2 too. Of 16, 32 and 64 words 64 are
// best.
enum { BLOCK = 64 };

// Rows up to this length are laid out column by column, as a loop over so short a row costs more than its words.
enum { SHORT_ROW = 16 };

// In place of NO_WAY while a job is worked on: above every finite word, and a sum with it stays below 2^31. So sums need no
// saturation, and compare as signed numbers, which SSE2 can do in one step.
#define FAR 2000000000

// A way to a level of the job: the words that follow it, from that of the first cell on, the time to add, and how many cells
// from the first on may go this way.
struct way {
    const int32_t *ahead;
    int32_t time;
    size_t cells;
};

// The ways from a level, those of more cells first.
struct ways {
    size_t count;
    struct way way[LEVELS_MAX];
};

// An energy in whole steps and what is above them.
struct steps {
    uint32_t whole, above;
};

// What does not change from job to job.
struct grid {
    const struct plain_frame *frame;
    size_t rows, row, cells; // energy cells, temperature cells, both
    uint32_t over;           // how far the last energy cell is above the budget
    struct steps change[LEVELS_MAX][LEVELS_MAX];
};

// The words of one job, and where those that follow it are laid out.
struct layer {
    const struct plain_job *job;
    const uint32_t *next; // NULL for the last job
    uint32_t *words;
    int32_t *ahead;
    size_t pitch; // from a level's words ahead to the next level's
    bool padded;  // FAR in a block beyond each level's words ahead
};

static struct steps in_steps(uint32_t energy, uint32_t step)
{
    return (struct steps){energy / step, energy % step};
}

// The next temperature cell of each cell from the first on while the limit is kept; how many. It moves up by 1 at most.
static size_t map_cells(const struct grid *grid, uint32_t steady_state, uint32_t decay, int32_t *map)
{
    const uint32_t step = grid->frame->temperature_step;
    uint32_t heat = (DECAY_MAX - decay) * steady_state + DECAY_MAX - 1;
    uint32_t cell = plain_divide_up(heat / DECAY_MAX, step), temperature = cell * step;
    size_t b = 0;
    for (; b < grid->row && heat / DECAY_MAX <= grid->frame->temperature_limit; b++) {
        if (heat / DECAY_MAX > temperature) {
            temperature += step;
            cell++;
        }
        map[b] = (int32_t)cell;
        heat += decay * step;
    }
    return b;
}

static inline int32_t clipped(uint32_t word)
{
    return word < FAR ? (int32_t)word : FAR;
}

// A row of words by the map, four at a time, as gcc does not unroll a loop at -O2. (At -O3 a loop of single words makes the
// fill of a large table up to a tenth faster.) The row may stand where the map does.
static void lay_row(const uint32_t *next, const int32_t *map, size_t mapped, int32_t *ahead)
{
    size_t b = 0;
    for (; b + 4 <= mapped; b += 4) {
        const int32_t words[4] = {clipped(next[map[b]]), clipped(next[map[b + 1]]), clipped(next[map[b + 2]]),
                                  clipped(next[map[b + 3]])};
        memcpy(ahead + b, words, sizeof words);
    }
    for (; b < mapped; b++)
        ahead[b] = clipped(next[map[b]]);
}

// The map stands in the first row itself, which therefore comes last.
static void lay_rows(const struct grid *grid, const uint32_t *next, int32_t *ahead, size_t mapped)
{
    for (size_t at = grid->cells; at > 0;) {
        at -= grid->row;
        if (next == NULL)
            memset(ahead + at, 0, mapped * sizeof *ahead);
        else
            lay_row(next + at, ahead, mapped, ahead + at);
        for (size_t b = mapped; b < grid->row; b++)
            ahead[at + b] = FAR;
    }
}

static void lay_columns(const struct grid *grid, const uint32_t *restrict next, int32_t *restrict ahead, size_t mapped)
{
    for (size_t b = 0; b < grid->row; b++) {
        int32_t cell = ahead[b];
        if (b >= mapped || next == NULL)
            for (size_t at = b; at < grid->cells; at += grid->row)
                ahead[at] = b < mapped ? 0 : FAR;
        else
            for (size_t at = 0; at < grid->cells; at += grid->row)
                ahead[at + b] = clipped(next[at + (size_t)cell]);
    }
}

static void lay_ahead(const struct grid *grid, const struct layer *layer, uint32_t level)
{
    const uint32_t *next = layer->next == NULL ? NULL : layer->next + level * grid->cells;
    int32_t *ahead = layer->ahead + level * layer->pitch;
    size_t mapped = map_cells(grid, grid->frame->steady_state[level], layer->job[level].decay, ahead);
    if (grid->row <= SHORT_ROW)
        lay_columns(grid, next, ahead, mapped);
    else
        lay_rows(grid, next, ahead, mapped);
    if (layer->padded)
        for (size_t x = 0; x < BLOCK; x++)
            ahead[grid->cells + x] = FAR;
}

static void add_way(struct ways *ways, struct way way)
{
    size_t k = ways->count++;
    for (; k > 0 && ways->way[k - 1].cells < way.cells; k--)
        ways->way[k] = ways->way[k - 1];
    ways->way[k] = way;
}

// Energy a * step + energy of the way is within the budget for a below `rows`; it is raised to cell a + up. A padded layer lets
// a way run on to the end of a block.
static void find_ways(const struct grid *grid, const struct layer *layer, uint32_t left, const struct steps *job,
                      struct ways *ways)
{
    const uint32_t step = grid->frame->energy_step;
    for (uint32_t level = 0; level < grid->frame->levels; level++) {
        const struct steps *change = &grid->change[left][level];
        uint32_t above = change->above + job[level].above, raised = above == 0 ? 0 : above <= step ? 1 : 2;
        size_t up = (size_t)change->whole + job[level].whole + raised;
        if (up >= grid->rows)
            continue;
        size_t cells = (grid->rows - up - (grid->over > raised * step - above)) * grid->row;
        const struct way way = {
            .ahead = layer->ahead + level * layer->pitch + up * grid->row,
            .time = (int32_t)(grid->frame->change[left][level].time + layer->job[level].time),
            .cells = layer->padded ? (cells + BLOCK - 1) / BLOCK * BLOCK : cells,
        };
        add_way(ways, way);
    }
}

static inline int32_t less(int32_t one, int32_t other)
{
    return one < other ? one : other;
}

static inline uint32_t mended(int32_t word)
{
    return word < FAR ? (uint32_t)word : NO_WAY;
}

#define VIA(way) ((way).ahead[at + x] + (way).time)

#define FOR_BLOCK(word)                \
    for (size_t x = 0; x < BLOCK; x++) \
        words[x] = mended(word);       \
    break

// The least over so many ways for each cell of a block. A loop for each number of ways keeps them in registers.
static void take_block(const struct ways *ways, size_t count, size_t at, uint32_t *restrict words)
{
    const struct way *way = ways->way;
    const struct way a = way[0], b = way[1], c = way[2], d = way[3], e = way[4], f = way[5], g = way[6], h = way[7];
    switch (count) {
    case 0: FOR_BLOCK(FAR);
    case 1: FOR_BLOCK(VIA(a));
    case 2: FOR_BLOCK(less(VIA(a), VIA(b)));
    case 3: FOR_BLOCK(less(less(VIA(a), VIA(b)), VIA(c)));
    case 4: FOR_BLOCK(less(less(VIA(a), VIA(b)), less(VIA(c), VIA(d))));
    case 5: FOR_BLOCK(less(less(less(VIA(a), VIA(b)), less(VIA(c), VIA(d))), VIA(e)));
    case 6: FOR_BLOCK(less(less(less(VIA(a), VIA(b)), less(VIA(c), VIA(d))), less(VIA(e), VIA(f))));
    case 7: FOR_BLOCK(less(less(less(VIA(a), VIA(b)), less(VIA(c), VIA(d))), less(less(VIA(e), VIA(f)), VIA(g))));
    default:
        FOR_BLOCK(less(less(less(VIA(a), VIA(b)), less(VIA(c), VIA(d))), less(less(VIA(e), VIA(f)), less(VIA(g), VIA(h)))));
    }
}

static inline uint32_t lower(uint32_t word, int32_t other)
{
    return mended(other) < word ? mended(other) : word;
}

// A part of a block; four words at a time, for the reason that blocks have.
static void take_part(struct way way, size_t at, size_t count, uint32_t *restrict words)
{
    const int32_t *ahead = way.ahead + at;
    size_t x = 0;
    for (; x + 4 <= count; x += 4)
        for (size_t y = 0; y < 4; y++)
            words[x + y] = lower(words[x + y], ahead[x + y] + way.time);
    for (; x < count; x++)
        words[x] = lower(words[x], ahead[x] + way.time);
}

// The words of a block from a level. Ways that end within the block come after those that go through it.
static void fill_block(struct ways *ways, size_t at, size_t count, uint32_t *words)
{
    while (ways->count > 0 && ways->way[ways->count - 1].cells <= at)
        ways->count--;
    size_t whole = ways->count;
    while (whole > 0 && ways->way[whole - 1].cells < at + BLOCK)
        whole--;
    take_block(ways, whole, at, words);
    for (size_t k = whole; k < ways->count; k++) {
        size_t left = ways->way[k].cells - at;
        take_part(ways->way[k], at, left < count ? left : count, words);
    }
}

// A block of every level. Words ahead are never needed at a lower cell, so those of an unpadded layer may stand where the block
// is to be stored, once all levels have read them.
static void fill_blocks(const struct grid *grid, const struct layer *layer, struct ways *ways, size_t at)
{
    const uint32_t levels = grid->frame->levels;
    const size_t left = grid->cells - at, count = left < BLOCK ? left : BLOCK;
    uint32_t words[LEVELS_MAX][BLOCK];
    for (uint32_t level = 0; level < levels; level++) {
        bool direct = layer->padded && count == BLOCK;
        fill_block(&ways[level], at, count, direct ? layer->words + level * grid->cells + at : words[level]);
    }
    if (!layer->padded || count < BLOCK)
        for (uint32_t level = 0; level < levels; level++)
            memcpy(layer->words + level * grid->cells + at, words[level], count * sizeof(uint32_t));
}

static void fill_layer(const struct grid *grid, const struct layer *layer)
{
    const uint32_t levels = grid->frame->levels;
    struct ways ways[LEVELS_MAX] = {{0}};
    struct steps job[LEVELS_MAX];
    for (uint32_t level = 0; level < levels; level++) {
        lay_ahead(grid, layer, level);
        job[level] = in_steps(layer->job[level].energy, grid->frame->energy_step);
    }
    for (uint32_t level = 0; level < levels; level++)
        find_ways(grid, layer, level, job, &ways[level]);
    for (size_t at = 0; at < grid->cells; at += BLOCK)
        fill_blocks(grid, layer, ways, at);
}

static struct grid grid_of(const struct plain_table *table)
{
    const struct plain_frame *frame = table->frame;
    struct grid grid = {.frame = frame, .rows = table->energy_cells, .row = table->temperature_cells};
    grid.cells = grid.rows * grid.row;
    grid.over = (uint32_t)(grid.rows - 1) * frame->energy_step - frame->energy_budget;
    for (uint32_t left = 0; left < frame->levels; left++)
        for (uint32_t entered = 0; entered < frame->levels; entered++)
            grid.change[left][entered] = in_steps(frame->change[left][entered].energy, frame->energy_step);
    return grid;
}

// The words of the first two jobs are free until their turn: room for the others' words ahead, with FAR after each level's, so
// that no way ends within a block. The first two jobs, and tables of few cells, have theirs where their own words will stand.
void plain_fill(const struct plain_table *table)
{
    const struct plain_frame *frame = table->frame;
    const struct grid grid = grid_of(table);
    size_t words = frame->levels * grid.cells;
    struct layer layer = {.next = NULL};
    for (uint32_t i = frame->jobs; i > 0; i--) {
        layer.job = frame->job[i - 1];
        layer.words = table->words + (i - 1) * words;
        // After the last job the row above the budget is not FAR, so its ways end where they end.
        layer.padded = i > 2 && grid.cells >= BLOCK && layer.next != NULL;
        layer.ahead = (int32_t *)(layer.padded ? table->words : layer.words);
        layer.pitch = grid.cells + (layer.padded ? BLOCK : 0);
        fill_layer(&grid, &layer);
        layer.next = layer.words;
    }
}
