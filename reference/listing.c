/* The listing of one run file, and the state in which the run ends. */
#include "notebook.h"

#include <string.h>

/* What is left of a run file. */
struct file {
    const uint8_t *bytes;
    size_t count;
};

static void skip(struct file *file, size_t count)
{
    file->bytes += count;
    file->count -= count;
}

static void add_line(struct listing *listing, const char *word, const uint64_t *numbers, size_t count)
{
    struct line line = {(const uint8_t *)word, strlen(word), numbers, count};
    size_t size;
    write_line(listing->text + listing->size, MOST_TEXT - listing->size, &line, &size);
    listing->size += size;
}

static enum refusal take_heading(struct file *file, struct state *state)
{
    uint64_t rows[MOST_BOXES];
    struct heading heading;
    enum refusal refusal = read_heading(file->bytes, file->count, rows, MOST_BOXES, &heading);
    if (refusal != FINE)
        return refusal;
    skip(file, MARK_BYTES + ROW_BYTES * (size_t)heading.n);
    return start(heading.n, heading.t, heading.faulty, rows, heading.n, state);
}

/* One table from the file, and the iteration that it belongs to. */
static enum refusal take_iteration(struct file *file, struct state *state)
{
    static uint64_t table[MOST_ROWS];
    size_t rows = table_rows(state->n);
    size_t count = file->count < ROW_BYTES * rows ? file->count : ROW_BYTES * rows;
    enum refusal refusal = read_table(state->n, file->bytes, count, table, MOST_ROWS);
    if (refusal != FINE)
        return refusal;
    skip(file, count);
    return iterate(state, table, rows);
}

static void add_run(struct listing *listing, const struct state *state)
{
    uint64_t numbers[] = {state->n, state->t, state->faulty};
    add_line(listing, "run", numbers, 3);
}

static void add_boxes(struct listing *listing, const struct state *state)
{
    for (unsigned i = 0; i < state->n; i++) {
        uint64_t numbers[] = {state->done, i + 1, state->row[i], state->list[i]};
        if (!in_set(state->faulty, i))
            add_line(listing, "at", numbers, 4);
    }
}

static enum refusal list_iterations(struct file *file, struct listing *listing, struct state *state)
{
    while (state->done <= state->t) {
        enum refusal refusal = take_iteration(file, state);
        if (refusal != FINE)
            return refusal;
        add_boxes(listing, state);
    }
    return file->count == 0 ? FINE : WRONG_BYTES;
}

/* The listing without its last line, and the state that was reached. */
static enum refusal list_to_the_end(struct file file, struct listing *listing, struct state *state)
{
    listing->size = 0;
    enum refusal refusal = take_heading(&file, state);
    if (refusal != FINE)
        return refusal;
    add_run(listing, state);
    return list_iterations(&file, listing, state);
}

void list_file(const uint8_t *bytes, size_t count, struct listing *listing)
{
    struct state state;
    struct file file = {bytes, count};
    listing->ends = list_to_the_end(file, listing, &state);
    uint64_t refused = listing->ends;
    if (listing->ends == FINE)
        add_line(listing, "sent", &state.sent, 1);
    else
        add_line(listing, "refused", &refused, 1);
}

/* The listing at the front of a slice. A slice that is too short stays, and the size and the end are then 0. */
enum refusal list_into(const uint8_t *bytes, size_t count, uint8_t *slice, size_t length, struct listing *listing)
{
    list_file(bytes, count, listing);
    if (listing->size > length) {
        listing->size = 0;
        listing->ends = FINE;
        return SLICE_TOO_SHORT;
    }
    memcpy(slice, listing->text, listing->size);
    return FINE;
}

/* The last state of the run, or zeros where the listing ends with `refused`. */
enum refusal outcome(const uint8_t *bytes, size_t count, struct state *state)
{
    struct listing unread;
    struct file file = {bytes, count};
    enum refusal refusal = list_to_the_end(file, &unread, state);
    if (refusal != FINE)
        memset(state, 0, sizeof *state);
    return refusal;
}
