/* The text of a run file, part by part: the lines `run` and `rows`, then the lines `say` of each table. */
#include "notebook.h"

/* The lines `run` and `rows`. 255 is the number that it stands for, since the heading reader gives that. */
static size_t show_front(const struct heading *heading, const uint64_t *rows, uint8_t *slice, size_t length)
{
    uint64_t numbers[] = {heading->n, heading->t, heading->faulty};
    struct line run = {(const uint8_t *)"run", 3, numbers, 3}, all = {(const uint8_t *)"rows", 4, rows, heading->n};
    return (size_t)write_line_at(slice, length, write_line_at(slice, length, 0, &run), &all);
}

static size_t show_table(unsigned n, unsigned table, const uint8_t *bytes, uint8_t *slice, size_t length)
{
    size_t used = 0, size;
    for (size_t place = 0; place < table_rows(n); place++) {
        uint64_t row = big_endian(bytes + ROW_BYTES * place, ROW_BYTES);
        if (row == 0)
            continue;
        write_say(n, table, place, row, slice + used, length - used, &size);
        used += size;
    }
    return used;
}

/* A file whose listing ends with `sent` has all its tables, so no length is tested again. */
enum refusal show_part(const uint8_t *bytes, size_t count, uint64_t part, uint8_t *slice, size_t length,
                       struct shown *shown)
{
    struct listing listing;
    struct heading heading;
    uint64_t rows[MOST_BOXES];
    *shown = (struct shown){0, 0};
    list_file(bytes, count, &listing);
    if (listing.ends != FINE)
        return listing.ends;
    read_heading(bytes, count, rows, MOST_BOXES, &heading);
    size_t table = table_rows(heading.n);
    if (length < (part == 0 ? FRONT_ROOM : SAY_ROOM * table))
        return SLICE_TOO_SHORT;
    shown->parts = heading.t + 2u;
    if (part == 0)
        shown->size = show_front(&heading, rows, slice, length);
    else if (part < shown->parts)
        shown->size = show_table(heading.n, (unsigned)part - 1,
                                 bytes + table_begins(heading.n, (unsigned)part - 1), slice, length);
    return FINE;
}
