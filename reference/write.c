/* The writer of run files: a heading, a table and a row, each by itself, and where they stand. */
#include "notebook.h"

#include <string.h>

/* The lowest bytes of the number, the most significant of them first. */
void put_big_endian(uint64_t number, uint8_t *bytes, size_t count)
{
    for (size_t i = count; i > 0; i--) {
        bytes[i - 1] = (uint8_t)number;
        number >>= 8;
    }
}

size_t heading_bytes(unsigned n)
{
    return MARK_BYTES + (size_t)ROW_BYTES * n;
}

/* The first byte of a table, counted from 0. A run file has at most five tables, but any number has its place. */
size_t table_begins(unsigned n, unsigned table)
{
    if (n < 1 || n > MOST_BOXES)
        return 0;
    return heading_bytes(n) + table * ROW_BYTES * table_rows(n);
}

size_t file_bytes(unsigned n, unsigned t)
{
    return table_begins(n, t + 1);
}

/* All but the room in the slice. t is a real t here, so 255 is too large like any other. */
enum refusal check_heading(const struct heading *heading, const uint64_t *rows, size_t count)
{
    enum refusal refusal = check_n_t(heading->n, heading->t);
    if (refusal != FINE)
        return refusal;
    if (has_stray_bit(heading->n, heading->faulty))
        return STRAY_FAULTY_BIT;
    if (count != heading->n)
        return WRONG_LENGTH;
    for (size_t i = 0; i < count; i++)
        if (is_sound_zero(heading->faulty, i, rows[i]))
            return ZERO_ROW;
    return FINE;
}

static void put_rows(const uint64_t *rows, size_t count, uint8_t *bytes)
{
    for (size_t i = 0; i < count; i++)
        put_big_endian(rows[i], bytes + ROW_BYTES * i, ROW_BYTES);
}

/* The version in the heading is not looked at: only version 1 is written. */
enum refusal write_heading(const struct heading *heading, const uint64_t *rows, size_t count, uint8_t *slice,
                           size_t length, size_t *size)
{
    *size = 0;
    enum refusal refusal = check_heading(heading, rows, count);
    if (refusal != FINE)
        return refusal;
    if (length < heading_bytes(heading->n))
        return SLICE_TOO_SHORT;
    memcpy(slice, "HNB", 3);
    put_big_endian(1, slice + 3, 2);
    slice[5] = heading->n;
    slice[6] = heading->t;
    put_big_endian(heading->faulty, slice + 7, 2);
    put_rows(rows, count, slice + MARK_BYTES);
    *size = heading_bytes(heading->n);
    return FINE;
}

enum refusal write_table(unsigned n, const uint64_t *rows, size_t count, uint8_t *slice, size_t length, size_t *size)
{
    *size = 0;
    if (n < 1 || n > MOST_BOXES)
        return WRONG_N;
    if (count != table_rows(n))
        return WRONG_LENGTH;
    if (length < ROW_BYTES * count)
        return SLICE_TOO_SHORT;
    put_rows(rows, count, slice);
    *size = ROW_BYTES * count;
    return FINE;
}

/* The sum of the place and the row's bytes may be larger than 64 bits hold, so the place is tested by itself. */
enum refusal write_row(uint64_t row, uint64_t place, uint8_t *slice, size_t length)
{
    if (length < ROW_BYTES || place > length - ROW_BYTES)
        return SLICE_TOO_SHORT;
    put_big_endian(row, slice + place, ROW_BYTES);
    return FINE;
}
