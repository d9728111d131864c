/* The run file: its heading and its tables. */
#include "notebook.h"

#include <string.h>

enum { LARGEST_T = 255 };

uint64_t big_endian(const uint8_t *bytes, size_t count)
{
    uint64_t number = 0;
    for (size_t i = 0; i < count; i++)
        number = number << 8 | bytes[i];
    return number;
}

/* The first nine bytes, all but the rows. */
static enum refusal read_mark(const uint8_t *bytes, size_t count, struct heading *heading)
{
    if (count < MARK_BYTES)
        return HEADING_TOO_SHORT;
    if (memcmp(bytes, "HNB", 3) != 0)
        return WRONG_MARK;
    heading->version = (uint16_t)big_endian(bytes + 3, 2);
    if (heading->version != 1)
        return WRONG_VERSION;
    heading->n = bytes[5];
    if (heading->n < 1 || heading->n > MOST_BOXES)
        return WRONG_N;
    heading->t = bytes[6] == LARGEST_T ? (uint8_t)largest_t(heading->n) : bytes[6];
    if (3 * heading->t >= heading->n)
        return WRONG_T;
    heading->faulty = (uint16_t)big_endian(bytes + 7, 2);
    if (has_stray_bit(heading->n, heading->faulty))
        return STRAY_FAULTY_BIT;
    return FINE;
}

static enum refusal check_rows(const uint8_t *bytes, size_t count, size_t length, const struct heading *heading)
{
    if (count < MARK_BYTES + (size_t)ROW_BYTES * heading->n)
        return WRONG_BYTES;
    for (unsigned i = 0; i < heading->n; i++)
        if (is_sound_zero(heading->faulty, i, big_endian(bytes + MARK_BYTES + ROW_BYTES * i, ROW_BYTES)))
            return ZERO_ROW;
    return length < heading->n ? SLICE_TOO_SHORT : FINE;
}

static void read_rows(const uint8_t *bytes, size_t count, uint64_t *slice)
{
    for (size_t i = 0; i < count; i++)
        slice[i] = big_endian(bytes + ROW_BYTES * i, ROW_BYTES);
}

enum refusal read_heading(const uint8_t *bytes, size_t count, uint64_t *slice, size_t length, struct heading *heading)
{
    memset(heading, 0, sizeof *heading);
    enum refusal refusal = read_mark(bytes, count, heading);
    if (refusal == FINE)
        refusal = check_rows(bytes, count, length, heading);
    if (refusal == FINE)
        read_rows(bytes + MARK_BYTES, heading->n, slice);
    else
        memset(heading, 0, sizeof *heading);
    return refusal;
}

enum refusal read_table(uint8_t n, const uint8_t *bytes, size_t count, uint64_t *slice, size_t length)
{
    if (n < 1 || n > MOST_BOXES)
        return WRONG_N;
    if (count != ROW_BYTES * table_rows(n))
        return WRONG_BYTES;
    if (length < table_rows(n))
        return SLICE_TOO_SHORT;
    read_rows(bytes, table_rows(n), slice);
    return FINE;
}

/* The sum of both numbers may be larger than 64 bits hold, so neither is added before it is known to be small. */
static int reaches(uint64_t places, uint64_t from, uint64_t count)
{
    return from <= places && count <= places - from;
}

enum refusal read_part(const uint8_t *bytes, size_t bytes_count, uint64_t from, uint64_t count, uint64_t *slice,
                       size_t length)
{
    if (!reaches(bytes_count / ROW_BYTES, from, count))
        return WRONG_BYTES;
    if (!reaches(length, from, count))
        return SLICE_TOO_SHORT;
    read_rows(bytes + ROW_BYTES * from, (size_t)count, slice + from);
    return FINE;
}
