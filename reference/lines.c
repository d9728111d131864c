/* One line of text: a word, then for each number a space and its digits, then a newline. */
#include "notebook.h"

#include <string.h>

/* Writes the digits, which are at most MOST_DIGITS, and gives how many there are. */
size_t decimal(uint64_t number, char *digits)
{
    char backwards[MOST_DIGITS];
    size_t count = 0;
    do {
        backwards[count++] = (char)('0' + number % 10);
        number /= 10;
    } while (number != 0);
    for (size_t i = 0; i < count; i++)
        digits[i] = backwards[count - 1 - i];
    return count;
}

static size_t size_of(const struct line *line)
{
    char digits[MOST_DIGITS];
    size_t size = line->word_bytes + 1;
    for (size_t i = 0; i < line->count; i++)
        size += 1 + decimal(line->numbers[i], digits);
    return size;
}

/* The size comes first: a slice that is too short must stay as it is. */
enum refusal write_line(uint8_t *slice, size_t length, const struct line *line, size_t *size)
{
    *size = 0;
    if (size_of(line) > length)
        return SLICE_TOO_SHORT;
    memcpy(slice, line->word, line->word_bytes);
    size_t used = line->word_bytes;
    for (size_t i = 0; i < line->count; i++) {
        slice[used++] = ' ';
        used += decimal(line->numbers[i], (char *)slice + used);
    }
    slice[used++] = '\n';
    *size = used;
    return FINE;
}

/* Gives the place behind the line, or the place that was given where the slice has no room from there on. */
uint64_t write_line_at(uint8_t *slice, size_t length, uint64_t place, const struct line *line)
{
    size_t size;
    if (place > length)
        return place;
    write_line(slice + place, length - (size_t)place, line, &size);
    return place + size;
}
