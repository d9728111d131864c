/* The lines of a text: what stands in one, what a line `say` means, and the line `say` of a place. */
#include "notebook.h"

enum { CARRIAGE_RETURN = 13 };

/* The first place from `at` on where the spaces end, or where one stands. */
static size_t skip(const uint8_t *bytes, size_t count, size_t at, int spaces)
{
    while (at < count && (bytes[at] == ' ') == spaces)
        at++;
    return at;
}

/* Any number of zeros may stand in front, so the value is watched and not the number of digits. */
static int read_number(const uint8_t *digits, size_t count, uint64_t *number)
{
    *number = 0;
    for (size_t i = 0; i < count; i++) {
        if (digits[i] < '0' || digits[i] > '9')
            return 0;
        uint64_t digit = digits[i] - (uint64_t)'0';
        if (*number > (UINT64_MAX - digit) / 10)
            return 0;
        *number = 10 * *number + digit;
    }
    return count > 0;
}

/* What stands behind the word. Nothing is written where there is no slice, so that they can be counted first. */
static int read_numbers(const uint8_t *bytes, size_t count, uint64_t *slice, size_t *numbers)
{
    *numbers = 0;
    size_t at = skip(bytes, count, 0, 1);
    while (at < count) {
        size_t end = skip(bytes, count, at, 0);
        uint64_t number;
        if (!read_number(bytes + at, end - at, &number))
            return 0;
        if (slice != NULL)
            slice[*numbers] = number;
        ++*numbers;
        at = skip(bytes, count, end, 1);
    }
    return 1;
}

enum refusal read_line(const uint8_t *bytes, size_t count, uint64_t *slice, size_t length, struct words *words)
{
    size_t numbers;
    *words = (struct words){0, 0};
    if (count > 0 && bytes[count - 1] == CARRIAGE_RETURN)
        count--;
    size_t word_bytes = skip(bytes, count, 0, 0);
    if (word_bytes == 0 || !read_numbers(bytes + word_bytes, count - word_bytes, NULL, &numbers))
        return FINE;
    if (numbers > length)
        return SLICE_TOO_SHORT;
    read_numbers(bytes + word_bytes, count - word_bytes, slice, &numbers);
    *words = (struct words){word_bytes, numbers};
    return FINE;
}

static int is_within(uint64_t number, uint64_t most)
{
    return number >= 1 && number <= most;
}

/* The numbers of a line `say` are iteration, step, sender, receiver, in steps 2 and 3 leader, and row. */
static int is_meant(unsigned n, unsigned t, const uint64_t *numbers, size_t count)
{
    if (count != 5 && count != 6)
        return 0;
    if (count == 5 ? numbers[1] != 1 : numbers[1] != 2 && numbers[1] != 3)
        return 0;
    for (size_t i = 2; i < count - 1; i++)
        if (!is_within(numbers[i], n))
            return 0;
    return is_within(numbers[0], t + 1);
}

enum refusal say_place(unsigned n, unsigned t, const uint64_t *numbers, size_t count, struct place *place)
{
    *place = (struct place){0, 0};
    enum refusal refusal = check_n_t(n, t);
    if (refusal != FINE || !is_meant(n, t, numbers, count))
        return refusal;
    size_t row = (size_t)(numbers[2] - 1) * n + (size_t)(numbers[3] - 1);
    if (numbers[1] > 1)
        row = n * n + (size_t)(numbers[1] - 2) * n * n * n + row * n + (size_t)(numbers[4] - 1);
    row += (size_t)(numbers[0] - 1) * table_rows(n);
    *place = (struct place){1, heading_bytes(n) + ROW_BYTES * row};
    return FINE;
}

/* Places behind the table have a line too. */
enum refusal write_say(unsigned n, unsigned table, size_t place, uint64_t row, uint8_t *slice, size_t length,
                       size_t *size)
{
    *size = 0;
    if (n < 1 || n > MOST_BOXES)
        return WRONG_N;
    uint64_t first[] = {table + 1, 1, 1 + place / n, 1 + place % n, row};
    uint64_t q = place - n * n;
    uint64_t later[] = {table + 1, 2 + q / (n * n * n), 1 + q / (n * n) % n, 1 + q / n % n, 1 + q % n, row};
    struct line line = {(const uint8_t *)"say", 3, later, 6};
    if (place < n * n)
        line = (struct line){(const uint8_t *)"say", 3, first, 5};
    return write_line(slice, length, &line, size);
}
