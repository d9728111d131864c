/* expert < FILE prints the listing of a run file column by column, in few x86-64 instructions: the bench's yardstick.

   For every sound box and every leader the column of what the boxes say is gone through, once to vote and once to
   grade. How it saves instructions:
   - Sound boxes send the same to all, so their part of a column is put down once for all boxes, and it comes first.
   - A column ends at the first clear answer: a row that already stands often enough, or none that still can.
   - The file stays where it was read. Of its tables only the rows of faulty senders are taken, and those only where
     the sound boxes' part of the column gave no answer.
   - Rows stand as the file has them, most significant byte first. Whether two are equal shows as well that way. */
#include <stdint.h>
#include <string.h>
#include <unistd.h>

enum { MOST_BOXES = 13, MARK_BYTES = 9, ROW_BYTES = 8, MOST_BYTES = 182633, MOST_TEXT = 4096 };

/* Sets of boxes are bits, box k at bit k - 1. This goes through the boxes of a set. */
#define FOR_EACH(box, set) \
    for (unsigned left_ = (set), box; left_ != 0 && (box = (unsigned)__builtin_ctz(left_), 1); left_ &= left_ - 1)

/* The places of a column from the last to the second, for a switch that is entered at the column's length. */
#define BEHIND_THE_FIRST(DO) DO(13) DO(12) DO(11) DO(10) DO(9) DO(8) DO(7) DO(6) DO(5) DO(4) DO(3) DO(2)

/* Kept out of the loops that call it, which are shorter without it. */
#define SELDOM __attribute__((noinline))

/* A row and in how many places it stands. */
struct found {
    uint64_t row;
    unsigned places;
};

struct run {
    unsigned n, t, faulty, sound, sound_count;
    unsigned to_vote, to_be_sure;  /* places for a vote; for confidence 2 whatever else is said */
    unsigned done;
    uint64_t sent;
    uint64_t row[MOST_BOXES];
    unsigned list[MOST_BOXES];
    unsigned listed;               /* boxes on any sound box's list */
};

/* For each leader what the sound boxes say of it, in their order, and behind that room for what liars say. */
typedef uint64_t column[MOST_BOXES + 3];

/* Whom one box hears in a step. */
struct hearing {
    unsigned sound;                  /* as bits */
    unsigned to_answer;              /* so many sound boxes that agree are an answer; 0 where they cannot be one */
    unsigned liars;                  /* how many */
    const uint8_t *from[MOST_BOXES]; /* what each of these liars says to it, leader after leader */
};

static uint8_t file[MOST_BYTES + 1];
static char text[MOST_TEXT];

static uint64_t row_at(const uint8_t *at)
{
    uint64_t row;
    memcpy(&row, at, sizeof row);
    return row;
}

/* x86-64 has the least significant byte first. */
static uint64_t number_of(uint64_t row)
{
    return __builtin_bswap64(row);
}

static int is_before(unsigned places, uint64_t row, struct found best)
{
    return places > best.places || (places == best.places && number_of(row) < number_of(best.row));
}

/* The row that stands in all of the places, or 0. */
static uint64_t common_row(const uint64_t *rows, unsigned places)
{
    uint64_t row = rows[0];
    switch (places) {
#define LOOK(place) case place: if (rows[place - 1] != row) return 0; __attribute__((fallthrough));
    BEHIND_THE_FIRST(LOOK)
    case 1: return row;
    case 0: return 0;
    default: __builtin_unreachable();
    }
}

/* In how many of the places the row of the first one stands. */
static unsigned places_of_first(const uint64_t *rows, unsigned places)
{
    uint64_t row = rows[0];
    uint8_t found = 1;
    switch (places) {
#define COUNT(place) case place: found = (uint8_t)(found + (rows[place - 1] == row)); __attribute__((fallthrough));
    BEHIND_THE_FIRST(COUNT)
    case 1: return found;
    default: __builtin_unreachable();
    }
}

/* The row found most often, the lowest on a tie. Rows that cannot stand more often than `least` are passed over; one
   that was counted before is counted from a later place, so fewer times, and does no harm. */
static struct found most_often(const uint64_t *rows, unsigned places, unsigned least)
{
    struct found best = {0, 0};
    uint64_t last = 0;
    const uint64_t *end = rows + places, *stop = places > least ? end - least : rows;
    for (; rows < stop; rows++) {
        if (*rows == 0 || *rows == last || *rows == best.row)
            continue;
        last = *rows;
        unsigned found = places_of_first(rows, (unsigned)(end - rows));
        if (!is_before(found, last, best))
            continue;
        best = (struct found){last, found};
        if (stop > end - found + 1)
            stop = end - found + 1;
    }
    return best;
}

/* The row that stands so many times, or 0. That is more than half of the places, so there is one at most. */
static uint64_t row_that_stands(const uint64_t *rows, unsigned places, unsigned times)
{
    uint64_t last = 0;
    const uint64_t *end = rows + places, *stop = places >= times ? end - times + 1 : rows;
    for (; rows < stop; rows++) {
        if (*rows == 0 || *rows == last)
            continue;
        last = *rows;
        if (places_of_first(rows, (unsigned)(end - rows)) >= times)
            return last;
    }
    return 0;
}

/* Whom box i hears. `part` is the table's part for step 2 or 3. */
static void hear(const struct run *run, unsigned i, const uint8_t *part, unsigned to_answer, struct hearing *hearing)
{
    size_t to_one = (size_t)ROW_BYTES * run->n, to_all = to_one * run->n;
    hearing->sound = run->sound & ~run->list[i];
    hearing->to_answer = hearing->sound == run->sound && run->sound_count >= to_answer ? to_answer : 0;
    hearing->liars = 0;
    FOR_EACH(j, run->faulty & ~run->list[i])
        hearing->from[hearing->liars++] = part + j * to_all + i * to_one;
}

/* The whole column of leader k, of which the sound boxes' part is there: puts behind it what liars say, and gives its
   length. A box that does not hear all sound boxes, as may be where more than t are faulty, has its own column. */
static unsigned complete(const struct run *run, const struct hearing *hearing, unsigned k, uint64_t **said,
                         uint64_t *room)
{
    unsigned places = run->sound_count;
    if (hearing->sound != run->sound) {
        const uint64_t *next = *said;
        *said = room;
        places = 0;
        FOR_EACH(j, run->sound) {
            room[places] = *next++;
            places += (hearing->sound >> j) & 1;
        }
    }
    for (unsigned liar = 0; liar < hearing->liars; liar++)
        (*said)[places++] = row_at(hearing->from[liar] + ROW_BYTES * k);
    return places;
}

/* Steps 3 and 4 for one box and leader where the sound boxes' part of the column gives no answer. */
static SELDOM uint64_t vote_over(const struct run *run, const struct hearing *hearing, unsigned k, uint64_t *said)
{
    column room;
    unsigned places = complete(run, hearing, k, &said, room);
    return row_that_stands(said, places, run->to_vote);
}

static SELDOM struct found grade_over(const struct run *run, const struct hearing *hearing, unsigned k, uint64_t *said)
{
    column room;
    unsigned places = complete(run, hearing, k, &said, room);
    return most_often(said, places, run->t);
}

/* Step 1: what the sound boxes hear from leader k, and in how many places that is not 0. */
static unsigned hear_leader(const struct run *run, unsigned k, const uint8_t *table, uint64_t *heard)
{
    int faulty = (run->faulty >> k) & 1;
    const uint8_t *from = table + ROW_BYTES * k * run->n;
    unsigned rows = 0;
    if (!faulty && !((run->listed >> k) & 1)) {
        for (unsigned place = 0; place < run->sound_count; place++)
            heard[place] = run->row[k];
        return run->sound_count;
    }
    FOR_EACH(i, run->sound) {
        uint64_t row = faulty ? row_at(from + ROW_BYTES * i) : run->row[k];
        *heard = (run->list[i] >> k) & 1 ? 0 : row;
        rows += *heard++ != 0;
    }
    return rows;
}

/* Step 3 for box i, whose votes stand at `place` of each column. Gives how many of them are not 0. */
static unsigned vote_all(const struct run *run, unsigned i, const uint8_t *part, column *heard, column *votes,
                         unsigned place)
{
    struct hearing hearing;
    unsigned rows = 0;
    hear(run, i, part, run->to_vote, &hearing);
    for (unsigned k = 0; k < run->n; k++) {
        uint64_t row = common_row(heard[k], hearing.to_answer);
        if (row == 0)
            row = vote_over(run, &hearing, k, heard[k]);
        votes[k][place] = row;
        rows += row != 0;
    }
    return rows;
}

/* Steps 4 and 5 for box i. */
static void finish_box(struct run *run, unsigned i, const uint8_t *part, column *votes)
{
    struct hearing hearing;
    uint64_t held[MOST_BOXES];
    unsigned count = 0;
    hear(run, i, part, run->to_be_sure, &hearing);
    for (unsigned k = 0; k < run->n; k++) {
        held[count] = common_row(votes[k], hearing.to_answer);
        if (held[count] == 0) {
            struct found found = grade_over(run, &hearing, k, votes[k]);
            if (found.places <= 2 * run->t)
                run->list[i] |= 1u << k;
            if (found.places <= run->t)
                continue;
            held[count] = found.row;
        }
        count++;
    }
    if (count != 0)
        run->row[i] = most_often(held, count, 0).row;
}

/* Once step 1 is over nobody but box i reads its row and list, so it is finished before the next box grades. */
static void iterate(struct run *run, const uint8_t *table)
{
    unsigned n = run->n, place = 0;
    const uint8_t *second = table + ROW_BYTES * n * n, *third = second + ROW_BYTES * n * n * n;
    uint64_t rows = run->sound_count;
    column heard[MOST_BOXES], votes[MOST_BOXES];
    for (unsigned k = 0; k < n; k++)
        rows += hear_leader(run, k, table, heard[k]);
    FOR_EACH(i, run->sound)
        rows += vote_all(run, i, second, heard, votes, place++);
    FOR_EACH(i, run->sound) {
        finish_box(run, i, third, votes);
        run->listed |= run->list[i];
    }
    run->sent += (n - 1) * rows; /* each row goes to all boxes but its sender */
    run->done++;
}

/* The first nine bytes. Gives the number of the refusal. */
static unsigned read_mark(struct run *run, size_t size)
{
    if (size < MARK_BYTES)
        return 1;
    if (memcmp(file, "HNB", 3) != 0)
        return 2;
    if (memcmp(file + 3, "\0\1", 2) != 0)
        return 3;
    run->n = file[5];
    if (run->n < 1 || run->n > MOST_BOXES)
        return 4;
    run->t = file[6] == 255 ? (run->n - 1) / 3 : file[6];
    if (3 * run->t >= run->n)
        return 5;
    run->faulty = (unsigned)file[7] << 8 | file[8];
    if (run->faulty >> run->n != 0)
        return 6;
    return 0;
}

static unsigned start(struct run *run, size_t size)
{
    unsigned refusal = read_mark(run, size);
    if (refusal != 0)
        return refusal;
    if (size < MARK_BYTES + ROW_BYTES * run->n)
        return 8;
    run->sound = ~run->faulty & ((1u << run->n) - 1);
    run->sound_count = (unsigned)__builtin_popcount(run->sound);
    run->to_vote = run->n - run->t;
    run->to_be_sure = 2 * run->t + 1 > run->n / 2 ? 2 * run->t + 1 : run->n / 2 + 1;
    run->done = run->listed = 0;
    run->sent = 0;
    for (unsigned i = 0; i < run->n; i++) {
        run->row[i] = row_at(file + MARK_BYTES + ROW_BYTES * i);
        run->list[i] = 0;
        if (run->row[i] == 0 && (run->sound >> i) & 1)
            return 9;
    }
    return 0;
}

static const char pairs[] = "0001020304050607080910111213141516171819202122232425262728293031323334353637383940"
                            "4142434445464748495051525354555657585960616263646566676869707172737475767778798081"
                            "828384858687888990919293949596979899";

static char *put_small(char *at, uint64_t number)
{
    if (number < 10) {
        *at = (char)('0' + number);
        return at + 1;
    }
    memcpy(at, pairs + 2 * number, 2);
    return at + 2;
}

/* The first one or two digits, and then those behind them in pairs, which are found from the last to the first. */
static char *put_number(char *at, uint64_t number)
{
    char digits[40];
    char *first = digits + 20;
    for (; number >= 100; number /= 100)
        memcpy(first -= 2, pairs + 2 * (number % 100), 2);
    at = put_small(at, number);
    if (first != digits + 20)
        memcpy(at, first, 20); /* always twenty: one length is quicker than the right one */
    return at + (digits + 20 - first);
}

static char *put_boxes(char *at, const struct run *run)
{
    char start[8] = "at 0 ";
    start[3] = (char)('0' + run->done);
    FOR_EACH(i, run->sound) {
        memcpy(at, start, 8);
        at = put_number(at + 5, i + 1);
        *at++ = ' ';
        at = put_number(at, number_of(run->row[i]));
        *at++ = ' ';
        at = put_number(at, run->list[i]);
        *at++ = '\n';
    }
    return at;
}

static char *put_run(char *at, const struct run *run)
{
    memcpy(at, "run ", 4);
    at = put_number(at + 4, run->n);
    *at++ = ' ';
    at = put_number(at, run->t);
    *at++ = ' ';
    at = put_number(at, run->faulty);
    *at++ = '\n';
    return at;
}

static char *put_refused(char *at, unsigned refusal)
{
    memcpy(at, "refused ", 8);
    at = put_number(at + 8, refusal);
    *at++ = '\n';
    return at;
}

static char *list_run(char *at, size_t size)
{
    struct run run;
    unsigned refusal = start(&run, size);
    if (refusal != 0)
        return put_refused(at, refusal);
    at = put_run(at, &run);
    size_t table = ROW_BYTES * (run.n * run.n + 2 * run.n * run.n * run.n);
    size_t end = MARK_BYTES + ROW_BYTES * run.n;
    while (run.done <= run.t) {
        if (size < end + table)
            return put_refused(at, 8);
        iterate(&run, file + end);
        at = put_boxes(at, &run);
        end += table;
    }
    if (size > end)
        return put_refused(at, 8);
    memcpy(at, "sent ", 5);
    at = put_number(at + 5, run.sent);
    *at++ = '\n';
    return at;
}

int main(void)
{
    size_t size = 0;
    ssize_t came;
    while (size < sizeof file && (came = read(0, file + size, sizeof file - size)) > 0)
        size += (size_t)came;
    size_t length = (size_t)(list_run(text, size) - text);
    return write(1, text, length) == (ssize_t)length ? 0 : 2;
}
