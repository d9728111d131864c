/* The replies to a stream of requests, in the format of docs/REQUESTS.md: the stream, and kinds 1 to 20, 34 and 35. */
#include "replies.h"

/* A state before its rows, and one of its reasons. */
enum { LEAD_BYTES = 13, REASON_BYTES = 3 };

uint8_t bytes[MOST_FILE_BYTES];
uint64_t rows[MOST_LENT];
uint8_t text[MOST_FILE_BYTES];

int take_number(size_t count, uint64_t *number)
{
    uint8_t piece[8];
    if (take(piece, count) != count)
        return 0;
    *number = big_endian(piece, count);
    return 1;
}

int take_bytes(uint64_t count)
{
    return count <= sizeof bytes && take(bytes, count) == count;
}

/* A length that has a limit: longer ones end the program like a request that is cut short. */
int take_length(size_t count, uint64_t most, uint64_t *length)
{
    return take_number(count, length) && *length <= most;
}

/* The count is at most 5,000: each caller's length is one byte or is tested first. */
int take_rows(size_t count)
{
    if (!take_bytes(8 * count))
        return 0;
    for (size_t i = 0; i < count; i++)
        rows[i] = big_endian(bytes + 8 * i, 8);
    return 1;
}

/* Thirteen rows and thirteen lists, which stand together wherever they stand. */
static int take_boxes(struct state *state)
{
    if (!take_bytes(10 * MOST_BOXES))
        return 0;
    for (size_t i = 0; i < MOST_BOXES; i++) {
        state->row[i] = big_endian(bytes + 8 * i, 8);
        state->list[i] = (uint16_t)big_endian(bytes + 8 * MOST_BOXES + 2 * i, 2);
    }
    return 1;
}

static int take_reasons(struct state *state)
{
    if (!take_bytes(REASON_BYTES * MOST_REASONS))
        return 0;
    for (size_t i = 0; i < MOST_REASONS; i++) {
        const uint8_t *reason = bytes + REASON_BYTES * i;
        state->reason[i] = (struct reason){reason[0], reason[1], reason[2]};
    }
    return 1;
}

static int take_state(struct state *state)
{
    if (!take_bytes(LEAD_BYTES))
        return 0;
    state->n = bytes[0];
    state->t = bytes[1];
    state->faulty = (uint16_t)big_endian(bytes + 2, 2);
    state->done = bytes[4];
    state->sent = big_endian(bytes + 5, 8);
    return take_boxes(state) && take_reasons(state);
}

void put_reply(const char *name, uint64_t number)
{
    put_word(name);
    put_number(number);
}

static void put_reason(const struct reason *reason)
{
    put_number(reason->iteration);
    put_number(reason->confidence);
    put_number(reason->support);
}

static void put_state(const struct state *state)
{
    put_number(state->n);
    put_number(state->t);
    put_number(state->faulty);
    put_number(state->done);
    put_number(state->sent);
    for (size_t i = 0; i < MOST_BOXES; i++)
        put_number(state->row[i]);
    for (size_t i = 0; i < MOST_BOXES; i++)
        put_number(state->list[i]);
    for (size_t i = 0; i < MOST_REASONS; i++)
        put_reason(&state->reason[i]);
}

void fill_lent(size_t length)
{
    for (size_t i = 0; i < length; i++)
        rows[i] = i + 1;
}

void put_lent(size_t length)
{
    for (size_t i = 0; i < length; i++)
        put_number(rows[i]);
}

/* A lent slice of bytes goes on with 0 after 255. */
void fill_text(size_t length)
{
    for (size_t i = 0; i < length; i++)
        text[i] = (uint8_t)(i + 1);
}

void put_text(size_t length)
{
    for (size_t i = 0; i < length; i++)
        put_number(text[i]);
}

static int reply_vote(void)
{
    uint64_t count, t, row;
    if (!take_number(1, &count) || !take_number(1, &t) || !take_rows(count))
        return 0;
    put_reply("vote", vote(rows, count, (unsigned)t, &row));
    put_number(row);
    return 1;
}

static int reply_grade(void)
{
    uint64_t count, t;
    struct grade answer;
    if (!take_number(1, &count) || !take_number(1, &t) || !take_rows(count))
        return 0;
    put_reply("grade", grade(rows, count, (unsigned)t, &answer));
    put_number(answer.row);
    put_number(answer.confidence);
    put_number(answer.support);
    return 1;
}

static int reply_choice(void)
{
    uint64_t count, confidence_count;
    struct choice answer;
    if (!take_number(1, &count) || !take_number(1, &confidence_count) || !take_rows(count))
        return 0;
    if (!take_bytes(confidence_count))
        return 0;
    put_reply("choice", choice(rows, count, bytes, confidence_count, &answer));
    put_number(answer.row);
    put_number(answer.sure);
    return 1;
}

static int reply_start(void)
{
    uint64_t n, t, faulty, count;
    struct state state;
    if (!take_number(1, &n) || !take_number(1, &t) || !take_number(2, &faulty))
        return 0;
    if (!take_number(1, &count) || !take_rows(count))
        return 0;
    put_reply("start", start((uint8_t)n, (uint8_t)t, (uint16_t)faulty, rows, count, &state));
    put_state(&state);
    return 1;
}

static int reply_iteration(void)
{
    uint64_t count;
    struct state state;
    if (!take_state(&state) || !take_length(2, MOST_LENT, &count) || !take_rows(count))
        return 0;
    put_reply("iteration", iterate(&state, rows, count));
    put_state(&state);
    return 1;
}

static int reply_heading(void)
{
    uint64_t count, length;
    struct heading heading;
    if (!take_number(1, &count) || !take_number(1, &length) || !take_bytes(count))
        return 0;
    fill_lent(length);
    put_reply("heading", read_heading(bytes, count, rows, length, &heading));
    put_number(heading.version);
    put_number(heading.n);
    put_number(heading.t);
    put_number(heading.faulty);
    put_lent(length);
    return 1;
}

static int reply_table(void)
{
    uint64_t n, count, length;
    if (!take_number(1, &n) || !take_number(2, &count) || !take_length(2, MOST_LENT, &length) || !take_bytes(count))
        return 0;
    fill_lent(length);
    put_reply("table", read_table((uint8_t)n, bytes, count, rows, length));
    put_lent(length);
    return 1;
}

static int reply_largest(void)
{
    uint64_t n;
    if (!take_number(1, &n))
        return 0;
    put_reply("largest", largest_t((unsigned)n));
    return 1;
}

static int reply_rows(void)
{
    uint64_t n;
    if (!take_number(1, &n))
        return 0;
    put_reply("rows", table_rows((unsigned)n));
    return 1;
}

static int reply_sizes(void)
{
    uint64_t n, t;
    if (!take_number(8, &n) || !take_number(1, &t))
        return 0;
    put_reply("sizes", check_n_t(n, (unsigned)t));
    return 1;
}

static int reply_member(void)
{
    uint64_t set, box;
    if (!take_number(2, &set) || !take_number(8, &box))
        return 0;
    put_reply("member", (uint64_t)in_set((unsigned)set, box));
    return 1;
}

static int reply_stray(void)
{
    uint64_t n, set;
    if (!take_number(1, &n) || !take_number(2, &set))
        return 0;
    put_reply("stray", (uint64_t)has_stray_bit((unsigned)n, (unsigned)set));
    return 1;
}

static int reply_zero(void)
{
    uint64_t faulty, box, row;
    if (!take_number(2, &faulty) || !take_number(8, &box) || !take_number(8, &row))
        return 0;
    put_reply("zero", (uint64_t)is_sound_zero((unsigned)faulty, box, row));
    return 1;
}

static int reply_steps(void)
{
    uint64_t n, t, faulty, count;
    struct state state = {0};
    struct cast cast;
    if (!take_number(8, &n) || !take_number(1, &t) || !take_number(2, &faulty) || !take_boxes(&state))
        return 0;
    if (!take_length(2, MOST_LENT, &count) || !take_rows(count))
        return 0;
    state.t = (uint8_t)t;
    state.faulty = (uint16_t)faulty;
    put_reply("steps", steps(n, &state, rows, count, &cast));
    put_number(cast.messages);
    for (size_t i = 0; i < MOST_BOXES * MOST_BOXES; i++)
        put_number(cast.row[i]);
    for (size_t i = 0; i < MOST_BOXES * MOST_BOXES; i++)
        put_number(cast.confidence[i]);
    for (size_t i = 0; i < MOST_BOXES * MOST_BOXES; i++)
        put_number(cast.support[i]);
    return 1;
}

/* The length of the lent slice, which is filled, and the line that is to be written into it. */
static int take_line(uint64_t *length, struct line *line)
{
    static uint8_t word[255];
    uint64_t word_bytes, count;
    if (!take_length(2, MOST_LENT, length) || !take_number(1, &word_bytes) || !take_number(1, &count))
        return 0;
    if (take(word, word_bytes) != word_bytes || !take_rows(count))
        return 0;
    *line = (struct line){word, word_bytes, rows, count};
    fill_text(*length);
    return 1;
}

static int reply_line(void)
{
    uint64_t length;
    size_t size;
    struct line line;
    if (!take_line(&length, &line))
        return 0;
    put_reply("line", write_line(text, length, &line, &size));
    put_number(size);
    put_text(length);
    return 1;
}

static int reply_put(void)
{
    uint64_t place, length;
    struct line line;
    if (!take_number(8, &place) || !take_line(&length, &line))
        return 0;
    put_reply("put", write_line_at(text, length, place, &line));
    put_text(length);
    return 1;
}

static int reply_part(void)
{
    uint64_t from, count, bytes_count, length;
    if (!take_number(8, &from) || !take_number(8, &count) || !take_number(2, &bytes_count))
        return 0;
    if (!take_length(2, MOST_LENT, &length) || !take_bytes(bytes_count))
        return 0;
    fill_lent(length);
    put_reply("part", read_part(bytes, bytes_count, from, count, rows, length));
    put_lent(length);
    return 1;
}

static int reply_listing(void)
{
    uint64_t length, count;
    struct listing listing;
    if (!take_length(2, MOST_LENT, &length) || !take_length(4, MOST_FILE_BYTES, &count) || !take_bytes(count))
        return 0;
    fill_text(length);
    put_reply("listing", list_into(bytes, count, text, length, &listing));
    put_number(listing.size);
    put_number(listing.ends);
    put_text(length);
    return 1;
}

static int reply_outcome(void)
{
    uint64_t count;
    struct state state;
    if (!take_length(4, MOST_FILE_BYTES, &count) || !take_bytes(count))
        return 0;
    put_reply("outcome", outcome(bytes, count, &state));
    put_state(&state);
    return 1;
}

static int reply_none(void)
{
    struct state state = {0};
    put_word("none");
    put_state(&state);
    return 1;
}

static int reply_confidence(void)
{
    uint64_t support, t;
    if (!take_number(1, &support) || !take_number(1, &t))
        return 0;
    put_reply("confidence", confidence_of((unsigned)support, (unsigned)t));
    return 1;
}

static int reply_why(void)
{
    uint64_t asked, listed;
    struct state state;
    struct reason reason;
    if (!take_state(&state) || !take_number(8, &asked) || !take_number(8, &listed))
        return 0;
    put_reply("why", why(&state, asked, listed, &reason));
    put_reason(&reason);
    put_state(&state);
    return 1;
}

/* In the order of their kinds, which begin with 1. */
static int (*const REPLIES[])(void) = {
    reply_vote, reply_grade, reply_choice, reply_start, reply_iteration, reply_heading, reply_table, reply_largest,
    reply_rows, reply_sizes, reply_member, reply_stray, reply_zero, reply_steps, reply_line, reply_put, reply_part,
    reply_listing, reply_outcome, reply_none
};

/* Those that came later than the kinds of textreplies.c. */
static int (*const LATER[])(void) = {reply_confidence, reply_why, reply_number, reply_answer};

enum {
    FIRST_TEXT = 1 + sizeof REPLIES / sizeof REPLIES[0],
    FIRST_LATER = FIRST_TEXT + TEXT_REPLIES,
    LAST_KIND = FIRST_LATER + sizeof LATER / sizeof LATER[0] - 1
};

static int reply_to(uint64_t kind)
{
    if (kind < 1 || kind > LAST_KIND)
        return 0;
    if (kind >= FIRST_LATER)
        return LATER[kind - FIRST_LATER]();
    return kind >= FIRST_TEXT ? TEXTS[kind - FIRST_TEXT]() : REPLIES[kind - 1]();
}

void answer_requests(void)
{
    uint64_t kind;
    while (take_number(1, &kind) && reply_to(kind))
        put_end_of_line();
    put_all();
}
