/* The replies to the requests of kinds 21 to 33, about the writer and the text of run files, and of 36 and 37, about
   why a box is listed. */
#include "replies.h"

enum { MAKER_BYTES = 23 };

/* The unfinished line of a text, which the request gives. */
static uint8_t line[MOST_LENT];

static int reply_headed(void)
{
    uint64_t n, t, faulty, count, length;
    size_t size;
    if (!take_number(1, &n) || !take_number(1, &t) || !take_number(2, &faulty) || !take_number(1, &count))
        return 0;
    if (!take_length(2, MOST_LENT, &length) || !take_rows(count))
        return 0;
    struct heading heading = {1, (uint8_t)n, (uint8_t)t, (uint16_t)faulty};
    fill_text(length);
    put_reply("headed", write_heading(&heading, rows, count, text, length, &size));
    put_number(size);
    put_text(length);
    return 1;
}

static int reply_tabled(void)
{
    uint64_t n, count, length;
    size_t size;
    if (!take_number(1, &n) || !take_length(2, MOST_LENT, &count) || !take_length(2, MOST_TABLE_LENT, &length))
        return 0;
    if (!take_rows(count))
        return 0;
    fill_text(length);
    put_reply("tabled", write_table((unsigned)n, rows, count, text, length, &size));
    put_number(size);
    put_text(length);
    return 1;
}

static int reply_read(void)
{
    uint64_t count, length;
    struct words words;
    if (!take_length(2, MOST_LENT, &count) || !take_length(2, MOST_LENT, &length) || !take_bytes(count))
        return 0;
    fill_lent(length);
    put_reply("read", read_line(bytes, count, rows, length, &words));
    put_number(words.word_bytes);
    put_number(words.count);
    put_lent(length);
    return 1;
}

static int reply_place(void)
{
    uint64_t n, t, count;
    struct place place;
    if (!take_number(1, &n) || !take_number(1, &t) || !take_number(1, &count) || !take_rows(count))
        return 0;
    put_reply("place", say_place((unsigned)n, (unsigned)t, rows, count, &place));
    put_number((uint64_t)place.meant);
    put_number(place.at);
    return 1;
}

static int reply_say(void)
{
    uint64_t n, table, place, row, length;
    size_t size;
    if (!take_number(1, &n) || !take_number(1, &table) || !take_number(2, &place) || !take_number(8, &row))
        return 0;
    if (!take_length(2, MOST_LENT, &length))
        return 0;
    fill_text(length);
    put_reply("say", write_say((unsigned)n, (unsigned)table, place, row, text, length, &size));
    put_number(size);
    put_text(length);
    return 1;
}

static int take_maker(struct maker *maker)
{
    if (!take_bytes(MAKER_BYTES))
        return 0;
    maker->stage = bytes[0];
    maker->n = bytes[1];
    maker->t = bytes[2];
    maker->faulty = (uint16_t)big_endian(bytes + 3, 2);
    maker->lines = big_endian(bytes + 5, 8);
    maker->kept = big_endian(bytes + 13, 8);
    maker->refusal = bytes[21];
    maker->fault = bytes[22];
    return 1;
}

static void put_maker(const struct maker *maker)
{
    put_number(maker->stage);
    put_number(maker->n);
    put_number(maker->t);
    put_number(maker->faulty);
    put_number(maker->lines);
    put_number(maker->kept);
    put_number(maker->refusal);
    put_number(maker->fault);
}

/* The lengths of the lent line and the lent file, and the file, which is filled. The line's bytes come later. */
static int take_lent(struct lent *lent)
{
    uint64_t line_length, file_length;
    if (!take_length(2, MOST_LENT, &line_length) || !take_length(2, MOST_LENT, &file_length))
        return 0;
    *lent = (struct lent){line, line_length, text, file_length};
    fill_text(file_length);
    return 1;
}

static int take_lent_line(const struct lent *lent)
{
    return take(line, lent->line_length) == lent->line_length;
}

static int reply_taken(void)
{
    struct maker maker;
    struct lent lent;
    uint64_t count;
    if (!take_maker(&maker) || !take_length(2, MOST_LENT, &count) || !take_lent(&lent))
        return 0;
    if (!take_bytes(count) || !take_lent_line(&lent))
        return 0;
    take_text(&maker, bytes, count, &lent);
    put_word("taken");
    put_maker(&maker);
    for (size_t i = 0; i < lent.line_length; i++)
        put_number(line[i]);
    put_text(lent.file_length);
    return 1;
}

static int reply_ended(void)
{
    struct maker maker;
    struct lent lent;
    if (!take_maker(&maker) || !take_lent(&lent) || !take_lent_line(&lent))
        return 0;
    struct made made = end_text(maker, &lent);
    put_reply("ended", made.refusal);
    put_number(made.line);
    put_number(made.fault);
    put_number(made.size);
    put_text(lent.file_length);
    return 1;
}

static int reply_told(void)
{
    uint64_t refusal, number, fault, length;
    size_t size;
    if (!take_number(1, &refusal) || !take_number(8, &number) || !take_number(1, &fault))
        return 0;
    if (!take_length(2, MOST_LENT, &length))
        return 0;
    struct made made = {(uint8_t)refusal, number, (uint8_t)fault, 0};
    fill_text(length);
    put_reply("told", tell(&made, text, length, &size));
    put_number(size);
    put_text(length);
    return 1;
}

static int reply_shown(void)
{
    uint64_t part, length, count;
    struct shown shown;
    if (!take_number(8, &part) || !take_length(4, MOST_FILE_BYTES, &length))
        return 0;
    if (!take_length(4, MOST_FILE_BYTES, &count) || !take_bytes(count))
        return 0;
    fill_text(length);
    put_reply("shown", show_part(bytes, count, part, text, length, &shown));
    put_number(shown.size);
    put_number(shown.parts);
    put_text(length);
    return 1;
}

static int reply_maker(void)
{
    struct maker maker = {0};
    put_word("maker");
    put_maker(&maker);
    return 1;
}

static int reply_row(void)
{
    uint64_t row, place, length;
    if (!take_number(8, &row) || !take_number(8, &place) || !take_length(2, MOST_LENT, &length))
        return 0;
    fill_text(length);
    put_reply("row", write_row(row, place, text, length));
    put_text(length);
    return 1;
}

static int reply_begins(void)
{
    uint64_t n, table;
    if (!take_number(1, &n) || !take_number(1, &table))
        return 0;
    put_reply("begins", table_begins((unsigned)n, (unsigned)table));
    return 1;
}

static int reply_settled(void)
{
    struct maker maker;
    uint64_t length;
    if (!take_maker(&maker) || !take_length(2, MOST_LENT, &length) || take(line, length) != length)
        return 0;
    put_reply("settled", (uint64_t)is_settled(&maker, line, length));
    return 1;
}

int reply_number(void)
{
    uint64_t count;
    unsigned number;
    if (!take_length(2, MOST_LENT, &count) || !take_bytes(count))
        return 0;
    put_reply("number", (uint64_t)read_box_number(bytes, count, &number));
    put_number(number);
    return 1;
}

int reply_answer(void)
{
    uint64_t asked, listed, length, count;
    struct answer answer;
    if (!take_number(8, &asked) || !take_number(8, &listed) || !take_length(2, MOST_LENT, &length))
        return 0;
    if (!take_length(4, MOST_FILE_BYTES, &count) || !take_bytes(count))
        return 0;
    fill_text(length);
    put_reply("answer", answer_into(bytes, count, asked, listed, text, length, &answer));
    put_number(answer.size);
    put_number(answer.ends);
    put_text(length);
    return 1;
}

int (*const TEXTS[TEXT_REPLIES])(void) = {
    reply_headed, reply_tabled, reply_read, reply_place, reply_say, reply_taken, reply_ended, reply_told, reply_shown,
    reply_maker, reply_row, reply_begins, reply_settled
};
