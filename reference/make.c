/* The maker: a text comes in pieces, and a run file comes of it, or what is wrong with the text. */
#include "notebook.h"

#include <string.h>

enum stage { RUN_DUE = 0, ROWS_DUE = 1, SAY_DUE = 2, SETTLED = 3 };

enum fault { TOO_LONG = 1, NO_WORDS = 2, NO_RUN = 3, NO_ROWS = 4, NO_SAY = 5 };

/* By the number of the fault. Place 0 is for every number that is none of them. */
static const char *const SENTENCES[] = {
    "this line is not understood",
    "a line that is no comment has at most 1,000 bytes",
    "this is not a word with numbers behind it",
    "a line run is due, with n, t and the faulty set",
    "a line rows is due, with the row of each box",
    "a line say is due: iteration, step, sender, receiver, leader in steps 2 and 3, row"
};

/* One line that has come to its end, and its words. Of 1,000 bytes a number takes two at least. */
struct ended {
    const uint8_t *bytes;
    size_t size;
    struct words words;
    uint64_t numbers[MOST_LINE / 2];
};

static void settle_fault(struct maker *maker, enum fault fault)
{
    maker->stage = SETTLED;
    maker->fault = (uint8_t)fault;
}

static void settle_refusal(struct maker *maker, enum refusal refusal)
{
    maker->stage = SETTLED;
    maker->refusal = (uint8_t)refusal;
}

static uint64_t one_more(uint64_t lines)
{
    return lines < UINT64_MAX ? lines + 1 : lines;
}

static int is_word(const struct ended *line, const char *word)
{
    return line->words.word_bytes == strlen(word) && memcmp(line->bytes, word, strlen(word)) == 0;
}

/* Only spaces, and behind them a carriage return or not. */
static int is_empty(const struct ended *line)
{
    for (size_t i = 0; i < line->size; i++)
        if (line->bytes[i] != ' ' && !(line->bytes[i] == '\r' && i + 1 == line->size))
            return 0;
    return 1;
}

static uint64_t at_most(uint64_t number, uint64_t most)
{
    return number < most ? number : most;
}

/* Any numbers pass here. What is too large for its place stays too large there: it is refused when `rows` comes. */
static void take_run(struct maker *maker, const struct ended *line)
{
    if (!is_word(line, "run") || line->words.count != 3) {
        settle_fault(maker, NO_RUN);
        return;
    }
    maker->n = (uint8_t)at_most(line->numbers[0], UINT8_MAX);
    maker->t = (uint8_t)at_most(line->numbers[1], UINT8_MAX);
    maker->faulty = (uint16_t)at_most(line->numbers[2], UINT16_MAX);
    maker->stage = ROWS_DUE;
}

static void take_rows_line(struct maker *maker, const struct ended *line, const struct lent *lent)
{
    struct heading heading = {1, maker->n, maker->t, maker->faulty};
    size_t size;
    if (!is_word(line, "rows")) {
        settle_fault(maker, NO_ROWS);
        return;
    }
    enum refusal refusal = check_heading(&heading, line->numbers, line->words.count);
    if (refusal == FINE && lent->file_length < file_bytes(maker->n, maker->t))
        refusal = SLICE_TOO_SHORT;
    if (refusal != FINE) {
        settle_refusal(maker, refusal);
        return;
    }
    write_heading(&heading, line->numbers, line->words.count, lent->file, lent->file_length, &size);
    memset(lent->file + size, 0, file_bytes(maker->n, maker->t) - size);
    maker->stage = SAY_DUE;
}

static void take_say(struct maker *maker, const struct ended *line, const struct lent *lent)
{
    struct place place;
    if (!is_word(line, "say")) {
        settle_fault(maker, NO_SAY);
        return;
    }
    enum refusal refusal = say_place(maker->n, maker->t, line->numbers, line->words.count, &place);
    if (refusal != FINE)
        settle_refusal(maker, refusal);
    else if (!place.meant)
        settle_fault(maker, NO_SAY);
    else if (lent->file_length < place.at + ROW_BYTES)
        settle_refusal(maker, SLICE_TOO_SHORT);
    else
        put_big_endian(line->numbers[line->words.count - 1], lent->file + place.at, ROW_BYTES);
}

static void take_words(struct maker *maker, const struct ended *line, const struct lent *lent)
{
    if (line->words.word_bytes == 0)
        settle_fault(maker, NO_WORDS);
    else if (maker->stage == RUN_DUE)
        take_run(maker, line);
    else if (maker->stage == ROWS_DUE)
        take_rows_line(maker, line, lent);
    else
        take_say(maker, line, lent);
}

/* How many bytes of the line that has not ended stand in the lent line. */
static size_t kept_bytes(const struct maker *maker, size_t length)
{
    return (size_t)at_most(maker->kept, length);
}

static void end_line(struct maker *maker, const struct lent *lent)
{
    struct ended line;
    line.bytes = lent->line;
    line.size = kept_bytes(maker, lent->line_length);
    maker->lines = one_more(maker->lines);
    maker->kept = 0;
    if (line.size > 0 && line.bytes[0] == '#')
        return;
    if (line.size > MOST_LINE) {
        settle_fault(maker, TOO_LONG);
        return;
    }
    if (is_empty(&line))
        return;
    read_line(line.bytes, line.size, line.numbers, MOST_LINE / 2, &line.words);
    take_words(maker, &line, lent);
}

void take_text(struct maker *maker, const uint8_t *bytes, size_t count, const struct lent *lent)
{
    if (maker->stage < SETTLED && lent->line_length < LENT_LINE)
        settle_refusal(maker, SLICE_TOO_SHORT);
    for (size_t i = 0; i < count && maker->stage < SETTLED; i++) {
        if (bytes[i] == '\n')
            end_line(maker, lent);
        else if (maker->kept < lent->line_length)
            lent->line[maker->kept++] = bytes[i];
    }
}

/* The text ends while a line `run`, `rows` or `say` is due. */
static struct made end_unsettled(const struct maker *maker, const struct lent *lent)
{
    if (maker->stage == RUN_DUE)
        return (struct made){0, one_more(maker->lines), NO_RUN, 0};
    if (maker->stage == ROWS_DUE)
        return (struct made){0, one_more(maker->lines), NO_ROWS, 0};
    enum refusal refusal = check_n_t(maker->n, maker->t);
    if (refusal == FINE && lent->file_length < file_bytes(maker->n, maker->t))
        refusal = SLICE_TOO_SHORT;
    if (refusal != FINE)
        return (struct made){(uint8_t)refusal, 0, 0, 0};
    return (struct made){0, 0, 0, file_bytes(maker->n, maker->t)};
}

struct made end_text(struct maker maker, const struct lent *lent)
{
    if (maker.stage < SETTLED && lent->line_length < LENT_LINE)
        return (struct made){SLICE_TOO_SHORT, 0, 0, 0};
    if (maker.stage < SETTLED && maker.kept != 0)
        end_line(&maker, lent);
    if (maker.stage >= SETTLED)
        return (struct made){maker.refusal, maker.fault != 0 ? maker.lines : 0, maker.fault, 0};
    return end_unsettled(&maker, lent);
}

/* A line that is already too long stays so, whatever follows; only a comment may go on. */
int is_settled(const struct maker *maker, const uint8_t *line, size_t length)
{
    if (maker->stage >= SETTLED)
        return 1;
    return kept_bytes(maker, length) > MOST_LINE && line[0] != '#';
}

/* A line without its numbers at the end: `line `, the number, `: ` and the sentence. */
static size_t put_fault(uint64_t number, unsigned fault, char *text)
{
    const char *sentence = SENTENCES[fault < sizeof SENTENCES / sizeof SENTENCES[0] ? fault : 0];
    strcpy(text, "line ");
    size_t used = strlen(text);
    used += decimal(number, text + used);
    strcpy(text + used, ": ");
    strcpy(text + used + 2, sentence);
    return strlen(text);
}

enum refusal tell(const struct made *made, uint8_t *slice, size_t length, size_t *size)
{
    char text[MOST_TOLD] = "refused";
    uint64_t number = made->refusal;
    struct line line = {(const uint8_t *)text, strlen(text), &number, 1};
    *size = 0;
    if (made->refusal == 0 && made->fault == 0)
        return FINE;
    if (made->refusal == 0)
        line = (struct line){line.word, put_fault(made->line, made->fault, text), NULL, 0};
    return write_line(slice, length, &line, size);
}
