/* The second program: the rules of the agreement, written apart from the proved library and compared with it. */
#ifndef NOTEBOOK_H
#define NOTEBOOK_H

#include <stddef.h>
#include <stdint.h>

enum { MOST_BOXES = 13, MOST_ROWS = 13 * 13 + 2 * 13 * 13 * 13, MOST_REASONS = 13 * 13 };

/* The run file: its heading without the rows, one row, and the largest file: thirteen boxes and five tables. */
enum { MARK_BYTES = 9, ROW_BYTES = 8, MOST_FILE = MARK_BYTES + ROW_BYTES * (MOST_BOXES + 5 * MOST_ROWS) };

/* The digits of the largest number there is. */
enum { MOST_DIGITS = 20 };

/* Room for every listing: a first line of 14 bytes, 65 of 34 and a last one of 11 have 2,235. */
enum { MOST_TEXT = 4096 };

/* The text of a run file: the bytes of its longest line that is no comment, and what a lent line must have room for,
   so that a longer one shows. */
enum { MOST_LINE = 1000, LENT_LINE = MOST_LINE + 1 };

/* Room for everything that is told: 27 bytes before the longest sentence, which has 82, and a newline. */
enum { MOST_TOLD = 128 };

/* Room for every line that says why: three numbers of 8 bits between words of 51 bytes. */
enum { MOST_ANSWER = 64 };

/* What part 0 of a text that is shown may take, and what one row of a table may take. */
enum { FRONT_ROOM = 300, SAY_ROOM = 40 };

/* The number that each refusal carries. A call tests them in this order, except that a start tests 11 before 9. */
enum refusal {
    FINE = 0,
    HEADING_TOO_SHORT = 1,
    WRONG_MARK = 2,
    WRONG_VERSION = 3,
    WRONG_N = 4,
    WRONG_T = 5,
    STRAY_FAULTY_BIT = 6,
    TWO_VOTES = 7,
    WRONG_BYTES = 8,
    ZERO_ROW = 9,
    SLICE_TOO_SHORT = 10,
    WRONG_LENGTH = 11,
    ALL_DONE = 12,
    WRONG_CONFIDENCE = 13,
    WRONG_STATE = 14,
    WRONG_BOX = 15
};

/* The status of a program that could not run, open, read or write. */
enum { STATUS_FAILED = 2 };

/* Why a box was listed: the iteration, from 1, and what was found in it. Zeros where there is no listing. */
struct reason {
    uint8_t iteration, confidence, support;
};

struct state {
    uint8_t n, t;
    uint16_t faulty;
    uint8_t done;
    uint64_t sent;
    uint64_t row[MOST_BOXES];
    uint16_t list[MOST_BOXES];
    struct reason reason[MOST_REASONS]; /* by `reason_place` */
};

struct grade {
    uint64_t row;
    uint8_t confidence;
    uint8_t support; /* places of the row found most often, also where it is too few for a confidence */
};

struct choice {
    uint64_t row;
    uint8_t sure; /* leaders with confidence 2 that hold the row */
};

/* What steps 1 to 4 give: the messages sent, and how sound box i grades leader k, at place i * n + k. */
struct cast {
    uint64_t messages;
    uint64_t row[MOST_BOXES * MOST_BOXES];
    uint8_t confidence[MOST_BOXES * MOST_BOXES];
    uint8_t support[MOST_BOXES * MOST_BOXES];
};

struct heading {
    uint16_t version;
    uint8_t n, t;
    uint16_t faulty;
};

/* A line of text before it is written. The word is any bytes. */
struct line {
    const uint8_t *word;
    size_t word_bytes;
    const uint64_t *numbers;
    size_t count;
};

/* The listing of a run file, and how its last line reads: FINE for `sent`, else what stands behind `refused`. */
struct listing {
    uint8_t text[MOST_TEXT];
    size_t size;
    enum refusal ends;
};

/* The line that says why, and what stands behind `refused` in it: FINE where it says something else. */
struct answer {
    char text[MOST_ANSWER];
    size_t size;
    enum refusal ends;
};

/* What the line reader gives: the bytes of the word, and how many numbers follow; both 0 where it is no such line. */
struct words {
    size_t word_bytes;
    size_t count;
};

/* Where in the file the row of a line `say` goes, and whether the line is understood. */
struct place {
    int meant;
    size_t at;
};

/* What is known of a text so far. Stage 0, 1, 2: `run`, `rows`, `say` is due. From 3 on the outcome is settled. */
struct maker {
    uint8_t stage, n, t;
    uint16_t faulty;
    uint64_t lines, kept;
    uint8_t refusal, fault;
};

/* What the maker writes to: the line that has not ended yet, and the run file. */
struct lent {
    uint8_t *line;
    size_t line_length;
    uint8_t *file;
    size_t file_length;
};

/* The outcome of a whole text: a refusal, or a fault and its line, or the size of the run file. */
struct made {
    uint8_t refusal;
    uint64_t line;
    uint8_t fault;
    size_t size;
};

/* One part of the text that is shown of a run file, and how many parts there are. */
struct shown {
    size_t size;
    uint64_t parts;
};

/* rules.c */
size_t table_rows(unsigned n);
unsigned largest_t(unsigned n);
int in_set(unsigned set, uint64_t box);
int has_stray_bit(unsigned n, unsigned set);
int is_sound_zero(unsigned faulty, uint64_t box, uint64_t row);
enum refusal check_n_t(uint64_t n, unsigned t);
unsigned confidence_of(unsigned support, unsigned t);
enum refusal vote(const uint64_t *rows, size_t count, unsigned t, uint64_t *row);
enum refusal grade(const uint64_t *rows, size_t count, unsigned t, struct grade *answer);
enum refusal choice(const uint64_t *rows, size_t count, const uint8_t *confidences, size_t confidence_count,
                    struct choice *answer);
size_t reason_place(unsigned box, unsigned leader);
enum refusal check_boxes(const struct state *state);
int state_is_wrong(const struct state *state);
enum refusal start(uint8_t n, uint8_t t, uint16_t faulty, const uint64_t *rows, size_t count, struct state *state);
enum refusal steps(uint64_t n, const struct state *from, const uint64_t *table, size_t count, struct cast *cast);
enum refusal iterate(struct state *state, const uint64_t *table, size_t count);

/* runfile.c */
uint64_t big_endian(const uint8_t *bytes, size_t count);
enum refusal read_heading(const uint8_t *bytes, size_t count, uint64_t *slice, size_t length, struct heading *heading);
enum refusal read_table(uint8_t n, const uint8_t *bytes, size_t count, uint64_t *slice, size_t length);
enum refusal read_part(const uint8_t *bytes, size_t bytes_count, uint64_t from, uint64_t count, uint64_t *slice,
                       size_t length);

/* write.c */
void put_big_endian(uint64_t number, uint8_t *bytes, size_t count);
size_t heading_bytes(unsigned n);
size_t table_begins(unsigned n, unsigned table);
size_t file_bytes(unsigned n, unsigned t);
enum refusal check_heading(const struct heading *heading, const uint64_t *rows, size_t count);
enum refusal write_heading(const struct heading *heading, const uint64_t *rows, size_t count, uint8_t *slice,
                           size_t length, size_t *size);
enum refusal write_table(unsigned n, const uint64_t *rows, size_t count, uint8_t *slice, size_t length, size_t *size);
enum refusal write_row(uint64_t row, uint64_t place, uint8_t *slice, size_t length);

/* lines.c */
size_t decimal(uint64_t number, char *digits);
enum refusal write_line(uint8_t *slice, size_t length, const struct line *line, size_t *size);
uint64_t write_line_at(uint8_t *slice, size_t length, uint64_t place, const struct line *line);

/* text.c */
enum refusal read_line(const uint8_t *bytes, size_t count, uint64_t *slice, size_t length, struct words *words);
enum refusal say_place(unsigned n, unsigned t, const uint64_t *numbers, size_t count, struct place *place);
enum refusal write_say(unsigned n, unsigned table, size_t place, uint64_t row, uint8_t *slice, size_t length,
                       size_t *size);

/* make.c */
void take_text(struct maker *maker, const uint8_t *bytes, size_t count, const struct lent *lent);
struct made end_text(struct maker maker, const struct lent *lent);
int is_settled(const struct maker *maker, const uint8_t *line, size_t length);
enum refusal tell(const struct made *made, uint8_t *slice, size_t length, size_t *size);

/* show.c */
enum refusal show_part(const uint8_t *bytes, size_t count, uint64_t part, uint8_t *slice, size_t length,
                       struct shown *shown);

/* listing.c */
void list_file(const uint8_t *bytes, size_t count, struct listing *listing);
enum refusal list_into(const uint8_t *bytes, size_t count, uint8_t *slice, size_t length, struct listing *listing);
enum refusal outcome(const uint8_t *bytes, size_t count, struct state *state);

/* why.c */
enum refusal why(const struct state *state, uint64_t asked, uint64_t listed, struct reason *reason);
int read_box_number(const uint8_t *bytes, size_t count, unsigned *number);
void answer_file(const uint8_t *bytes, size_t count, uint64_t asked, uint64_t listed, struct answer *answer);
enum refusal answer_into(const uint8_t *bytes, size_t count, uint64_t asked, uint64_t listed, uint8_t *slice,
                         size_t length, struct answer *answer);

/* inout.c */
void read_from(const char *name);
size_t take(uint8_t *bytes, size_t count);
size_t take_some(uint8_t *bytes, size_t count);
void put_bytes(const void *bytes, size_t count);
void put_word(const char *word);
void put_number(uint64_t number);
void put_end_of_line(void);
void put_all(void);

/* replies.c */
void answer_requests(void);

#endif
