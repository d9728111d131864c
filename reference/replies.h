/* What both files of replies share: pieces of requests, pieces of replies, and what is lent to the calls. */
#ifndef REPLIES_H
#define REPLIES_H

#include "notebook.h"

enum { MOST_LENT = 5000, MOST_TABLE_LENT = 40000, MOST_FILE_BYTES = 200000 };

extern uint8_t bytes[MOST_FILE_BYTES];
extern uint64_t rows[MOST_LENT];
extern uint8_t text[MOST_FILE_BYTES];

/* Every `take_` gives 0 where the input is cut short; then no line is printed. */
int take_number(size_t count, uint64_t *number);
int take_bytes(uint64_t count);
int take_length(size_t count, uint64_t most, uint64_t *length);
int take_rows(size_t count);
void put_reply(const char *name, uint64_t number);
void fill_lent(size_t length);
void put_lent(size_t length);
void fill_text(size_t length);
void put_text(size_t length);

/* textreplies.c, in the order of their kinds, which begin with 21. */
enum { TEXT_REPLIES = 13 };
extern int (*const TEXTS[TEXT_REPLIES])(void);

/* textreplies.c, kinds 36 and 37. */
int reply_number(void);
int reply_answer(void);

#endif
