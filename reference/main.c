/* notebook list [FILE]      prints the listing of a run file.
   notebook make [FILE]      turns a text into a run file, as docs/TEXT.md has it.
   notebook show [FILE]      prints the text of a run file.
   notebook why ASKED LISTED [FILE]
                             says why box LISTED is on the list of box ASKED at the end of a run file.
   notebook replies < STREAM answers the requests of docs/REQUESTS.md.

   Status 0: a listing that ends with `sent`, a run file, a text, an answer, or all replies. Status 1: a listing that
   ends with `refused`, an answer that says `refused`, or else one line on standard error that says what is wrong with
   the text or the file, and nothing on standard output. Status 2: it could not run, open, read or write; one line on
   standard error says which. */
#define _POSIX_C_SOURCE 200809L
#include "notebook.h"

#include <signal.h>
#include <stdio.h>
#include <string.h>

#define USAGE \
    "usage: notebook list|make|show [FILE] | notebook why ASKED LISTED [FILE] | " \
    "notebook replies < STREAM | notebook --help\n"

/* A text has any length, so it is taken in pieces. */
enum { PIECE_BYTES = 65536 };

static uint8_t file[MOST_FILE + 1];

static int is(const char *argument, const char *word)
{
    return strcmp(argument, word) == 0;
}

static int print_usage(void)
{
    put_word(USAGE);
    put_all();
    return 0;
}

static int wrong_usage(void)
{
    fputs(USAGE, stderr);
    return STATUS_FAILED;
}

/* One byte more than the largest file has shows that a file goes on, so an endless one is read no further. */
static int print_listing(const char *name)
{
    struct listing listing;
    read_from(name);
    list_file(file, take(file, sizeof file), &listing);
    put_bytes(listing.text, listing.size);
    put_all();
    return listing.ends == FINE ? 0 : 1;
}

/* Nothing stands on standard output then. */
static int tell_why(const struct made *made)
{
    uint8_t told[MOST_TOLD];
    size_t size;
    tell(made, told, sizeof told, &size);
    fwrite(told, 1, size, stderr);
    return 1;
}

/* A text whose outcome is settled is read no further: it may be endless, or what follows may never come. */
static int make_file(const char *name)
{
    static uint8_t line[LENT_LINE], piece[PIECE_BYTES];
    const struct lent lent = {line, sizeof line, file, MOST_FILE};
    struct maker maker = {0};
    size_t came;
    read_from(name);
    do {
        came = take_some(piece, sizeof piece);
        take_text(&maker, piece, came, &lent);
    } while (came > 0 && !is_settled(&maker, line, sizeof line));
    struct made made = end_text(maker, &lent);
    if (made.refusal != 0 || made.fault != 0)
        return tell_why(&made);
    put_bytes(file, made.size);
    put_all();
    return 0;
}

static int show_file(const char *name)
{
    static uint8_t text[SAY_ROOM * MOST_ROWS];
    struct shown shown = {0, 1};
    read_from(name);
    size_t count = take(file, sizeof file);
    for (uint64_t part = 0; part < shown.parts; part++) {
        struct made made = {0};
        made.refusal = (uint8_t)show_part(file, count, part, text, sizeof text, &shown);
        if (made.refusal != 0)
            return tell_why(&made);
        put_bytes(text, shown.size);
    }
    put_all();
    return 0;
}

static int read_argument(const char *argument, unsigned *number)
{
    return read_box_number((const uint8_t *)argument, strlen(argument), number);
}

/* What is no question is told before anything is opened or read. */
static int print_answer(char **words)
{
    struct answer answer;
    unsigned asked, listed;
    if (!read_argument(words[0], &asked) || !read_argument(words[1], &listed))
        return wrong_usage();
    read_from(words[2]);
    answer_file(file, take(file, sizeof file), asked, listed, &answer);
    put_bytes(answer.text, answer.size);
    put_all();
    return answer.ends == FINE ? 0 : 1;
}

static int print_replies(void)
{
    read_from(NULL);
    answer_requests();
    return 0;
}

int main(int argc, char **argv)
{
    /* A reader that has gone away then shows as a failed write, like a full disk. */
    signal(SIGPIPE, SIG_IGN);
    if ((argc == 2 || argc == 3) && is(argv[argc - 1], "--help"))
        return print_usage();
    if ((argc == 2 || argc == 3) && is(argv[1], "list"))
        return print_listing(argv[2]);
    if ((argc == 2 || argc == 3) && is(argv[1], "make"))
        return make_file(argv[2]);
    if ((argc == 2 || argc == 3) && is(argv[1], "show"))
        return show_file(argv[2]);
    if ((argc == 4 || argc == 5) && is(argv[1], "why"))
        return print_answer(argv + 2);
    if (argc == 2 && is(argv[1], "replies"))
        return print_replies();
    return wrong_usage();
}
