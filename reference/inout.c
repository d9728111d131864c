/* The input in pieces and standard output through one buffer. What fails here ends the program. */
#define _POSIX_C_SOURCE 200809L
#include "notebook.h"

#include <errno.h>
#include <fcntl.h>
#include <stdio.h>
#include <stdlib.h>
#include <string.h>
#include <unistd.h>

enum { OUT_BYTES = 65536 };

static char out[OUT_BYTES];
static size_t out_used;
static FILE *input;
static const char *input_name;

/* One line on standard error: a name with line breaks in it must not make two. */
static _Noreturn void fail(const char *doing, const char *name)
{
    const char *reason = strerror(errno);
    fprintf(stderr, "notebook: cannot %s ", doing);
    for (; *name != '\0'; name++)
        fputc((unsigned char)*name < ' ' ? '?' : *name, stderr);
    fprintf(stderr, ": %s\n", reason);
    exit(STATUS_FAILED);
}

/* Standard input where no name is given. */
void read_from(const char *name)
{
    input = name == NULL ? stdin : fopen(name, "rb");
    input_name = name == NULL ? "standard input" : name;
    if (input == NULL)
        fail("open", name);
}

/* A closed standard input counts as an empty one. */
static int is_closed(void)
{
    return input == stdin && errno == EBADF && fcntl(STDIN_FILENO, F_GETFD) == -1;
}

/* Reads until the count is reached or the input ends, and gives how many bytes came. */
size_t take(uint8_t *bytes, size_t count)
{
    size_t came = fread(bytes, 1, count, input);
    if (came < count && ferror(input) && !is_closed())
        fail("read", input_name);
    return came;
}

/* Gives what has come, without waiting for all of the count; 0 where the input ends. For an input that was never read
   by `take`, which reads ahead. */
size_t take_some(uint8_t *bytes, size_t count)
{
    ssize_t came = read(fileno(input), bytes, count);
    if (came < 0 && !is_closed())
        fail("read", input_name);
    return came < 0 ? 0 : (size_t)came;
}

void put_all(void)
{
    if (fwrite(out, 1, out_used, stdout) != out_used || fflush(stdout) != 0)
        fail("write to", "standard output");
    out_used = 0;
}

void put_bytes(const void *bytes, size_t count)
{
    const char *from = bytes;
    while (count > 0) {
        size_t piece = count < OUT_BYTES - out_used ? count : OUT_BYTES - out_used;
        memcpy(out + out_used, from, piece);
        out_used += piece;
        from += piece;
        count -= piece;
        if (out_used == OUT_BYTES)
            put_all();
    }
}

void put_word(const char *word)
{
    put_bytes(word, strlen(word));
}

/* A space and the number in decimal. */
void put_number(uint64_t number)
{
    char text[1 + MOST_DIGITS] = " ";
    put_bytes(text, 1 + decimal(number, text + 1));
}

void put_end_of_line(void)
{
    put_bytes("\n", 1);
}
