/* Why a box stands on a list: asked of a state, and of a whole run file. */
#include "notebook.h"

#include <stdio.h>
#include <string.h>

/* What stands for every number that is larger than 8 bits hold. No box has it. */
enum { ABOVE_255 = 256 };

static int is_box(const struct state *state, uint64_t number)
{
    return number >= 1 && number <= state->n;
}

/* More iterations done than may be run are a case of 14 here: 12 belongs to the iteration alone. */
static enum refusal check_question(const struct state *state, uint64_t asked, uint64_t listed)
{
    enum refusal refusal = check_boxes(state);
    if (refusal != FINE)
        return refusal;
    if (state->done > state->t + 1 || state_is_wrong(state))
        return WRONG_STATE;
    if (!is_box(state, asked) || !is_box(state, listed))
        return WRONG_BOX;
    if (in_set(state->faulty, asked - 1))
        return WRONG_BOX;
    return FINE;
}

/* Both boxes count from 1. A refused call gives zeros, and so does a box that is not listed. */
enum refusal why(const struct state *state, uint64_t asked, uint64_t listed, struct reason *reason)
{
    memset(reason, 0, sizeof *reason);
    enum refusal refusal = check_question(state, asked, listed);
    if (refusal == FINE)
        *reason = state->reason[reason_place((unsigned)asked - 1, (unsigned)listed - 1)];
    return refusal;
}

/* From 1 to 20 digits, zeros in front too. A number above 255 stays above it, whatever digits follow. */
int read_box_number(const uint8_t *bytes, size_t count, unsigned *number)
{
    unsigned value = 0;
    *number = 0;
    if (count < 1 || count > MOST_DIGITS)
        return 0;
    for (size_t i = 0; i < count; i++) {
        if (bytes[i] < '0' || bytes[i] > '9')
            return 0;
        value = 10 * value + (bytes[i] - (unsigned)'0');
        if (value > ABOVE_255)
            value = ABOVE_255;
    }
    *number = value;
    return 1;
}

static int print_reason(const struct reason *reason, char *text)
{
    if (reason->iteration == 0)
        return snprintf(text, MOST_ANSWER, "not listed\n");
    return snprintf(text, MOST_ANSWER, "listed in iteration %u with confidence %u and support %u\n",
                    reason->iteration, reason->confidence, reason->support);
}

/* A bad file says so before the two numbers are looked at. */
void answer_file(const uint8_t *bytes, size_t count, uint64_t asked, uint64_t listed, struct answer *answer)
{
    struct state state;
    struct reason reason;
    answer->ends = outcome(bytes, count, &state);
    if (answer->ends == FINE)
        answer->ends = why(&state, asked, listed, &reason);
    if (answer->ends == FINE)
        answer->size = (size_t)print_reason(&reason, answer->text);
    else
        answer->size = (size_t)snprintf(answer->text, MOST_ANSWER, "refused %d\n", answer->ends);
}

/* The line at the front of a slice. A slice that is too short stays, and the size and the end are then 0. */
enum refusal answer_into(const uint8_t *bytes, size_t count, uint64_t asked, uint64_t listed, uint8_t *slice,
                         size_t length, struct answer *answer)
{
    answer_file(bytes, count, asked, listed, answer);
    if (answer->size > length) {
        answer->size = 0;
        answer->ends = FINE;
        return SLICE_TOO_SHORT;
    }
    memcpy(slice, answer->text, answer->size);
    return FINE;
}
