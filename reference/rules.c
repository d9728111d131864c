/* The rules of one iteration: vote, grade, choice, and the three steps of sending that lie between them. */
#include "notebook.h"

#include <string.h>

enum { SET_BITS = 16 };

/* The two rows of constants. Place n is for n boxes, and there is no run with 0 boxes. */
static const uint8_t LARGEST_TS[] = {0, 0, 0, 0, 1, 1, 1, 2, 2, 2, 3, 3, 3, 4};
static const uint16_t TABLE_ROWS[] = {0, 3, 20, 63, 144, 275, 468, 735, 1088, 1539, 2100, 2783, 3600, 4563};

/* What every box sends to every box in step 2 or 3: [sender][leader] for the sound senders. */
typedef uint64_t sendings[MOST_BOXES][MOST_BOXES];

/* What one box hears in step 2 or 3: [leader][sender], so that a vote runs along one row of memory. */
typedef uint64_t hearings[MOST_BOXES][MOST_BOXES];

size_t table_rows(unsigned n)
{
    return n <= MOST_BOXES ? TABLE_ROWS[n] : 0;
}

unsigned largest_t(unsigned n)
{
    return n <= MOST_BOXES ? LARGEST_TS[n] : 0;
}

/* C gives no meaning to a shift by more bits than a number has, so the place is tested first, here and below. */
int in_set(unsigned set, uint64_t box)
{
    return box < SET_BITS && (set >> box) & 1;
}

int has_stray_bit(unsigned n, unsigned set)
{
    return n < SET_BITS && set >> n != 0;
}

int is_sound_zero(unsigned faulty, uint64_t box, uint64_t row)
{
    return !in_set(faulty, box) && row == 0;
}

static unsigned places_of(const uint64_t *rows, unsigned n, uint64_t row)
{
    unsigned places = 0;
    for (unsigned j = 0; j < n; j++)
        places += rows[j] == row;
    return places;
}

/* Step 3. More than half of the places are needed, so the first row that has them is the only one. */
static uint64_t vote_over(const uint64_t *rows, unsigned n, unsigned t)
{
    uint64_t last_counted = 0;
    for (unsigned j = 0; j < n; j++) {
        if (rows[j] == 0 || rows[j] == last_counted)
            continue;
        last_counted = rows[j];
        if (places_of(rows, n, rows[j]) >= n - t)
            return rows[j];
    }
    return 0;
}

/* The thresholds of step 4, which stand here alone. With t = 0 both are 1, so that of confidence 2 comes first. */
unsigned confidence_of(unsigned support, unsigned t)
{
    if (support >= 2 * t + 1)
        return 2;
    return support > t ? 1 : 0;
}

/* Step 4. The support is stated whatever the confidence; where every row is 0 nothing was found, and it is 0. */
static struct grade grade_over(const uint64_t *rows, unsigned n, unsigned t)
{
    uint64_t best = 0;
    unsigned support = 0;
    for (unsigned j = 0; j < n; j++) {
        if (rows[j] == 0 || rows[j] == best)
            continue;
        unsigned places = places_of(rows, n, rows[j]);
        if (places > support || (places == support && rows[j] < best)) {
            best = rows[j];
            support = places;
        }
    }
    struct grade answer = {0, 0, (uint8_t)support};
    answer.confidence = (uint8_t)confidence_of(support, t);
    if (answer.confidence > 0)
        answer.row = best;
    return answer;
}

/* How many leaders hold the row with at least this confidence. */
static unsigned holders(const uint64_t *rows, const uint8_t *confidences, unsigned n, uint64_t row, unsigned least)
{
    unsigned count = 0;
    for (unsigned k = 0; k < n; k++)
        count += rows[k] == row && confidences[k] >= least;
    return count;
}

/* Step 5. */
static struct choice choice_over(const uint64_t *rows, const uint8_t *confidences, unsigned n)
{
    struct choice answer = {0, 0};
    unsigned most = 0;
    for (unsigned k = 0; k < n; k++) {
        if (rows[k] == 0 || confidences[k] == 0 || rows[k] == answer.row)
            continue;
        unsigned leaders = holders(rows, confidences, n, rows[k], 1);
        if (leaders > most || (leaders == most && rows[k] < answer.row)) {
            answer.row = rows[k];
            most = leaders;
        }
    }
    if (answer.row != 0)
        answer.sure = (uint8_t)holders(rows, confidences, n, answer.row, 2);
    return answer;
}

enum refusal check_n_t(uint64_t n, unsigned t)
{
    if (n < 1 || n > MOST_BOXES)
        return WRONG_N;
    if (3 * t >= n)
        return WRONG_T;
    return FINE;
}

/* Refusal 7 has no test here: with 3t less than n, two rows cannot both stand n - t times among n. */
enum refusal vote(const uint64_t *rows, size_t count, unsigned t, uint64_t *row)
{
    *row = 0;
    enum refusal refusal = check_n_t(count, t);
    if (refusal == FINE)
        *row = vote_over(rows, (unsigned)count, t);
    return refusal;
}

enum refusal grade(const uint64_t *rows, size_t count, unsigned t, struct grade *answer)
{
    memset(answer, 0, sizeof *answer);
    enum refusal refusal = check_n_t(count, t);
    if (refusal == FINE)
        *answer = grade_over(rows, (unsigned)count, t);
    return refusal;
}

enum refusal choice(const uint64_t *rows, size_t count, const uint8_t *confidences, size_t confidence_count,
                    struct choice *answer)
{
    memset(answer, 0, sizeof *answer);
    if (count < 1 || count > MOST_BOXES)
        return WRONG_N;
    if (count != confidence_count)
        return WRONG_LENGTH;
    for (size_t k = 0; k < count; k++)
        if (confidences[k] > 2)
            return WRONG_CONFIDENCE;
    *answer = choice_over(rows, confidences, (unsigned)count);
    return FINE;
}

static int sound_row_is_zero(const uint64_t *rows, unsigned n, unsigned faulty)
{
    for (unsigned i = 0; i < n; i++)
        if (is_sound_zero(faulty, i, rows[i]))
            return 1;
    return 0;
}

static enum refusal check_n_t_faulty(unsigned n, unsigned t, unsigned faulty)
{
    enum refusal refusal = check_n_t(n, t);
    if (refusal == FINE && has_stray_bit(n, faulty))
        return STRAY_FAULTY_BIT;
    return refusal;
}

enum refusal start(uint8_t n, uint8_t t, uint16_t faulty, const uint64_t *rows, size_t count, struct state *state)
{
    memset(state, 0, sizeof *state);
    enum refusal refusal = check_n_t_faulty(n, t, faulty);
    if (refusal != FINE)
        return refusal;
    if (count != n)
        return WRONG_LENGTH;
    if (sound_row_is_zero(rows, n, faulty))
        return ZERO_ROW;
    state->n = n;
    state->t = t;
    state->faulty = faulty;
    for (unsigned i = 0; i < n; i++)
        if (!in_set(faulty, i))
            state->row[i] = rows[i];
    return FINE;
}

/* The most that one iteration sends: each of n boxes to n - 1 others, in step 1 its row, in steps 2 and 3 one for each
   leader. A table has more rows, those from a box to itself too. */
static uint64_t most_messages(unsigned n)
{
    return (uint64_t)n * (n - 1) * (1 + 2 * n);
}

/* The reason of box i for leader k, both from 0: thirteen places for each box, however many boxes there are. */
size_t reason_place(unsigned box, unsigned leader)
{
    return (size_t)MOST_BOXES * box + leader;
}

/* What refusal 14 says of reasons, case by case. */
static int is_without_iteration(int listed, const struct reason *reason)
{
    return listed && reason->iteration == 0;
}

static int is_kept_without_listing(int listed, const struct reason *reason)
{
    return !listed && (reason->iteration != 0 || reason->confidence != 0 || reason->support != 0);
}

static int is_not_yet_done(const struct reason *reason, unsigned done)
{
    return reason->iteration > done;
}

static int is_too_sure(const struct reason *reason)
{
    return reason->confidence > 1;
}

/* Confidence 0 goes with at most t, confidence 1 with more than t and less than 2t + 1. */
static int is_unfit(const struct reason *reason, unsigned t)
{
    if (reason->confidence == 0)
        return reason->support > t;
    return reason->confidence == 1 && (reason->support <= t || reason->support >= 2 * t + 1);
}

static int reason_is_wrong(const struct state *state, int listed, const struct reason *reason)
{
    return is_without_iteration(listed, reason) || is_kept_without_listing(listed, reason) ||
           is_not_yet_done(reason, state->done) || is_too_sure(reason) || is_unfit(reason, state->t);
}

/* All 169 places, those of faulty boxes and those above n too. */
static int some_reason_is_wrong(const struct state *state)
{
    for (unsigned i = 0; i < MOST_BOXES; i++)
        for (unsigned k = 0; k < MOST_BOXES; k++)
            if (reason_is_wrong(state, in_set(state->list[i], k), &state->reason[reason_place(i, k)]))
                return 1;
    return 0;
}

int state_is_wrong(const struct state *state)
{
    for (unsigned i = 0; i < MOST_BOXES; i++) {
        int sound = i < state->n && !in_set(state->faulty, i);
        if (!sound && (state->row[i] != 0 || state->list[i] != 0))
            return 1;
        if (has_stray_bit(state->n, state->list[i]))
            return 1;
    }
    if (some_reason_is_wrong(state))
        return 1;
    return state->sent > state->done * most_messages(state->n);
}

/* What each call on a state tests first: 4, 5, 6 and 9. */
enum refusal check_boxes(const struct state *state)
{
    enum refusal refusal = check_n_t_faulty(state->n, state->t, state->faulty);
    if (refusal == FINE && sound_row_is_zero(state->row, state->n, state->faulty))
        return ZERO_ROW;
    return refusal;
}

static enum refusal check_iteration(const struct state *state, size_t count)
{
    enum refusal refusal = check_boxes(state);
    if (refusal != FINE)
        return refusal;
    if (count != table_rows(state->n))
        return WRONG_LENGTH;
    if (state->done > state->t)
        return ALL_DONE;
    if (state_is_wrong(state))
        return WRONG_STATE;
    return FINE;
}

/* A box does not radio to itself: a row goes to the others, faulty ones too. What it says to itself it still hears. */
static unsigned receivers(unsigned n)
{
    return n - 1;
}

/* Each non-zero row that a sound box sends is one message to each receiver. */
static uint64_t messages_of(const uint64_t *rows, unsigned n)
{
    return (uint64_t)receivers(n) * (n - places_of(rows, n, 0));
}

/* What box i hears in step 1: heard[k] from box k. */
static void hear_rows(const struct state *state, const uint64_t *table, unsigned i, uint64_t *heard)
{
    unsigned n = state->n;
    for (unsigned k = 0; k < n; k++) {
        if (in_set(state->list[i], k))
            heard[k] = 0;
        else if (in_set(state->faulty, k))
            heard[k] = table[k * n + i];
        else
            heard[k] = state->row[k];
    }
}

/* What box i hears in step 2 or 3. The table given is that step's part alone. */
static void hear_all(const struct state *state, sendings sent, const uint64_t *table, unsigned i, hearings heard)
{
    unsigned n = state->n;
    for (unsigned j = 0; j < n; j++) {
        const uint64_t *from = in_set(state->faulty, j) ? table + (j * n + i) * n : sent[j];
        int listed = in_set(state->list[i], j);
        for (unsigned k = 0; k < n; k++)
            heard[k][j] = listed ? 0 : from[k];
    }
}

/* Steps 1 and 2: fills `first` with what each sound box heard in step 1, and counts what steps 1 and 2 send. A row of
   0 is no message; no iteration begins with one, but steps 1 to 4 by themselves may. */
static uint64_t step_one(const struct state *state, const uint64_t *table, sendings first)
{
    unsigned n = state->n;
    uint64_t sent = 0;
    for (unsigned i = 0; i < n; i++) {
        if (in_set(state->faulty, i))
            continue;
        hear_rows(state, table, i, first[i]);
        unsigned own = state->row[i] != 0 ? receivers(n) : 0;
        sent += own + messages_of(first[i], n);
    }
    return sent;
}

/* Step 3: fills `second` with the votes of each sound box, and counts them as they are sent. */
static uint64_t step_three(const struct state *state, const uint64_t *table, sendings first, sendings second)
{
    hearings heard;
    unsigned n = state->n;
    uint64_t sent = 0;
    for (unsigned i = 0; i < n; i++) {
        if (in_set(state->faulty, i))
            continue;
        hear_all(state, first, table, i, heard);
        for (unsigned k = 0; k < n; k++)
            second[i][k] = vote_over(heard[k], n, state->t);
        sent += messages_of(second[i], n);
    }
    return sent;
}

/* Step 4: the grade of each leader by each sound box. The faulty boxes' places are left as they are. */
static void step_four(const struct state *state, const uint64_t *table, sendings second, struct cast *cast)
{
    hearings heard;
    unsigned n = state->n;
    for (unsigned i = 0; i < n; i++) {
        if (in_set(state->faulty, i))
            continue;
        hear_all(state, second, table, i, heard);
        for (unsigned k = 0; k < n; k++) {
            struct grade answer = grade_over(heard[k], n, state->t);
            cast->row[i * n + k] = answer.row;
            cast->confidence[i * n + k] = answer.confidence;
            cast->support[i * n + k] = answer.support;
        }
    }
}

/* The lists in force are those of the state, which changes in step 5 alone. */
static void steps_over(const struct state *state, const uint64_t *table, struct cast *cast)
{
    sendings first, second;
    size_t n = state->n;
    cast->messages = step_one(state, table, first);
    cast->messages += step_three(state, table + n * n, first, second);
    step_four(state, table + n * n + n * n * n, second, cast);
}

/* The number of boxes comes apart from the state, which has no room for every number that may be asked. */
enum refusal steps(uint64_t n, const struct state *from, const uint64_t *table, size_t count, struct cast *cast)
{
    memset(cast, 0, sizeof *cast);
    enum refusal refusal = check_n_t(n, from->t);
    if (refusal != FINE)
        return refusal;
    if (count != table_rows((unsigned)n))
        return WRONG_LENGTH;
    struct state state = *from;
    state.n = (uint8_t)n;
    steps_over(&state, table, cast);
    return FINE;
}

/* Leader k comes on the list of box i, and the reason is kept: the iteration is the one after those done. A leader
   that was on the list before keeps the reason that it has. */
static void join(struct state *next, unsigned i, unsigned k, const struct cast *cast)
{
    size_t found = (size_t)i * next->n + k;
    if (in_set(next->list[i], k))
        return;
    next->list[i] |= (uint16_t)(1u << k);
    next->reason[reason_place(i, k)] =
        (struct reason){(uint8_t)(next->done + 1), cast->confidence[found], cast->support[found]};
}

/* Step 5 for box i: its new row, and the leaders that join its list. */
static void step_five(struct state *next, unsigned i, const struct cast *cast)
{
    unsigned n = next->n;
    const uint64_t *rows = cast->row + i * n;
    const uint8_t *confidences = cast->confidence + i * n;
    for (unsigned k = 0; k < n; k++)
        if (confidences[k] < 2)
            join(next, i, k, cast);
    struct choice chosen = choice_over(rows, confidences, n);
    if (chosen.row != 0)
        next->row[i] = chosen.row;
}

enum refusal iterate(struct state *state, const uint64_t *table, size_t count)
{
    struct cast cast;
    enum refusal refusal = check_iteration(state, count);
    if (refusal != FINE)
        return refusal;
    steps_over(state, table, &cast);
    for (unsigned i = 0; i < state->n; i++)
        if (!in_set(state->faulty, i))
            step_five(state, i, &cast);
    state->sent += cast.messages;
    state->done++;
    return FINE;
}
