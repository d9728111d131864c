"""What tests/trials breaks in the reasons that a state keeps, in `why`, in box numbers and in the line that says why.

What is broken, in which file, and the text that takes the place of another. Each text stands in its file once.
"""

ALREADY = "    if (in_set(next->list[i], k))\n        return;\n"
KEPT = "return !listed && (reason->iteration != 0 || reason->confidence != 0 || reason->support != 0);"
JOINS = "            join(next, i, k, cast);\n"
EXAMINED = "if (reason_is_wrong(state, in_set(state->list[i], k), &state->reason[reason_place(i, k)]))"

# What an iteration writes.
JOINING = (
    ("the reason of a box that is listed already is overwritten", "rules.c", ALREADY, ""),
    ("the reason of a box that is listed already takes the new support", "rules.c", ALREADY,
     "    if (in_set(next->list[i], k)) {\n        struct reason *kept = &next->reason[reason_place(i, k)];\n"
     "        if (cast->confidence[found] == kept->confidence)\n            kept->support = cast->support[found];\n"
     "        return;\n    }\n"),
    ("the reason of a box that is listed already is lost", "rules.c", ALREADY,
     "    if (in_set(next->list[i], k)) {\n        next->reason[reason_place(i, k)] = (struct reason){1, 0, 0};\n"
     "        return;\n    }\n"),
    ("the iteration counts from 0", "rules.c", "(uint8_t)(next->done + 1)", "(uint8_t)next->done"),
    ("the iteration is always 1", "rules.c", "(uint8_t)(next->done + 1)", "1"),
    ("the iteration is at most 2", "rules.c", "(uint8_t)(next->done + 1)", "next->done > 0 ? 2 : 1"),
    ("what the other box found is kept", "rules.c",
     "size_t found = (size_t)i * next->n + k;", "size_t found = (size_t)k * next->n + i;"),
    ("what was found is looked for 13 places apart", "rules.c",
     "size_t found = (size_t)i * next->n + k;", "size_t found = (size_t)i * MOST_BOXES + k;"),
    ("the reason is kept in the other box's place", "rules.c",
     "    next->reason[reason_place(i, k)] =\n", "    next->reason[reason_place(k, i)] =\n"),
    ("the reason is kept at place i * n + k", "rules.c",
     "    next->reason[reason_place(i, k)] =\n", "    next->reason[i * next->n + k] =\n"),
    ("a reason is kept for a box that does not join", "rules.c", JOINS,
     JOINS + "        else\n            next->reason[reason_place(i, k)].support = 1;\n"),
    ("a reason is kept for a box that does not join in the first iteration of a single box", "rules.c", JOINS,
     JOINS + "        else if (n == 1)\n            next->reason[0] = (struct reason){1, 0, 0};\n"),
    ("the support is kept at confidence 1 alone", "rules.c",
     "cast->support[found]};", "cast->confidence[found] > 0 ? cast->support[found] : 0};"),
    ("confidence and support are swapped where they are kept", "rules.c",
     "cast->confidence[found], cast->support[found]};", "cast->support[found], cast->confidence[found]};"),
    ("the confidence that is kept is 0", "rules.c",
     "cast->confidence[found], cast->support[found]};", "0, cast->support[found]};"),
    ("no reason is kept for a sound box", "rules.c",
     "    next->reason[reason_place(i, k)] =\n",
     "    if (!in_set(next->faulty, k))\n        return;\n    next->reason[reason_place(i, k)] =\n"),
    ("no reason is kept for the box itself", "rules.c",
     "    next->reason[reason_place(i, k)] =\n",
     "    if (i == k)\n        return;\n    next->reason[reason_place(i, k)] =\n"),
    ("an iteration forgets the reasons before it", "rules.c",
     "    steps_over(state, table, &cast);\n    for",
     "    steps_over(state, table, &cast);\n    memset(state->reason, 0, sizeof state->reason);\n    for"),
    ("a refused iteration clears the reasons", "rules.c",
     "    enum refusal refusal = check_iteration(state, count);\n    if (refusal != FINE)\n        return refusal;",
     "    enum refusal refusal = check_iteration(state, count);\n    if (refusal != FINE)\n"
     "        return memset(state->reason, 0, sizeof state->reason), refusal;"),
    ("a start has a reason", "rules.c", "    state->faulty = faulty;\n",
     "    state->faulty = faulty;\n    state->reason[0].iteration = n == 13;\n"),
)

# What refusal 14 says of reasons.
REASONS = (
    ("a listing without its iteration passes", "rules.c", "return listed && reason->iteration == 0;", "return 0;"),
    ("a listing needs no iteration where it has a support", "rules.c",
     "return listed && reason->iteration == 0;", "return listed && reason->iteration == 0 && reason->support == 0;"),
    ("anything passes without a listing", "rules.c", KEPT, "return 0;"),
    ("an iteration passes without a listing", "rules.c", KEPT,
     "return !listed && (reason->confidence != 0 || reason->support != 0);"),
    ("a confidence passes without a listing", "rules.c", KEPT,
     "return !listed && (reason->iteration != 0 || (reason->support != 0 && reason->confidence == 0));"),
    ("a support passes without a listing", "rules.c", KEPT,
     "return !listed && (reason->iteration != 0 || reason->confidence != 0);"),
    ("an iteration not yet done passes", "rules.c", "return reason->iteration > done;", "return 0;"),
    ("the next iteration passes as done", "rules.c", "return reason->iteration > done;",
     "return reason->iteration > done + 1;"),
    ("the last iteration does not pass as done", "rules.c", "return reason->iteration > done;",
     "return reason->iteration >= done && done > 0;"),
    ("an iteration up to t + 1 passes as done", "rules.c",
     "is_not_yet_done(reason, state->done)", "is_not_yet_done(reason, state->t + 1)"),
    ("a confidence above 1 passes", "rules.c", "return reason->confidence > 1;", "return 0;"),
    ("a confidence of 2 passes", "rules.c", "return reason->confidence > 1;", "return reason->confidence > 2;"),
    ("a confidence is examined in 7 bits", "rules.c", "return reason->confidence > 1;",
     "return (reason->confidence & 127) > 1;"),
    ("confidence 1 does not pass", "rules.c", "return reason->confidence > 1;", "return reason->confidence > 0;"),
    ("any support fits", "rules.c", "|| is_unfit(reason, state->t);", ";"),
    ("any support fits confidence 0", "rules.c", "return reason->support > t;", "return 0;"),
    ("t + 1 fits confidence 0", "rules.c", "return reason->support > t;", "return reason->support > t + 1;"),
    ("t does not fit confidence 0", "rules.c", "return reason->support > t;",
     "return reason->support >= t && t > 0;"),
    ("any lower support fits confidence 1", "rules.c", "(reason->support <= t || ", "("),
    ("t fits confidence 1", "rules.c", "(reason->support <= t ||", "(reason->support < t ||"),
    ("t + 1 does not fit confidence 1", "rules.c", "(reason->support <= t ||", "(reason->support <= t + 1 ||"),
    ("any higher support fits confidence 1", "rules.c", " || reason->support >= 2 * t + 1);", ");"),
    ("2t + 1 fits confidence 1", "rules.c", "|| reason->support >= 2 * t + 1);", "|| reason->support > 2 * t + 1);"),
    ("2t does not fit confidence 1", "rules.c", "|| reason->support >= 2 * t + 1);", "|| reason->support >= 2 * t);"),
    ("faulty boxes' reasons are not examined", "rules.c", EXAMINED, "if (!in_set(state->faulty, i) &&\n" + 16 * " "
     + EXAMINED[4:]),
    ("unused boxes' reasons are not examined", "rules.c", EXAMINED, "if (i < state->n &&\n" + 16 * " " + EXAMINED[4:]),
    ("unused leaders' reasons are not examined", "rules.c", EXAMINED, "if (k < state->n &&\n" + 16 * " "
     + EXAMINED[4:]),
    ("the reason of a box for itself is not examined", "rules.c", EXAMINED, "if (i != k &&\n" + 16 * " "
     + EXAMINED[4:]),
    ("the last place of the reasons is not examined", "rules.c", EXAMINED, "if (i + k < 24 &&\n" + 16 * " "
     + EXAMINED[4:]),
    ("faulty leaders' reasons are not examined", "rules.c", EXAMINED,
     "if ((!in_set(state->faulty, k) || !in_set(state->list[i], k)) &&\n" + 16 * " " + EXAMINED[4:]),
    ("reasons are examined at place i * n + k", "rules.c",
     "&state->reason[reason_place(i, k)]))", "&state->reason[(i * state->n + k) % MOST_REASONS]))"),
    ("an iteration does not examine reasons", "rules.c",
     "    if (state_is_wrong(state))\n        return WRONG_STATE;\n    return FINE;",
     "    struct state bare = *state;\n    memset(bare.reason, 0, sizeof bare.reason);\n"
     "    for (unsigned i = 0; i < MOST_BOXES; i++) bare.list[i] &= (uint16_t)~((1u << state->n) - 1);\n"
     "    if (state_is_wrong(&bare))\n        return WRONG_STATE;\n    return FINE;"),
)

CHECKED = "    if (state->done > state->t + 1 || state_is_wrong(state))\n        return WRONG_STATE;\n"
BOXES = "    if (!is_box(state, asked) || !is_box(state, listed))\n        return WRONG_BOX;\n"
FAULTY = "    if (in_set(state->faulty, asked - 1))\n        return WRONG_BOX;\n"
FOUND = "state->reason[reason_place((unsigned)asked - 1, (unsigned)listed - 1)];"

# Why, asked of a state.
ASKED = (
    ("why tests 15 before 14", "why.c", CHECKED, BOXES + CHECKED),
    ("why tests a faulty box before 14", "why.c", CHECKED, FAULTY + CHECKED),
    ("why tests 15 before 9", "why.c", "    enum refusal refusal = check_boxes(state);",
     "    enum refusal refusal = check_boxes(state);\n    if (refusal == ZERO_ROW &&\n"
     "        (!is_box(state, asked) || !is_box(state, listed)))\n        return WRONG_BOX;"),
    ("why tests 14 before 9", "why.c", "    if (refusal != FINE)\n        return refusal;\n    if",
     "    if (refusal == ZERO_ROW && state_is_wrong(state))\n        return WRONG_STATE;\n"
     "    if (refusal != FINE)\n        return refusal;\n    if"),
    ("why does not test 9", "why.c", "    if (refusal != FINE)\n        return refusal;\n    if",
     "    if (refusal != FINE && refusal != ZERO_ROW)\n        return refusal;\n    if"),
    ("why does not test 6", "why.c", "    if (refusal != FINE)\n        return refusal;\n    if",
     "    if (refusal != FINE && refusal != STRAY_FAULTY_BIT)\n        return refusal;\n    if"),
    ("why lets more than t + 1 iterations pass", "why.c", "state->done > state->t + 1 ||", ""),
    ("why lets t + 2 iterations pass", "why.c", "state->done > state->t + 1 ||", "state->done > state->t + 2 ||"),
    ("why refuses t + 1 iterations", "why.c", "state->done > state->t + 1 ||", "state->done > state->t ||"),
    ("why gives 12 where too many iterations are done", "why.c", CHECKED,
     "    if (state->done > state->t + 1)\n        return ALL_DONE;\n" + CHECKED),
    ("why does not examine the state", "why.c", "|| state_is_wrong(state))", ")"),
    ("a faulty box is asked", "why.c", FAULTY, ""),
    ("a faulty box is not asked about", "why.c", FAULTY,
     FAULTY + "    if (in_set(state->faulty, listed - 1))\n        return WRONG_BOX;\n"),
    ("a box is not asked about itself", "why.c", FAULTY,
     FAULTY + "    if (asked == listed)\n        return WRONG_BOX;\n"),
    ("the last box is none", "why.c", "number <= state->n;", "number < state->n;"),
    ("a box above n is one", "why.c", "number <= state->n;", "number <= state->n + 1u && number <= MOST_BOXES;"),
    ("box 0 is one", "why.c", "return number >= 1 && ", "return "),
    ("the box that may be listed can be any", "why.c",
     "if (!is_box(state, asked) || !is_box(state, listed))", "if (!is_box(state, asked))"),
    *((f"the {which} is taken in {bits} bits", "why.c", "    memset(reason, 0, sizeof *reason);",
       f"    memset(reason, 0, sizeof *reason);\n    {name} = (uint{bits}_t){name};")
      for which, name in (("box that is asked", "asked"), ("box that may be listed", "listed"))
      for bits in (8, 16, 32)),
    ("asked and listed are swapped", "why.c", FOUND,
     "state->reason[reason_place((unsigned)listed - 1, (unsigned)asked - 1)];"),
    ("why looks at place i * n + k", "why.c", FOUND, "state->reason[(asked - 1) * state->n + listed - 1];"),
    ("a refused why gives the reason", "why.c", "    if (refusal == FINE)\n        *reason",
     "    if (refusal == FINE || (refusal == WRONG_STATE && is_box(state, asked) && is_box(state, listed)))\n"
     "        *reason"),
    ("why says confidence 0 always", "why.c", "    return refusal;\n}\n\n/* From",
     "    reason->confidence = 0;\n    return refusal;\n}\n\n/* From"),
    ("why clears the state where it is refused", "replies.c", "    put_reason(&reason);\n    put_state(&state);",
     "    put_reason(&reason);\n    if (reason.iteration == 0 && state.n > MOST_BOXES)\n"
     "        state = (struct state){0};\n    put_state(&state);"),
    ("kinds above 37 are answered as 37", "replies.c", "    if (kind < 1 || kind > LAST_KIND)",
     "    if (kind > LAST_KIND)\n        kind = LAST_KIND;\n    if (kind < 1)"),
    ("a state comes with confidence and support swapped", "replies.c",
     "{reason[0], reason[1], reason[2]}", "{reason[0], reason[2], reason[1]}"),
    ("a state is printed with its reasons leader by leader", "replies.c",
     "        put_reason(&state->reason[i]);", "        put_reason(&state->reason[i % 13 * 13 + i / 13]);"),
)

STATES = JOINING + REASONS + ASKED

DIGITS = "if (bytes[i] < '0' || bytes[i] > '9')\n            return 0;"
LIMIT = "        if (value > ABOVE_255)\n            value = ABOVE_255;\n"

NUMBERS = (
    ("a number has up to 21 digits", "why.c", "count > MOST_DIGITS)", "count > 21)"),
    ("a number has up to 19 digits", "why.c", "count > MOST_DIGITS)", "count >= MOST_DIGITS)"),
    ("a number has any digits", "why.c", "if (count < 1 || count > MOST_DIGITS)", "if (count < 1)"),
    ("no digits are a number", "why.c", "if (count < 1 || count > MOST_DIGITS)", "if (count > MOST_DIGITS)"),
    ("256 is read as 0", "why.c", "    *number = value;", "    *number = (uint8_t)value;"),
    ("256 is not above 255", "why.c", "    *number = value;", "    *number = value == ABOVE_255 ? 255 : value;"),
    ("255 is above 255", "why.c", "if (value > ABOVE_255)", "if (value >= 255)"),
    ("a large number is read in 32 bits", "why.c", LIMIT, ""),
    ("a large number is taken modulo 2 to the power 32", "why.c", LIMIT + "    }\n",
     "    }\n    if (value > ABOVE_255)\n        value = ABOVE_255;\n"),
    ("a large number is no number", "why.c", LIMIT, "        if (value > ABOVE_255)\n            return 0;\n"),
    ("the byte before 0 is a digit", "why.c", "bytes[i] < '0'", "bytes[i] < '/'"),
    ("the byte behind 9 is a digit", "why.c", "bytes[i] > '9'", "bytes[i] > ':'"),
    ("a digit has 7 bits", "why.c", DIGITS,
     "if ((bytes[i] & 127) < '0' || (bytes[i] & 127) > '9')\n            return 0;"),
    ("a number may have a sign", "why.c", DIGITS,
     "if (i == 0 && count > 1 && bytes[0] == '+')\n            continue;\n"
     "        " + DIGITS),
    ("a number may begin with a space", "why.c", DIGITS,
     "if (i == 0 && count > 1 && bytes[0] == ' ')\n            continue;\n        " + DIGITS),
    ("a number may end with a newline", "why.c", DIGITS,
     "if (i > 0 && i + 1 == count && bytes[i] == '\\n')\n            continue;\n        " + DIGITS),
    ("a number ends with a byte of 0", "why.c", DIGITS,
     "if (i > 0 && bytes[i] == 0)\n            break;\n        " + DIGITS),
    ("what follows a large number does not matter", "why.c", DIGITS,
     "if (value == ABOVE_255)\n            continue;\n        " + DIGITS),
    ("zeros in front of a box number are refused", "why.c", DIGITS,
     DIGITS + "\n        if (i > 0 && bytes[0] == '0')\n            return 0;"),
    ("what is no number has a value", "why.c", DIGITS, "if (bytes[i] < '0' || bytes[i] > '9')\n"
     "            return *number = value, 0;"),
)

ANSWERED = "    if (answer->ends == FINE)\n        answer->ends = why(&state, asked, listed, &reason);"

ANSWERS = (
    ("a refused file is asked all the same", "why.c", ANSWERED,
     "    answer->ends = why(&state, asked, listed, &reason);"),
    ("a file that goes on is asked all the same", "why.c", "    answer->ends = outcome(bytes, count, &state);",
     "    answer->ends = outcome(bytes, count, &state);\n"
     "    if (answer->ends == WRONG_BYTES && count > 9 && outcome(bytes, count - 1, &state) == FINE)\n"
     "        answer->ends = FINE;"),
    ("the boxes' number comes before the file's", "why.c", "    if (answer->ends == FINE)\n        answer->ends = why",
     "    if (asked < 1 || asked > MOST_BOXES || listed < 1 || listed > MOST_BOXES)\n"
     "        answer->ends = WRONG_BOX;\n    if (answer->ends == FINE)\n        answer->ends = why"),
    ("a refused box is told as not listed", "why.c", ANSWERED,
     "    if (answer->ends == FINE)\n        why(&state, asked, listed, &reason);"),
    ("asked and listed are swapped in a whole file", "why.c", "why(&state, asked, listed, &reason)",
     "why(&state, listed, asked, &reason)"),
    ("the line has no newline", "why.c", '"not listed\\n"', '"not listed"'),
    ("the line says another word", "why.c", "with confidence %u and support %u", "with confidence %u, support %u"),
    ("the line has confidence and support swapped", "why.c",
     "reason->iteration, reason->confidence, reason->support);",
     "reason->iteration, reason->support, reason->confidence);"),
    ("the line counts iterations from 0", "why.c",
     "                    reason->iteration, reason->conf", "                    reason->iteration - 1, reason->conf"),
    ("a box listed with support 0 is told as not listed", "why.c", "    if (reason->iteration == 0)",
     "    if (reason->confidence == 0 && reason->support == 0)"),
    ("a line that says why and fills the slice is refused", "why.c",
     "if (answer->size > length) {", "if (answer->size >= length) {"),
    ("a slice that is one too short takes the line that says why", "why.c",
     "if (answer->size > length) {", "if (answer->size > length + 1) {"),
    ("a slice of less than 64 bytes is refused", "why.c",
     "if (answer->size > length) {", "if (answer->size > length || length < MOST_ANSWER) {"),
    ("a line that says why without room is written as far as it goes", "why.c",
     "    if (answer->size > length) {",
     "    if (answer->size > length) {\n        memcpy(slice, answer->text, length);"),
    ("a line that says why without room gives its size", "why.c", "        answer->size = 0;\n", ""),
    ("a line that says why without room gives its end", "why.c",
     "        answer->ends = FINE;\n        return", "        return"),
    ("a line that says why clears the rest of the slice", "why.c",
     "    memcpy(slice, answer->text, answer->size);",
     "    memset(slice, 0, length);\n    memcpy(slice, answer->text, answer->size);"),
    ("the end of a refused box is 0", "why.c", "    memcpy(slice, answer->text, answer->size);",
     "    memcpy(slice, answer->text, answer->size);\n    if (answer->ends == WRONG_BOX) answer->ends = FINE;"),
    *((f"the boxes of a whole file are taken in {bits} bits", "textreplies.c", "put_reply(\"answer\", ",
       f"asked = (uint{bits}_t)asked, listed = (uint{bits}_t)listed;\n    put_reply(\"answer\", ")
      for bits in (8, 16, 32)),
    ("a slice for the line that says why of one byte more than the limit is lent", "textreplies.c",
     "!take_number(8, &listed) || !take_length(2, MOST_LENT, &length))",
     "!take_number(8, &listed) || !take_length(2, MOST_LENT + 1, &length))"),
    ("one byte more than the limit is read as a number", "textreplies.c",
     "MOST_LENT, &count) || !take_bytes(count))\n        return 0;\n    put_reply(\"number\"",
     "MOST_LENT + 1, &count) || !take_bytes(count))\n        return 0;\n    put_reply(\"number\""),
)

QUESTIONS = (
    ("status 0 where the answer is a refusal", "main.c", "return answer.ends == FINE ? 0 : 1;", "return 0;"),
    ("status 1 where a box is not listed", "main.c",
     "return answer.ends == FINE ? 0 : 1;", "return answer.ends == FINE && answer.text[0] != 'n' ? 0 : 1;"),
    ("what is no question is read as box 0", "main.c",
     "if (!read_argument(words[0], &asked) || !read_argument(words[1], &listed))",
     "if (read_argument(words[0], &asked) + read_argument(words[1], &listed) < 0)"),
    ("the second number may be anything", "main.c",
     "if (!read_argument(words[0], &asked) || !read_argument(words[1], &listed))",
     "if (!read_argument(words[0], &asked) || (read_argument(words[1], &listed), 0))"),
    ("what is no question has status 1", "main.c",
     "        return wrong_usage();\n    read_from", "        return wrong_usage(), 1;\n    read_from"),
    ("what is no question is told on standard output", "main.c",
     "        return wrong_usage();\n    read_from", "        return print_usage(), 2;\n    read_from"),
    ("the input is read before the question", "main.c",
     "    if (!read_argument(words[0], &asked) || !read",
     "    read_from(NULL);\n    take(file, sizeof file);\n    if (!read_argument(words[0], &asked) || !read"),
    ("the file is opened before the question is read", "main.c",
     "    if (!read_argument(words[0], &asked) || !read",
     "    read_from(words[2]);\n    if (!read_argument(words[0], &asked) || !read"),
    ("more arguments than a file are passed over", "main.c", "(argc == 4 || argc == 5)", "argc >= 4"),
    ("the program that says why does not take a file's name", "main.c",
     "    read_from(words[2]);\n    answer_file", "    read_from(NULL);\n    answer_file"),
    ("a file that goes on for ever is read to its end", "main.c",
     "    answer_file(file, take(file, sizeof file), asked",
     "    size_t came = take(file, sizeof file);\n    static uint8_t rest[4096];\n"
     "    while (take(rest, sizeof rest) > 0) ;\n    answer_file(file, came, asked"),
    ("an answer that was not written passes", "main.c",
     "    put_bytes(answer.text, answer.size);\n    put_all();",
     "    fwrite(answer.text, 1, answer.size, stdout);"),
)

TEXTS = NUMBERS + ANSWERS + QUESTIONS
