"""The rules of a state and its reasons in few lines: what both programs are held to at kinds 5, 19 and 35 to 37.

Boxes count from 0 here, but those that are asked about in `why` from 1. Reasons are a dictionary: at (i, k) the
iteration, the confidence and the support with which box i listed box k. Places that are not in it hold zeros.
"""

import struct

from steprules import PLACES, Cast, most_often, size_refusal

NO_REASON = 0, 0, 0


def table_rows(n):
    return n * n + 2 * n**3


def most_messages(n):
    """The most that one iteration sends: each of n boxes to n - 1 others, one row and then twice n of them."""
    return n * (n - 1) * (1 + 2 * n)


def filled(numbers):
    return [*numbers, *[0] * (PLACES - len(numbers))]


class State:
    """Anything that the format of a state has room for."""

    def __init__(self, n, t, faulty, done=0, sent=0, rows=(), lists=(), reasons=None):
        self.n, self.t, self.faulty, self.done, self.sent = n, t, faulty, done, sent
        self.rows, self.lists, self.reasons = filled(rows), filled(lists), dict(reasons or {})

    def reason(self, i, k):
        return self.reasons.get((i, k), NO_REASON)

    def is_sound(self, i):
        return i < self.n and not self.faulty >> i & 1

    def sound(self):
        return [i for i in range(min(self.n, PLACES)) if self.is_sound(i)]

    def numbers(self):
        """As a state is printed."""
        lead = self.n, self.t, self.faulty, self.done, self.sent
        return [*lead, *self.rows, *self.lists, *self.all_reasons()]

    def all_reasons(self):
        return [number for i in range(PLACES) for k in range(PLACES) for number in self.reason(i, k)]

    def to_bytes(self):
        lead = struct.pack(">BBHBQ13Q13H", self.n, self.t, self.faulty, self.done, self.sent, *self.rows, *self.lists)
        return lead + bytes(self.all_reasons())


# What is refused.

def boxes_refusal(state):
    """4, 5, 6 and 9, which every call on a state tests first."""
    refusal = size_refusal(state.n, state.t)
    if refusal:
        return refusal
    if state.faulty >> state.n:
        return 6
    return 9 if any(state.rows[i] == 0 for i in state.sound()) else 0


def reason_faults(state, i, k):
    """The names of what refusal 14 finds at one place of the reasons."""
    iteration, confidence, support = state.reason(i, k)
    listed = state.lists[i] >> k & 1
    if listed and iteration == 0:
        yield "a listing without its iteration"
    if not listed and (iteration, confidence, support) != NO_REASON:
        yield "kept without a listing"
    if iteration > state.done:
        yield "an iteration not yet done"
    if confidence > 1:
        yield "a confidence above 1"
    fits = range(state.t + 1) if confidence == 0 else range(state.t + 1, 2 * state.t + 1)
    if confidence <= 1 and support not in fits:
        yield "a support that does not fit"


FAULTS = ("a listing without its iteration", "kept without a listing", "an iteration not yet done",
          "a confidence above 1", "a support that does not fit")


def is_wrong(state):
    """Refusal 14, as an iteration has it."""
    for i in range(PLACES):
        if state.is_sound(i):
            if state.lists[i] >> state.n:
                return True
        elif state.rows[i] or state.lists[i]:
            return True
    if state.sent > state.done * most_messages(state.n):
        return True
    return any(any(reason_faults(state, i, k)) for i in range(PLACES) for k in range(PLACES))


def iteration_refusal(state, rows):
    refusal = boxes_refusal(state)
    if refusal:
        return refusal
    if rows != table_rows(state.n):
        return 11
    if state.done > state.t:
        return 12
    return 14 if is_wrong(state) else 0


def why_refusal(state, asked, listed):
    refusal = boxes_refusal(state)
    if refusal:
        return refusal
    if is_wrong(state) or state.done > state.t + 1:
        return 14
    if not (1 <= asked <= state.n and 1 <= listed <= state.n and state.is_sound(asked - 1)):
        return 15
    return 0


# What is given.

def iterated(state, table):
    """The state after one more iteration, none of it refused, and the steps that it made."""
    cast = Cast(state.n, state.t, state.faulty, state.rows, state.lists, table)
    after = State(state.n, state.t, state.faulty, state.done + 1, state.sent + cast.messages, state.rows, state.lists,
                  state.reasons)
    for i in cast.sound:
        grades = [cast.grades[i, k] for k in range(state.n)]
        chosen, _ = most_often([row for row, confidence, _ in grades if confidence])
        after.rows[i] = chosen or state.rows[i]
        for k, (_, confidence, support) in enumerate(grades):
            if confidence < 2 and not state.lists[i] >> k & 1:
                after.lists[i] |= 1 << k
                after.reasons[i, k] = state.done + 1, confidence, support
    return after, cast


def numbers_line(name, *numbers):
    return " ".join(map(str, (name, *numbers)))


def iteration_line(state, table):
    refusal = iteration_refusal(state, len(table))
    after = state if refusal else iterated(state, table)[0]
    return numbers_line("iteration", refusal, *after.numbers())


def why_line(state, asked, listed):
    refusal = why_refusal(state, asked, listed)
    reason = NO_REASON if refusal else state.reason(asked - 1, listed - 1)
    return numbers_line("why", refusal, *reason, *state.numbers())


# A whole run file, of which the run is known.

def started(run):
    faulty = sum(1 << k for k in run.faulty)
    return State(run.n, run.t, faulty, rows=[0 if k in run.faulty else row for k, row in enumerate(run.rows)])


def states_of(run):
    """The state before the first iteration, and after each."""
    state = started(run)
    yield state
    for table in run.tables:
        state, _ = iterated(state, table.rows)
        yield state


def last_state(run):
    return list(states_of(run))[-1]


def reason_text(reason):
    iteration, confidence, support = reason
    if iteration == 0:
        return b"not listed\n"
    return b"listed in iteration %d with confidence %d and support %d\n" % (iteration, confidence, support)


def answer_text(state, asked, listed):
    """The line that says why, of a run that ends in this state."""
    refusal = why_refusal(state, asked, listed)
    return b"refused %d\n" % refusal if refusal else reason_text(state.reason(asked - 1, listed - 1))


def box_number(text):
    """Whether it is one, and its value, 256 for every value above 255."""
    if not 1 <= len(text) <= 20 or any(byte not in b"0123456789" for byte in text):
        return 0, 0
    return 1, min(int(text), 256)
