"""The calls of kinds 1 to 7 in docs/REQUESTS.md, each as a collection of arguments drawn from a seed.

Nothing refuses the arguments as they are drawn. Damages then break chosen ones, one or two at a time, and the number
that must be refused is the first of them in the order of the call.
"""

import struct

from runfiles import (TOP, Minds, Run, add_iteration, bits, heading_bytes, high_rows, largest_t, put, some_rows,
                      table_rows)
from staterules import State, iteration_line, most_messages
from steprules import PLACES, graded, size_refusal, voted


class Request:
    """The bytes of one request, what it is for, and what is known of its reply beforehand, if anything.

    With `as_before` the reply must be that of the request before it. `shows` has what arises in it, each as the name
    of a group of such things and its own name.
    """

    def __init__(self, data, about, refusal=None, reply=None, as_before=False, shows=()):
        self.data, self.about, self.refusal, self.reply, self.as_before = data, about, refusal, reply, as_before
        self.shows = shows


class Call:
    """What all calls have: damages as (number, what breaks it), and the first numbers that replies may begin with."""

    damages = ()

    @classmethod
    def answers(cls):
        return list(dict.fromkeys([0] + sorted(number for number, _ in cls.damages)))

    def known(self):
        """The whole reply, where the rules give it at once."""
        return None


def state_line(name, refusal, *parts):
    return " ".join(str(number) for number in (name, refusal, *State(*parts).numbers()))


def state_bytes(*parts):
    return State(*parts).to_bytes()


def packed(rows):
    return struct.pack(f">{len(rows)}Q", *rows)


def column(rng, n):
    """Rows as one leader's column might show them: few different ones, some zeros."""
    stock = rng.choice((some_rows, high_rows))(rng, n)
    return [rng.choice(stock + [0] * rng.choice((0, 1, n))) for _ in range(n)]


def pick_n_t(rng):
    n = rng.randrange(1, PLACES + 1)
    return n, rng.choice((largest_t(n), rng.randrange(largest_t(n) + 1)))


def wrong_n(rng):
    return rng.choice((0, 14, 14, 15, 16, 17, 64, 255))


def wrong_t(rng, n):
    """Too large, and among the too large those that a product in 8 bits would let through, and 255."""
    least = largest_t(min(max(n, 1), PLACES)) + 1
    return rng.choice((least, least, least + 1, 85, 86, 171, 172, 255))


# One collection of arguments for each call, and its damages in the order of the call.

class Column(Call):
    """Vote and grade."""

    def __init__(self, rng, kind):
        self.kind = kind
        n, self.t = pick_n_t(rng)
        self.rows = column(rng, n)

    def break_4(self, rng):
        self.rows = column(rng, 13)[:0] if rng.random() < 0.3 else column(rng, rng.choice((14, 15, 20, 255)))

    def break_5(self, rng):
        self.t = wrong_t(rng, len(self.rows))

    def to_bytes(self):
        return bytes((self.kind, len(self.rows), self.t)) + packed(self.rows)

    def known(self):
        return column_line(self.kind, self.rows, self.t)


def column_line(kind, rows, t):
    """The reply to a vote or a grade over these rows. A refused one gives zeros."""
    refusal = size_refusal(len(rows), t)
    if kind == 1:
        return f"vote {refusal} {0 if refusal else voted(rows, t)}"
    row, confidence, support = (0, 0, 0) if refusal else graded(rows, t)
    return f"grade {refusal} {row} {confidence} {support}"


class Vote(Column):
    damages = ((4, "break_4"), (5, "break_5"))

    def __init__(self, rng):
        super().__init__(rng, 1)


class Grade(Column):
    damages = ((4, "break_4"), (5, "break_5"))

    def __init__(self, rng):
        super().__init__(rng, 2)


class Choice(Call):
    damages = ((4, "break_4"), (11, "break_11"), (13, "break_13"))

    def __init__(self, rng):
        n = rng.randrange(1, PLACES + 1)
        self.rows = column(rng, n)
        self.confidences = [rng.randrange(3) for _ in range(n)]

    def break_4(self, rng):
        count = rng.choice((0, 14, 15, 40, 255))
        self.rows = column(rng, count) if count else []
        self.confidences = [rng.randrange(3) for _ in range(count)]

    def break_11(self, rng):
        count = len(self.rows)
        other = rng.choice([c for c in (0, 1, 13, 14, count - 1, count + 1, 200) if c != count and 0 <= c <= 255])
        self.confidences = [rng.randrange(3) for _ in range(other)]

    def break_13(self, rng):
        if not self.confidences:
            self.confidences = [0, 0]
        self.confidences[rng.choice((0, -1, rng.randrange(len(self.confidences))))] = rng.choice((3, 4, 128, 255))

    def to_bytes(self):
        return (bytes((3, len(self.rows), len(self.confidences))) + packed(self.rows) + bytes(self.confidences))


def pick_faulty(rng, n, some_sound=False):
    count = rng.choice((0, largest_t(n), rng.randrange(n + 1), n))
    return set(rng.sample(range(n), min(count, n - 1) if some_sound else count))


class Start(Call):
    damages = ((4, "break_4"), (5, "break_5"), (6, "break_6"), (11, "break_11"), (9, "break_9"))

    def __init__(self, rng):
        self.n, self.t = pick_n_t(rng)
        boxes = pick_faulty(rng, self.n)
        self.faulty = bits(boxes)
        self.rows = rng.choice((some_rows, high_rows))(rng, self.n)
        for k in boxes:
            self.rows[k] = rng.choice((0, 0, TOP, self.rows[k]))

    def break_9(self, rng):
        at = rng.randrange(len(self.rows))
        self.rows[at] = 0
        self.faulty &= ~(1 << at)

    def break_11(self, rng):
        n = len(self.rows)
        count = rng.choice([c for c in (0, n - 1, n + 1, 13, 14, 255) if c != n and 0 <= c])
        self.rows = (self.rows + [rng.randrange(1, 9)] * count)[:count]

    def break_6(self, rng):
        self.faulty |= 1 << rng.randrange(self.n, 16)

    def break_5(self, rng):
        self.t = wrong_t(rng, self.n)

    def break_4(self, rng):
        self.n = wrong_n(rng)

    def to_bytes(self):
        return struct.pack(">BBBHB", 4, self.n, self.t, self.faulty, len(self.rows)) + packed(self.rows)


def fitting(rng, t, done):
    """A reason that passes where so many iterations are done, often at an edge."""
    support = rng.choice((0, t, rng.randrange(t + 1)))
    later = rng.choice((t + 1, 2 * t, rng.randrange(t + 1, 2 * t + 1))) if t else 0
    confidence, support = rng.choice(((0, support), (1, later) if t else (0, 0)))
    return rng.choice((1, done, rng.randrange(1, done + 1))), confidence, support


class Stated(Call):
    """A state that need not have come from a run. Its damages 14 are those that every call on a state has."""

    wrong_states = ((14, "break_list_bit"), (14, "break_faulty_row"), (14, "break_faulty_list"),
                    (14, "break_unused_row"), (14, "break_unused_list"), (14, "break_messages"),
                    (14, "break_unsaid"), (14, "break_unlisted"), (14, "break_undone"), (14, "break_sure"),
                    (14, "break_unfit"))

    def draw(self, rng, most_done, boxes):
        """Half of the states are those after the most iterations: before the first one all lists are empty."""
        self.boxes = boxes
        self.faulty = bits(self.boxes)
        self.done = rng.choice((most_done, rng.randrange(most_done + 1)))
        most = self.done * most_messages(self.n)
        self.sent = rng.choice((most, rng.randrange(most + 1)))
        self.rows, self.lists, self.reasons = [0] * PLACES, [0] * PLACES, {}
        rows = rng.choice((some_rows, high_rows))(rng, self.n)
        thin = rng.choice((0, 1, 2)) if self.may_list() else 0
        for i in set(range(self.n)) - self.boxes:
            self.rows[i] = rows[i]
            self.lists[i] = self.pick_list(rng, thin)
        self.explain(rng)

    def may_list(self):
        return self.done > 0

    def explain(self, rng):
        """Fitting reasons for the listings that have none. No reason fits where no iteration is done."""
        for i in range(PLACES):
            for k in range(PLACES):
                if self.done and self.lists[i] >> k & 1 and (i, k) not in self.reasons:
                    self.reasons[i, k] = fitting(rng, self.t, self.done)

    def state(self):
        return State(self.n, self.t, self.faulty, self.done, self.sent, self.rows, self.lists, self.reasons)

    def pick_list(self, rng, thin):
        """Empty, the faulty boxes, or any boxes, sound ones and the box itself too."""
        if thin == 0:
            return 0
        if thin == 1:
            return self.faulty & rng.randrange(1 << self.n)
        return rng.randrange(1 << self.n) & rng.randrange(1 << self.n)

    def sound_place(self, rng):
        """A sound box, one made sound where there is none."""
        if len(self.boxes) == self.n:
            at = rng.randrange(self.n)
            self.boxes.remove(at)
            self.faulty = bits(self.boxes) | self.faulty >> self.n << self.n
            self.rows[at] = 1
        return rng.choice(sorted(set(range(self.n)) - self.boxes))

    def faulty_place(self, rng):
        if not self.boxes:
            at = rng.randrange(self.n)
            self.boxes.add(at)
            self.faulty |= 1 << at
            self.rows[at] = self.lists[at] = 0
            self.reasons = {place: reason for place, reason in self.reasons.items() if place[0] != at}
        return rng.choice(sorted(self.boxes))

    def unused_place(self, rng):
        """A place above n. A full state has none, so another state, with new rows and lists, takes its place."""
        while self.n == PLACES:
            self.__init__(rng)
        return rng.randrange(self.n, PLACES)

    def break_unused_row(self, rng):
        at = self.unused_place(rng)
        self.rows[at] = rng.choice((1, 2**32, TOP))

    def break_unused_list(self, rng):
        at = self.unused_place(rng)
        self.lists[at] = rng.choice((1, 1 << 15))
        self.explain(rng)

    def break_list_bit(self, rng):
        self.lists[self.sound_place(rng)] |= 1 << rng.randrange(self.n, 16)
        self.explain(rng)

    def break_faulty_row(self, rng):
        self.rows[self.faulty_place(rng)] = rng.choice((1, 2**32, TOP))

    def break_faulty_list(self, rng):
        at = self.faulty_place(rng)
        self.lists[at] = rng.choice((1, 1 << at, (1 << self.n) - 1))
        self.explain(rng)

    def break_messages(self, rng):
        """One too many, as many as one more iteration could send, as many as the tables have rows, one more than that,
        and far too many. Where that is not too many, as where no iteration is done, it is left out."""
        most, rows = self.done * most_messages(self.n), self.done * table_rows(self.n)
        counts = most + 1, most + most_messages(self.n), rows, rows + 1, most + 2**32, TOP
        self.sent = rng.choice([count for count in counts if count > most])

    def list_with(self, rng, *reasons):
        """A sound box lists a box with one of these reasons, whatever reason it had before."""
        i, k = self.sound_place(rng), rng.randrange(self.n)
        self.lists[i] |= 1 << k
        self.reasons[i, k] = rng.choice(reasons)

    def break_unsaid(self, rng):
        t = self.t
        self.list_with(rng, (0, 0, 0), (0, 0, t), (0, 1, t + 1))

    def break_unlisted(self, rng):
        """In any of the 169 places."""
        i, k = rng.randrange(PLACES), rng.randrange(PLACES)
        self.lists[i] &= ~(1 << k)
        self.reasons[i, k] = rng.choice(((max(self.done, 1), 0, 0), (0, 0, max(self.t, 1)), (0, 1, self.t + 1)))

    def break_undone(self, rng):
        after = min(self.done + 1, 255)
        self.list_with(rng, (after, 0, 0), (after, 0, self.t), (255, 0, 0))

    def break_sure(self, rng):
        done = max(self.done, 1)
        self.list_with(rng, (done, 2, 2 * self.t + 1), (done, 2, 0), (done, 255, self.t + 1), (done, 128, 0))

    def break_unfit(self, rng):
        t, done = self.t, max(self.done, 1)
        self.list_with(rng, (done, 0, t + 1), (done, 1, t), (done, 1, 2 * t + 1), (done, 0, 255), (done, 1, 255))

    def break_9(self, rng):
        self.rows[self.sound_place(rng)] = 0

    def break_6(self, rng):
        self.faulty |= 1 << rng.randrange(self.n, 16)

    def break_5(self, rng):
        self.t = wrong_t(rng, self.n)

    def break_4(self, rng):
        self.n = wrong_n(rng)


class Iteration(Stated):
    """A state and a table."""

    damages = ((4, "break_4"), (5, "break_5"), (6, "break_6"), (9, "break_9"), (11, "break_11"), (12, "break_12"),
               *Stated.wrong_states)

    def __init__(self, rng):
        self.n, self.t = pick_n_t(rng)
        self.draw(rng, self.t, pick_faulty(rng, self.n))
        self.table = self.pick_table(rng)

    def pick_table(self, rng):
        how = rng.randrange(3)
        stock = [0, 0] + [row for row in self.rows if row] + [rng.randrange(TOP + 1)]
        if how == 0:
            return [rng.choice(stock) for _ in range(table_rows(self.n))]
        if how == 1:
            return [rng.randrange(TOP + 1)] * table_rows(self.n)
        run = Run(self.n, self.t, self.boxes, self.rows[:self.n], "state")
        minds = Minds(run, rng)
        minds.list = [{k for k in range(self.n) if self.lists[i] >> k & 1} for i in range(self.n)]
        lying = [k for k in self.boxes if rng.random() < 0.9]
        add_iteration(run, minds, lying, [k for k in lying if rng.random() < 0.5])
        return run.tables[0].rows

    def break_12(self, rng):
        self.done = rng.choice((self.t + 1, self.t + 1, self.t + 2, 255))

    def break_11(self, rng):
        whole = table_rows(self.n)
        count = rng.choice([c for c in (0, whole - 1, whole + 1, table_rows(PLACES), 5000, self.n) if c != whole])
        self.table = (self.table + [7] * count)[:count]

    def to_bytes(self):
        return iteration_bytes(self.state(), self.table)

    def known(self):
        return iteration_line(self.state(), self.table)


def iteration_bytes(state, table):
    return b"\5" + state.to_bytes() + struct.pack(">H", len(table)) + packed(table)


class Heading(Call):
    damages = ((1, "break_1"), (2, "break_2"), (3, "break_3"), (4, "break_4"), (5, "break_5"), (6, "break_6"),
               (8, "break_8"), (9, "break_9"), (10, "break_10"))

    def __init__(self, rng):
        self.n, self.t = pick_n_t(rng)
        self.boxes = pick_faulty(rng, self.n, some_sound=True)
        rows = rng.choice((some_rows, high_rows))(rng, self.n)
        for k in self.boxes:
            rows[k] = rng.choice((0, TOP, rows[k]))
        t_byte = 255 if self.t == largest_t(self.n) and rng.random() < 0.4 else self.t
        self.data = heading_bytes(self.n, t_byte, bits(self.boxes), rows)
        self.data += bytes(rng.choice((0, 0, 1, 8, 255 - len(self.data))))
        self.lent = rng.choice((self.n, self.n, self.n + 1, 13, 14, 255))

    def break_10(self, rng):
        self.lent = rng.choice((0, self.n - 1))

    def break_9(self, rng):
        sound = sorted(set(range(self.n)) - self.boxes)
        self.data = put(self.data, 9 + 8 * rng.choice(sound), bytes(8))

    def break_8(self, rng):
        whole = 9 + 8 * self.n
        self.data = self.data[:rng.choice((9, whole - 1, rng.randrange(9, whole)))]

    def break_6(self, rng):
        self.data = put(self.data, 7, struct.pack(">H", bits(self.boxes) | 1 << rng.randrange(self.n, 16)))

    def break_5(self, rng):
        least = largest_t(self.n) + 1
        self.data = put(self.data, 6, [rng.choice((least, least, 85, 86, 171, 254))])

    def break_4(self, rng):
        self.data = put(self.data, 5, [wrong_n(rng)])

    def break_3(self, rng):
        self.data = put(self.data, 3, struct.pack(">H", rng.choice((0, 2, 256, 257, 65535))))

    def break_2(self, rng):
        at = rng.randrange(3)
        self.data = put(self.data, at, [self.data[at] ^ rng.choice((1, 32, 128))])

    def break_1(self, rng):
        self.data = self.data[:rng.randrange(9)]

    def to_bytes(self):
        return bytes((6, len(self.data), self.lent)) + self.data


class TableBytes(Call):
    damages = ((4, "break_4"), (8, "break_8"), (10, "break_10"))

    def __init__(self, rng):
        self.n = rng.randrange(1, 8)
        self.data = rng.randbytes(8 * table_rows(self.n))
        rows = table_rows(self.n)
        self.lent = rng.choice((rows, rows, rows + 1, rows + rng.randrange(100)))

    def break_10(self, rng):
        self.lent = rng.choice((0, self.n, table_rows(self.n) - 1, rng.randrange(table_rows(self.n))))

    def break_8(self, rng):
        whole = len(self.data)
        counts = 0, whole - 1, whole + 1, whole - 8, whole + 8, whole // 8, 8 * table_rows(PLACES)
        count = rng.choice([c for c in counts if c != whole])
        self.data = (self.data + bytes(count))[:count]

    def break_4(self, rng):
        self.n = wrong_n(rng)

    def to_bytes(self):
        return struct.pack(">BBHH", 7, self.n, len(self.data), self.lent) + self.data
