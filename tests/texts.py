"""The calls of kinds 21 to 25 and 28 to 32 in docs/REQUESTS.md, drawn from a seed, and their edges.

The rules give the whole reply of each, so both programs are held to it.
"""

import struct
from functools import partialmethod

import textrules
import whys
from calls import PLACES, Call, Request, Start, packed, pick_n_t, wrong_n, wrong_t
from edges import silent_run
from further import EXAMPLES, MOST_FILE, MOST_LENT, lent_bytes, lent_rows, reply, some_number
from runfiles import (DAMAGES, KINDS, OF_LENGTH, TOP, Run, Table, damage_choices, heading_bytes, largest_t, table_rows)
from textrules import read_line, say_line, say_place

MOST_TABLE_LENT = 40000
LAST_PLACE = 2**16 - 1
FRONT_ROOM, SAY_ROOM = 300, 40


def put_front(lent, data):
    """A lent slice of bytes with these at its front."""
    return [*data, *lent_bytes(lent)[len(data):]]


def about_lengths(rng, size):
    """Just long enough, and longer."""
    return min(size + rng.choice((0, 0, 1, 9, 300)), MOST_LENT)


# The writers.

class Headed(Start):
    damages = ((4, "break_4"), (5, "break_5"), (6, "break_6"), (11, "break_11"), (9, "break_9"), (10, "break_10"))

    def __init__(self, rng):
        super().__init__(rng)
        self.lent = about_lengths(rng, 9 + 8 * self.n)

    def break_10(self, rng):
        size = 9 + 8 * self.n
        self.lent = rng.choice((0, 8, 9, size - 1, size - 1, rng.randrange(size)))

    def to_bytes(self):
        lead = struct.pack(">BBBHBH", 21, self.n, self.t, self.faulty, len(self.rows), self.lent)
        return lead + packed(self.rows)

    def known(self):
        refusal = textrules.heading_refused(self.n, self.t, self.faulty, self.rows)
        if not refusal and self.lent < 9 + 8 * self.n:
            refusal = 10
        data = b"" if refusal else heading_bytes(self.n, self.t, self.faulty, self.rows)
        return reply("headed", refusal, len(data), *put_front(self.lent, data))


class Tabled(Call):
    damages = ((4, "break_4"), (11, "break_11"), (10, "break_10"))

    def __init__(self, rng):
        self.n = rng.choice((1, 1, 2, 2, 3, 3, 4, 5))
        self.rows = [some_number(rng) for _ in range(table_rows(self.n))]
        self.lent = 8 * len(self.rows) + rng.choice((0, 0, 1, 8, 300))

    def break_10(self, rng):
        size = 8 * table_rows(self.n)
        self.lent = rng.choice((0, size // 8, size - 1, size - 1, size - 8, rng.randrange(size)))

    def break_11(self, rng):
        whole = len(self.rows)
        counts = 0, whole - 1, whole + 1, self.n, 8 * whole, table_rows(self.n + 1)
        count = rng.choice([c for c in counts if c != whole])
        self.rows = (self.rows + [7] * count)[:count]

    def break_4(self, rng):
        self.n = wrong_n(rng)

    def to_bytes(self):
        return struct.pack(">BBHH", 22, self.n, len(self.rows), self.lent) + packed(self.rows)

    def known(self):
        refusal = 4 if not 1 <= self.n <= PLACES else 11 if len(self.rows) != table_rows(self.n) else 0
        if not refusal and self.lent < 8 * len(self.rows):
            refusal = 10
        data = b"" if refusal else packed(self.rows)
        return reply("tabled", refusal, len(data), *put_front(self.lent, data))


def asked(call, about, **arguments):
    made = object.__new__(call)
    vars(made).update(arguments)
    known = made.known()
    return Request(made.to_bytes(), about, None, known)


def writer_edges(rng):
    """Every n: a slice that is filled, one too short by 1, one longer; t of 255; one row too many and too few."""
    for n in range(1, PLACES + 1):
        t, rows = largest_t(n), [rng.randrange(1, TOP + 1) for _ in range(n)]
        for lent in (9 + 8 * n - 1, 9 + 8 * n, 9 + 8 * n + 1, MOST_LENT):
            yield asked(Headed, "heading of every n", n=n, t=t, faulty=0, rows=rows, lent=lent)
        for t, count in ((t + 1, n), (255, n), (255, n + 1), (t, n - 1), (t, n + 1)):
            yield asked(Headed, "heading of every n", n=n, t=t, faulty=0, rows=(rows + [0])[:count], lent=200)
        yield asked(Headed, "all boxes faulty", n=n, t=0, faulty=2**n - 1, rows=[0] * n, lent=120)
        yield asked(Headed, "stray faulty bit", n=n, t=0, faulty=2**n, rows=[0] * n, lent=120)
        size = 8 * table_rows(n)
        for lent in (size - 1, size, min(size + 1, MOST_TABLE_LENT)):
            yield asked(Tabled, "table of every n", n=n, lent=lent,
                        rows=[rng.randrange(TOP + 1) for _ in range(table_rows(n))])
    full = [0x0102030405060708] * 4563
    yield asked(Tabled, "table in the longest slice", n=13, lent=MOST_TABLE_LENT, rows=full)
    yield asked(Tabled, "table with too many rows", n=13, lent=MOST_TABLE_LENT, rows=(full + full)[:MOST_LENT])


class Row(Call):
    """The writer of one row."""

    damages = ((10, "break_10"),)

    def __init__(self, rng):
        self.row = some_number(rng)
        self.place = rng.choice((0, 1, 8, rng.randrange(200), rng.randrange(MOST_LENT - 7)))
        self.lent = about_lengths(rng, self.place + 8)

    def break_10(self, rng):
        """A slice that is too short, or a place that looks good in fewer bits."""
        if rng.random() < 0.5:
            self.lent = rng.choice((0, self.place, self.place + 7, self.place + 7, rng.randrange(self.place + 8)))
        else:
            self.place = rng.choice((self.place + rng.choice((2**16, 2**32, 2**63)), TOP - 8, TOP - 7, TOP))

    def to_bytes(self):
        return struct.pack(">BQQH", 31, self.row, self.place, self.lent)

    def known(self):
        refusal, slice_ = textrules.row_written(self.row, self.place, lent_bytes(self.lent))
        return reply("row", refusal, *slice_)


def row_edges(rng):
    """Slices that the row fills, too short by 1 and longer by 1, and places up to the last that 64 bits hold."""
    rows = 0, 1, 2**32, 2**63, TOP, 0x8090a0b0c0d0e0f0, rng.randrange(TOP)
    for row in rows:
        for place in (0, 1, 7, 8, 9, 255, 256, 257, 3000, MOST_LENT - 9, MOST_LENT - 8):
            for lent in (place, place + 7, place + 8, min(place + 9, MOST_LENT)):
                yield asked(Row, "edge of a row", row=row, place=place, lent=lent)
    for place in range(20):
        for lent in range(20):
            yield asked(Row, "row in a short slice", row=0x8090a0b0c0d0e0f0, place=place, lent=lent)
    wide = [2**power + by for power in (8, 16, 31, 32, 48, 63) for by in (-8, -1, 0, 1)]
    for place in (MOST_LENT - 7, MOST_LENT, *wide, *(TOP - by for by in range(18)), TOP - MOST_LENT):
        for lent in (0, 1, 7, 8, 9, 16, 300, MOST_LENT):
            yield asked(Row, "row at a place far behind", row=rows[-1], place=place, lent=lent)


class Begins(Call):
    def __init__(self, rng):
        self.n = rng.choice((rng.randrange(1, PLACES + 1), rng.randrange(256)))
        self.table = rng.choice((rng.randrange(6), rng.randrange(256)))

    @classmethod
    def answers(cls):
        return ["wrong n", *(f"for n = {n}" for n in range(1, PLACES + 1))]

    def to_bytes(self):
        return bytes((32, self.n, self.table))

    def known(self):
        return reply("begins", textrules.table_begins(self.n, self.table))


def begins_edges():
    """Every table for every n that has tables and those beside them, some tables for every other n; and for every n
    and t the length of a whole run file."""
    for n in range(256):
        for table in range(256) if n <= PLACES + 1 else (0, 1, 2, 5, 127, 128, 254, 255):
            yield asked(Begins, "where a table begins", n=n, table=table)
    for n in range(1, PLACES + 1):
        for t in range(largest_t(n) + 1):
            length = len(silent_run(n, t, (), 5).to_bytes())
            yield Request(bytes((32, n, t + 1)), "length of a whole run file", None, reply("begins", length))


# The line reader.

def spaced(rng, numbers):
    """Numbers as a text may have them: more spaces than one, and zeros in front."""
    return b"".join(b" " * rng.choice((1, 1, 2, 9)) + b"0" * rng.choice((0, 0, 1, 30)) + b"%d" % number
                    for number in numbers)


class Read(Call):
    damages = ((10, "break_10"),)

    def __init__(self, rng):
        self.numbers = [some_number(rng) for _ in range(rng.choice((0, 1, 1, 3, 5, 6, 13, 60)))]
        word = bytes(byte for byte in rng.randbytes(rng.randrange(1, 40)) if byte != 32) or b"x"
        self.data = rng.choice((b"run", b"rows", b"say", b"#", word)) + spaced(rng, self.numbers)
        self.data += rng.choice((b"", b"", b" ", b"   ")) + rng.choice((b"", b"", b"\r"))
        self.lent = min(len(self.numbers) + rng.choice((0, 0, 1, 5)), MOST_LENT)

    @classmethod
    def answers(cls):
        return ["10", "0, a line", "0, no line"]

    def break_10(self, rng):
        if not self.numbers:
            self.numbers, self.data = [7], b"rows 7"
        count = len(self.numbers)
        self.lent = rng.choice((0, count - 1, count - 1, rng.randrange(count)))

    def to_bytes(self):
        return struct.pack(">BHH", 23, len(self.data), self.lent) + self.data

    def known(self):
        word, numbers = read_line(self.data) or (b"", [])
        if len(numbers) > self.lent:
            return reply("read", 10, 0, 0, *lent_rows(self.lent))
        return reply("read", 0, len(word), len(numbers), *numbers, *lent_rows(self.lent)[len(numbers):])


# Lines, each with what must be read: the bytes of the word and the numbers, or nothing.
TOP_TEXT = b"%d" % TOP
READ_LINES = (
    (b"run 4 1 8", (3, [4, 1, 8])), (b"rows", (4, [])), (b"rows ", (4, [])), (b"rows   ", (4, [])),
    (b"rows 0 00 000", (4, [0, 0, 0])), (b"a  1   2    ", (1, [1, 2])), (b"x 0000000000000000000000000001", (1, [1])),
    (b"x " + TOP_TEXT, (1, [TOP])), (b"x %d" % (TOP + 1), None), (b"x %d" % (TOP + 9), None),
    (b"x %d" % (10 * TOP), None), (b"x 1%d" % TOP, None), (b"x 18446744073709551620", None),
    (b"x 99999999999999999999", None), (b"x 100000000000000000000", None), (b"x 0000" + TOP_TEXT, (1, [TOP])),
    (b"x " + b"0" * 4990 + b"5", (1, [5])), (b"x " + b"0" * 4978 + TOP_TEXT, (1, [TOP])), (b"x " + b"9" * 4990, None),
    (b"x 1 2 %d" % (TOP + 1), None), (b"x %d 2" % (TOP + 1), None),
    (b"", None), (b"\r", None), (b" ", None), (b"    ", None), (b"  \r", None), (b"\r\r", (1, [])), (b" \r\r", None),
    (b" run 4 1 8", None), (b"  4", None), (b"\trun 4", (4, [4])), (b"run\t4 1 8", (5, [1, 8])), (b"run 4\t1", None),
    (b"run 4 \t", None), (b"run 4\t", None), (b"run \t4", None), (b"\t", (1, [])), (b"\t 5", (1, [5])),
    (b"run 4\r", (3, [4])), (b"run 4 \r", (3, [4])), (b"run 4\r\r", None), (b"run 4\r 1", None),
    (b"run\r 4", (4, [4])), (b"\rrun 4", (4, [4])), (b"run\r", (3, [])), (b"run\r\r", (4, [])),
    (b"run 4 \r ", None), (b"run 4\r ", None),
    (b"run -4", None), (b"run +4", None), (b"run 4.0", None), (b"run 4,1", None), (b"run 0x4", None),
    (b"run 4a", None), (b"run a4", None), (b"run 4_0", None), (b"run 4 a", None), (b"run a 4", None),
    (b"run 1e3", None),
    (b"run 4\0", None), (b"run\0 4", (4, [4])), (b"\0", (1, [])), (b"\0 1", (1, [1])), (b"run 4\xa01", None),
    (b"run\xc2\xa04 1", (6, [1])), (b"run \xd9\xa4", None), (b"run /", None), (b"run :", None), (b"7", (1, [])),
    (b"7 8", (1, [8])), (b"run 4\n", None), (b"ru\nn 4", (4, [4])), (b"\n", (1, [])), (b"\xff\xfe 1 2", (2, [1, 2])),
    (b"#", (1, [])), (b"# 1 2", (1, [1, 2])), (b"# a", None), (b"say 1 1 1 1 1 1 1 1 1", (3, [1] * 9)),
    (b"w" * 5000, (5000, [])), (b"w" * 4998 + b" 1", (4998, [1])), (b"w " + b"1 " * 2499, (1, [1] * 2499)),
    (b" " * 5000, None), (b"w" + b" " * 4998 + b"1", (1, [1])))


def read_edges(rng):
    """Each line in a slice that the numbers fill, one too short by 1, and one longer by 2."""
    for line, due in READ_LINES:
        word, numbers = due or (0, [])
        count = len(numbers)
        for lent in sorted({max(count - 1, 0), count, count + 2}):
            line_due = reply("read", 0, word, count, *numbers, *lent_rows(lent)[count:])
            if lent < count:
                line_due = reply("read", 10, 0, 0, *lent_rows(lent))
            yield Request(struct.pack(">BHH", 23, len(line), lent) + line, "edge of a line read", None, line_due)
    for byte in range(256):
        for line in (bytes((byte,)), b"a" + bytes((byte,)), b"a 1" + bytes((byte,)), b"a " + bytes((byte,)) + b"2"):
            yield asked(Read, "every byte in a line", data=line, lent=3)
    for _ in range(300):
        line = bytes(rng.choice(b"  019a\r\t#\n\xff") for _ in range(rng.randrange(12)))
        yield asked(Read, "odd bytes in a line", data=line, lent=rng.choice((0, 1, 2, 6)))


def written_lines(rng):
    """Lines as the writer of kind 15 would write them: the numbers come back."""
    for _ in range(60):
        numbers = [some_number(rng) for _ in range(rng.randrange(15))]
        line = b"rows" + b"".join(b" %d" % number for number in numbers)
        yield Request(struct.pack(">BHH", 23, len(line), len(numbers)) + line, "a line written and read back", 0,
                      reply("read", 0, 4, len(numbers), *numbers))


# The place of a line `say`, and the line of a place.

class Place(Call):
    damages = ((4, "break_4"), (5, "break_5"))

    def __init__(self, rng):
        self.n, self.t = pick_n_t(rng)
        self.numbers = some_say(rng, self.n, self.t)
        if rng.random() < 0.3:
            at = rng.randrange(len(self.numbers))
            self.numbers[at] = rng.choice((0, self.n, self.n + 1, self.t + 1, self.t + 2, 256, 2**32 + 1, TOP))

    @classmethod
    def answers(cls):
        return ["0, meant 0", "0, meant 1", "4", "5"]

    def break_5(self, rng):
        self.t = wrong_t(rng, self.n)

    def break_4(self, rng):
        self.n = wrong_n(rng)

    def to_bytes(self):
        return struct.pack(">BBBB", 24, self.n, self.t, len(self.numbers)) + packed(self.numbers)

    def known(self):
        return reply("place", *say_place(self.n, self.t, self.numbers))


def some_say(rng, n, t):
    """The numbers of a line `say` that is understood."""
    step = rng.randrange(1, 4)
    boxes = [rng.randrange(1, n + 1) for _ in range(2 if step == 1 else 3)]
    return [rng.randrange(1, t + 2), step, *boxes, rng.choice((0, some_number(rng)))]


def place_edges():
    """Every number of the line at each edge of its range, with five and with six numbers for each step."""
    wide = 2**8, 2**16, 2**32, 2**32 + 1, 2**63, TOP
    for n, t in ((1, 0), (4, 0), (4, 1), (7, 2), (13, 4)):
        edges = {0: (0, 1, t + 1, t + 2), 1: (0, 1, 2, 3, 4, 5), 2: (0, 1, n, n + 1), 3: (0, 1, n, n + 1),
                 4: (0, 1, n, n + 1), 5: (0, TOP)}
        for step in (1, 2, 3):
            for count in (0, 1, 2, 3, 4, 5, 6, 7, 255):
                good = [1, step, n, n, n, 9] if count == 6 else [1, step, n, n, 9]
                yield asked(Place, "edge of a place", n=n, t=t, numbers=(good + [1] * count)[:count])
            good = [t + 1, step, n, 1, n, 9] if step > 1 else [t + 1, step, n, 1, 9]
            for at in range(len(good)):
                for number in (*edges[at], *wide):
                    yield asked(Place, "edge of a place", n=n, t=t, numbers=good[:at] + [number] + good[at + 1:])
    for n, t in ((0, 0), (14, 0), (255, 255), (4, 2), (3, 1), (13, 5), (13, 255), (1, 86)):
        for numbers in ([1, 1, 1, 1, 7], [], [0] * 5, [1, 2, 1, 1, 1, 7]):
            yield asked(Place, "place of no run", n=n, t=t, numbers=numbers)


def all_places():
    """Every place of two small tables, in the order of the file: they follow each other by eight bytes."""
    for n, t in ((1, 0), (2, 0), (4, 1)):
        at = 9 + 8 * n
        for table in range(t + 1):
            for place in range(table_rows(n)):
                numbers = [int(word) for word in say_line(n, table, place, 5).split()[1:]]
                yield Request(struct.pack(">BBBB", 24, n, t, len(numbers)) + packed(numbers), "every place", 0,
                              reply("place", 0, 1, at))
                at += 8


class Say(Call):
    damages = ((4, "break_4"), (10, "break_10"))

    def __init__(self, rng):
        self.n, self.table = rng.randrange(1, PLACES + 1), rng.choice((0, 1, 4, 255, rng.randrange(256)))
        self.place = rng.choice((rng.randrange(table_rows(self.n)), rng.randrange(self.n**2), rng.randrange(2**16)))
        self.row = some_number(rng)
        self.lent = len(self.text()) + rng.choice((0, 0, 1, 30))

    def text(self):
        return say_line(self.n, self.table, self.place, self.row)

    def break_10(self, rng):
        size = len(self.text())
        self.lent = rng.choice((0, size - 1, size - 1, rng.randrange(size)))

    def break_4(self, rng):
        self.n = wrong_n(rng)

    def to_bytes(self):
        return struct.pack(">BBBHQH", 25, self.n, self.table, self.place, self.row, self.lent)

    def known(self):
        if not 1 <= self.n <= PLACES:
            return reply("say", 4, 0, *lent_bytes(self.lent))
        text = self.text()
        if len(text) > self.lent:
            return reply("say", 10, 0, *lent_bytes(self.lent))
        return reply("say", 0, len(text), *put_front(self.lent, text))


def say_edges():
    """The first and last place of each step for every n, places behind the table, and the slice's edges."""
    for n in range(1, PLACES + 1):
        steps = 0, n**2, n**2 + n**3, table_rows(n)
        places = {at + by for at in steps for by in (-1, 0, 1)} | {2 * table_rows(n), LAST_PLACE - 1, LAST_PLACE}
        places |= {2**power + by for power in (8, 15) for by in (-1, 0)}
        for place in sorted(places - {-1}):
            size = len(say_line(n, 0, place, 0))
            for lent in (size - 1, size, size + 1):
                yield asked(Say, "edge of a line of a place", n=n, table=0, place=place, row=0, lent=lent)
            yield asked(Say, "edge of a line of a place", n=n, table=255, place=place, row=TOP, lent=120)
    for n in (0, 14, 255):
        for lent in (0, 100):
            yield asked(Say, "line of a place, wrong n", n=n, table=0, place=0, row=1, lent=lent)


# What is told.

class Told(Call):
    damages = ((10, "break_10"),)

    def __init__(self, rng):
        self.refusal, self.fault = rng.choice((0, 0, rng.randrange(256))), rng.choice((*range(7), rng.randrange(256)))
        self.line = some_number(rng)
        self.lent = len(self.text()) + rng.choice((0, 0, 1, 30))

    @classmethod
    def answers(cls):
        return ["10", "refused", "nothing", *(f"line, fault {fault}" for fault in ("1", "2", "3", "4", "5", "other"))]

    def text(self):
        return textrules.told(self.refusal, self.line, self.fault)

    def break_10(self, rng):
        if not self.text():
            self.fault = rng.randrange(1, 7)
        size = len(self.text())
        self.lent = rng.choice((0, size - 1, size - 1, rng.randrange(size)))

    def to_bytes(self):
        return struct.pack(">BBQBH", 28, self.refusal, self.line, self.fault, self.lent)

    def known(self):
        text = self.text()
        if len(text) > self.lent:
            return reply("told", 10, 0, *lent_bytes(self.lent))
        return reply("told", 0, len(text), *put_front(self.lent, text))


def told_edges():
    for refusal in (0, 1, 9, 10, 11, 99, 100, 255):
        for fault in (0, 1, 2, 3, 4, 5, 6, 7, 128, 255):
            for line in (0, 1, 10, 2**32, TOP) if refusal == 0 else (3,):
                size = len(textrules.told(refusal, line, fault))
                for lent in sorted({0, max(size - 1, 0), size, size + 1}):
                    yield asked(Told, "edge of what is told", refusal=refusal, line=line, fault=fault, lent=lent)


# Parts shown.

def wide_number(rng):
    """Some are 0 in 32 bits, and some have a byte of each value."""
    return rng.choice((some_number(rng), 2**32, 2**33, 2**63, 0x0102030405060708, rng.randrange(1, 2**32) << 32))


class File:
    """A run file that need not do anything sensible, its parts, and the number with which its listing ends."""

    def __init__(self, rng, damages=()):
        n = rng.choice((1, 1, 2, 2, 3, 3, 4, 5))
        t = rng.choice((largest_t(n), rng.randrange(largest_t(n) + 1)))
        faulty = set(rng.sample(range(n), rng.randrange(n)))
        rows = [rng.choice((0, some_number(rng))) if k in faulty else some_number(rng) or 1 for k in range(n)]
        self.run = Run(n, t, faulty, rows, "shown", 255 if t == largest_t(n) and rng.random() < 0.4 else t)
        often = rng.choice((0.0, 0.1, 0.9))
        self.run.tables = [Table(n, lambda: wide_number(rng) if rng.random() < often else 0) for _ in range(t + 1)]
        self.data = self.run.to_bytes()
        for _, hurt in sorted(damages, key=lambda one: one[1] in OF_LENGTH):
            self.data = hurt(rng, self.run, self.data)
        self.ends = int(damages[0][0].split()[0]) if damages else 0

    def shown(self, part, lent):
        return shown_reply(self.run, self.ends, part, lent)


def room(run, part):
    return SAY_ROOM * table_rows(run.n) if part else FRONT_ROOM


def shown_reply(run, ends, part, lent):
    if not ends and lent < room(run, part):
        ends = 10
    if ends:
        return reply("shown", ends, 0, 0, *lent_bytes(lent))
    parts = list(textrules.parts_of(run))
    text = parts[part] if part < len(parts) else b""
    return reply("shown", 0, len(text), run.t + 2, *put_front(lent, text))


def shown_bytes(data, part, lent):
    return struct.pack(">BQII", 29, part, lent, len(data)) + data


class Shown(Call):
    """A part of a file. Its damages are those of a run file, break_file_N the one at place N, and the slice."""

    damages = (*((int(name.split()[0]), f"break_file_{at}") for at, (name, _) in enumerate(DAMAGES)), (10, "break_10"))

    def __init__(self, rng):
        self.file = File(rng)
        last = self.file.run.t + 1
        self.part = rng.choice((0, 0, rng.randrange(last + 1), last, last + 1, rng.randrange(TOP)))
        self.lent = room(self.file.run, self.part) + rng.choice((0, 0, 1, 50))

    @classmethod
    def answers(cls):
        return ["0, empty", "0, not empty", 1, 2, 3, 4, 5, 6, 8, 9, 10]

    def break_file(self, at, rng):
        number, hurt = DAMAGES[at]
        self.file.data = hurt(rng, self.file.run, self.file.data)
        self.file.ends = int(number.split()[0])

    def break_10(self, rng):
        least = room(self.file.run, self.part)
        self.lent = rng.choice((0, least - 1, least - 1, rng.randrange(least)))

    def to_bytes(self):
        return shown_bytes(self.file.data, self.part, self.lent)

    def known(self):
        return self.file.shown(self.part, self.lent)


for place in range(len(DAMAGES)):
    setattr(Shown, f"break_file_{place}", partialmethod(Shown.break_file, place))


def shown_edges(rng):
    """Each part of small files, those behind the last, and slices at the edge of what a part could take."""
    for _ in range(12):
        file = File(rng)
        last = file.run.t + 1
        for part in (0, 1, last, last + 1, last + 2, 2**8, 2**32, 2**32 + 1, 2**63, TOP):
            least = room(file.run, part)
            for lent in (least - 1, least, least + 1):
                yield Request(shown_bytes(file.data, part, lent), "edge of a part shown", 10 if lent < least else 0,
                              file.shown(part, lent))
    for damages in damage_choices():
        file = File(rng, damages)
        for part, lent in ((0, 300), (0, 299), (1, 20), (TOP, 0)):
            yield Request(shown_bytes(file.data, part, lent), "part of a damaged file", file.ends,
                          file.shown(part, lent))


def shown_files(rng):
    """Files of every kind, the examples that are bad, and the largest file there is, full of rows."""
    for kind in KINDS:
        run = kind(rng)
        for part in (0, rng.randrange(1, run.t + 2)):
            yield Request(shown_bytes(run.to_bytes(), part, room(run, part)), "part of a lively file", 0,
                          shown_reply(run, 0, part, room(run, part)))
    for path in sorted(EXAMPLES.glob("*.hnb")):
        word, number = path.with_suffix(".txt").read_bytes()[:-1].split(b"\n")[-1].split(b" ")
        if word == b"refused":
            yield Request(shown_bytes(path.read_bytes(), 0, 6000), "part of a bad example", int(number),
                          reply("shown", int(number), 0, 0, *lent_bytes(6000)))
    run = silent_run(PLACES, 4, range(12), TOP)
    for table in run.tables:
        table.rows = [TOP] * len(table.rows)
    for part in (0, 5, 6):
        least = room(run, part)
        for lent in (least, MOST_FILE if part == 5 else least - 1):
            yield Request(shown_bytes(run.to_bytes(), part, lent), "part of the largest file", None,
                          shown_reply(run, 0, part, lent))


class NoText(Call):
    def __init__(self, rng):
        pass

    @classmethod
    def answers(cls):
        return [0]

    def to_bytes(self):
        return bytes((30,))

    def known(self):
        return reply("maker", *[0] * 8)


def all_edges(rng):
    yield from writer_edges(rng)
    yield from row_edges(rng)
    yield from begins_edges()
    yield from read_edges(rng)
    yield from written_lines(rng)
    yield from place_edges()
    yield from all_places()
    yield from say_edges()
    yield from told_edges()
    yield from shown_edges(rng)
    yield from shown_files(rng)
    yield asked(NoText, "no text")


# How replies are counted.

def count_told(words, data):
    if words[1] != "0":
        return words[1]
    refusal, fault = data[1], data[10]
    if refusal:
        return "refused"
    return f"line, fault {fault if 1 <= fault <= 5 else 'other'}" if fault else "nothing"


def counted(words, data):
    """The name of a call and how its reply came out, or nothing where its first number says that."""
    name, number = words[0], words[1]
    if name == "told":
        return count_told(words, data)
    if name == "read" and number == "0":
        return "0, no line" if words[2] == "0" else "0, a line"
    if name == "place" and number == "0":
        return f"0, meant {words[2]}"
    if name == "shown" and number == "0":
        return "0, empty" if words[2] == "0" else "0, not empty"
    if name in ("number", "answer"):
        return whys.counted(words)
    if name == "begins":
        return "wrong n" if number == "0" else f"for n = {data[1]}"
    return number
