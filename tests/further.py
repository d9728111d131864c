"""The calls of kinds 8 to 20 and 34 in docs/REQUESTS.md, drawn from a seed, and their edges.

Of most of them the rules give the whole reply at once, so both programs are held to it.
"""

import struct
from pathlib import Path

from calls import PLACES, Call, Iteration, Request, packed, state_line, wrong_t
from edges import end_of, silent_listing, silent_run
from runfiles import DAMAGES, KINDS, OF_LENGTH, TOP, Table, bits, damage_choices, largest_t, some_rows, table_rows
from staterules import State, last_state
from steprules import Cast, confidence_at, size_refusal

EXAMPLES = Path(__file__).resolve().parent.parent / "examples"
MOST_LENT, MOST_FILE = 5000, 200000
MOST_LISTING = 2235

# Numbers of boxes that are none, some of which look like one in 8, 16 or 32 bits.
WRONG_N = (0, 14, 15, 16, 17, 255, 256, 257, 269, 2**16 + 4, 2**32, 2**32 + 4, 2**32 + 13, 2**63, 2**63 + 4, TOP)
BOXES = (*range(18), 31, 32, 33, 47, 48, 63, 64, 65, 79, 80, 127, 128, 255, 256, 2**16, 2**32, 2**32 + 1, 2**63, TOP)
ROWS = (0, 1, 2**16, 2**32, 2**33, 2**63, TOP)


def lent_rows(length):
    return list(range(1, length + 1))


def lent_bytes(length):
    return list((bytes(range(1, 256)) + b"\0") * (length // 256 + 1))[:length]


def reply(name, *numbers):
    return " ".join(map(str, (name, *numbers)))


# The constants and the tests.

class Largest(Call):
    def __init__(self, rng):
        self.n = rng.choice((rng.randrange(1, PLACES + 1), rng.randrange(256)))

    @classmethod
    def answers(cls):
        return [0, 1, 2, 3, 4]

    def to_bytes(self):
        return bytes((8, self.n))

    def known(self):
        return reply("largest", largest_t(self.n) if 1 <= self.n <= PLACES else 0)


class Rows(Largest):
    @classmethod
    def answers(cls):
        return [table_rows(n) for n in range(PLACES + 1)]

    def to_bytes(self):
        return bytes((9, self.n))

    def known(self):
        return reply("rows", table_rows(self.n) if 1 <= self.n <= PLACES else 0)


class Sizes(Call):
    damages = ((4, "break_4"), (5, "break_5"))

    def __init__(self, rng):
        self.n = rng.randrange(1, PLACES + 1)
        self.t = rng.randrange(largest_t(self.n) + 1)

    def break_5(self, rng):
        self.t = wrong_t(rng, self.n)

    def break_4(self, rng):
        self.n = rng.choice(WRONG_N)

    def to_bytes(self):
        return struct.pack(">BQB", 10, self.n, self.t)

    def known(self):
        return reply("sizes", size_refusal(self.n, self.t))


class Test(Call):
    @classmethod
    def answers(cls):
        return [0, 1]


class Member(Test):
    def __init__(self, rng):
        self.set, self.box = rng.randrange(2**16), rng.choice((rng.randrange(16), rng.choice(BOXES)))

    def to_bytes(self):
        return struct.pack(">BHQ", 11, self.set, self.box)

    def known(self):
        return reply("member", self.set >> min(self.box, 16) & 1)


class Stray(Test):
    def __init__(self, rng):
        self.n = rng.choice((rng.randrange(18), rng.randrange(256)))
        self.set = rng.choice((rng.randrange(2**16), rng.randrange(1 << min(self.n + 1, 16))))

    def to_bytes(self):
        return struct.pack(">BBH", 12, self.n, self.set)

    def known(self):
        return reply("stray", int(self.set >> self.n != 0))


class Zero(Test):
    def __init__(self, rng):
        self.set, self.box = rng.randrange(2**16), rng.choice((rng.randrange(16), rng.choice(BOXES)))
        self.row = rng.choice((0, 0, rng.choice(ROWS)))

    def to_bytes(self):
        return struct.pack(">BHQQ", 13, self.set, self.box, self.row)

    def known(self):
        return reply("zero", int(self.row == 0 and self.set >> min(self.box, 16) & 1 == 0))


def asked(call, about, **arguments):
    """A request with these arguments and no others drawn."""
    made = object.__new__(call)
    vars(made).update(arguments)
    return Request(made.to_bytes(), about, None, made.known())


def test_edges():
    for n in (*range(PLACES + 1), *WRONG_N[1:]):
        for t in (0, 1, 2, 3, 4, 5, 84, 85, 86, 170, 171, 255):
            yield asked(Sizes, "edge of sizes", n=n, t=t)
    for box in BOXES:
        for boxes in (0, 1, 2, 0x8000, 0xffff, 1 << box % 16, 0xffff ^ 1 << box % 16):
            yield asked(Member, "edge of a member", set=boxes, box=box)
            yield asked(Zero, "edge of a sound zero", set=boxes, box=box, row=0)
        for row in ROWS:
            yield asked(Zero, "edge of a sound zero", set=0, box=box, row=row)
    for n in (*range(19), 31, 32, 33, 48, 63, 64, 65, 80, 128, 144, 255):
        low = (1 << min(n, 16)) - 1
        for boxes in {0, 1, low, low >> 1, 1 << max(n - 1, 0) % 16, 1 << n % 16, 0x8000, 0xffff, 0xffff ^ low}:
            yield asked(Stray, "edge of a stray bit", n=n, set=boxes)


# The confidence of a support.

class Confidence(Call):
    """Any support and any t: half of them where some n has such a support and such a t."""

    def __init__(self, rng):
        self.support, self.t = rng.choice(((rng.randrange(PLACES + 1), rng.randrange(largest_t(PLACES) + 1)),
                                           (rng.randrange(256), rng.randrange(256))))

    @classmethod
    def answers(cls):
        return [0, 1, 2]

    def to_bytes(self):
        return bytes((34, self.support, self.t))

    def known(self):
        return reply("confidence", confidence_at(self.support, self.t))


def confidence_edges(rng):
    """For every t the supports around t and around 2t, the least, the most, 13, and one that is drawn."""
    for t in range(256):
        supports = {0, t - 1, t, t + 1, 2 * t - 1, 2 * t, 2 * t + 1, 2 * t + 2, PLACES, 255, rng.randrange(256)}
        for support in sorted(supports & set(range(256))):
            yield asked(Confidence, "edge of a confidence", support=support, t=t)


# Steps 1 to 4.

class Steps(Iteration):
    """An iteration's state and table, and often what only an iteration refuses."""

    damages = ((4, "break_4"), (5, "break_5"), (11, "break_11"))

    def __init__(self, rng):
        super().__init__(rng)
        if rng.random() < 0.5:
            self.lists = [rng.randrange(2**16) & rng.randrange(2**16) for _ in range(PLACES)]
        if rng.random() < 0.3:
            self.rows = [rng.choice((0, row)) for row in self.rows]
        if rng.random() < 0.5:
            self.add_rubbish(rng)

    def may_list(self):
        """Steps 1 to 4 know nothing of iterations done, or of reasons."""
        return True

    def add_rubbish(self, rng):
        """Rows and lists of boxes that do not count, stray bits in the lists and the faulty set, and rows in the table
        that are not read: the reply stays the same."""
        sound = set(range(self.n)) - self.boxes
        stray = 2**16 - (1 << self.n)
        self.faulty |= stray & rng.choice((rng.randrange(2**16), stray))
        for k in range(PLACES):
            if k in sound:
                self.lists[k] = self.lists[k] & ~stray | rng.randrange(2**16) & stray
            else:
                self.rows[k], self.lists[k] = rng.choice(ROWS), rng.randrange(2**16)

    def break_4(self, rng):
        self.n = rng.choice(WRONG_N)

    def to_bytes(self):
        return steps_bytes(self.n, self.t, self.faulty, self.rows, self.lists, self.table)

    def known(self):
        refusal = size_refusal(self.n, self.t)
        if refusal == 0 and len(self.table) != table_rows(self.n):
            refusal = 11
        if refusal:
            return steps_refused(refusal)
        cast = Cast(self.n, self.t, self.faulty, self.rows, self.lists, self.table)
        return steps_line(cast.messages, *cast.parts())


def steps_line(messages, rows, confidences, supports):
    places = [part + [0] * (PLACES * PLACES - len(part)) for part in (rows, confidences, supports)]
    return reply("steps", 0, messages, *sum(places, []))


def steps_bytes(n, t, faulty, rows, lists, table):
    rows, lists = rows + [0] * (PLACES - len(rows)), lists + [0] * (PLACES - len(lists))
    lead = struct.pack(">BQBH13Q13H", 14, n, t, faulty, *rows, *lists)
    return lead + struct.pack(">H", len(table)) + packed(table)


def known_steps(rng):
    """Where no box is faulty and no list has a box, all boxes hear the same. Each row that is not 0 then has support n
    and confidence 2, and all n send it on to the n - 1 others, twice. Where every box is on every list, step 1 alone
    sends rows."""
    for n in range(1, PLACES + 1):
        for t in range(largest_t(n) + 1):
            rows = [rng.choice((0, row, row)) for row in rng.choice((some_rows(rng, n), [TOP] * n, [2**32] * n))]
            table = [rng.randrange(TOP + 1)] * table_rows(n)
            first = (n - 1) * (n - rows.count(0))
            firm, heard = [2 if row else 0 for row in rows], [n if row else 0 for row in rows]
            stray = 2**16 - (1 << n)
            yield Request(steps_bytes(n, t, stray, rows, [stray] * PLACES, table), "steps without faults", 0,
                          steps_line(first + 2 * n * first, rows * n, firm * n, heard * n))
            yield Request(steps_bytes(n, t, 0, rows, [2**16 - 1] * PLACES, table), "steps, all listed", 0,
                          steps_line(first, [], [], []))


def steps_with_rubbish(rng):
    """Twice the same steps, the second time with rubbish in what does not count."""
    for _ in range(40):
        made = Steps(rng)
        yield Request(made.to_bytes(), "steps without rubbish", 0)
        made.add_rubbish(rng)
        table = Table(made.n, lambda: rng.choice(ROWS))
        for j in made.boxes:
            for at, length in table.parts_of(j):
                table.rows[at:at + length] = made.table[at:at + length]
        made.table = table.rows
        yield Request(made.to_bytes(), "steps with rubbish", 0, None, True)


def steps_edges(rng):
    """Every n that is none, with t and table as they would be for another, and the two refusals behind it at once."""
    table = Table(4).rows
    for n in WRONG_N:
        for t, rows in ((0, table), (1, table), (255, []), (0, [])):
            yield Request(steps_bytes(n, t, 8, [10, 20, 30], [], rows), "steps, wrong n", 4, steps_refused(4))
    for n in range(1, PLACES + 1):
        rows = [1] * table_rows(n)
        for t, table, refusal in ((largest_t(n), rows, 0), (largest_t(n) + 1, rows, 5), (largest_t(n), rows[1:], 11),
                                  (largest_t(n), rows + [1], 11), (largest_t(n) + 1, rows[1:], 5)):
            yield Request(steps_bytes(n, t, 0, [3] * n, [], table), "edge of steps", refusal,
                          steps_refused(refusal) if refusal else None)


def steps_refused(refusal):
    return reply("steps", refusal, *[0] * (1 + 3 * PLACES * PLACES))


# Lines.

def some_number(rng):
    power = 10 ** rng.randrange(20)
    return rng.choice((0, power, power - 1, rng.randrange(100), rng.randrange(TOP + 1), TOP))


class Line(Call):
    damages = ((10, "break_10"),)
    kind = 15

    def __init__(self, rng):
        self.word = rng.choice((b"at", b"sent", b"refused", b"", rng.randbytes(rng.randrange(256))))
        self.numbers = [some_number(rng) for _ in range(rng.choice((0, 1, 1, 2, 3, 4, 4, 13)))]
        self.place = 0
        self.lent = len(self.text()) + rng.choice((0, 0, 1, 30))

    def text(self):
        return self.word + b"".join(b" %d" % number for number in self.numbers) + b"\n"

    def break_10(self, rng):
        size = len(self.text())
        self.lent = rng.choice((0, size - 1, size - 1, rng.randrange(size)))

    def tail(self):
        lead = struct.pack(">HBB", self.lent, len(self.word), len(self.numbers))
        return lead + self.word + packed(self.numbers)

    def to_bytes(self):
        return bytes((15,)) + self.tail()

    def written(self):
        """The place behind the line and the slice with it, or the place given and the slice as it was."""
        slice_, text = lent_bytes(self.lent), self.text()
        if self.place + len(text) > self.lent:
            return self.place, slice_
        slice_[self.place:self.place + len(text)] = text
        return self.place + len(text), slice_

    def known(self):
        size, slice_ = self.written()
        return reply("line", 0 if size else 10, size, *slice_)


class Put(Line):
    """No number is refused: a line that has no room leaves the place where it was."""

    damages = ()

    def __init__(self, rng):
        super().__init__(rng)
        size = len(self.text())
        self.lent = min(size + rng.choice((0, 1, 40, 300)), MOST_LENT)
        last = self.lent - size
        self.place = rng.choice((0, last, last, rng.randrange(last + 1), last + 1, last + 1, *self.behind()))

    def behind(self):
        """Places that leave no room, some because a sum of place and size goes past 64 bits."""
        return (self.lent, self.lent + 1, 2**32, 2**32 + 1, 2**63, TOP, TOP + 1 - len(self.text()), TOP - self.lent)

    @classmethod
    def answers(cls):
        return ["written", "no room"]

    def to_bytes(self):
        return struct.pack(">BQ", 16, self.place) + self.tail()

    def known(self):
        place, slice_ = self.written()
        return reply("put", place, *slice_)


def line_edges():
    """Numbers of every length, and a slice that the line fills, one shorter by 1 and one longer by 1."""
    lines = [(b"x", [number]) for power in range(20) for number in (10**power - 1, 10**power)]
    lines += [(b"", []), (b"", [TOP]), (b"\0\n \xff", [0, 0]), (b"w" * 255, [1]), (b"at", [5, 13, TOP, 8191]),
              (b"a", [TOP] * 238), (b"", [TOP] * 255), (b"", [7] * 255)]
    for word, numbers in lines:
        made = object.__new__(Line)
        vars(made).update(word=word, numbers=numbers, place=0, lent=0)
        size = len(made.text())
        for lent in sorted({0, 1, min(size - 1, MOST_LENT), min(size, MOST_LENT), min(size + 1, MOST_LENT)}):
            made.lent = lent
            yield Request(made.to_bytes(), "edge of a line", 0 if size <= lent else 10, made.known())


def put_edges():
    """Each place around the last one with room and around the slice's end, and places that wrap."""
    for word, numbers in ((b"", []), (b"at", [1, 22]), (b"", [TOP])):
        for more in (0, 1, 2, 300):
            made = object.__new__(Put)
            vars(made).update(word=word, numbers=numbers, place=0, lent=0)
            made.lent = len(made.text()) + more
            for place in sorted({0, 1, more - 1, more, more + 1, made.lent - 1, *made.behind()} - {-1}):
                made.place = place
                yield Request(made.to_bytes(), "edge of a line from a place on", None, made.known())


# The part reader.

class Part(Call):
    damages = ((8, "break_8"), (10, "break_10"))

    def __init__(self, rng):
        self.first, self.count = rng.choice((0, 1, rng.randrange(50))), rng.choice((0, 1, 2, rng.randrange(50)))
        rows = self.first + self.count
        self.data = rng.randbytes(8 * (rows + rng.choice((0, 0, 1, 5))) + rng.choice((0, 0, 1, 7)))
        self.lent = rows + rng.choice((0, 0, 1, 20))

    def break_10(self, rng):
        if self.first + self.count == 0:
            self.first, self.data = 1, bytes(8)
        rows = self.first + self.count
        self.lent = rng.choice((0, rows - 1, rows - 1, rng.randrange(rows)))

    def break_8(self, rng):
        rows = self.first + self.count
        if rows and rng.random() < 0.5:
            self.data = self.data[:rng.choice((0, 8 * rows - 1, 8 * rows - 8))]
            return
        large = rng.choice((2**29, 2**32, 2**61, 2**63, TOP + 1 - rows))
        if rng.random() < 0.5:
            self.first += min(large, TOP - self.first)
        else:
            self.count += min(large, TOP - self.count)

    def to_bytes(self):
        return struct.pack(">BQQHH", 17, self.first, self.count, len(self.data), self.lent) + self.data

    def known(self):
        slice_, end = lent_rows(self.lent), self.first + self.count
        if len(self.data) < 8 * end:
            return reply("part", 8, *slice_)
        if self.lent < end:
            return reply("part", 10, *slice_)
        slice_[self.first:end] = struct.unpack(f">{self.count}Q", self.data[8 * self.first:8 * end])
        return reply("part", 0, *slice_)


def part_edges():
    """Three rows: every pair of numbers around that, and pairs whose sum, or eight times it, goes past 64 bits."""
    numbers = (0, 1, 2, 3, 4, 2**32, 2**61, 2**61 + 1, 2**63, TOP - 1, TOP)
    data = bytes(range(1, 26))
    for first in numbers:
        for count in numbers:
            for lent in (2, 3, 4):
                for size in (23, 24, 25):
                    yield asked(Part, "edge of a part", first=first, count=count, lent=lent, data=data[:size])


# Listing and outcome.

class File:
    """A run file of silent faulty boxes and a common row, whose listing and outcome the rules give by counting."""

    def __init__(self, rng, damages=()):
        n = rng.choice((1, 1, 2, 2, 3, 3, 4, 4, 4, 5, 6, 7))
        t = rng.choice((largest_t(n), rng.randrange(largest_t(n) + 1)))
        faulty = rng.sample(range(n), rng.randrange(n))
        self.row = rng.choice((1, 5, 2**32, TOP, rng.randrange(1, 10**12)))
        self.run = silent_run(n, t, faulty, self.row)
        if t == largest_t(n) and rng.random() < 0.4:
            self.run.t_byte = 255
        self.data = self.run.to_bytes()
        for _, hurt in sorted(damages, key=lambda one: one[1] in OF_LENGTH):
            self.data = hurt(rng, self.run, self.data)
        self.ends = int(damages[0][0].split()[0]) if damages else 0
        self.text = self.listing(damages)

    def listing(self, damages):
        whole = silent_listing(self.run, self.row)
        if not damages:
            return whole
        lines = 0
        if damages[0] in DAMAGES[-2:]:
            lines, _ = end_of(self.run, len(self.data))
        return b"".join(whole.splitlines(keepends=True)[:lines]) + b"refused %d\n" % self.ends

    def outcome(self):
        if self.ends:
            return state_line("outcome", self.ends, 0, 0, 0, 0, 0, [], [])
        run, lines = self.run, self.text.split(b"\n")
        sound = run.sound()
        listed = int(lines[1].split(b" ")[4]) if sound else 0
        rows, lists = ([number if k in sound else 0 for k in range(run.n)] for number in (self.row, listed))
        sent = int(lines[-2].split(b" ")[1])
        return state_line("outcome", 0, run.n, run.t, bits(run.faulty), run.t + 1, sent, rows, lists,
                          silent_reasons(run, listed))


def silent_reasons(run, listed):
    """Whoever is listed in a silent run is listed in the first iteration, since nothing at all is heard about it."""
    return {(i, k): (1, 0, 0) for i in run.sound() for k in range(run.n) if listed >> k & 1}


def some_file(rng):
    choices = [()] * 40 + list(damage_choices())
    return File(rng, rng.choice(choices))


class Listing(Call):
    damages = ((10, "break_10"),)

    def __init__(self, rng):
        self.file = some_file(rng)
        size = len(self.file.text)
        self.lent = rng.choice((size, size, size + 1, size + 40, MOST_LISTING, MOST_LENT))

    @classmethod
    def answers(cls):
        return ["10"] + [f"0, end {number}" for number in (0, 1, 2, 3, 4, 5, 6, 8, 9)]

    def break_10(self, rng):
        size = len(self.file.text)
        self.lent = rng.choice((0, size - 1, size - 1, rng.randrange(size)))

    def to_bytes(self):
        return listing_bytes(self.file.data, self.lent)

    def known(self):
        return listing_line(self.file.text, self.file.ends, self.lent)


def listing_bytes(data, lent):
    return struct.pack(">BHI", 18, lent, len(data)) + data


def listing_line(text, ends, lent):
    slice_ = lent_bytes(lent)
    if lent < len(text):
        return reply("listing", 10, 0, 0, *slice_)
    slice_[:len(text)] = text
    return reply("listing", 0, len(text), ends, *slice_)


class Outcome(Call):
    def __init__(self, rng):
        self.file = some_file(rng)

    @classmethod
    def answers(cls):
        return [0, 1, 2, 3, 4, 5, 6, 8, 9]

    def to_bytes(self):
        return outcome_bytes(self.file.data)

    def known(self):
        return self.file.outcome()


def outcome_bytes(data):
    return struct.pack(">BI", 19, len(data)) + data


def file_edges(rng):
    """Every damage of a file: its listing in a slice that it fills, in one that is too short by 1, and its outcome."""
    for damages in ((), *damage_choices()):
        file = File(rng, damages)
        size = len(file.text)
        for lent in (size - 1, size, size + 1):
            yield Request(listing_bytes(file.data, lent), "listing of a damaged file", 10 if lent < size else 0,
                          listing_line(file.text, file.ends, lent))
        yield Request(outcome_bytes(file.data), "outcome of a damaged file", file.ends, file.outcome())


def example_files():
    for path in sorted(EXAMPLES.glob("*.hnb")):
        data, text = path.read_bytes(), path.with_suffix(".txt").read_bytes()
        word, number = text[:-1].split(b"\n")[-1].split(b" ")
        ends = int(number) if word == b"refused" else 0
        for lent in (len(text) - 1, len(text), MOST_LENT):
            yield Request(listing_bytes(data, lent), "listing of an example", None, listing_line(text, ends, lent))
        yield Request(outcome_bytes(data), "outcome of an example", ends)


def large_files():
    """The longest listing, alone, in a slice one too short, and before more bytes than any file has."""
    run = silent_run(PLACES, largest_t(PLACES), {PLACES - 1}, TOP)
    data, text = run.to_bytes(), silent_listing(run, TOP)
    for lent in (len(text) - 1, len(text), MOST_LENT):
        yield Request(listing_bytes(data, lent), "longest listing", None, listing_line(text, 0, lent))
    longer = data + bytes(MOST_FILE - len(data))
    cut = text[:text.rindex(b"sent")] + b"refused 8\n"
    yield Request(listing_bytes(longer, MOST_LENT), "listing of the longest file", 0, listing_line(cut, 8, MOST_LENT))
    yield Request(outcome_bytes(longer), "outcome of the longest file", 8)


def lively_files(rng):
    """Files in which the faulty boxes do what they can."""
    for kind in KINDS:
        run = kind(rng)
        data = run.to_bytes()
        yield Request(listing_bytes(data, MOST_LISTING), "listing of a lively file", 0)
        yield Request(outcome_bytes(data), "outcome of a lively file", 0,
                      reply("outcome", 0, *last_state(run).numbers()))


class NoRun(Call):
    def __init__(self, rng):
        pass

    @classmethod
    def answers(cls):
        return [0]

    def to_bytes(self):
        return bytes((20,))

    def known(self):
        return reply("none", *State(0, 0, 0).numbers())


def all_edges(rng):
    yield from test_edges()
    yield from confidence_edges(rng)
    yield from known_steps(rng)
    yield from steps_with_rubbish(rng)
    yield from steps_edges(rng)
    yield from line_edges()
    yield from put_edges()
    yield from part_edges()
    yield from file_edges(rng)
    yield from example_files()
    yield from large_files()
    yield from lively_files(rng)
    yield asked(NoRun, "no run")
