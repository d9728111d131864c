"""Texts of run files from seeds: good ones in every style, and damaged ones with what must come of them.

A text is made together with the tables that it must give, by the formulas of runfiles.py, and each damage knows the
line or the number that it must lead to.
"""

from runfiles import TOP, Table, bits, heading_bytes, largest_t
from textrules import MOST_LINE, told

# The order in which refusals are tested when `rows` has been read. Faults of a line come before all of them.
REFUSALS = 4, 5, 6, 11, 9
LONG_COMMENT = 70001


class Line:
    """A word and numbers, or any other bytes."""

    def __init__(self, word=b"", numbers=(), raw=None):
        self.word, self.numbers, self.raw, self.pad = word, list(numbers), raw, 0


class Text:
    """The lines of a text, and the run file that must come of it."""

    def __init__(self, rng, n, t, says, loose=None):
        self.rng, self.n, self.t = rng, n, t
        self.loose = rng.random() < 0.5 if loose is None else loose
        self.faulty = set(rng.sample(range(n), rng.randrange(n)))
        self.row = [rng.choice((0, some_row(rng))) if k in self.faulty else some_row(rng) for k in range(n)]
        self.tables = [Table(n) for _ in range(t + 1)]
        self.run, self.rows = Line(b"run", (n, t, bits(self.faulty))), Line(b"rows", self.row)
        self.lines, self.places = [self.run, self.rows], []
        for _ in range(says):
            self.say()
        self.last = b"\n" if rng.random() < 0.7 else b""

    def say(self):
        """A line `say` behind all others. Some name a place that was named before: the last of them wins."""
        rng = self.rng
        if self.places and rng.random() < 0.2:
            place = rng.choice(self.places)
        else:
            step = rng.randrange(1, 4)
            place = (rng.randrange(self.t + 1), step, *(rng.randrange(self.n) for _ in range(2 + (step > 1))))
        self.places.append(place)
        row = rng.choice((0, some_row(rng), some_row(rng)))
        table, step, *boxes = place
        (Table.first, Table.second, Table.third)[step - 1](self.tables[table], *boxes, row)
        line = Line(b"say", (table + 1, step, *(box + 1 for box in boxes), row))
        self.lines.append(line)
        return line

    def file(self):
        tables = b"".join(table.to_bytes() for table in self.tables)
        return heading_bytes(self.n, self.t, bits(self.faulty), self.row) + tables

    def decorate(self, long_comment=False):
        """Comments and empty lines anywhere, and lines of 1,000 bytes: none of them changes anything."""
        rng = self.rng
        for _ in range(rng.choice((0, 1, 3, 8))):
            self.lines.insert(rng.randrange(len(self.lines) + 1), Line(raw=passed_over(rng)))
        if long_comment:
            body = rng.choice((b"x", b" ", b"\r", b"run 4 1 8 ", b"#", b"\0")) * LONG_COMMENT
            self.lines.insert(rng.randrange(len(self.lines) + 1), Line(raw=b"#" + body[:LONG_COMMENT]))
        for line in self.lines:
            if rng.random() < 0.05:
                line.pad = MOST_LINE
        return self

    def render(self, line, padded=True):
        if line.raw is not None:
            return line.raw
        if not self.loose or len(line.numbers) > 13:
            data = line.word + b"".join(b" %d" % number for number in line.numbers)
        else:
            data = line.word + b"".join(self.digits(number) for number in line.numbers) + self.rng.choice((b"", b"  "))
            data += self.rng.choice((b"", b"", b"\r"))
        if padded and line.pad:
            data = data.rstrip(b"\r").ljust(line.pad - 1) + self.rng.choice((b"\r", b" "))
        return data

    def digits(self, number):
        return b" " * self.rng.choice((1, 1, 2, 7)) + b"0" * self.rng.choice((0, 0, 1, 25)) + b"%d" % number

    def data(self):
        return b"\n".join(self.render(line) for line in self.lines) + self.last

    def number_of(self, line):
        return 1 + next(at for at, other in enumerate(self.lines) if other is line)

    def some_say(self):
        says = [line for line in self.lines if line.word == b"say" and line.raw is None]
        return self.rng.choice(says) if says else self.say()

    def behind(self, line, new):
        """A new line anywhere behind that one."""
        self.lines.insert(self.rng.randrange(self.number_of(line), len(self.lines) + 1), new)
        return new

    def before(self, line, new):
        self.lines.insert(self.number_of(line) - 1, new)
        return new


def some_row(rng):
    return rng.choice((rng.randrange(1, 100), 2**32, TOP, rng.randrange(1, TOP + 1)))


def passed_over(rng):
    return rng.choice((b"", b" ", b"   ", b"\r", b"  \r", b" " * 1000, b" " * 999 + b"\r", b"#", b"# run 4 1 8",
                       b"#\r", b"#run 4 1 8", b"#" * 1000, b"#" * 1001, b"#" * 1002, b"# \xff\0\t",
                       b"#" + b"9" * 5000))


def some_text(rng, most=13, says=None):
    n = rng.randrange(1, most + 1)
    t = rng.choice((largest_t(n), rng.randrange(largest_t(n) + 1)))
    return Text(rng, n, t, rng.choice((0, 1, 5, 30)) if says is None else says).decorate()


# Damages. Each gives the line at which it must show, and the refusal or the fault.

def refuse_9(rng, text):
    sound = [k for k in range(text.n) if k not in text.faulty]
    text.rows.numbers[rng.choice(sound)] = 0
    return text.rows, 9, 0


def refuse_11(rng, text):
    whole = len(text.rows.numbers)
    count = rng.choice([c for c in (0, whole - 1, whole + 1, whole + 1, 13, 14, 255, 256 + whole, 300) if c != whole])
    text.rows.numbers = (text.rows.numbers + [5] * count)[:count]
    return text.rows, 11, 0


def refuse_6(rng, text):
    stray = rng.choice((1 << text.n, 1 << 15, 1 << 16, 1 << 32, 1 << 63, TOP))
    text.run.numbers[2] = rng.choice((stray, bits(text.faulty) | stray))
    return text.rows, 6, 0


def refuse_5(rng, text):
    least = largest_t(text.n) + 1
    text.run.numbers[1] = rng.choice((least, least, least + 1, 85, 86, 171, 254, 255, 256, 257, 2**32, 2**63, TOP))
    return text.rows, 5, 0


def refuse_4(rng, text):
    text.run.numbers[0] = rng.choice((0, 14, 15, 255, 256, 256 + text.n, 300, 2**32 + text.n, 2**63, TOP))
    return text.rows, 4, 0


def wrong_say(rng, text):
    """One number outside its range, or a number too many or too few."""
    line = text.some_say()
    numbers, n, t = list(line.numbers), text.n, text.t
    at = rng.randrange(len(numbers) - 1)
    if rng.random() < 0.3:
        numbers = rng.choice((numbers[:-1], numbers[1:] + [1, 1] if numbers[1] == 1 else numbers + [1], []))
        numbers = numbers if len(numbers) != 6 or numbers[1] not in (2, 3) else numbers + [1]
    elif at == 0:
        numbers[0] = rng.choice((0, t + 2, t + 2, 256, 2**32 + 1, TOP))
    elif at == 1:
        numbers[1] = rng.choice((0, 4, 3 if numbers[1] == 1 else 1, 2**32 + numbers[1], TOP))
    else:
        numbers[at] = rng.choice((0, n + 1, n + 1, 256 + n, 2**32 + 1, TOP))
    line.raw = b"say" + b"".join(b" %d" % number for number in numbers)
    return line, 0, 5


def no_say(rng, text):
    """Another word where a line `say` is due: also a second `run` or `rows`."""
    raw = rng.choice((b"run 4 1 8", text.render(text.rows, False), b"rows", b"says 1 1 1 1 5", b"Say 1 1 1 1 5",
                      b"sa 1 1 1 1 5", b"say\t1 1 1 1 5", b"1 1 1 1 5", b"x", b"\r 1", b"say\r 1 1 1 1 5"))
    return text.behind(text.rows, Line(raw=raw)), 0, 5


def no_rows(rng, text):
    text.rows.raw = rng.choice((b"row 1 2", b"rowsx 5", b"ROWS 1", b"run 4 1 8", b"say 1 1 1 1 5", b"rows\t1 2",
                                b"10 20 30 0", b"rows,", b"rows\r 1"))
    return text.rows, 0, 4


def no_run(rng, text):
    text.run.raw = rng.choice((b"run 4 1", b"run 4 1 8 0", b"run", b"RUN 4 1 8", b"runs 4 1 8", b"ru 4 1 8",
                               b"rows 1 2 3", b"say 1 1 1 1 5", b"run\t4 1 8 3", b"run\r 4 1 8", b"4 1 8",
                               b"\xef\xbb\xbfrun 4 1 8", b"run#1 4 1 8"))
    return text.run, 0, 3


def some_line(rng, text):
    return rng.choice((text.run, text.rows, text.some_say()))


def no_words(rng, text):
    line = some_line(rng, text)
    good = text.render(line, False)
    line.raw = rng.choice((b" " + good, good + b" x", good + b" \t", good + b" -1", good + b" +1", good + b" 1.5",
                           good + b" 1,000", good + b" %d" % (TOP + 1), good + b" 99999999999999999999999",
                           good + b" # comment", good + b" \r\r", good + b" \0", good + b" \xd9\xa1", good + b" 1\t1",
                           good + b" 0x1", b"  # comment", b"x\r\r 1 \r\r", b" \t"))
    return line, 0, 2


def too_long(rng, text):
    line = some_line(rng, text)
    good = text.render(line, False)
    line.raw = rng.choice((good.rstrip(b"\r").ljust(MOST_LINE + 1), good.rstrip(b"\r").ljust(MOST_LINE) + b"\r",
                           good.ljust(MOST_LINE + 2), good.ljust(5000), good.ljust(LONG_COMMENT, b"9"),
                           good.ljust(MOST_LINE + 1, b"x")))
    return line, 0, 1


def long_blank(rng, text):
    """Spaces alone are an empty line, but not so many of them."""
    raw = rng.choice((b" " * (MOST_LINE + 1), b" " * MOST_LINE + b"\r", b" " * 9000, b" #" + b" " * MOST_LINE))
    line = Line(raw=raw)
    text.lines.insert(rng.randrange(len(text.lines) + 1), line)
    return line, 0, 1


# These move what is due, so with another damage beside them nothing is known beforehand.

def without_run(rng, text):
    text.lines.remove(text.run)
    return text.rows, 0, 3


def without_rows(rng, text):
    says = [line for line in text.lines if line.word == b"say"]
    text.lines.remove(text.rows)
    return (says[0] if says else None), 0, 4


def only_run(rng, text):
    """The text ends before `rows`."""
    text.lines = [line for line in text.lines if line.word not in (b"rows", b"say")]
    return None, 0, 4


def only_comments(rng, text):
    text.lines = [line for line in text.lines if line.word == b""]
    return None, 0, 3


def rows_first(rng, text):
    return text.before(text.run, Line(raw=b"rows 1 2 3")), 0, 3


def say_first(rng, text):
    return text.before(text.run, Line(raw=b"say 1 1 1 1 5")), 0, 3


def say_early(rng, text):
    return text.before(text.rows, Line(raw=b"say 1 1 1 1 5")), 0, 4


def run_twice(rng, text):
    return text.before(text.rows, Line(raw=text.render(text.run))), 0, 4


IN_PLACE = (refuse_9, refuse_11, refuse_6, refuse_5, refuse_4, wrong_say, no_say, no_rows, no_run, no_words, too_long,
            long_blank)
MOVING = (without_run, without_rows, only_run, only_comments, rows_first, say_first, say_early, run_twice)


def damage_choices():
    """Every damage alone, and every two. They are done in the order in which they stand, which spoils none."""
    every = IN_PLACE + MOVING
    for at, one in enumerate(every):
        yield (one,)
        for two in every[at + 1:]:
            if not (one in MOVING and two in MOVING):
                yield one, two


def name_of(damages):
    return " and ".join(damage.__name__.replace("_", " ") for damage in damages)


def damaged(rng, damages, most=7):
    """The bytes of a text with the damages done, and what must be told, or nothing where that is not known."""
    text = some_text(rng, most, rng.choice((1, 2, 6)))
    dues = [damage(rng, text) for damage in damages]
    data = text.data()
    if len(damages) > 1 and any(damage in MOVING for damage in damages):
        return data, None
    return data, min((told_at(text, data, *due) for due in dues), key=lambda due: due[0])[1]


def told_at(text, data, line, refusal, fault):
    """The place of an outcome in the order in which they are looked for, and what is told of it."""
    number = text.number_of(line) if line else 1 + data.count(b"\n") + (data != b"" and not data.endswith(b"\n"))
    rank = REFUSALS.index(refusal) if refusal else fault - 10
    return (number, rank), told(refusal, number, fault)
