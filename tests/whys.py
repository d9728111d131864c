"""The calls of kinds 36 and 37 in docs/REQUESTS.md, drawn from a seed, and their edges; and the program that says why
a box is listed, as a whole.

The rules give the whole reply of each, so both programs are held to it. Boxes that are asked about count from 1.
"""

import random
import struct
from functools import partialmethod
from itertools import product

import reasons
import runfiles
from calls import Call, Request
from further import EXAMPLES, MOST_FILE, MOST_LENT, lent_bytes, reply
from report import Answer as Came
from runfiles import DAMAGES, KINDS, OF_LENGTH, TOP, damage_choices
from staterules import answer_text, box_number, last_state

# The line always has room in so many bytes.
ROOM = 64
FILE_REFUSALS = (1, 2, 3, 4, 5, 6, 8, 9)


# Box numbers.

# The bytes beside the digits, signs, spaces, and those that are a digit with another bit.
STRANGE = b"/:+- \n\t\0.,xXeEaA_'\r\x7f\xff" + bytes((128 + 48, 48 ^ 16, 48 ^ 64, 178, 185))


class Number(Call):
    """Any bytes; most are digits, and most of these a number."""

    def __init__(self, rng):
        length = rng.choice((1, 1, 2, 3, 3, 4, 10, 19, 20, 21, 22, rng.randrange(60)))
        self.text = bytes(rng.choice(b"0123456789") for _ in range(length))
        if rng.random() < 0.5:
            value = b"%d" % rng.choice((rng.randrange(258), rng.randrange(1000), rng.randrange(TOP)))
            self.text = value.rjust(rng.choice((1, 3, 19, 20, 20, 21)), b"0")
        if rng.random() < 0.2:
            at = rng.randrange(len(self.text) + 1)
            self.text = self.text[:at] + bytes((rng.choice(STRANGE),)) + self.text[at:]

    @classmethod
    def answers(cls):
        return ["none", "up to 255", "above 255"]

    def to_bytes(self):
        return number_bytes(self.text)

    def known(self):
        return reply("number", *box_number(self.text))


def number_bytes(text):
    return struct.pack(">BH", 36, len(text)) + text


def number_request(text, good, value):
    """Good and value are written out, or follow from how the text was made; the rules must say the same."""
    if (good, value) != box_number(text):
        raise AssertionError(f"{text} should be {good}, {value}")
    return Request(number_bytes(text), "edge of a box number", None, reply("number", good, value))


def number_lengths():
    """From none to as many digits as the format lets a request have."""
    for length in (0, 1, 2, 3, 18, 19, 20, 21, 22, 40, 255, 256, 257, 4999, MOST_LENT):
        good = int(1 <= length <= 20)
        yield number_request(b"0" * length, good, 0)
        yield number_request(b"9" * length, good, min(10**length - 1, 256) * good)
        if length:
            for value in (1, 7):
                yield number_request(b"%d" % value if length == 1 else b"%0*d" % (length, value), good, value * good)
            yield number_request(b"1" + b"0" * (length - 1), good, min(10**(length - 1), 256) * good)


def number_edges():
    """Values around 255, and around what 8, 16, 32 and 64 bits hold, in front of which zeros stand or none."""
    yield from number_lengths()
    for value in (0, 1, 4, 9, 10, 13, 14, 99, 100, 199, 200, 249, 250, 254, 255, 256, 257, 260, 265, 266, 299, 300,
                  511, 512, 999, 1000, 2550, 2559, 2560, 65535, 65536, 65537, 2**31, 2**32, 2**32 + 1, 2**32 + 4,
                  2**63,
                  2**63 + 1, TOP - 1, TOP, TOP + 1, TOP + 2, TOP + 5, 10**19, 10**20 - 1):
        for width in (1, 3, 10, 19, 20):
            text = b"%0*d" % (width, value)
            yield number_request(text, 1, min(value, 256))
        yield number_request(b"%021d" % value, 0, 0)
    for sign in range(256):
        if sign in b"0123456789":
            continue
        other = bytes((sign,))
        for text in (other, other + b"4", b"4" + other, b"1" + other + b"4", other + b"0" * 19, b"0" * 19 + other,
                     b"999" + other):
            yield number_request(text, 0, 0)


# The line that says why.

def small_run(rng):
    """A run of any kind with few boxes, since the files of many are long."""
    while True:
        run = rng.choice(KINDS)(rng)
        if run.n <= 7:
            return run


class Answer(Call):
    """A run file and two numbers. Its damages are those of a run file, break_file_N the one at place N, and the slice.
    What is wrong with the file or the numbers is no refusal of this call."""

    damages = ((10, "break_10"), *((0, f"break_file_{at}") for at in range(len(DAMAGES))), (0, "break_asked"),
               (0, "break_listed"))

    def __init__(self, rng):
        self.run = small_run(rng)
        while not self.run.sound():
            self.run = small_run(rng)
        self.data, self.ends, self.state = self.run.to_bytes(), 0, last_state(self.run)
        self.asked = 1 + rng.choice((rng.randrange(self.run.n), rng.choice(self.run.sound())))
        self.listed = 1 + rng.randrange(self.run.n)
        self.room = rng.choice((0, 0, 1, 9))
        self.short = None

    @classmethod
    def answers(cls):
        return [10, "0, not listed", "0, listed with confidence 0", "0, listed with confidence 1",
                *(f"0, refused {number}" for number in (*FILE_REFUSALS, 15))]

    def break_file(self, at, rng):
        number, hurt = DAMAGES[at]
        self.data = hurt(rng, self.run, self.data)
        self.ends = int(number.split()[0])

    def break_asked(self, rng):
        self.asked = rng.choice(reasons.odd_numbers(self.run.n))

    def break_listed(self, rng):
        self.listed = rng.choice(reasons.odd_numbers(self.run.n))

    def break_10(self, rng):
        """Shorter than the line, whatever line it is."""
        self.short = rng.random()

    def text(self):
        return line_of(self.state, self.ends, self.asked, self.listed)

    def lent(self):
        size = len(self.text())
        if self.short is not None:
            return int(self.short * size) if self.short < 0.6 else size - 1
        return size + self.room

    def to_bytes(self):
        return answer_bytes(self.data, self.asked, self.listed, self.lent())

    def known(self):
        return answer_line(self.text(), self.lent())


for place in range(len(DAMAGES)):
    setattr(Answer, f"break_file_{place}", partialmethod(Answer.break_file, place))


def line_of(state, ends, asked, listed):
    """The line of a file whose run ends in this state, or which is refused by a number before that."""
    return b"refused %d\n" % ends if ends else answer_text(state, asked, listed)


def answer_bytes(data, asked, listed, lent):
    return struct.pack(">BQQHI", 37, asked, listed, lent, len(data)) + data


def answer_line(text, lent):
    slice_ = lent_bytes(lent)
    if lent < len(text):
        return reply("answer", 10, 0, 0, *slice_)
    word, _, number = text[:-1].partition(b" ")
    slice_[:len(text)] = text
    return reply("answer", 0, len(text), int(number) if word == b"refused" else 0, *slice_)


def answer_request(data, text, asked, listed, about, lent=ROOM):
    return Request(answer_bytes(data, asked, listed, lent), about, 0 if lent >= len(text) else 10,
                   answer_line(text, lent))


def every_pair(rng):
    """Runs near the thresholds, some with more than t faulty boxes: the line of every pair of boxes, or of some pairs
    where the file is long."""
    for n, most in ((1, 1), (2, 4), (3, 9), (4, 16), (4, 16), (5, 25), (6, 36), (7, 49), (7, 49), (10, 6), (13, 4)):
        t = runfiles.largest_t(n)
        for run in (reasons.many_liars(rng, n, t), reasons.many_liars(rng, n, min(t + 1, n - 1)),
                    reasons.noisy(rng, n)):
            data, state = run.to_bytes(), last_state(run)
            pairs = list(product(range(1, n + 1), repeat=2))
            for asked, listed in rng.sample(pairs, most):
                yield answer_request(data, line_of(state, 0, asked, listed), asked, listed, "answer of a run")


def slice_edges(rng):
    """Each sort of line in a slice of nothing, one that is too short by 1, one that it fills, and longer ones."""
    data = (EXAMPLES / "case-s.hnb").read_bytes()
    for asked, listed, text in ((1, 1, b"not listed\n"), (4, 1, b"refused 15\n"), (0, 0, b"refused 15\n"),
                                (1, 4, b"listed in iteration 1 with confidence 0 and support 1\n"),
                                (2, 4, b"listed in iteration 1 with confidence 1 and support 2\n")):
        for lent in sorted({0, 1, len(text) - 1, len(text), len(text) + 1, ROOM, 300, MOST_LENT}):
            yield answer_request(data, text, asked, listed, "edge of an answer", lent)
    for lent in (0, 9, 10, 11):
        yield answer_request(b"", b"refused 1\n", 1, 1, "edge of an answer", lent)
        yield answer_request(data[:-1], b"refused 8\n", 99, 1, "edge of an answer", lent)


def damaged_files(rng):
    """Every damage of a file, with good numbers, and with bad ones, which never come first."""
    for damages in damage_choices():
        run = small_run(rng)
        while not run.sound():
            run = small_run(rng)
        data = run.to_bytes()
        for _, hurt in sorted(damages, key=lambda one: one[1] in OF_LENGTH):
            data = hurt(rng, run, data)
        text = b"refused %d\n" % int(damages[0][0].split()[0])
        good, bad = 1 + rng.choice(run.sound()), rng.choice(reasons.odd_numbers(run.n))
        for asked, listed in ((good, good), (bad, good), (good, bad), (0, TOP)):
            yield answer_request(data, text, asked, listed, "answer of a damaged file")


def number_pairs(rng):
    """Any numbers of a good file."""
    for n in (1, 4, 7):
        run = reasons.many_liars(rng, n, runfiles.largest_t(n))
        data, state = run.to_bytes(), last_state(run)
        good = 1 + rng.choice(run.sound())
        for number in (1, n, *reasons.odd_numbers(n)):
            for asked, listed in ((good, number), (number, good), (number, number)):
                yield answer_request(data, line_of(state, 0, asked, listed), asked, listed, "answer to any numbers")


def all_faulty(rng):
    """Nobody can be asked where all boxes are faulty."""
    run = runfiles.all_faulty(rng)
    while run.n > 7:
        run = runfiles.all_faulty(rng)
    for asked, listed in product(range(run.n + 2), repeat=2):
        yield answer_request(run.to_bytes(), b"refused 15\n", asked, listed, "answer where all are faulty")


def example_pairs(path):
    """The two numbers and the line, of each pair of boxes that the file beside an example names."""
    for line in path.read_bytes().splitlines(keepends=True):
        asked, listed, text = line.split(b" ", 2)
        yield int(asked), int(listed), text


def examples():
    """The pairs in NAME.why, of the large file some; and the bad ones, where the file's number comes first."""
    for path in sorted(EXAMPLES.glob("*.why")):
        data, pairs = path.with_suffix(".hnb").read_bytes(), list(example_pairs(path))
        for asked, listed, text in pairs if len(data) < 20000 else pairs[::17]:
            yield answer_request(data, text, asked, listed, "answer of an example")
    for path in sorted(EXAMPLES.glob("*.txt")):
        last = path.read_bytes().splitlines(keepends=True)[-1]
        if last.startswith(b"refused "):
            for asked, listed in ((1, 4), (0, 99)):
                yield answer_request(path.with_suffix(".hnb").read_bytes(), last, asked, listed,
                                     "answer of a bad example")


def longest_file():
    """More bytes than any file has."""
    data = (EXAMPLES / "thirteen.hnb").read_bytes()
    yield answer_request(data.ljust(MOST_FILE, b"\0"), b"refused 8\n", 1, 1, "answer of the longest file")


def all_edges(rng):
    yield from number_edges()
    for part in (every_pair, slice_edges, damaged_files, number_pairs, all_faulty):
        yield from part(rng)
    yield from examples()
    yield from longest_file()


# How replies are counted.

def counted(words):
    """By the line that was written, or whether it is a number."""
    if words[0] == "number":
        return "none" if words[1] == "0" else "above 255" if words[2] == "256" else "up to 255"
    if words[1] != "0":
        return words[1]
    text = bytes(int(word) % 256 for word in words[4:4 + int(words[2])]).decode("ascii", "replace")
    if text.startswith("listed in iteration "):
        return f"0, listed with {' '.join(text.split(' ')[5:7])}"
    return f"0, {text.rstrip()}"


# The program as a whole.

class Whys:
    def __init__(self, report, why, second):
        self.report, self.programs = report, (("why", why), ("reference", second))

    def expect(self, where, data, words, text, about):
        """The two words are given as they stand. Nothing is said on standard error."""
        self.report.count("why", about)
        wanted = Came(text, 1 if text.startswith(b"refused ") else 0)
        for name, program in self.programs:
            came = program(data, *words)
            if came != wanted:
                self.report.fault(f"{where}, {' '.join(words)}", "not as the rules have it",
                                  ((name, came), ("due", wanted)), data)

    def examples(self):
        """All pairs of case S, and a few of each other example."""
        for path in sorted(EXAMPLES.glob("*.why")):
            data, pairs = path.with_suffix(".hnb").read_bytes(), list(example_pairs(path))
            some = pairs if path.stem == "case-s" else random.Random(path.stem).sample(pairs, min(3, len(pairs)))
            for asked, listed, text in some:
                self.expect(f"example {path.stem}", data, (str(asked), str(listed)), text, "examples")
        for path in sorted(EXAMPLES.glob("*.txt")):
            last = path.read_bytes().splitlines(keepends=True)[-1]
            if last.startswith(b"refused "):
                data = path.with_suffix(".hnb").read_bytes()
                self.expect(f"example {path.stem}", data, ("1", "4"), last, "bad examples")
                self.expect(f"example {path.stem}", data, ("256", "0"), last, "bad examples")

    def written_numbers(self):
        """Case S, with numbers in every style that passes."""
        data = (EXAMPLES / "case-s.hnb").read_bytes()
        due = b"listed in iteration 1 with confidence 1 and support 2\n"
        for words in (("2", "4"), ("02", "004"), ("0" * 19 + "2", "0" * 19 + "4")):
            self.expect("case S", data, words, due, "numbers in any style")
        for number in ("0", "5", "13", "14", "255", "256", "257", "258", "260", "0" * 17 + "255", "65538", "65540",
                       "4294967298", "4294967300", "18446744073709551615", "18446744073709551616",
                       "18446744073709551618", "18446744073709551620", "9" * 20):
            self.expect("case S", data, (number, "4"), b"refused 15\n", "no box")
            self.expect("case S", data, ("2", number), b"refused 15\n", "no box")

    def whole_file(self, where, rng, kind):
        run = kind(rng)
        asked, listed = rng.randrange(1, run.n + 1), rng.randrange(1, run.n + 1)
        text = line_of(last_state(run), 0, asked, listed)
        self.expect(where, run.to_bytes(), (str(asked), str(listed)), text, "run files")

    def damaged_file(self, where, rng, damages):
        data, number = runfiles.damaged(rng, damages)
        words = str(rng.choice((1, 2, 0, 99))), str(rng.choice((1, 2, 0, TOP)))
        self.expect(where, data, words, b"refused %d\n" % number, "damaged run files")


def compare_whys(whys, seed, number):
    """All that is known beforehand, then as many run files as are asked for, and damaged ones."""
    whys.report.need("why", ["examples", "bad examples", "numbers in any style", "no box", "run files",
                             "damaged run files"])
    whys.examples()
    whys.written_numbers()
    for i in range(number):
        where = f"seed {seed} asked file {i}"
        whys.whole_file(where, random.Random(where), KINDS[i % len(KINDS)])
    for i, (name, hurt) in enumerate(DAMAGES):
        where = f"seed {seed} asked bad file {i}"
        whys.damaged_file(where, random.Random(where), [(name, hurt)])
