"""The calls of kinds 26, 27 and 33 in docs/REQUESTS.md: a text that is taken in pieces, its end, and whether it is
settled before that.

The maker before a request is what textrules.py has after the pieces before it, or one that no text gives.
"""

import struct
from functools import cached_property

import saying
from calls import Call, Request
from further import MOST_LENT, lent_bytes, reply
from runfiles import TOP, heading_bytes, largest_t
from textrules import LENT_LINE, MOST_LINE, Maker, file_size, told

CASE_S = (b"# case S: box 4 tells boxes 1 and 2 one row and box 3 another\nrun 4 1 8\nrows 10 20 30 0\n"
          b"say 1 1 4 1 20\nsay 1 1 4 2 20\nsay 1 1 4 3 99\nsay 1 2 4 1 4 20\nsay 1 2 4 2 4 99\nsay 1 3 4 2 4 20\n")


def maker_bytes(maker):
    return struct.pack(">BBBHQQBB", *maker.fields())


def lent_file(length):
    return bytearray(lent_bytes(length))


def taken(maker, text, line, length, about):
    """The request for one piece. The maker and the line are changed by it."""
    data = bytes((26,)) + maker_bytes(maker) + struct.pack(">HHH", len(text), len(line), length) + text + line
    file = lent_file(length)
    maker.take(text, line, file)
    return Request(data, about, None, reply("taken", *maker.fields(), *line, *file))


def ended(maker, line, length, about):
    """The request for the end of a text."""
    data = bytes((27,)) + maker_bytes(maker) + struct.pack(">HH", len(line), length) + line
    file = lent_file(length)
    end = Maker(**vars(maker)).end(line, file)
    return Request(data, about, None, reply("ended", *end, *file))


def settled(maker, line, about):
    """The request whether the outcome is settled. Where it is, a text that follows must not change it."""
    data = bytes((33,)) + maker_bytes(maker) + struct.pack(">H", len(line)) + line
    is_settled = maker.is_settled(line)
    if is_settled and end_behind(maker, line, b"") != end_behind(maker, line, b"1\n#\nrun 1 0 0\nrows 5\n"):
        raise AssertionError("a text changes an outcome that is settled")
    return Request(data, about, None, reply("settled", int(is_settled)))


def end_behind(maker, line, text):
    """The end of a text that goes on with this."""
    maker, line, file = Maker(**vars(maker)), bytearray(line), bytearray()
    maker.take(text, line, file)
    return maker.end(line, file)


def settled_by(refusal, fault):
    return f"refusal {refusal}" if refusal else f"fault {fault}"


SETTLED = [*(settled_by(refusal, 0) for refusal in (4, 5, 6, 9, 10, 11)),
           *(settled_by(0, fault) for fault in range(1, 6))]


def count_taken(words, data):
    """How a reply to kind 26 is counted: by what this piece settled, or else by the stage."""
    stage, refusal, fault = int(words[1]), int(words[7]), int(words[8])
    if data[1] >= 3:
        return "settled before"
    if stage < 3:
        return f"stage {stage}"
    name = settled_by(refusal if refusal != data[22] else 0, fault)
    return name if name in SETTLED else "another number"


def count_ended(words):
    refusal, _, fault, size = (int(word) for word in words[1:5])
    name = settled_by(refusal, fault)
    return "a run file" if size else name if name in SETTLED else "another number"


def count_settled(words, data):
    """By the answer and by what gave it: the stage, or the unfinished line."""
    kept, length = int.from_bytes(data[14:22], "big"), int.from_bytes(data[24:26], "big")
    if data[1] >= 3:
        return f"{words[1]}, stage 3 or above"
    line = "short line" if min(kept, length) <= MOST_LINE else "long comment" if data[26] == 35 else "long line"
    return f"{words[1]}, {line}"


def small_text(rng):
    """A text of a run file that can be lent, good or damaged, and short enough for a request."""
    while True:
        if rng.random() < 0.6:
            data = saying.some_text(rng, 5).data()
        else:
            data, _ = saying.damaged(rng, rng.choice(list(saying.damage_choices())), 5)
        if len(data) <= MOST_LENT:
            return data


class Drawn(Call):
    """A text that was taken up to some place. Most makers come from it; some are drawn for themselves."""

    def __init__(self, rng):
        self.line = bytearray(rng.randbytes(rng.choice((LENT_LINE, LENT_LINE, LENT_LINE + 1, 1100))))
        self.length = rng.choice((2345, 2345, 4449, MOST_LENT, rng.randrange(MOST_LENT)))
        self.maker, self.text = Maker(), small_text(rng)
        if rng.random() < 0.3:
            self.maker = wild_maker(rng, len(self.line))
            self.line[:20] = rng.choice(STOCK)[:20].ljust(20)
        at = rng.choice((0, len(self.text), rng.randrange(len(self.text) + 1)))
        self.taken = self.text[:at]
        self.left = self.text[at:rng.choice((len(self.text), rng.randrange(at, len(self.text) + 1)))]

    @cached_property
    def request(self):
        maker, line = Maker(**vars(self.maker)), bytearray(self.line)
        maker.take(self.taken, line, lent_file(MOST_LENT))
        return self.ask(maker, line)

    def to_bytes(self):
        return self.request.data

    def known(self):
        return self.request.reply


class Taken(Drawn):
    @classmethod
    def answers(cls):
        return ["stage 0", "stage 1", "stage 2", "settled before", *SETTLED]

    def ask(self, maker, line):
        return taken(maker, self.left, line, self.length, "")


class Ended(Drawn):
    @classmethod
    def answers(cls):
        return ["a run file", *SETTLED]

    def ask(self, maker, line):
        return ended(maker, line, self.length, "")


class Settled(Drawn):
    @classmethod
    def answers(cls):
        return ["1, stage 3 or above", "1, long line", "0, long comment", "0, short line"]

    def ask(self, maker, line):
        return settled(maker, line, "")


# Lines and makers that are put together without regard for each other.
STOCK = (b"run 4 1 8", b"rows 10 20 30 0", b"rows 5", b"say 1 1 1 1 7", b"say 1 2 1 1 1 7", b"say 2 3 4 4 4 9", b"#",
         b"", b"say 1 1 5 1 7", b"say", b"x", b" ", b"run 1 0 0", b"rows", b"\r", b" 1")


def wild_maker(rng, length):
    return Maker(stage=rng.choice((0, 1, 1, 2, 2, 2, 3, 4, 255)), n=rng.choice((0, 1, 2, 4, 4, 5, 13, 14, 255)),
                 t=rng.choice((0, 0, 1, 1, 2, 5, 86, 255)), faulty=rng.choice((0, 8, 8, 15, 16, 65535)),
                 lines=rng.choice((0, 1, 2**32, TOP - 1, TOP)),
                 kept=rng.choice((0, 0, 9, 14, 20, 1000, 1001, length, length + 1, 2**32, TOP)),
                 refusal=rng.choice((0, 0, 7, 10, 255)), fault=rng.choice((0, 0, 3, 6, 255)))


def wild_requests(rng):
    for _ in range(500):
        line = bytearray(rng.choice((b"#", b" ", b"0", b"\r")) * rng.choice((LENT_LINE, LENT_LINE, LENT_LINE + 5)))
        word = rng.choice(STOCK)
        line[:len(word)] = word
        maker = wild_maker(rng, len(line))
        maker.kept = rng.choice((len(word), len(word), maker.kept))
        text = b"\n".join(rng.choice(STOCK) for _ in range(rng.randrange(4))) + rng.choice((b"", b"\n"))
        length = rng.choice((0, 17, 41, 56, 57, 100, 2345, 2344, 2346))
        yield ended(maker, line, length, "end with a wild maker")
        yield settled(maker, line, "settled with a wild maker")
        yield taken(maker, text, line, length, "piece with a wild maker")


# Edges.

def line_lengths():
    """A lent line of each length about 1,001, at each stage, with a text and without; lines of about 1,000 bytes."""
    for stage in (0, 1, 2, 3, 4, 255):
        for length in (0, 1, 999, 1000, 1001, 1002, MOST_LENT):
            for text in (b"", b"x", b"\n", b"run 4 1 8\n"):
                maker = Maker(stage=stage, n=4, t=1, faulty=8, lines=6, refusal=2, fault=7)
                line = bytearray(b"\7" * length)
                yield ended(maker, line, 2345, "length of the lent line")
                yield taken(maker, text, line, 9, "length of the lent line")
    for size in (999, 1000, 1001, 1002, 1003, 1200):
        for first in (b"run 4 1 8", b"#", b"", b"run 4 1 8 #"):
            for last in (b" ", b"\r"):
                text = first.ljust(size - 1) + last
                for length in (1001, 1002, 1100):
                    maker, line = Maker(), bytearray(length)
                    yield taken(maker, text, line, 5, "line of about 1,000 bytes")
                    yield settled(maker, line, "line of about 1,000 bytes")
                    yield ended(maker, line, 5, "line of about 1,000 bytes")
                    yield taken(maker, b"\nx", line, 5, "line of about 1,000 bytes")


def kept_and_lines():
    """`kept` at and behind the end of the lent line, and the last numbers that `lines` can have."""
    for kept in (0, 1, 4, 1000, 1001, 1002, 2**16, 2**32, 2**32 + 4, 2**63, TOP):
        for fill in (b"rows 5".ljust(LENT_LINE), b"#" * LENT_LINE, b" " * LENT_LINE, b"x" * LENT_LINE):
            for text in (b"", b"y", b"\n", b"y\n", b"\n\n"):
                maker, line = Maker(stage=1, n=1, kept=kept), bytearray(fill)
                yield ended(maker, line, 60, "kept at an edge")
                yield taken(maker, text, line, 60, "kept at an edge")
    for lines in (0, 2**32 - 1, 2**32, TOP - 2, TOP - 1, TOP):
        for text in (b"", b"\n", b"\n\n", b"#\n", b"x\n", b"#", b"run 1 0 0", b"run 1 0 0\nrows 5\nsay\n"):
            maker, line = Maker(lines=lines), bytearray(LENT_LINE)
            yield taken(maker, text, line, 41, "lines at an edge")
            yield ended(maker, line, 41, "lines at an edge")


def settled_edges():
    """Every stage, `kept` and length of the lent line about 1,000, with each way in which a line may begin. At a stage
    below 3 a refusal or a fault that stands in the maker settles nothing."""
    for stage in (0, 1, 2, 3, 4, 255):
        for length in (0, 1, 999, 1000, 1001, 1002, 2000, MOST_LENT):
            keeps = {0, 1, 255, 256, 999, 1000, 1001, 1002, length, length + 1, 2**8 + 1001, 2**16, 2**16 + 5, 2**32,
                     2**32 + 1000, 2**32 + 1001, 2**63, TOP}
            for kept in sorted(keeps):
                for first in (b"#", b" #", b"x", b"\0"):
                    maker = Maker(stage=stage, n=4, t=1, faulty=8, lines=kept, kept=kept)
                    if stage < 3 and kept % 2:
                        maker.refusal, maker.fault = 10, 5
                    line = (first + b"1" * length)[:length]
                    yield settled(maker, line, "whether it is settled, at an edge")


def file_lengths():
    """A lent file that is just long enough, one byte too short, and longer: at `rows`, at `say`, and at the end."""
    for n, t in ((1, 0), (2, 0), (3, 0), (4, 0), (4, 1), (5, 0), (5, 1)):
        size = file_size(n, t)
        rows = b"rows" + b" 7" * n + b"\n"
        last = b"say %d 3 %d %d %d 1\n" % (t + 1, n, n, n)
        for length in (0, 8, 9 + 8 * n - 1, 9 + 8 * n, size - 8, size - 1, size, size + 1, MOST_LENT):
            for stage, text in ((1, rows), (1, rows + last), (2, last), (2, b"say 1 1 1 1 1\n")):
                maker, line = Maker(stage=stage, n=n, t=t), bytearray(LENT_LINE)
                yield ended(Maker(stage=2, n=n, t=t), line, length, "length of the lent file")
                yield taken(maker, text, line, length, "length of the lent file")
        place = 9 + 8 * n
        for length in range(place, place + 9):
            maker = Maker(stage=2, n=n, t=t)
            yield taken(maker, b"say 1 1 1 1 %d\n" % TOP, bytearray(LENT_LINE), length, "length of the lent file")


def wrong_sizes():
    """Sizes that no text gives at stage 2: 4 and 5 come before the fault of a line `say`, and that before 10. Another
    word is at fault whatever the sizes are."""
    for n, t in ((0, 0), (14, 0), (14, 255), (255, 0), (4, 2), (4, 255), (1, 1), (1, 86), (4, 1)):
        for text in (b"say 1 1 1 1 7", b"say 9 1 1 1 7", b"say", b"says 1 1 1 1 7", b"rows 5", b" x", b"#", b""):
            for length in (0, 100):
                for stage in (1, 2):
                    maker, line = Maker(stage=stage, n=n, t=t, lines=3), bytearray(LENT_LINE)
                    maker.take(text, line, bytearray(0))
                    yield ended(maker, line, length, "sizes that no text gives")
                    yield taken(maker, b"\n", line, length, "sizes that no text gives")


def wide_runs():
    """Numbers of the line `run` that do not fit: they are kept as the largest that does."""
    wide = 254, 255, 256, 257, 511, 65535, 65536, 65537, 2**32, 2**32 + 4, 2**63, TOP
    for at in range(3):
        for number in wide:
            numbers = [4, 1, 8]
            numbers[at] = number
            text = b"run %d %d %d\n" % tuple(numbers)
            yield taken(Maker(), text, bytearray(LENT_LINE), 9, "wide numbers of a run")
            yield taken(Maker(), text + b"rows 10 20 30 0\n", bytearray(LENT_LINE), 2345, "wide numbers of a run")


# Whole texts.

def in_pieces(text, cuts, length, about):
    """A text in several pieces. The pieces together must give what the whole gives."""
    maker, line = Maker(), bytearray(LENT_LINE)
    for at, end in zip((0, *cuts), (*cuts, len(text))):
        yield taken(maker, text[at:end], line, length, about)
        yield settled(maker, line, about)
    yield ended(maker, line, length, about)


ONE_BOX = b"# one\nrun 1 0 0\r\n\nrows  05 \nsay 1 1 1 1 20\nsay 1 3 1 1 1 30\n#\nsay 1 1 1 1 40"


def cut_texts(rng):
    """A text of one box cut at every place, once or twice, case S at some, and other texts."""
    for cut in range(len(ONE_BOX) + 1):
        yield from in_pieces(ONE_BOX, (cut,), 41, "one box in pieces")
        yield from in_pieces(ONE_BOX, sorted((cut, rng.randrange(len(ONE_BOX)))), 42, "one box in pieces")
    for cut in range(0, len(CASE_S) + 1, 7):
        yield from in_pieces(CASE_S, (cut,), 2345, "case S in pieces")
    yield from in_pieces(CASE_S, range(1, len(CASE_S)), 60, "case S byte by byte, no room")
    for _ in range(60):
        text = small_text(rng)
        cuts = sorted(rng.randrange(len(text) + 1) for _ in range(rng.choice((1, 2, 5))))
        yield from in_pieces(text, cuts, rng.choice((4449, MOST_LENT)), "a text in pieces")


def case_s_whole():
    """Written out: the heading, zeros, and six rows where docs/RUNFILE.md has them."""
    file = bytearray(heading_bytes(4, 1, 8, [10, 20, 30, 0]) + bytes(2304))
    for at, row in ((137, 20), (145, 20), (153, 99), (577, 20), (609, 99), (1121, 20)):
        file[at + 7] = row
    lead = bytes((26,)) + bytes(23) + struct.pack(">HHH", len(CASE_S), LENT_LINE, 2345)
    longest = CASE_S[:CASE_S.index(b"\n")]
    line = b"say 1 3 4 2 4 20" + longest[16:] + bytes(LENT_LINE - len(longest))
    yield Request(lead + CASE_S + bytes(LENT_LINE), "case S as a whole", None,
                  reply("taken", 2, 4, 1, 8, 9, 0, 0, 0, *line, *file))


def damaged_texts(rng):
    """Every damage of a text, alone and two at once. What is told at the end must be what the damage led to."""
    for damages in saying.damage_choices():
        data, due = saying.damaged(rng, damages, 4)
        while len(data) > MOST_LENT:
            data, due = saying.damaged(rng, damages, 4)
        *pieces, end = in_pieces(data, (rng.randrange(len(data) + 1),), 2345, f"text with {saying.name_of(damages)}")
        numbers = [int(word) for word in end.reply.split(" ")[1:4]]
        if due is not None and told(*numbers) != due:
            raise AssertionError(f"{saying.name_of(damages)}: {due} should be told")
        yield from (*pieces, end)


def every_size(rng):
    """Texts of every n and t that fit: a good one, with the file that must come of it."""
    for n in range(1, 6):
        for t in range(largest_t(n) + 1):
            text = saying.Text(rng, n, t, 12, False)
            text.last = b"\n"
            data, file = text.data(), text.file()
            maker, line = Maker(), bytearray(LENT_LINE)
            whole = taken(maker, data, line, len(file), "a text of every size")
            if not whole.reply.endswith(reply("", *file)):
                raise AssertionError("the file of a text is not the one that it was made with")
            yield whole
            yield ended(maker, line, len(file), "a text of every size")


def all_edges(rng):
    for part in (line_lengths(), kept_and_lines(), settled_edges(), file_lengths(), wrong_sizes(), wide_runs(),
                 case_s_whole(), cut_texts(rng), damaged_texts(rng), every_size(rng), wild_requests(rng)):
        yield from part
