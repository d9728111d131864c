"""Two small streams, of kinds 1 to 20, 34 and 35 and of kinds 21 to 33, 36 and 37: for each kind a request that
passes, and one that is refused.

A call that refuses nothing gets one request with each of its answers. No run and no text have one request alone.
"""

import struct

from calls import Request, packed, state_bytes
from edges import silent_run
from further import steps_bytes
from makers import CASE_S, maker_bytes
from runfiles import TOP, Table, case_s_table, heading_bytes
from textrules import LENT_LINE, Maker


def single_box():
    """One box with row 5: the smallest run file there is."""
    return silent_run(1, 0, (), 5).to_bytes()


# Case S after its first iteration.
AFTER_S = 4, 1, 8, 1, 75, [10, 20, 10], [8, 8, 8], {(0, 3): (1, 0, 1), (1, 3): (1, 1, 2), (2, 3): (1, 0, 1)}


def first_seven():
    yield bytes((1, 4, 1)) + packed([6, 6, 0, 6]), 0
    yield bytes((1, 4, 2)) + packed([6, 6, 0, 6]), 5
    yield bytes((2, 4, 1)) + packed([20, 0, 0, 20]), 0
    yield bytes((2, 0, 0)), 4
    yield bytes((3, 3, 3)) + packed([4, 4, 3]) + bytes((1, 2, 2)), 0
    yield bytes((3, 3, 3)) + packed([4, 4, 3]) + bytes((1, 2, 3)), 13
    yield struct.pack(">BBBHB", 4, 3, 0, 4, 3) + packed([5, 6, 0]), 0
    yield struct.pack(">BBBHB", 4, 3, 0, 4, 3) + packed([5, 0, 0]), 9
    table = struct.pack(">H", 63) + packed([9] * 63)
    yield b"\5" + state_bytes(3, 0, 4, 0, 0, [5, 6], []) + table, 0
    yield b"\5" + state_bytes(3, 0, 4, 0, 0, [5, 6, 2**32], []) + table, 14
    yield b"\5" + state_bytes(*AFTER_S) + struct.pack(">H", 144) + bytes(8 * 144), 0
    yield b"\5" + state_bytes(*AFTER_S[:-1]) + struct.pack(">H", 144) + bytes(8 * 144), 14
    heading = heading_bytes(3, 255, 4, [5, 6, 0])
    yield bytes((6, len(heading), 4)) + heading, 0
    yield bytes((6, len(heading), 2)) + heading, 10
    yield struct.pack(">BBHH", 7, 1, 24, 4) + packed([10, 11, 12]), 0
    yield struct.pack(">BBHH", 7, 1, 23, 4) + packed([10, 11, 12])[:23], 8


def constants_and_tests():
    yield bytes((8, 13)), None
    yield bytes((8, 14)), None
    yield bytes((9, 13)), None
    yield bytes((9, 14)), None
    yield struct.pack(">BQB", 10, 13, 4), 0
    yield struct.pack(">BQB", 10, 2**32 + 4, 1), 4
    yield struct.pack(">BHQ", 11, 0x8000, 15), None
    yield struct.pack(">BHQ", 11, 0xffff, 64), None
    yield struct.pack(">BBH", 12, 4, 16), None
    yield struct.pack(">BBH", 12, 4, 15), None
    yield struct.pack(">BHQQ", 13, 8, 2, 0), None
    yield struct.pack(">BHQQ", 13, 8, 2, 2**32), None


def steps_and_text():
    table = Table(3)
    table.third(2, 0, 2, 7)
    yield steps_bytes(3, 0, 4, [5, 6], [0, 1], table.rows), 0
    yield steps_bytes(3, 0, 4, [5, 6], [0, 1], table.rows[1:]), 11
    yield struct.pack(">BHBB", 15, 9, 2, 2) + b"at" + packed([1, 22]), 0
    yield struct.pack(">BHBB", 15, 6, 2, 2) + b"at" + packed([1, 22]), 10
    yield struct.pack(">BQHBB", 16, 2, 10, 2, 2) + b"at" + packed([1, 22]), None
    yield struct.pack(">BQHBB", 16, 4, 10, 2, 2) + b"at" + packed([1, 22]), None


def files():
    rows = packed([10, 11, 12])
    yield struct.pack(">BQQHH", 17, 1, 2, 24, 4) + rows, 0
    yield struct.pack(">BQQHH", 17, 1, 2, 24, 2) + rows, 10
    data = single_box()
    yield struct.pack(">BHI", 18, 30, len(data)) + data, 0
    yield struct.pack(">BHI", 18, 27, len(data)) + data, 10
    yield struct.pack(">BI", 19, len(data)) + data, 0
    yield struct.pack(">BI", 19, len(data) - 1) + data[:-1], 8
    yield bytes((20,)), None


def confidences():
    """t = 2: the supports t, 2t and 2t + 1, which have confidence 0, 1 and 2."""
    for support in (2, 4, 5):
        yield bytes((34, support, 2)), None


def reasons():
    """Why box 2 lists box 4 and not box 1; a state without its reasons; and boxes that cannot be asked about."""
    for asked, listed, refusal in ((2, 4, 0), (2, 1, 0), (4, 1, 15), (2, 2**32 + 1, 15)):
        yield b"\43" + state_bytes(*AFTER_S) + struct.pack(">QQ", asked, listed), refusal
    yield b"\43" + state_bytes(*AFTER_S[:-1]) + struct.pack(">QQ", 2, 4), 14


def writers_and_lines():
    yield struct.pack(">BBBHBH", 21, 3, 0, 4, 3, 35) + packed([5, 6, 0]), 0
    yield struct.pack(">BBBHBH", 21, 3, 0, 4, 2, 35) + packed([5, 0]), 11
    yield struct.pack(">BBHH", 22, 1, 3, 25) + packed([10, 2**32, TOP]), 0
    yield struct.pack(">BBHH", 22, 1, 3, 23) + packed([10, 2**32, TOP]), 10
    for line, length, refusal in ((b"run  4 01 8 \r", 4, 0), (b"run 4 1 8", 2, 10), (b" run 4 1 8", 2, 0)):
        yield struct.pack(">BHH", 23, len(line), length) + line, refusal
    yield struct.pack(">BBBB", 24, 4, 1, 6) + packed([1, 3, 4, 2, 4, 20]), 0
    yield struct.pack(">BBBB", 24, 4, 1, 5) + packed([1, 3, 4, 2, 20]), 0
    yield struct.pack(">BBBB", 24, 4, 2, 5) + packed([1, 1, 4, 2, 20]), 5
    yield struct.pack(">BBBHQH", 25, 4, 0, 135, 20, 19), 0
    yield struct.pack(">BBBHQH", 25, 4, 0, 135, 20, 16), 10


def taken(maker, text, lent_line, length):
    return b"\32" + maker_bytes(maker) + struct.pack(">HHH", len(text), len(lent_line), length) + text + lent_line


def ended(maker, lent_line, length):
    return b"\33" + maker_bytes(maker) + struct.pack(">HH", len(lent_line), length) + lent_line


def makers_of_small():
    """A text with one box, whole and cut; one that is refused, and one that is not understood."""
    empty = bytes(LENT_LINE)
    yield taken(Maker(), b"run 1 0 0\nrows 5\nsay 1 2 1 1 1 7\n", empty, 43), None
    yield taken(Maker(), b"run 1 0 0\nrows 5\nsay 1 2 1", empty, 41), None
    yield taken(Maker(), b"run 2 0 0\nrows 5 0\nsay", empty, 185), None
    yield taken(Maker(), b"# one box\nrun 1 0\nrows 5\n", empty, 41), None
    rest = b"say 1 2 1 1 1 7"
    yield ended(Maker(stage=2, n=1, lines=2, kept=len(rest)), rest.ljust(LENT_LINE, b"."), 43), 0
    yield ended(Maker(stage=1, n=1, lines=1), empty, 5), 0
    yield ended(Maker(stage=2, n=1, lines=2), empty, 40), 10


def told_and_shown():
    yield struct.pack(">BBQBH", 28, 0, 12, 2, 60), 0
    yield struct.pack(">BBQBH", 28, 11, 12, 2, 12), 0
    yield struct.pack(">BBQBH", 28, 11, 12, 2, 10), 10
    data = single_box()[:-8] + packed([7])
    yield struct.pack(">BQII", 29, 0, 300, len(data)) + data, 0
    yield struct.pack(">BQII", 29, 1, 120, len(data)) + data, 0
    yield struct.pack(">BQII", 29, 1, 119, len(data)) + data, 10
    yield struct.pack(">BQII", 29, 0, 300, len(data) - 1) + data[:-1], 8
    yield taken(Maker(), CASE_S, bytes(LENT_LINE), 2345), None
    yield bytes((30,)), None


def rows_and_ends():
    """A row in a slice that it fills, and in one too short; where a table begins, and where none does; a settled text,
    and one that may go on."""
    yield struct.pack(">BQQH", 31, 2**32 + 7, 3, 11), 0
    yield struct.pack(">BQQH", 31, 2**32 + 7, TOP - 3, 11), 10
    yield bytes((32, 4, 2)), None
    yield bytes((32, 14, 0)), None
    for first in (b"y", b"#"):
        maker = Maker(stage=1, n=1, lines=1, kept=LENT_LINE)
        yield b"\41" + maker_bytes(maker) + struct.pack(">H", LENT_LINE) + first.ljust(LENT_LINE, b"."), None


def numbers_and_answers():
    """A number, one above 255 and none; and of case S a listing, none, a refused box, a short slice and a cut file."""
    for text in (b"00000000000000000013", b"256", b"+4"):
        yield struct.pack(">BH", 36, len(text)) + text, None
    run = silent_run(4, 1, {3}, 0)
    run.rows, run.tables[0] = [10, 20, 30, 0], case_s_table()
    data = run.to_bytes()
    for asked, listed, lent, file, refusal in ((2, 4, 64, data, 0), (2, 1, 12, data, 0), (4, 1, 11, data, 0),
                                               (2, 4, 53, data, 10), (4, 1, 10, data[:-1], 0)):
        yield struct.pack(">BQQHI", 37, asked, listed, lent, len(file)) + file, refusal


def requests_of(*parts):
    for part in parts:
        for data, refusal in part():
            yield Request(data, "small stream", refusal)


def all_requests():
    return requests_of(first_seven, constants_and_tests, steps_and_text, files, confidences, reasons)


def text_requests():
    return requests_of(writers_and_lines, makers_of_small, told_and_shown, rows_and_ends, numbers_and_answers)
