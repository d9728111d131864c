"""Requests whose replies are written by hand from the rules. Both programs are held to them."""

import struct

from calls import Request, packed, state_bytes, state_line
from further import steps_bytes, steps_line, steps_refused
from runfiles import TOP, Table, case_s_table, heading_bytes

TANK = 2**32


def column(kind, rows, t):
    return bytes((kind, len(rows), t)) + packed(rows)


def votes_and_grades():
    """Behind the refusal of a grade come row, confidence and support."""
    yield column(1, [6, 6, 0, 6], 1), "vote 0 6"
    yield column(1, [6, 6, 0, 0], 1), "vote 0 0"
    # n = 7, t = 2: support 2, 3, 4, 5.
    yield column(2, [8, 0, 0, 8, 0, 0, 0], 2), "grade 0 0 0 2"
    yield column(2, [8, 0, 8, 8, 0, 0, 0], 2), "grade 0 8 1 3"
    yield column(2, [8, 0, 8, 8, 0, 8, 0], 2), "grade 0 8 1 4"
    yield column(2, [8, 0, 8, 8, 8, 8, 0], 2), "grade 0 8 2 5"
    # n = 5, t = 1: support 3 is enough, though n - t is 4.
    yield column(2, [8, 8, 8, 0, 0], 1), "grade 0 8 2 3"
    # n = 3, t = 0: support 1 is enough.
    yield column(2, [0, 8, 0], 0), "grade 0 8 2 1"
    # Leader 4 in case S, as boxes 1 and 3 grade it, and as box 2 does.
    yield column(2, [20, 0, 0, 0], 1), "grade 0 0 0 1"
    yield column(2, [20, 0, 0, 20], 1), "grade 0 20 1 2"
    # 0 is no row that can win, however many places it has, and on a tie the lowest wins.
    yield column(2, [0, 0, 0, 0, 0, 9, 9], 1), "grade 0 9 1 2"
    yield column(2, [7, 5, 7, 5, 0], 1), "grade 0 5 1 2"


def supports():
    """Supports that no threshold asks for, and grades that are refused."""
    # Where every row is 0 there is no support.
    yield column(2, [0], 0), "grade 0 0 0 0"
    yield column(2, [0, 0, 0, 0], 1), "grade 0 0 0 0"
    yield column(2, [0] * 13, 4), "grade 0 0 0 0"
    # As many as there are.
    yield column(2, [8], 0), "grade 0 8 2 1"
    yield column(2, [8] * 13, 4), "grade 0 8 2 13"
    # A lower row and the last row stand less often than 8, which stands four times.
    yield column(2, [1, 8, 8, 1, 8, 8, 1], 2), "grade 0 8 1 4"
    # Three rows stand twice each. With t = 1 that is enough, with t = 2 it is not, and is stated all the same.
    yield column(2, [9, 7, 8, 8, 7, 9], 1), "grade 0 7 1 2"
    yield column(2, [9, 7, 8, 8, 7, 9, 0], 2), "grade 0 0 0 2"
    # No row stands twice.
    yield column(2, [4, 3, 2, 5], 1), "grade 0 0 0 1"
    yield column(2, [3, 2, 4], 0), "grade 0 2 2 1"
    # A refused grade has no support, though one row stands everywhere.
    for rows, t, refusal in (([], 0, 4), ([8] * 14, 4, 4), ([8] * 14, 255, 4), ([8] * 4, 2, 5), ([8] * 12, 4, 5),
                             ([8], 1, 5), ([8] * 13, 255, 5)):
        yield column(2, rows, t), f"grade {refusal} 0 0 0"


def confidences():
    """t, a support, and its confidence. Neither need be one that some number of boxes has."""
    for t, support, due in ((2, 2, 0), (2, 3, 1), (2, 4, 1), (2, 5, 2), (0, 0, 0), (0, 1, 2), (255, 255, 0),
                            (127, 255, 2), (127, 254, 1), (100, 200, 1), (100, 201, 2),
                            # 2t + 1 is 257 here, which is 1 in 8 bits.
                            (128, 1, 0), (128, 128, 0), (128, 129, 1), (128, 255, 1)):
        yield bytes((34, support, t)), f"confidence {due}"


def choices():
    whole = [1 * TANK + 9, 1 * TANK + 8, 2 * TANK + 5, 3 * TANK + 5]
    yield bytes((3, 4, 4)) + packed(whole) + bytes([2] * 4), "choice 0 4294967304 1"
    yield bytes((3, 3, 3)) + packed([4, 4, 3]) + bytes((1, 2, 2)), "choice 0 4 1"
    yield bytes((3, 3, 3)) + packed([4, 4, 3]) + bytes((0, 1, 2)), "choice 0 3 1"
    yield bytes((3, 2, 2)) + packed([0, 6]) + bytes((2, 0)), "choice 0 0 0"


def sizes():
    """What passes and what is refused at the edges of n and t."""
    zeros = state_line("start", 0, 0, 0, 0, 0, 0, [], [])
    for n, t, refusal in ((13, 4, 0), (12, 4, 5), (14, 4, 4), (0, 0, 4)):
        rows = [3] * n
        line = state_line("start", 0, n, t, 0, 0, 0, rows, []) if refusal == 0 else zeros.replace("0", str(refusal), 1)
        yield struct.pack(">BBBHB", 4, n, t, 0, n) + packed(rows), line
    three = heading_bytes(3, 255, 0, [5, 6, 7])
    yield bytes((6, len(three), 4)) + three, "heading 0 1 3 0 0 5 6 7 4"
    yield bytes((6, len(three), 2)) + three, "heading 10 0 0 0 0 1 2"
    yield struct.pack(">BBBHB", 4, 3, 255, 0, 3) + packed([5, 6, 7]), state_line("start", 5, 0, 0, 0, 0, 0, [], [])


def iteration(n, t, faulty, done, sent, rows, lists, table, reasons=None):
    state = state_bytes(n, t, faulty, done, sent, rows, lists, reasons)
    return b"\5" + state + struct.pack(">H", len(table.rows)) + packed(table.rows)


def kept(reasons):
    """Reasons by two boxes that count from 1: the one whose list it is, and the one that is listed."""
    return {(box - 1, leader - 1): reason for (box, leader), reason in reasons.items()}


# All three list box 4 in the first iteration: boxes 1 and 3 find confidence 0 and support 1, box 2 finds 1 and 2.
S_KEPT = kept({(1, 4): (1, 0, 1), (2, 4): (1, 1, 2), (3, 4): (1, 0, 1)})


def iterations():
    """Case S, first 75 messages and then 63, and a third iteration, which is one too many. In the second one nobody
    hears anything about box 4, so all find support 0, but the reasons stay."""
    steps = ([10, 20, 30], []), ([10, 20, 10], [8, 8, 8]), ([10, 10, 10], [8, 8, 8])
    reasons = {}, S_KEPT, S_KEPT
    sent = 0, 75, 138
    for done, table in enumerate((case_s_table(), Table(4))):
        yield (iteration(4, 1, 8, done, sent[done], *steps[done], table, reasons[done]),
               state_line("iteration", 0, 4, 1, 8, done + 1, sent[done + 1], *steps[done + 1], reasons[done + 1]))
    for after in (S_KEPT, {}):
        yield (iteration(4, 1, 8, 2, 138, *steps[2], Table(4), after),
               state_line("iteration", 12, 4, 1, 8, 2, 138, *steps[2], after))


def two_boxes():
    """Few enough that each message can be counted: each goes from one box to the other."""
    # Both sound: one row each in step 1, two each in steps 2 and 3. That is the most there can be.
    yield (iteration(2, 0, 0, 0, 0, [5, 6], [], Table(2)), state_line("iteration", 0, 2, 0, 0, 1, 10, [5, 5], []))
    # Box 2 faulty and silent: box 1 sends its row, then sends it on, and has no vote. It lists both, itself too.
    yield (iteration(2, 0, 2, 0, 0, [5], [], Table(2)),
           state_line("iteration", 0, 2, 0, 2, 1, 2, [5], [3], kept({(1, 1): (1, 0, 0), (1, 2): (1, 0, 0)})))
    # Box 2 faulty and always with 9: box 1 sends 5, then 5 and 9, then its vote 9 on box 2; it grades both with 9.
    nines = Table(2, lambda: 9)
    yield (iteration(2, 0, 2, 0, 0, [5], [], nines), state_line("iteration", 0, 2, 0, 2, 1, 4, [9], []))
    # Before the first iteration no message can have been sent.
    yield (iteration(2, 0, 0, 0, 1, [5, 6], [], Table(2)), state_line("iteration", 14, 2, 0, 0, 0, 1, [5, 6], []))
    # Box 1 stands on its own list: it sends 5, sends on 6 alone and has no vote. Box 2 sends 6, then 5 and 6, then 6.
    # That vote is the only one, so leader 2 has support 1 and leader 1 none.
    yield steps_bytes(2, 0, 0, [5, 6], [1], Table(2).rows), steps_line(6, [0, 6, 0, 6], [0, 2, 0, 2], [0, 1, 0, 1])


def at_the_limit():
    """A state with the most messages there can be, and one more: case S, where an iteration sends at most 108, and
    thirteen sound boxes, who send 4,212 in each. For four boxes 144 is the number of a table's rows."""
    rows, lists, table = [10, 20, 10], [8, 8, 8], Table(4)
    yield (iteration(4, 1, 8, 1, 108, rows, lists, table, S_KEPT),
           state_line("iteration", 0, 4, 1, 8, 2, 171, [10] * 3, lists, S_KEPT))
    for sent in (109, 144, 145):
        due = state_line("iteration", 14, 4, 1, 8, 1, sent, rows, lists, S_KEPT)
        yield iteration(4, 1, 8, 1, sent, rows, lists, table, S_KEPT), due
    for sent, due in ((16848, (0, 13, 4, 0, 5, 21060)), (16849, (14, 13, 4, 0, 4, 16849))):
        yield iteration(13, 4, 0, 4, sent, [3] * 13, [], Table(13)), state_line("iteration", *due, [3] * 13, [])


def joining():
    """Who joins a list, with which reason, and whose reason stays."""
    # Case S, but an iteration is done in which nobody was listed: all join in the second.
    later = kept({(1, 4): (2, 0, 1), (2, 4): (2, 1, 2), (3, 4): (2, 0, 1)})
    yield (iteration(4, 1, 8, 1, 0, [10, 20, 30], [], case_s_table()),
           state_line("iteration", 0, 4, 1, 8, 2, 75, [10, 20, 10], [8, 8, 8], later))
    # The same, but box 2 listed box 4 before, with support 0. It hears of box 4 from boxes 1 and 3 alone, of whom box
    # 1 sends 20 and box 3 sends 99, and in step 3 from box 1, if that has a vote. Box 1 hears 20, 0, 99, 20 about
    # box 4, which is no vote now. So boxes 1 and 3 find support 0. Messages: 9; 4 + 3 + 4 rows and 3 each, to 3.
    before, after = kept({(2, 4): (1, 0, 0)}), kept({(1, 4): (2, 0, 0), (2, 4): (1, 0, 0), (3, 4): (2, 0, 0)})
    yield (iteration(4, 1, 8, 1, 0, [10, 20, 30], [0, 8], case_s_table(), before),
           state_line("iteration", 0, 4, 1, 8, 2, 69, [10, 10, 10], [8, 8, 8], after))
    # n = 7, t = 2, boxes 6 and 7 faulty. All sound boxes list box 7 already, two of them with confidence 1. Box 6 is
    # silent and joins. Five boxes send to six others: one row, then five in steps 2 and 3. All take the lowest row.
    rows, reasons = [10, 20, 30, 40, 50], {1: (1, 0, 2), 2: (1, 1, 3), 3: (1, 1, 4), 4: (1, 0, 0), 5: (1, 0, 1)}
    before = kept({(i, 7): reason for i, reason in reasons.items()})
    after = kept({(i, 6): (2, 0, 0) for i in reasons}) | before
    yield (iteration(7, 2, 96, 1, 0, rows, [64] * 5, Table(7), before),
           state_line("iteration", 0, 7, 2, 96, 2, 330, [10] * 5, [96] * 5, after))
    # n = 4, t = 1, boxes 3 and 4 faulty, which is one too many. Nobody has a vote, and what the faulty boxes say in
    # step 3 gives leader 1 support 2 with box 1 and support 1 with box 2. Both list everybody, themselves too. Box 1
    # counts leader 1, box 2 nobody. Then nobody hears anybody, and each tells three others its row: 18 messages and 6.
    table = Table(4)
    table.rows = third(4, (3, 1, 1, 10), (4, 1, 1, 10), (3, 2, 1, 10))
    listed = kept({(i, k): (1, 0, 0) for i in (1, 2) for k in (1, 2, 3, 4)} | {(1, 1): (1, 1, 2), (2, 1): (1, 0, 1)})
    after = 4, 1, 12, 1, 18, [10, 20], [15, 15]
    yield iteration(4, 1, 12, 0, 0, [10, 20], [], table), state_line("iteration", 0, *after, listed)
    yield (iteration(*after, table, listed), state_line("iteration", 0, 4, 1, 12, 2, 24, [10, 20], [15, 15], listed))


def why(asked, listed, *parts):
    return b"\43" + state_bytes(*parts) + struct.pack(">QQ", asked, listed)


def whys():
    """Case S after each iteration, asked for every pair of boxes; and asked for what is no box."""
    for parts in ((4, 1, 8, 1, 75, [10, 20, 10], [8, 8, 8], S_KEPT), (4, 1, 8, 2, 138, [10] * 3, [8] * 3, S_KEPT)):
        reasons = {(1, 4): "1 0 1", (2, 4): "1 1 2", (3, 4): "1 0 1"}
        for asked in (1, 2, 3):
            for listed in (1, 2, 3, 4):
                due = state_line("why", f"0 {reasons.get((asked, listed), '0 0 0')}", *parts)
                yield why(asked, listed, *parts), due
        for asked, listed in ((4, 1), (4, 4), (0, 1), (1, 0), (5, 1), (1, 5), (257, 1), (1, 257), (TANK + 1, 4),
                              (1, TANK + 4), (TOP, 4), (1, TOP), (0, 0)):
            yield why(asked, listed, *parts), state_line("why", "15 0 0 0", *parts)
    # Three are more than t + 1. Before the first iteration nobody is listed. A single box.
    for done, refusal in ((0, 0), (2, 0), (3, 14), (255, 14)):
        parts = 4, 1, 8, done, 0, [10, 20, 30], []
        yield why(1, 4, *parts), state_line("why", f"{refusal} 0 0 0", *parts)
    for done, refusal in ((0, 0), (1, 0), (2, 14)):
        yield why(1, 1, 1, 0, 0, done, 0, [5], []), state_line("why", f"{refusal} 0 0 0", 1, 0, 0, done, 0, [5], [])
    # In this order: 4, 5, 6, 9, 14, 15.
    for parts, refusal in (((14, 9, 0xffff, 9, 9, [0], [8]), 4), ((4, 2, 24, 9, 9, [0], [8]), 5),
                           ((4, 1, 24, 9, 9, [0], [8]), 6), ((4, 1, 8, 9, 9, [0], [8]), 9),
                           ((4, 1, 8, 9, 9, [1, 1, 1], [8]), 14), ((4, 1, 8, 2, 9, [1, 1, 1], []), 15)):
        yield why(0, 99, *parts), state_line("why", f"{refusal} 0 0 0", *parts)


def kept_reasons():
    """Case S after its first iteration, with another reason of box 1 for box 4, or with one where none belongs. t = 1
    and one iteration is done. The second iteration, and why."""
    lead, after = (4, 1, 8, 1, 75, [10, 20, 10], [8, 8, 8]), (4, 1, 8, 2, 138, [10] * 3, [8] * 3)
    good = (1, 0, 0), (1, 0, 1), (1, 1, 2)
    bad = ((0, 0, 0), (0, 0, 1), (0, 1, 2), (2, 0, 1), (255, 0, 1), (1, 2, 3), (1, 2, 2), (1, 255, 0), (1, 0, 2),
           (1, 0, 3), (1, 1, 0), (1, 1, 1), (1, 1, 3), (1, 1, 4), (1, 0, 255))
    for reason, passes in (*((one, True) for one in good), *((one, False) for one in bad)):
        reasons = S_KEPT | kept({(1, 4): reason})
        said = " ".join(map(str, (0, *reason) if passes else (14, 0, 0, 0)))
        yield why(1, 4, *lead, reasons), state_line("why", said, *lead, reasons)
        due = state_line("iteration", 0, *after, reasons) if passes else state_line("iteration", 14, *lead, reasons)
        yield iteration(*lead, Table(4), reasons), due
    for place in ((1, 1), (3, 3), (4, 1), (4, 4), (1, 5), (1, 13), (5, 1), (13, 1), (13, 13)):
        for reason in ((1, 0, 0), (0, 0, 1), (0, 1, 0), (0, 1, 2), (1, 1, 2)):
            reasons = S_KEPT | kept({place: reason})
            yield why(2, 4, *lead, reasons), state_line("why", "14 0 0 0", *lead, reasons)
            yield iteration(*lead, Table(4), reasons), state_line("iteration", 14, *lead, reasons)
    # With t = 0 the only reason is a support of 0, and an iteration never has one: it is the first and the last.
    for done, reason, refusal in ((1, (1, 0, 0), 0), (1, (1, 0, 1), 14), (1, (1, 1, 1), 14), (1, (1, 1, 0), 14),
                                  (0, (1, 0, 0), 14), (0, (0, 0, 0), 14)):
        parts, reasons = (2, 0, 2, done, 0, [5], [2]), kept({(1, 2): reason})
        said = " ".join(map(str, (refusal, *(reason if refusal == 0 else (0, 0, 0)))))
        yield why(1, 2, *parts, reasons), state_line("why", said, *parts, reasons)
        yield iteration(*parts, Table(2), reasons), state_line("iteration", 12 if done else 14, *parts, reasons)


def wide_states():
    """A row of 2^32 is a sound box's row like any other, and is not nothing in an unused or a faulty place."""
    one = [5]
    for at in (1, 12):
        rows = one + [0] * (at - 1) + [TANK]
        yield iteration(1, 0, 0, 0, 0, rows, [], Table(1)), state_line("iteration", 14, 1, 0, 0, 0, 0, rows, [])
    yield iteration(2, 0, 2, 0, 0, [5, TANK], [], Table(2)), state_line("iteration", 14, 2, 0, 2, 0, 0, [5, TANK], [])
    yield iteration(1, 0, 0, 0, TANK, one, [], Table(1)), state_line("iteration", 14, 1, 0, 0, 0, TANK, one, [])
    yield iteration(1, 0, 0, 0, 0, [TANK], [], Table(1)), state_line("iteration", 0, 1, 0, 0, 1, 0, [TANK], [])
    yield struct.pack(">BBBHB", 4, 1, 0, 0, 1) + packed([TANK]), state_line("start", 0, 1, 0, 0, 0, 0, [TANK], [])


# The two rows of constants, for n from 1 to 13.
LARGEST_T = 0, 0, 0, 1, 1, 1, 2, 2, 2, 3, 3, 3, 4
TABLE_ROWS = 3, 20, 63, 144, 275, 468, 735, 1088, 1539, 2100, 2783, 3600, 4563


def constants():
    for n in range(256):
        in_table = 1 <= n <= 13
        yield bytes((8, n)), f"largest {LARGEST_T[n - 1] if in_table else 0}"
        yield bytes((9, n)), f"rows {TABLE_ROWS[n - 1] if in_table else 0}"


def tests():
    for n, t, refusal in ((13, 4, 0), (12, 4, 5), (14, 4, 4), (0, 0, 4), (1, 0, 0), (1, 255, 5), (256, 0, 4),
                          (TANK, 0, 4), (TANK + 4, 1, 4), (TANK + 4, 255, 4), (TOP, 255, 4)):
        yield struct.pack(">BQB", 10, n, t), f"sizes {refusal}"
    for boxes, box, answer in ((8, 3, 1), (8, 2, 0), (8, 4, 0), (0x8000, 15, 1), (0xffff, 16, 0), (0xffff, 32, 0),
                               (0xffff, 64, 0), (0xffff, TANK, 0), (0xffff, TOP, 0)):
        yield struct.pack(">BHQ", 11, boxes, box), f"member {answer}"
    for n, boxes, answer in ((4, 15, 0), (4, 8, 0), (4, 16, 1), (4, 0x8000, 1), (15, 0x8000, 1), (16, 0xffff, 0),
                             (0, 0, 0), (0, 1, 1), (32, 0xffff, 0), (64, 0xffff, 0), (255, 0xffff, 0)):
        yield struct.pack(">BBH", 12, n, boxes), f"stray {answer}"
    for faulty, box, row, answer in ((8, 2, 0, 1), (8, 3, 0, 0), (8, 2, 1, 0), (8, 2, TANK, 0), (8, 2, 2**63, 0),
                                     (0xffff, 16, 0, 1), (0xffff, 64, 0, 1), (0xffff, TOP, 0, 1)):
        yield struct.pack(">BHQQ", 13, faulty, box, row), f"zero {answer}"


def steps():
    """Both iterations of case S: box 2 alone grades leader 4 with a row, at confidence 1. Only box 1 votes for leader
    4, and box 4 says the same to box 2 alone: supports 1, 2, 1. For leaders 1, 2 and 3 the three sound boxes vote, and
    box 4 says nothing: support 3 everywhere."""
    rows, firm = [10, 20, 30, 0, 10, 20, 30, 20, 10, 20, 30, 0], [2, 2, 2, 0, 2, 2, 2, 1, 2, 2, 2, 0]
    first = steps_line(75, rows, firm, [3, 3, 3, 1, 3, 3, 3, 2, 3, 3, 3, 1])
    table = case_s_table().rows
    yield steps_bytes(4, 1, 8, [10, 20, 30], [], table), first
    # A faulty box's row and list, stray bits and rows above n count for nothing.
    yield steps_bytes(4, 1, 0xfff8, [10, 20, 30, 7, TANK], [16, 0x8000, 0xfff0, 15, 1], table), first
    # Box 4 is then on every list, and nobody hears anything about it.
    again = steps_line(63, [10, 20, 10, 0] * 3, [2, 2, 2, 0] * 3, [3, 3, 3, 0] * 3)
    yield steps_bytes(4, 1, 8, [10, 20, 10], [8, 8, 8], Table(4).rows), again
    # A box alone has nobody to send to: it hears itself, or does not, or has no row, and there is no message.
    yield steps_bytes(1, 0, 0, [5], [0], [0, 0, 0]), steps_line(0, [5], [2], [1])
    yield steps_bytes(1, 0, 0, [5], [1], [0, 0, 0]), steps_line(0, [], [], [])
    yield steps_bytes(1, 0, 0, [0], [0], [9, 9, 9]), steps_line(0, [], [], [])
    # A faulty box alone: nobody sends and nobody grades.
    yield steps_bytes(1, 0, 1, [5], [0], [9, 9, 9]), steps_line(0, [], [], [])
    for n, t, count, refusal in ((0, 0, 0, 4), (14, 0, 144, 4), (256, 0, 144, 4), (TANK + 4, 1, 144, 4),
                                 (TOP, 255, 0, 4), (4, 2, 144, 5), (4, 255, 143, 5), (3, 1, 63, 5), (4, 1, 143, 11),
                                 (4, 1, 145, 11), (4, 1, 0, 11)):
        yield steps_bytes(n, t, 8, [10, 20, 30], [], [0] * count), steps_refused(refusal)


def third(n, *said):
    """A table with nothing but these rows of step 3: sender, receiver and leader, from 1, and the row."""
    table = Table(n)
    for sender, receiver, leader, row in said:
        table.third(sender - 1, receiver - 1, leader - 1, row)
    return table.rows


def echoes():
    """n = 7, t = 2, boxes 6 and 7 faulty, rows 10, 0, 30, 40, 50. Box 4 lists boxes 6 and 7, box 5 lists box 7. The
    five sound boxes vote for leaders 1, 3, 4 and 5: support 5 and what boxes 6 and 7 are heard to add. On leader 2,
    who has no row, nobody has a vote, and so it is with leaders 6 and 7, who send none.

    Leader 1: both say 10 to box 1, which makes 7; one says 10 and one 99 to box 2, which makes 6; they say nothing to
    box 3; both say 10 to boxes 4 and 5, but box 4 hears neither and box 5 hears box 6 alone. Leader 2: both say 77 to
    box 1, one says 77 and one 66 to box 2, both say 77 to boxes 4 and 5. Leader 3: both say 31 to box 1.

    Step 1 has 4 senders of one row, steps 2 and 3 have 5 of 4 rows, each to 6 others: 24, 120 and 120."""
    table = third(7, (6, 1, 1, 10), (7, 1, 1, 10), (6, 2, 1, 10), (7, 2, 1, 99), (6, 4, 1, 10), (7, 4, 1, 10),
                  (6, 5, 1, 10), (7, 5, 1, 10), (6, 1, 2, 77), (7, 1, 2, 77), (6, 2, 2, 77), (7, 2, 2, 66),
                  (6, 4, 2, 77), (7, 4, 2, 77), (6, 5, 2, 77), (7, 5, 2, 77), (6, 1, 3, 31), (7, 1, 3, 31))
    heard = [7, 2, 5, 5, 5, 0, 0] + [6, 1, 5, 5, 5, 0, 0] + [5, 0, 5, 5, 5, 0, 0] * 2 + [6, 1, 5, 5, 5, 0, 0]
    yield (steps_bytes(7, 2, 96, [10, 0, 30, 40, 50], [0, 0, 0, 96, 64], table),
           steps_line(264, [10, 0, 30, 40, 50, 0, 0] * 5, [2, 0, 2, 2, 2, 0, 0] * 5, heard))


def unusual_steps():
    """More than t faulty boxes, and a sound box on a list: the support of a sound leader may be anything."""
    # n = 4, t = 1, boxes 3 and 4 faulty. Two places are too few for a vote, so step 3 has what the faulty boxes say
    # alone: both say 10 to box 1 about leader 1, and box 3 says it to box 2. Messages: 6 in step 1, 12 in step 2.
    table = third(4, (3, 1, 1, 10), (4, 1, 1, 10), (3, 2, 1, 10))
    yield (steps_bytes(4, 1, 12, [10, 20], [], table),
           steps_line(18, [10], [1], [2, 0, 0, 0, 1, 0, 0, 0]))
    # The same with box 2 faulty too: one box is left, hears 10 from three others and has no vote of its own.
    table = third(4, (2, 1, 1, 10), (3, 1, 1, 10), (4, 1, 1, 10), (2, 2, 1, 10), (2, 1, 2, 5))
    yield steps_bytes(4, 1, 14, [10], [], table), steps_line(6, [10], [2], [3, 1])
    # n = 4, t = 1, nobody faulty, box 1 lists box 2. It hears nobody but boxes 3 and 4 about leader 2 and has no vote
    # on it; the others hear 20 three times. So leader 2 has support 2 with box 1 and 3 with the others. Leaders 1, 3
    # and 4 have 3 with box 1 and 4 with the others. Messages: 12 in step 1, 9 + 36 in step 2 and again in step 3.
    yield (steps_bytes(4, 1, 0, [10, 20, 30, 40], [2], Table(4).rows),
           steps_line(102, [10, 20, 30, 40] * 4, [2, 1, 2, 2] + [2, 2, 2, 2] * 3, [3, 2, 3, 3] + [4, 3, 4, 4] * 3))


def line(kind, length, word, numbers):
    return kind + struct.pack(">HBB", length, len(word), len(numbers)) + word + packed(numbers)


def lines():
    at = "97 116 32 49 32 50 32 50 48 32 56 10"
    for length, due in ((11, "10 0 1 2 3 4 5 6 7 8 9 10 11"), (12, f"0 12 {at}"), (14, f"0 12 {at} 13 14")):
        yield line(b"\17", length, b"at", [1, 2, 20, 8]), f"line {due}"
    yield line(b"\17", 0, b"", []), "line 10 0"
    yield line(b"\17", 1, b"", []), "line 0 1 10"
    yield line(b"\17", 21, b"", [TOP]), "line 10 0 " + " ".join(str(k) for k in range(1, 22))
    digits = " ".join(str(ord(digit)) for digit in " 18446744073709551615")
    yield line(b"\17", 22, b"", [TOP]), f"line 0 22 {digits} 10"
    rest = " ".join(str(k) for k in (*range(2, 256), 0, 1, 2))
    yield line(b"\17", 258, b"", []), f"line 0 1 10 {rest}"
    for place, due in ((0, "2 120 10 3 4 5"), (2, "4 1 2 120 10 5"), (3, "5 1 2 3 120 10"), (4, "4 1 2 3 4 5"),
                       (5, "5 1 2 3 4 5"), (6, "6 1 2 3 4 5"), (TANK, f"{TANK} 1 2 3 4 5"), (TOP, f"{TOP} 1 2 3 4 5")):
        yield line(struct.pack(">BQ", 16, place), 5, b"x", []), f"put {due}"


def parts():
    rows = packed([10, 11, 12])
    for first, count, size, length, due in (
            (0, 3, 24, 3, "0 10 11 12"), (1, 2, 24, 4, "0 1 11 12 4"), (1, 1, 24, 3, "0 1 11 3"), (0, 0, 0, 1, "0 1"),
            (3, 0, 24, 3, "0 1 2 3"), (1, 1, 16, 2, "0 1 11"), (0, 3, 23, 3, "8 1 2 3"), (1, 3, 24, 4, "8 1 2 3 4"),
            (4, 0, 24, 4, "8 1 2 3 4"), (1, TOP, 24, 3, "8 1 2 3"), (TOP, 1, 24, 3, "8 1 2 3"),
            (2**61, 0, 24, 3, "8 1 2 3"), (2**63, 2**63, 24, 3, "8 1 2 3"), (1, 2, 24, 2, "10 1 2"),
            (3, 0, 24, 2, "10 1 2"), (1, 3, 24, 2, "8 1 2")):
        yield struct.pack(">BQQHH", 17, first, count, size, length) + rows[:size], f"part {due}"


CASE_S = ("run 4 1 8\nat 1 1 10 8\nat 1 2 20 8\nat 1 3 10 8\n"
          "at 2 1 10 8\nat 2 2 10 8\nat 2 3 10 8\nsent 138\n")


def case_s_file():
    tables = case_s_table().to_bytes() + Table(4).to_bytes()
    return heading_bytes(4, 1, 8, [10, 20, 30, 0]) + tables


def listing(data, text, ends):
    """In a slice that is one too short, one that is full and one with two places left."""
    size = len(text)
    before = [str(k) for k in range(1, size + 3)]
    codes = [str(ord(sign)) for sign in text]
    for length, due in ((size - 1, ["10 0 0", *before[:size - 1]]), (size, [f"0 {size} {ends}", *codes]),
                        (size + 2, [f"0 {size} {ends}", *codes, *before[size:]])):
        yield struct.pack(">BHI", 18, length, len(data)) + data, " ".join(["listing", *due])


def files():
    data = case_s_file()
    one = heading_bytes(1, 255, 0, [5]) + bytes(24)
    yield from listing(data, CASE_S, 0)
    yield from listing(data + b"\0", CASE_S.replace("sent 138", "refused 8"), 8)
    yield from listing(data[:-1], CASE_S[:CASE_S.index("at 2")] + "refused 8\n", 8)
    yield from listing(one, "run 1 0 0\nat 1 1 5 0\nsent 0\n", 0)
    yield from listing(b"", "refused 1\n", 1)
    yield from listing(heading_bytes(3, 1, 8, []), "refused 5\n", 5)
    for asked, due in ((data, (0, 4, 1, 8, 2, 138, [10, 10, 10], [8, 8, 8], S_KEPT)),
                       (one, (0, 1, 0, 0, 1, 0, [5], [])),
                       (data + b"\0", (8, 0, 0, 0, 0, 0, [], [])), (data[:-1], (8, 0, 0, 0, 0, 0, [], [])),
                       (data[:9 + 32], (8, 0, 0, 0, 0, 0, [], [])), (b"", (1, 0, 0, 0, 0, 0, [], []))):
        yield struct.pack(">BI", 19, len(asked)) + asked, state_line("outcome", *due)
    yield bytes((20,)), "none" + " 0" * 31 + " 0 0 0" * 169


def box_numbers():
    """Where it is a number it is followed by its value, or by 256."""
    for text, due in ((b"", "0 0"), (b"0", "1 0"), (b"4", "1 4"), (b"004", "1 4"), (b"255", "1 255"),
                      (b"256", "1 256"), (b"257", "1 256"), (b"1000", "1 256"), (b"00000000000000000255", "1 255"),
                      (b"000000000000000000255", "0 0"), (b"00000000000000000256", "1 256"),
                      (b"18446744073709551615", "1 256"), (b"18446744073709551616", "1 256"),
                      (b"18446744073709551620", "1 256"), (b"99999999999999999999", "1 256"),
                      (b"100000000000000000000", "0 0"), (b"-1", "0 0"), (b"+1", "0 0"), (b" 1", "0 0"),
                       (b"1 ", "0 0"),
                      (b"1\n", "0 0"), (b"1\0", "0 0"), (b"/", "0 0"), (b":", "0 0"), (b"1/", "0 0"), (b"1:2", "0 0"),
                      (b"\xb0", "0 0"), (b"1\xb1", "0 0"), (b"1.0", "0 0"), (b"x", "0 0"), (b"1" * 5000, "0 0")):
        yield struct.pack(">BH", 36, len(text)) + text, f"number {due}"


def answer(data, asked, listed, text, ends=0):
    """The line in slices that are one too short, just long enough, and longer by two."""
    size = len(text) + 1
    codes, lent = [ord(sign) for sign in text + "\n"], [*range(1, size + 3)]
    for length, due in ((size - 1, (10, 0, 0, *lent[:size - 1])), (size, (0, size, ends, *codes)),
                        (size + 2, (0, size, ends, *codes, *lent[size:]))):
        yield (struct.pack(">BQQHI", 37, asked, listed, length, len(data)) + data,
               " ".join(map(str, ("answer", *due))))


def silent_file(n, t, faulty, rows):
    return heading_bytes(n, t, faulty, rows) + bytes((t + 1) * 8 * (n * n + 2 * n**3))


def answers():
    """Case S for every pair of boxes, the other cases that docs/SCOPE.md marks, and files and boxes that are bad."""
    data, nobody = case_s_file(), "not listed"
    reasons = {(1, 4): "listed in iteration 1 with confidence 0 and support 1",
               (2, 4): "listed in iteration 1 with confidence 1 and support 2",
               (3, 4): "listed in iteration 1 with confidence 0 and support 1"}
    for listed in (1, 2, 3, 4):
        for asked in (1, 2, 3):
            yield from answer(data, asked, listed, reasons.get((asked, listed), nobody))
        yield from answer(data, 4, listed, "refused 15", 15)
    # A faulty box that says nothing has no support. Nobody lists anybody where all are sound, or where one is alone.
    for rows in ([50, 50, 50, 0], [10, 20, 30, 0]):
        silent = silent_file(4, 1, 8, rows)
        yield from answer(silent, 1, 4, "listed in iteration 1 with confidence 0 and support 0")
        yield from answer(silent, 3, 4, "listed in iteration 1 with confidence 0 and support 0")
        yield from answer(silent, 1, 1, nobody)
    yield from answer(silent_file(4, 1, 0, [7, 7, 9, 9]), 1, 4, nobody)
    yield from answer(silent_file(1, 0, 0, [5]), 1, 1, nobody)
    yield from answer(silent_file(1, 0, 0, [5]), 1, 2, "refused 15", 15)
    # Box 4 is as good as sound in the first iteration. In the second it lies as in the first one of case S.
    yield from answer(late_file(), 1, 4, "listed in iteration 2 with confidence 0 and support 1")
    yield from answer(late_file(), 2, 4, "listed in iteration 2 with confidence 1 and support 2")
    yield from answer(late_file(), 2, 3, nobody)
    # The file's number comes before that of the boxes.
    for bad, number in ((data[:8], 1), (b"C" + data[1:], 2), (data[:-1], 8), (data + b"\0", 8), (data[:41], 8),
                        (data[:9] + bytes(8) + data[17:], 9)):
        for asked, listed in ((1, 4), (4, 1), (0, TOP)):
            yield from answer(bad, asked, listed, f"refused {number}", number)
    for asked, listed in ((0, 1), (1, 0), (5, 1), (1, 5), (256, 1), (257, 1), (1, 260), (TANK + 1, 4), (1, TOP)):
        yield from answer(data, asked, listed, "refused 15", 15)


def late_file():
    """Rows 10, 10, 10. In the first iteration box 4 says 10 of all leaders to all, so that all have confidence 2 in
    all and hold 10. Then it speaks for itself alone, as in case S, where what is heard about it does not depend on the
    other boxes' rows."""
    first = Table(4)
    for receiver in range(4):
        first.first(3, receiver, 10)
        for leader in range(4):
            first.second(3, receiver, leader, 10)
            first.third(3, receiver, leader, 10)
    return heading_bytes(4, 1, 8, [10, 10, 10, 0]) + first.to_bytes() + case_s_table().to_bytes()


def cases_of(*parts):
    for part in parts:
        for data, line_due in part():
            yield Request(data, "written by hand", None, line_due)


def all_cases():
    return cases_of(votes_and_grades, supports, confidences, choices, sizes, iterations, two_boxes, at_the_limit,
                    joining, whys, kept_reasons, wide_states, constants, tests, steps, echoes, unusual_steps, lines,
                    parts, files)


def text_cases():
    return cases_of(box_numbers, answers)
