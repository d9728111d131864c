"""Requests from seeds, in the format of docs/REQUESTS.md: all calls, and the edges of kinds 1 to 7.

One proved program answers kinds 1 to 20, 34 and 35, another one kinds 21 to 33, 36 and 37. So a stream has kinds of
one group alone.
"""

import struct
from itertools import permutations

import calls
import further
import makers
import reasons
import texts
import whys
from calls import (PLACES, Request, column_line, fitting, iteration_bytes, most_messages, packed, pick_faulty,
                   state_bytes, state_line)
from runfiles import TOP, Table, bits, heading_bytes, largest_t, table_rows
from staterules import State, iteration_line
from steprules import at_support

# In the order of their kinds.
CALLS = {"vote": calls.Vote, "grade": calls.Grade, "choice": calls.Choice, "start": calls.Start,
         "iteration": calls.Iteration, "heading": calls.Heading, "table": calls.TableBytes, "largest": further.Largest,
         "rows": further.Rows, "sizes": further.Sizes, "member": further.Member, "stray": further.Stray,
         "zero": further.Zero, "steps": further.Steps, "line": further.Line, "put": further.Put, "part": further.Part,
         "listing": further.Listing, "outcome": further.Outcome, "none": further.NoRun,
         "confidence": further.Confidence, "why": reasons.Why}
TEXT_CALLS = {"headed": texts.Headed, "tabled": texts.Tabled, "read": texts.Read, "place": texts.Place,
              "say": texts.Say, "taken": makers.Taken, "ended": makers.Ended, "told": texts.Told,
              "shown": texts.Shown, "maker": texts.NoText, "row": texts.Row, "begins": texts.Begins,
              "settled": makers.Settled, "number": whys.Number, "answer": whys.Answer}
ALL = {**CALLS, **TEXT_CALLS}


def broken(rng, name, damages):
    """A request with these damages done, the later one first: it may need a field that the earlier one spoils."""
    arguments = ALL[name](rng)
    for _, how in reversed(damages):
        getattr(arguments, how)(rng)
    refusal = damages[0][0] if damages else 0 if ALL[name].damages else None
    return Request(arguments.to_bytes(), about(name, damages), refusal, arguments.known())


def about(name, damages):
    if not ALL[name].damages:
        return f"{name} as drawn"
    return f"{name} {' and '.join(str(number) for number, _ in damages) or 0}"


def damage_choices(name):
    """Every damage of a call alone, and every two with different numbers."""
    damages = ALL[name].damages
    for at, one in enumerate(damages):
        yield (one,)
        for two in damages[at + 1:]:
            if two[0] != one[0]:
                yield one, two


def every_damage(rng, name):
    for damages in ((), *damage_choices(name)):
        yield broken(rng, name, damages)


def wild_iteration(rng):
    """A state of which every part is drawn for itself, small enough that it sometimes passes. One in five has boxes on
    its lists and no reasons, or one reason that is drawn for itself."""
    n = rng.randrange(15)
    few = min(n, PLACES)
    rows = [rng.choice((0, 1, 1, 2)) if rng.random() < 0.1 else rng.randrange(1, 3) for _ in range(few)]
    faulty = rng.randrange(1 << rng.choice((n, n, 16))) if rng.random() < 0.5 else 0
    rows = [0 if faulty >> k & 1 and rng.random() < 0.9 else row for k, row in enumerate(rows)]
    t, done = rng.randrange(6), rng.randrange(6)
    lists = [rng.randrange(1 << few) if row and done else 0 for row in rows]
    rows += [0] * (PLACES - few)
    lists += [0] * (PLACES - few)
    if rng.random() < 0.2:
        lists[rng.randrange(PLACES)] ^= 1 << rng.randrange(16)
    table = [rng.randrange(3) for _ in range(table_rows(few) + (rng.random() < 0.1))]
    state = State(n, t, faulty, done, rng.randrange(9), rows, lists, wild_reasons(rng, t, done, lists))
    return Request(iteration_bytes(state, table), "iteration, wild state", None, iteration_line(state, table))


def wild_reasons(rng, t, done, lists):
    places = [(i, k) for i, listed in enumerate(lists) for k in range(PLACES) if listed >> k & 1]
    if not done or rng.random() < 0.1:
        return {}
    found = {place: fitting(rng, t, done) for place in places}
    if rng.random() < 0.1:
        found[rng.randrange(PLACES), rng.randrange(PLACES)] = tuple(rng.randrange(7) for _ in range(3))
    return found


def wild_heading(rng):
    """A heading of which every byte is drawn for itself, mostly from those that mean something."""
    lead = [rng.choice(b"HNB\0") if rng.random() < 0.02 else byte for byte in b"HNB"]
    lead += [rng.random() < 0.02, 1, rng.randrange(15), rng.choice((0, 0, 1, 2, 3, 4, 5, 255))]
    lead += [rng.choice((0, 0, 1, 255)), rng.randrange(256)]
    rows = [rng.choice((0, 1)) for _ in range(rng.randrange(150))]
    data = bytes(lead + rows)[:rng.choice((255, 255, rng.randrange(160)))]
    return Request(bytes((6, len(data), rng.randrange(20))) + data, "heading, wild bytes")


# The requests at random: seven in ten of these, the others of the further kinds.
OFTEN = ("vote", "grade", "grade", "choice", "choice", "start", "iteration", "iteration", "iteration", "heading",
         "table")
FURTHER = ("largest", "rows", "sizes", "member", "stray", "zero", "steps", "steps", "steps", "line", "line", "put",
           "put", "part", "part", "listing", "outcome", "confidence", "why", "why", "why")
TEXTS = ("headed", "headed", "tabled", "read", "read", "read", "place", "place", "say", "say", "taken", "taken",
         "taken", "ended", "ended", "told", "shown", "shown", "row", "row", "begins", "settled", "settled", "number",
         "number", "answer", "answer", "answer")


def any_request(rng):
    """One request at random: mostly good ones, and iterations above all."""
    if rng.random() < 0.1:
        return rng.choice((wild_iteration, wild_heading))(rng)
    return any_of(rng, OFTEN if rng.random() < 0.7 else FURTHER)


def any_text_request(rng):
    return any_of(rng, TEXTS)


def any_of(rng, names):
    name = rng.choice(names)
    damages = list(damage_choices(name)) or [()]
    return broken(rng, name, rng.choice(damages) if rng.random() < 0.25 else ())


def threshold_columns(rng):
    """Vote and grade on both sides of each threshold, for every n and t that pass, with the reply they must give."""
    for n in range(1, PLACES + 1):
        for t in range(largest_t(n) + 1):
            for support in range(n + 1):
                yield from columns_with(rng, n, t, support)


def columns_with(rng, n, t, support):
    """One row stands `support` times. The other places are 0, or rows that stand once each."""
    row = rng.choice((1, 5, 2**32, TOP))
    others = [0] * (n - support)
    if support > 1 and rng.random() < 0.5:
        others = [rng.randrange(10, 20) + 100 * k for k in range(n - support)]
    rows = [row] * support + others
    rng.shuffle(rows)
    data = bytes((n, t)) + packed(rows)
    won = row if support >= n - t and support else 0
    yield Request(b"\1" + data, "vote at a threshold", 0, f"vote 0 {won}")
    yield Request(b"\2" + data, "grade at a threshold", 0, grade_line(row, support, t))


def grade_line(row, support, t):
    return " ".join(map(str, ("grade", 0, *at_support(row, support, t))))


def grade_of(rows, t, about, row, support):
    """A grade over these rows, of which the one that wins and its support are known."""
    return Request(bytes((2, len(rows), t)) + packed(rows), about, 0, grade_line(row, support, t))


def rivals(rng):
    """Beside the row that is graded stands another, once less often or as often as there is room, in front or at the
    end, lower or higher: its places are no part of the support."""
    for n in range(1, PLACES + 1):
        for t in range(largest_t(n) + 1):
            for support in range(2, n):
                low, high = rng.choice(TIES[2])
                less = min(support - 1, n - support)
                for row, rival in ((low, high), (high, low)):
                    rows = [row] * support + [0] * (n - support - less)
                    rng.shuffle(rows)
                    for beside in ([rival] * less + rows, rows + [rival] * less):
                        yield grade_of(beside, t, "grade beside a rival", row, support)


def strangers(rng):
    """No row stands twice: the lowest, which comes first, last or anywhere, has support 1, as all have."""
    for n in range(1, PLACES + 1):
        for t in range(largest_t(n) + 1):
            low, *others = sorted(rng.sample((1, 2, 3, 2**31, 2**32, 2**32 + 1, 2**33, 2**62, 2**63 - 1, 2**63,
                                              2**63 + 1, TOP - 1, TOP), n))
            rng.shuffle(others)
            for at in sorted({0, len(others), rng.randrange(n)}):
                yield grade_of(others[:at] + [low] + others[at:], t, "grade without a row twice", low, 1)


# Rows that tie, the lowest first.
TIES = {2: ((1, 2), (1, TOP), (2**63 - 1, 2**63), (2**32 + 1, 2**33), (2**32 - 1, 2**32)),
        3: ((1, 2, 3), (1, 2**63, TOP), (2**32 - 1, 2**32, 2**32 + 1), (2**63 - 1, 2**63, 2**63 + 1))}


def tied_columns(rng, n, tied, support):
    """The tied rows in each order, so that the first and the last of them are the lowest or others. In the places that
    are left stand zeros or, where the tied rows stand twice or more, rows that stand once."""
    for order in permutations(tied):
        rows = list(order) * support
        for k in range(n - len(rows)):
            other = rng.choice((0, 10 + k)) if support > 1 else 0
            rows.insert(rng.randrange(len(rows) + 1), other)
        yield rows


def ties(rng):
    """Two or three rows that stand equally often: the lowest is graded, as an unsigned number, with their support."""
    for n in range(2, PLACES + 1):
        for t in range(largest_t(n) + 1):
            for count in (2, 3):
                for support in range(1, n // count + 1):
                    tied = rng.choice(TIES[count])
                    for rows in tied_columns(rng, n, tied, support):
                        yield grade_of(rows, t, f"grade of a tie of {count}", tied[0], support)
                    data = bytes((3, n, n)) + packed(rows) + bytes([2] * n)
                    yield Request(data, "choice of a tie", 0, f"choice 0 {tied[0]} {support}")


def refused_columns(rng):
    """One row in all places, which would have full support: slices that are too short or too long, and every n with
    a t that is too large."""
    sizes = [(n, t, 4) for n in (0, 14, 255) for t in (0, 1, 4, 255)]
    sizes += [(n, t, 5) for n in range(1, PLACES + 1) for t in (largest_t(n) + 1, n, 255)]
    for n, t, refusal in sizes:
        data = bytes((n, t)) + packed([rng.choice((1, TOP))] * n)
        yield Request(b"\1" + data, "refused vote", refusal, f"vote {refusal} 0")
        yield Request(b"\2" + data, "refused grade", refusal, f"grade {refusal} 0 0 0")


def edges_of_t(rng):
    """For every n the largest t, which passes, and the next, which is refused."""
    for n in range(1, PLACES + 1):
        for t, refusal in ((largest_t(n), 0), (largest_t(n) + 1, 5)):
            rows = [rng.randrange(1, 9) for _ in range(n)]
            about = "edge of t"
            for kind in (1, 2):
                yield Request(bytes((kind, n, t)) + packed(rows), about, refusal, column_line(kind, rows, t))
            yield Request(struct.pack(">BBBHB", 4, n, t, 0, n) + packed(rows), about, refusal)
            data = heading_bytes(n, t, 0, rows)
            yield Request(bytes((6, len(data), n)) + data, about, refusal)
            state = state_bytes(n, t, 0, 0, 0, rows, [])
            yield Request(b"\5" + state + struct.pack(">H", table_rows(n)) + packed(Table(n).rows), about, refusal)


def big_tables(rng):
    """Table readers of every n, the largest too, and a slice as long as the format lets it be."""
    for n in range(1, PLACES + 1):
        rows = table_rows(n)
        data = rng.randbytes(8 * rows)
        for lent in (rows, rows - 1, 5000):
            asked = struct.pack(">BBHH", 7, n, len(data), lent) + data
            yield Request(asked, "table of every n", 10 if lent < rows else 0)


def wide_state(n, at, row, done=0, sent=0):
    """An iteration of n boxes, the first one faulty where there is a second, with this row at one of the 13 places."""
    rows = [0 if k == 0 and n > 1 else 7 for k in range(n)] + [0] * (PLACES - n)
    rows[at] = row
    return b"\5" + state_bytes(n, largest_t(n), int(n > 1), done, sent, rows, []) + table_of(n)


def table_of(n):
    return struct.pack(">H", table_rows(n)) + packed(Table(n).rows)


def wide_numbers(rng):
    """Numbers of which the lower 32 bits are 0 or small. In a place that must hold 0 they are refused; the row of a
    sound box may be one of them; and so many messages are too many."""
    for n in range(1, PLACES + 1):
        for row in (2**32, 2**33, 2**63, rng.randrange(1, 2**32) << 32):
            for at in sorted({n, rng.randrange(n, PLACES), PLACES - 1} if n < PLACES else ()):
                yield Request(wide_state(n, at, row), "wide row in an unused place", 14)
            if n > 1:
                yield Request(wide_state(n, 0, row), "wide row of a faulty box", 14)
            yield Request(wide_state(n, n - 1, row), "wide row of a sound box", 0)
            rows = [7] * (n - 1) + [row]
            yield Request(struct.pack(">BBBHB", 4, n, 0, 0, n) + packed(rows), "wide row of a sound box", 0)
            data = heading_bytes(n, 0, 0, rows)
            yield Request(bytes((6, len(data), n)) + data, "wide row of a sound box", 0)
        for sent in (2**32, 2**32 + 1, 2**33 + n, 2**63):
            yield Request(wide_state(n, n - 1, 7, 0, sent), "wide number of messages", 14)
            yield Request(wide_state(n, n - 1, 7, largest_t(n), sent), "wide number of messages", 14)


def edges_of_messages(rng):
    """For every n, every t that passes and from 0 to t iterations done: the most messages that a state may hold, which
    pass, and one more."""
    for n in range(1, PLACES + 1):
        for t in range(largest_t(n) + 1):
            for done in range(t + 1):
                yield from most_of_all_sound(rng, n, t, done)
                yield from most_of_any(rng, n, t, done)


def most_of_all_sound(rng, n, t, done):
    """With no faulty box and one row the whole reply is known: once more as many are sent as may be."""
    most, rows = most_messages(n), [rng.choice((1, 7, 2**32, TOP))] * n
    for sent, refusal, after in ((done * most, 0, (done + 1, (done + 1) * most)),
                                 (done * most + 1, 14, (done, done * most + 1))):
        state = state_bytes(n, t, 0, done, sent, rows, [])
        yield Request(b"\5" + state + table_of(n), about_messages(refusal), refusal,
                      state_line("iteration", refusal, n, t, 0, *after, rows, []))


def most_of_any(rng, n, t, done):
    """The limit is the same whatever boxes are faulty."""
    boxes = pick_faulty(rng, n)
    rows = [0 if k in boxes else rng.randrange(1, 9) for k in range(n)]
    for more, refusal in ((0, 0), (1, 14)):
        state = state_bytes(n, t, bits(boxes), done, done * most_messages(n) + more, rows, [])
        yield Request(b"\5" + state + table_of(n), about_messages(refusal), refusal)


def about_messages(refusal):
    return "one message too many" if refusal else "as many messages as may be"


def too_long():
    """What it is, and a request with a length above its limit and all the bytes that it names."""
    yield "table of an iteration too long", b"\5" + bytes(650) + struct.pack(">H", 5001) + bytes(8 * 5001)
    yield "lent slice too long", struct.pack(">BBHH", 7, 1, 24, 5001) + bytes(24)
    yield "table of steps too long", b"\16" + bytes(8 + 1 + 2 + 130) + struct.pack(">H", 5001) + bytes(8 * 5001)
    yield "slice of a line too long", struct.pack(">BHBB", 15, 5001, 1, 0) + b"a"
    yield "slice of a line from a place on too long", struct.pack(">BQHBB", 16, 0, 5001, 1, 0) + b"a"
    yield "slice of a part too long", struct.pack(">BQQHH", 17, 0, 1, 8, 5001) + bytes(8)
    yield "slice of a listing too long", struct.pack(">BHI", 18, 5001, 9) + bytes(9)
    yield "file of a listing too long", struct.pack(">BHI", 18, 5000, 200001) + bytes(200001)
    yield "file of an outcome too long", struct.pack(">BI", 19, 200001) + bytes(200001)


def text_too_long():
    """The same of kinds 21 to 33, 36 and 37."""
    maker = bytes(23)
    yield "slice of a heading too long", struct.pack(">BBBHBH", 21, 1, 0, 0, 1, 5001) + bytes(8)
    yield "table to be written too long", struct.pack(">BBHH", 22, 13, 5001, 9) + bytes(8 * 5001)
    yield "slice of a table too long", struct.pack(">BBHH", 22, 1, 3, 40001) + bytes(24)
    yield "line to be read too long", struct.pack(">BHH", 23, 5001, 1) + b"a" * 5001
    yield "slice of numbers too long", struct.pack(">BHH", 23, 1, 5001) + b"a"
    yield "slice of a line of a place too long", struct.pack(">BBBHQH", 25, 1, 0, 0, 0, 5001)
    yield "text too long", b"\32" + maker + struct.pack(">HHH", 5001, 1, 1) + bytes(5002)
    yield "lent line too long", b"\32" + maker + struct.pack(">HHH", 1, 5001, 1) + bytes(5002)
    yield "lent file too long", b"\32" + maker + struct.pack(">HHH", 1, 1, 5001) + bytes(2)
    yield "lent line at the end too long", b"\33" + maker + struct.pack(">HH", 5001, 1) + bytes(5001)
    yield "lent file at the end too long", b"\33" + maker + struct.pack(">HH", 1, 5001) + bytes(1)
    yield "slice of what is told too long", struct.pack(">BBQBH", 28, 1, 0, 0, 5001)
    yield "slice of a part too long", struct.pack(">BQII", 29, 0, 200001, 1) + bytes(1)
    yield "file of a part too long", struct.pack(">BQII", 29, 0, 1, 200001) + bytes(200001)
    yield "slice of a row too long", struct.pack(">BQQH", 31, 7, 0, 5001)
    yield "lent line that may be settled too long", b"\41" + maker + struct.pack(">H", 5001) + bytes(5001)
    yield "bytes of a number too long", struct.pack(">BH", 36, 5001) + b"1" * 5001
    yield "slice of an answer too long", struct.pack(">BQQHI", 37, 1, 1, 5001, 1) + bytes(1)
    yield "file of an answer too long", struct.pack(">BQQHI", 37, 1, 1, 64, 200001) + bytes(200001)


def bad_ends(rng, group, too_long_ones):
    """How a stream may end: with a request that is unknown or too long and good ones behind it, with one that is cut,
    or as it should. None of this has a reply."""
    good = b"".join(broken(rng, name, ()).data for name in group)
    for kind in (0, 38, 39, 72, 255):
        yield f"kind {kind}", bytes((kind,)) + good
    for about, data in too_long_ones:
        yield about, data + good
    longer = [name for name in group if name not in ("none", "maker")]
    for name in longer:
        yield f"{name} without its last byte", broken(rng, name, ()).data[:-1]
    if "confidence" in group:
        yield "confidence without both its bytes", broken(rng, "confidence", ()).data[:1]
    if "why" in group:
        data = broken(rng, "why", ()).data
        for about, length in (("its second box", 8), ("its boxes", 16), ("the last byte of its state", 17),
                              ("its reasons", 16 + 507)):
            yield f"why without {about}", data[:-length]
    for name in rng.sample(longer, 5):
        data = broken(rng, name, ()).data
        yield f"{name} cut", data[:rng.choice((1, rng.randrange(1, len(data))))]
    yield "nothing", b""
