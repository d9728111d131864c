"""The rules of docs/TEXT.md and of kinds 21 to 33 in docs/REQUESTS.md, once more and in few lines.

The tests hold both programs to what stands here. Speed does not matter, and everything is copied rather than shared.
"""

import re

from runfiles import TOP, bits, heading_bytes, table_rows

MOST_LINE, LENT_LINE = 1000, 1001
MOST_BOXES = 13
LINE = re.compile(rb"([^ ]+)((?: +[0-9]+)*) *", re.DOTALL)
SENTENCES = {1: b"a line that is no comment has at most 1,000 bytes",
             2: b"this is not a word with numbers behind it",
             3: b"a line run is due, with n, t and the faulty set",
             4: b"a line rows is due, with the row of each box",
             5: b"a line say is due: iteration, step, sender, receiver, leader in steps 2 and 3, row"}


def number_of(digits):
    """Python does not turn thousands of digits into a number, so the zeros in front go first."""
    digits = digits.lstrip(b"0")
    return int(digits or b"0") if len(digits) <= 20 else TOP + 1


def read_line(line):
    """The word and the numbers, or nothing where it is no such line."""
    match = LINE.fullmatch(line[:-1] if line.endswith(b"\r") else line)
    if match is None:
        return None
    numbers = [number_of(digits) for digits in match[2].split()]
    return None if any(number > TOP for number in numbers) else (match[1], numbers)


def is_empty(line):
    return (line[:-1] if line.endswith(b"\r") else line).strip(b" ") == b""


def sizes_refused(n, t):
    return 4 if not 1 <= n <= MOST_BOXES else 5 if 3 * t >= n else 0


def file_size(n, t):
    return 9 + 8 * n + (t + 1) * 8 * table_rows(n)


def table_begins(n, table):
    """The first byte of a table, counted from 0, also of one that no run has."""
    return 9 + 8 * n + 8 * table * table_rows(n) if 1 <= n <= MOST_BOXES else 0


def row_written(row, place, slice_):
    """Refusal, and the slice after it."""
    if place + 8 > len(slice_):
        return 10, slice_
    return 0, [*slice_[:place], *row.to_bytes(8, "big"), *slice_[place + 8:]]


def heading_refused(n, t, faulty, rows):
    """The first of 4, 5, 6, 11 and 9."""
    if sizes_refused(n, t):
        return sizes_refused(n, t)
    if faulty >> n:
        return 6
    if len(rows) != n:
        return 11
    return 9 if any(row == 0 and not faulty >> k & 1 for k, row in enumerate(rows)) else 0


def place_in_file(n, iteration, step, sender, receiver, *leader):
    """Where the eight bytes of a row stand. Boxes and iterations count from 1."""
    place = (sender - 1) * n + receiver - 1
    if step > 1:
        place = n**2 + (step - 2) * n**3 + place * n + leader[0] - 1
    return 9 + 8 * n + 8 * ((iteration - 1) * table_rows(n) + place)


def say_place(n, t, numbers):
    """Refusal, 1 where the numbers are those of a line `say` that is understood, and its place in the file."""
    if sizes_refused(n, t):
        return sizes_refused(n, t), 0, 0
    wanted = {1: 5, 2: 6, 3: 6}.get(numbers[1] if len(numbers) > 1 else 0)
    if len(numbers) != wanted or not 1 <= numbers[0] <= t + 1:
        return 0, 0, 0
    if not all(1 <= box <= n for box in numbers[2:-1]):
        return 0, 0, 0
    return 0, 1, place_in_file(n, *numbers[:-1])


def say_line(n, table, place, row):
    """The line `say` of a place of a table, both counted from 0, also for a place behind the table."""
    if place < n**2:
        return b"say %d 1 %d %d %d\n" % (table + 1, 1 + place // n, 1 + place % n, row)
    q = place - n**2
    boxes = 1 + q // n**2 % n, 1 + q // n % n, 1 + q % n
    return b"say %d %d %d %d %d %d\n" % (table + 1, 2 + q // n**3, *boxes, row)


def told(refusal, line, fault):
    if refusal:
        return b"refused %d\n" % refusal
    if fault:
        return b"line %d: %s\n" % (line, SENTENCES.get(fault, b"this line is not understood"))
    return b""


def front_of(run):
    rows = b"".join(b" %d" % row for row in run.rows)
    return b"run %d %d %d\nrows%s\n" % (run.n, run.t, bits(run.faulty), rows)


def parts_of(run):
    """The parts of the text that is shown of a good run file."""
    yield front_of(run)
    for at, table in enumerate(run.tables):
        yield b"".join(say_line(run.n, at, place, row) for place, row in enumerate(table.rows) if row)


class Maker:
    """What is known of a text so far. The lent file is a bytearray."""

    NAMES = "stage", "n", "t", "faulty", "lines", "kept", "refusal", "fault"

    def __init__(self, **known):
        vars(self).update(dict.fromkeys(self.NAMES, 0), **known)

    def fields(self):
        return [getattr(self, name) for name in self.NAMES]

    def settle(self, **how):
        vars(self).update(how, stage=3)

    def take(self, text, line, file):
        if self.stage < 3 and len(line) < LENT_LINE:
            self.settle(refusal=10)
        for byte in text:
            if self.stage >= 3:
                return
            if byte == 10:
                self.end_line(bytes(line[:self.kept]), file)
            elif self.kept < len(line):
                line[self.kept] = byte
                self.kept += 1

    def end_line(self, line, file):
        self.lines, self.kept = min(self.lines + 1, TOP), 0
        if line.startswith(b"#"):
            return
        if len(line) > MOST_LINE:
            self.settle(fault=1)
        elif not is_empty(line):
            self.judge(read_line(line), file)

    def judge(self, words, file):
        if words is None:
            self.settle(fault=2)
        elif self.stage == 0:
            self.take_run(*words)
        elif self.stage == 1:
            self.take_rows(*words, file)
        else:
            self.take_say(*words, file)

    def take_run(self, word, numbers):
        if word != b"run" or len(numbers) != 3:
            self.settle(fault=3)
            return
        self.n, self.t, self.faulty = (min(a, b) for a, b in zip(numbers, (255, 255, 65535)))
        self.stage = 1

    def take_rows(self, word, rows, file):
        if word != b"rows":
            self.settle(fault=4)
            return
        refusal = heading_refused(self.n, self.t, self.faulty, rows)
        if refusal or len(file) < file_size(self.n, self.t):
            self.settle(refusal=refusal or 10)
            return
        whole = heading_bytes(self.n, self.t, self.faulty, rows).ljust(file_size(self.n, self.t), b"\0")
        file[:len(whole)] = whole
        self.stage = 2

    def take_say(self, word, numbers, file):
        refusal, meant, place = say_place(self.n, self.t, numbers) if word == b"say" else (0, 0, 0)
        if refusal:
            self.settle(refusal=refusal)
        elif not meant:
            self.settle(fault=5)
        elif len(file) < place + 8:
            self.settle(refusal=10)
        else:
            file[place:place + 8] = numbers[-1].to_bytes(8, "big")

    def is_settled(self, line):
        """Whether no text that follows can change the outcome."""
        unfinished = bytes(line[:self.kept])
        return self.stage >= 3 or (len(unfinished) > MOST_LINE and not unfinished.startswith(b"#"))

    def end(self, line, file):
        """Refusal, line, fault and size."""
        if self.stage < 3 and len(line) < LENT_LINE:
            return 10, 0, 0, 0
        if self.stage < 3 and self.kept:
            self.end_line(bytes(line[:self.kept]), file)
        if self.stage >= 3:
            return self.refusal, self.lines if self.fault else 0, self.fault, 0
        if self.stage < 2:
            return 0, min(self.lines + 1, TOP), 3 + self.stage, 0
        refusal = sizes_refused(self.n, self.t)
        if not refusal and len(file) < file_size(self.n, self.t):
            refusal = 10
        return refusal, 0, 0, 0 if refusal else file_size(self.n, self.t)


def outcome(text):
    """What comes of a whole text, line by line: the run file, and what is told where there is none."""
    maker, file = Maker(), bytearray(file_size(MOST_BOXES, 4))
    for line in (text[:-1] if text.endswith(b"\n") else text).split(b"\n") if text else ():
        if maker.stage < 3:
            maker.end_line(line, file)
    refusal, line, fault, size = maker.end(bytes(LENT_LINE), file)
    return bytes(file[:size]), told(refusal, line, fault)
