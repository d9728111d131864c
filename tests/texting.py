"""The programs that make and show run files, as a whole: the proved ones and the second one on the same input.

Of standard error the line `refused N` is compared, or `line N: ` without the sentence. The second program is held to
the sentence too.
"""

import random

import runfiles
import saying
import textrules
from makers import CASE_S
from report import ROOT, Answer
from runfiles import TOP, Run, Table, heading_bytes, largest_t
from textrules import told

ENDS = [told(refusal, 0, 0).decode()[:-1] for refusal in saying.REFUSALS] + [f"fault {fault}" for fault in range(1, 6)]
SHOWN_REFUSALS = [f"refused {number}" for number in (1, 2, 3, 4, 5, 6, 8, 9)]
BIG_TEXT = 200000


def without_sentence(said):
    """The line on standard error without the sentence behind the line's number, where it is such a line."""
    lead, colon, rest = said.partition(b": ")
    if lead.startswith(b"line ") and lead[5:].isdigit() and rest.endswith(b"\n") and rest.count(b"\n") == 1:
        return lead + colon
    return said


def outcome_name(said, good):
    """How an outcome is counted."""
    for fault, sentence in textrules.SENTENCES.items():
        if said.endswith(b": " + sentence + b"\n"):
            return f"fault {fault}"
    return said.decode("ascii", "replace").strip() or good


class Texts:
    def __init__(self, report, make, show, second_make, second_show):
        self.report = report
        self.programs = {"make": (make, second_make), "show": (show, second_show)}

    def same(self, where, which, data):
        """Runs both programs. Gives the second one's answer."""
        ours, theirs = (program(data) for program in self.programs[which])
        both = (which, ours), ("reference", theirs)
        if ours.text != theirs.text:
            self.report.fault(where, f"{which}: standard output differs", both, data)
        elif ours.status != theirs.status:
            self.report.fault(where, f"{which}: the statuses differ", both, data)
        elif without_sentence(ours.said) != without_sentence(theirs.said):
            self.report.fault(where, f"{which}: standard error differs", both, data)
        return theirs

    def expect(self, where, which, data, out, said):
        """What must come is known: the output, or the line on standard error. What holds of the second program holds
        of both, since they must do the same."""
        theirs = self.same(where, which, data)
        wanted = Answer(out, 1 if said else 0, said)
        if theirs != wanted:
            self.report.fault(where, f"{which}: not as the rules have it", (("reference", theirs), ("due", wanted)),
                              data)

    def make(self, where, data, file, said, about):
        self.report.count("texts", about)
        self.report.count("texts by outcome", outcome_name(said, "a run file"))
        if len(data) > BIG_TEXT:
            self.report.count("texts by length", "longer than 200,000 bytes")
        self.expect(where, "make", data, file, said)

    def show(self, where, data, text, said, about):
        self.report.count("files shown", about)
        self.report.count("files shown by outcome", outcome_name(said, "a text"))
        self.expect(where, "show", data, text, said)

    # What is compared.

    def examples(self):
        for path in sorted((ROOT / "examples").glob("*.say")):
            data, where = path.read_bytes(), f"example {path.name}"
            if path.with_suffix(".err").exists():
                self.make(where, data, b"", path.with_suffix(".err").read_bytes(), "bad examples")
                continue
            file = path.with_suffix(".hnb").read_bytes()
            self.show(where, file, data, b"", "examples")
            self.make(where, data, with_real_t(file), b"", "examples")
        for path in sorted((ROOT / "examples").glob("*.hnb")):
            last = path.with_suffix(".txt").read_bytes().splitlines(keepends=True)[-1]
            if last.startswith(b"refused "):
                self.show(f"example {path.name}", path.read_bytes(), b"", last, "bad examples")
            elif not path.with_suffix(".say").exists():
                self.report.fault(f"example {path.name}", "there is no text beside it")

    def both_ways(self, where, rng, kind):
        """A run file is shown, with t as a number and as 255, and made again."""
        run = kind(rng)
        text = b"".join(textrules.parts_of(run))
        for t_byte in {run.t, 255} if run.t == largest_t(run.n) else {run.t}:
            run.t_byte = t_byte
            self.show(where, run.to_bytes(), text, b"", "t written as 255" if t_byte == 255 else run.kind)
        run.t_byte = run.t
        self.make(where, text, run.to_bytes(), b"", "texts as they are shown")

    def bad_file(self, where, rng, damages):
        data, number = runfiles.damaged(rng, damages)
        self.show(where, data, b"", told(number, 0, 0), "damaged files")

    def good_text(self, where, rng, number):
        """Every tenth one has a long comment, and every fortieth one many lines."""
        many = number % 40 == 39
        text = saying.Text(rng, 13, 4, 12000, False) if many else saying.some_text(rng)
        text.decorate(number % 10 == 9)
        self.make(where, text.data(), text.file(), b"", "texts in any style")

    def bad_text(self, where, rng, damages):
        data, due = saying.damaged(rng, damages)
        file, said = textrules.outcome(data)
        if due is not None and said != due:
            self.report.fault(where, f"the test itself: {said} is not {due}", (), data)
        self.make(where, data, file, said, saying.name_of(damages))

    def any_bytes(self, where, rng):
        """Any bytes, or such as often stand in a text. Mostly they are wrong from the first line on."""
        if rng.random() < 0.2:
            data = rng.randbytes(rng.choice((1, 20, 3000)))
        else:
            words = b"run 1 0 0", b"rows 5", b"say 1 1 1 1 9", b"\n", b"\n", b" ", b"\r", b"0", b"\r\n", b"#", b"\t"
            data = rng.choice((b"", b"run 1 0 0\n", b"run 1 0 0\nrows 5\n"))
            data += b"".join(rng.choice(words) for _ in range(rng.randrange(12)))
        self.make(where, data, *textrules.outcome(data), "any bytes")

    def known(self):
        for at, (data, file, said) in enumerate(known_texts()):
            self.make(f"known text {at}", data, file, said, "known beforehand")
        for at, (data, file) in enumerate(large_texts()):
            self.make(f"large text {at}", data, file, b"", "large ones")


def with_real_t(file):
    """A run file with the number that 255 stands for."""
    return runfiles.put(file, 6, [largest_t(file[5])]) if file[6] == 255 else file


ONE = heading_bytes(1, 0, 0, [5]) + bytes(24)
LEAD = b"run 1 0 0\nrows 5\n"


def one_with(place, row):
    return runfiles.put(ONE, 17 + 8 * place, row.to_bytes(8, "big"))


def good_texts():
    """Texts of one box, and the run file that must come of each."""
    for text in (b"run 1 0 0\nrows 5", LEAD, b"run 1 0 0\r\nrows 5\r\n", b"run 1 0 0\r\nrows 5\r",
                 b"\n\n" + LEAD + b"\n\n", b"# x\n" + LEAD + b"#", b"run 001 00 0000\nrows 0005  \n",
                 b"run  1   0    0   \nrows     5 \r\n",
                 b"\r\n  \r\n \n" + LEAD, b"#\r\n" + LEAD + b" ", LEAD + b"\r", LEAD + b"#" * 70001,
                 b"#" * 70001 + b"\n" + LEAD, b"#" + b"\r" * 70001 + b"\n" + LEAD, b"#\0\xff\n" * 3 + LEAD,
                 b"run 1 0 0".ljust(1000) + b"\nrows 5".ljust(1001) + b"\n" + b" " * 1000,
                 b"run 1 0 0".ljust(999) + b"\r\nrows 5".ljust(1001) + b"\r\n",
                 b"run " + b"0" * 990 + b"1 0 0\nrows 5", b"run 1 0 0\nrows " + b"0" * 994 + b"5\n",
                 LEAD + b"say 1 1 1 1 0\n"):
        yield text, ONE
    for text, place, row in ((b"say 1 1 1 1 7", 0, 7), (b"say 1 2 1 1 1 7", 1, 7), (b"say 1 3 1 1 1 7", 2, 7),
                             (b"say 1 1 1 1 7\nsay 1 1 1 1 9\n", 0, 9), (b"say 1 1 1 1 9\nsay 1 1 1 1 7\n", 0, 7),
                             (b"say 1 1 1 1 9\nsay 1 1 1 1 0\n", 0, 0), (b"say 1 3 1 1 1 %d" % TOP, 2, TOP),
                             (b"say 1 3 1 1 1 %d\n" % 2**32, 2, 2**32), (b"say 01 02 01 01 01 72623859790382856", 1,
                                                                        0x0102030405060708)):
        yield LEAD + text, one_with(place, row)
    yield b"run 1 0 1\nrows 0\n", heading_bytes(1, 0, 1, [0]) + bytes(24)
    yield b"run 1 0 1\nrows 9\n", heading_bytes(1, 0, 1, [9]) + bytes(24)
    four = heading_bytes(4, 1, 8, [10, 20, 30, 0]) + runfiles.case_s_table().to_bytes() + bytes(1152)
    for text in (CASE_S, CASE_S.replace(b"\n", b"\r\n"), CASE_S[:-1], CASE_S.replace(b"\n", b"\n\n# and\n")):
        yield text, four


def refused_texts():
    """Texts that are refused, and the number: of several the first in the order 4, 5, 6, 11, 9."""
    for run, rows, number in ((b"0 9 65535", b"0", 4), (b"14 0 0", b"1", 4), (b"300 1 8", b"1 1", 4),
                              (b"255 0 0", b"", 4), (b"256 0 0", b"", 4), (b"257 0 0", b"5", 4),
                              (b"%d 0 0" % (2**32 + 1), b"5", 4),
                              (b"%d 0 0" % TOP, b"5", 4), (b"4 2 16", b"0", 5), (b"4 255 0", b"1 1 1 1", 5),
                              (b"4 256 0", b"1 1 1 1", 5), (b"4 257 0", b"1 1 1 1", 5), (b"3 1 0", b"1 1 1", 5),
                              (b"1 %d 0" % 2**32, b"5", 5), (b"13 86 0", b" 1" * 13, 5), (b"13 255 0", b" 1" * 13, 5),
                              (b"4 1 16", b"0", 6), (b"4 1 65536", b"1 1 1 1", 6), (b"4 1 65544", b"1 1 1 1", 6),
                              (b"1 0 2", b"5", 6), (b"1 0 %d" % TOP, b"5", 6), (b"4 1 8", b"0 0 0", 11),
                              (b"4 1 8", b"", 11), (b"4 1 8", b"0 1 1 1 1", 11), (b"1 0 0", b" 5" * 257, 11),
                              (b"1 0 0", b" 5" * 490, 11), (b"4 1 8", b"0 1 1 1", 9), (b"4 1 8", b"1 1 0 1", 9),
                              (b"4 1 7", b"0 0 0 0", 9), (b"1 0 0", b"0", 9), (b"1 0 0", b"000", 9)):
        text = b"run %s\nrows %s" % (run, rows)
        yield text, number
        yield text + b"\nsay 9\n" + b"y\n" * 9, number


def bad_texts():
    """Texts that are not understood: the line and the fault."""
    yield b"", 1, 3
    for text, lines in ((b"\n", 1), (b"\n\n\n", 3), (b"#", 1), (b"#\n", 1), (b"\r", 1), (b" ", 1), (b"\n#", 2)):
        yield text, lines + 1, 3
    for text, lines in ((b"run 1 0 0", 1), (b"run 1 0 0\n", 1), (b"run 1 0 0\n\n# x", 3), (b"run 300 9 9\n", 1),
                        (b"\n\nrun 1 0 0\r\n\r\n", 4)):
        yield text, lines + 1, 4
    for text, line, fault in ((b"\0", 1, 3), (b"\xef\xbb\xbfrun 1 0 0\nrows 5\n", 1, 3),
                              (b"run 1 0 0\n x\nrows 0\n", 2, 2), (b"run 4 9 8\nrun 4 1 8\nrows 0\n", 2, 4),
                              (b"run 0 0 0\nsay 1 1 1 1 1\n", 2, 4),
                              (b"run 1 0\n", 1, 3), (b"run 1 0 0 0\n", 1, 3), (b"run 1 0 x\n", 1, 2),
                              (b"run 1 0 %d\n" % (TOP + 1), 1, 2), (b"rows 5\nrun 1 0 0\n", 1, 3),
                              (b"run\t1 0 0\n", 1, 3), (b"run 1\t0 0\n", 1, 2), (b" run 1 0 0\n", 1, 2),
                              (b"run 1 0 0\r\r\n", 1, 2), (b"run 1 0 0\rrows 5\r", 1, 2), (b"\r\rrun 1 0 0", 1, 3),
                              (b"\n" * 100000 + b"y", 100001, 3), (b"# x\n" * 60000 + b" y\nrun 1 0 0", 60001, 2),
                              (b"y" * 1001, 1, 1), (b"y" * 70001 + b"\n", 1, 1), (b"y" * 1000, 1, 3),
                              (b" " * 1001 + b"\n", 1, 1), (b" #" + b" " * 999, 1, 1), (b" #", 1, 2)):
        yield text, line, fault
    for say in (b"rows 5", b"run 1 0 0", b"say 1 1 1 1", b"say 1 1 1 1 1 1", b"say 1 2 1 1 1", b"say 1 3 1 1 1 1 1",
                b"say", b"say 0 1 1 1 1", b"say 2 1 1 1 1", b"say 1 0 1 1 1", b"say 1 4 1 1 1 1", b"say 1 1 0 1 1",
                b"say 1 1 2 1 1", b"say 1 1 1 0 1", b"say 1 1 1 2 1", b"say 1 2 1 1 0 1", b"say 1 2 1 1 2 1",
                b"Say 1 1 1 1 1", b"x", b"say %d 1 1 1 1" % TOP, b"say 1 %d 1 1 1 1" % TOP, b"say 1 1 %d 1 1" % TOP,
                b"say 1 1 %d 1 1" % (2**32 + 1), b"say 257 1 1 1 1", b"say 1 257 1 1 1"):
        yield LEAD + say + b"\n" + LEAD, 3, 5
        yield LEAD + b"\n# x\n" + say, 5, 5
    yield LEAD + b"say 1 1 1 1 1".ljust(1001), 3, 1
    yield LEAD + b"say 1 1 1 1 %d" % (TOP + 1), 3, 2


def known_texts():
    """A text, the run file and what is told, one of both empty."""
    for text, file in good_texts():
        yield text, file, b""
    for text, number in refused_texts():
        yield text, b"", told(number, 0, 0)
    for text, line, fault in bad_texts():
        yield text, b"", told(0, line, fault)


def large_texts():
    """The largest file there is, every row said, and once more with other rows in front that the last lines undo."""
    run = Run(13, 4, range(13), [TOP] * 13, "large")
    run.tables = [Table(13, lambda: TOP) for _ in range(5)]
    parts = list(textrules.parts_of(run))
    yield b"".join(parts), run.to_bytes()
    first = parts[1].replace(b" %d\n" % TOP, b" 0\n")
    yield b"".join((parts[0], first, *reversed(parts[1:]))), run.to_bytes()
    yield b"".join((*parts, first)), run.heading() + bytes(36504) + run.to_bytes()[113 + 36504:]
    yield (b"#" + b"x" * 100 + b"\n") * 3000 + LEAD, ONE
    yield LEAD + b"say 1 1 1 1 7\n" * 20000 + b"say 1 1 1 1 8", one_with(0, 8)


def need_all(report):
    report.need("texts", ["examples", "bad examples", "texts as they are shown", "texts in any style", "any bytes",
                          "known beforehand", "large ones", *map(saying.name_of, saying.damage_choices())])
    report.need("texts by outcome", ["a run file", *ENDS])
    report.need("texts by length", ["longer than 200,000 bytes"])
    kinds = [kind(random.Random(0)).kind for kind in runfiles.KINDS]
    report.need("files shown", ["examples", "bad examples", "t written as 255", "damaged files", *kinds])
    report.need("files shown by outcome", ["a text", *SHOWN_REFUSALS])


def compare_texts(programs, seed, number):
    """All that is known beforehand, then as many texts at random as are asked for, and half as many files."""
    need_all(programs.report)
    programs.examples()
    programs.known()
    for i in range(number):
        programs.good_text(f"seed {seed} text {i}", random.Random(f"{seed} text {i}"), i)
    for i in range(number // 3):
        programs.any_bytes(f"seed {seed} bytes {i}", random.Random(f"{seed} bytes {i}"))
    choices = list(saying.damage_choices())
    for i in range(max(len(choices), number)):
        where = f"seed {seed} bad text {i}"
        programs.bad_text(where, random.Random(where), choices[i % len(choices)])
    for i in range(max(len(runfiles.KINDS), number // 3)):
        kind = runfiles.KINDS[i % len(runfiles.KINDS)]
        programs.both_ways(f"seed {seed} shown {i}", random.Random(f"{seed} shown {i}"), kind)
    for i, damages in enumerate(runfiles.damage_choices()):
        programs.bad_file(f"seed {seed} bad file {i}", random.Random(f"{seed} bad file {i}"), damages)
