"""Requests of kind 14 in which sound boxes find every sort of support, with their whole replies and what arises there.

Where at most t boxes are faulty and no sound box stands on a sound box's list, every sound box votes for a sound
leader's row. The row's support is then the number of sound boxes and one more for each faulty box that a box does not
list and that says the same in step 3. So it may differ from box to box, and a program that takes a short way to the
grade must still count. Such requests are called plain here.
"""

from functools import partial

from calls import Request
from further import steps_bytes, steps_line
from runfiles import Liars, Minds, Run, add_iteration, bits, high_rows, largest_t, some_rows
from steprules import PLACES, Cast

# Under which the comparison counts what arises.
GROUP = "supports in steps 1 to 4"

# What the faulty boxes say about sound leaders in step 3.
VOICES = "the same", "another", "nothing", "each its own"

# Each of these adds 1 to the support of a sound leader in a plain request.
ECHO = "plain, sound leader, a heard box says its row"


class Echoes(Liars):
    """Liars that say a sound leader's row again, or deny it, so that each sound box may find another support."""

    def __init__(self, voice, *rest):
        self.voice = voice
        super().__init__(*rest)

    def pick_aim(self, leader):
        """A sound leader may have no row; then the faulty boxes make one up."""
        rows = [row for row in self.rows if row] or [7]
        row = self.rng.choice(rows) if leader in self.burning else self.minds.row[leader] or self.rng.choice(rows)
        others = [other for other in (*rows, 1, self.rng.randrange(2, 2**64)) if other != row]
        return row, self.rng.choice({"another": others, "nothing": [0]}.get(self.voice, others + [0]))

    def lifted(self):
        """Often all vote, so that a support of n arises too."""
        return self.run.n if self.voice == "the same" else self.rng.choice((self.run.n, super().lifted()))

    def support(self, leader, receiver):
        n, t = self.run.n, self.run.t
        goal = self.rng.choice((t, t + 1, 2 * t, 2 * t + 1, n))
        if leader in self.run.faulty:
            return goal
        own = self.rng.choice((goal, n - 1, self.rng.randrange(n + 1)))
        return {"the same": n, "another": 0, "nothing": 0, "each its own": own}[self.voice]


class Asked:
    """A request for steps 1 to 4, its reply by the rules, and the names of what arises in it."""

    def __init__(self, rng, n, t, boxes, lists, voice):
        self.n, self.t, self.boxes, self.lists = n, t, boxes, lists
        rows = rng.choice((some_rows, high_rows))(rng, n)
        hollow = rng.choice((0, 0.2))
        self.rows = [0 if k in boxes or rng.random() < hollow else rows[k] for k in range(n)]
        run = Run(n, t, boxes, self.rows, "steps")
        minds = Minds(run, rng)
        minds.row = [minds.row[k] if k in boxes else self.rows[k] for k in range(n)]
        minds.list = [{k for k in range(n) if listed >> k & 1} for listed in lists]
        add_iteration(run, minds, boxes, [k for k in boxes if rng.random() < 0.6], partial(Echoes, voice))
        self.table = run.tables[0]
        self.cast = Cast(n, t, bits(boxes), self.rows, lists, self.table.rows)

    def request(self, about):
        data = steps_bytes(self.n, self.t, bits(self.boxes), self.rows, self.lists, self.table.rows)
        due = steps_line(self.cast.messages, *self.cast.parts())
        return Request(data, about, 0, due, shows={(GROUP, name) for name in self.shows()})

    def shows(self):
        """Two faulty boxes are needed for a support between the least and the most, and t of 2 or more for thresholds
        that all differ."""
        if self.t < 2:
            return
        sound = self.cast.sound
        plain = len(self.boxes) <= self.t and not any(self.lists[i] >> j & 1 for i in sound for j in sound)
        for k in range(self.n):
            supports = [self.cast.grades[i, k][2] for i in sound]
            if plain and k in sound:
                yield from self.plain_leader(k, supports)
            else:
                what = f"{'plain' if plain else 'not plain'}, {'sound' if k in sound else 'faulty'} leader"
                yield from (f"{what}, support {name}" for support in supports for name in self.names(support))

    def names(self, support):
        t = self.t
        numbers = {"0": 0, "t": t, "t + 1": t + 1, "2t": 2 * t, "2t + 1": 2 * t + 1, "n": self.n}
        return [name for name, number in numbers.items() if number == support]

    def plain_leader(self, k, supports):
        """With row 0 a leader has the support that the faulty boxes give it. Else the support is known in a second
        way, without the steps before the last."""
        least = self.n - len(self.boxes)
        if not self.rows[k]:
            for support in supports:
                less = "0" if support == 0 else "t" if support == self.t else "below t"
                yield f"plain, sound leader with row 0, support {less}"
            return
        for support in supports:
            more = "n - f" if support == least else "n" if support == self.n else "between n - f and n"
            yield f"plain, sound leader, support {more}"
        if len(set(supports)) > 2:
            yield "plain, sound leader, three supports at once"
        for i, support in zip(self.cast.sound, supports):
            said = [self.said(i, j, k) for j in self.boxes]
            if support != least + said.count(ECHO):
                raise AssertionError(f"a plain support of {support} where {least} and {said.count(ECHO)} are heard")
            yield from said

    def said(self, i, j, k):
        """What faulty box j says to sound box i about a leader with a row."""
        row = self.table.third_row(j, i, k)
        what = "its row" if row == self.rows[k] else "another row" if row else "nothing"
        return f"plain, sound leader, {'a listed' if self.lists[i] >> j & 1 else 'a heard'} box says {what}"


SHOWN = [*(f"{kind} leader, support {name}" for kind in ("plain, faulty", "not plain, sound", "not plain, faulty")
           for name in ("0", "t", "t + 1", "2t", "2t + 1", "n")),
         *(f"plain, sound leader with row 0, support {name}" for name in ("0", "below t", "t")),
         *(f"plain, sound leader, support {name}" for name in ("n - f", "between n - f and n", "n")),
         ECHO, "plain, sound leader, a heard box says another row", "plain, sound leader, a heard box says nothing",
         "plain, sound leader, a listed box says its row", "plain, sound leader, three supports at once"]


def some_list(rng, boxes):
    """None of the boxes, all of them, or any."""
    return rng.choice((0, bits(boxes), *(bits(k for k in boxes if rng.random() < 0.4) for _ in range(3))))


def steps_near(rng, about, n, t, count, voice, listed="faulty"):
    """The lists of sound boxes draw from the faulty boxes, from all or from none; or from the faulty ones, but one
    sound box lists one sound box too, which may be itself."""
    boxes = sorted(rng.sample(range(n), count))
    choice = {"faulty": boxes, "one sound": boxes, "all": range(n), "none": ()}[listed]
    lists = [0 if k in boxes else some_list(rng, choice) for k in range(n)]
    if listed == "one sound":
        i, j = rng.choices([k for k in range(n) if k not in boxes], k=2)
        lists[i] |= 1 << j
    return Asked(rng, n, t, boxes, lists, voice).request(about)


def plain_steps(rng, n, t):
    """From 1 to t faulty boxes, with each voice; and where nobody is listed all may say the same."""
    for count in range(1, t + 1):
        for voice in VOICES:
            yield steps_near(rng, "steps, plain supports", n, t, count, voice)
        yield steps_near(rng, "steps, plain supports", n, t, count, "the same", "none")


def other_steps(rng, n, t):
    """More than t faulty boxes, one more too, and sound boxes on lists."""
    many = rng.randrange(t + 1, max(n, 2))
    for count, voice, listed in ((many, "the same", "none"), (t + 1, "the same", "faulty"),
                                 (many, "each its own", "faulty"), (t + 1, "another", "faulty")):
        yield steps_near(rng, "steps, more than t faulty", n, t, count, voice, listed)
    for voice in ("the same", "each its own"):
        yield steps_near(rng, "steps, sound boxes listed", n, t, rng.randrange(t + 1), voice, "all")
        yield steps_near(rng, "steps, one sound box listed", n, t, rng.randrange(t + 1), voice, "one sound")


def all_steps(rng):
    for n in range(1, PLACES + 1):
        for t in range(largest_t(n) + 1):
            yield from plain_steps(rng, n, t)
            yield from other_steps(rng, n, t)
