"""Run files from seeds, for the comparison, the examples and the bench.

Liars that aim at a threshold must know what the other boxes hold, so this module follows the rules roughly as it
goes. That serves to aim and for nothing else: no expected answer is ever taken from it.

Boxes count from 0 here; box k of a listing is place k - 1.
"""

import struct
from collections import Counter

from steprules import most_often

TOP = 2**64 - 1


def largest_t(n):
    return (n - 1) // 3


def table_rows(n):
    return n * n + 2 * n**3


def bits(boxes):
    return sum(1 << k for k in boxes)


def heading_bytes(n, t, faulty, rows):
    return b"HNB" + struct.pack(">HBBH", 1, n, t, faulty) + struct.pack(f">{len(rows)}Q", *rows)


class Table:
    """What the faulty boxes send in one iteration, and what stands in the other places."""

    def __init__(self, n, fill=None):
        self.n = n
        self.rows = [fill() if fill else 0 for _ in range(table_rows(n))]

    def first(self, sender, receiver, row):
        self.rows[sender * self.n + receiver] = row

    def second(self, sender, receiver, leader, row):
        self.rows[self.n**2 + (sender * self.n + receiver) * self.n + leader] = row

    def third(self, sender, receiver, leader, row):
        self.rows[self.n**2 + self.n**3 + (sender * self.n + receiver) * self.n + leader] = row

    def third_row(self, sender, receiver, leader):
        return self.rows[self.n**2 + self.n**3 + (sender * self.n + receiver) * self.n + leader]

    def parts_of(self, sender):
        """Where this sender's rows stand: the first place and the number of places, for each step."""
        n = self.n
        return (sender * n, n), (n**2 + sender * n * n, n * n), (n**2 + n**3 + sender * n * n, n * n)

    def to_bytes(self):
        return struct.pack(f">{len(self.rows)}Q", *self.rows)


class Run:
    """A run file in the making. `t_byte` may be 255 where t is the largest."""

    def __init__(self, n, t, faulty, rows, kind, t_byte=None):
        self.n, self.t, self.faulty, self.rows, self.kind = n, t, set(faulty), rows, kind
        self.t_byte = t if t_byte is None else t_byte
        self.tables = []

    def sound(self):
        return [k for k in range(self.n) if k not in self.faulty]

    def heading(self):
        return heading_bytes(self.n, self.t_byte, bits(self.faulty), self.rows)

    def to_bytes(self):
        return self.heading() + b"".join(table.to_bytes() for table in self.tables)

    def with_rubbish(self, rng):
        """The same run with other rows in the places that are never read."""
        other = Run(self.n, self.t, self.faulty, self.rows, self.kind, self.t_byte)
        for table in self.tables:
            rubbish = Table(self.n)
            rubbish.rows = [rng.choice((rng.randrange(1, 99), rng.randrange(TOP + 1))) for _ in table.rows]
            copy_faulty(self, table, rubbish)
            other.tables.append(rubbish)
        return other


def copy_faulty(run, source, target):
    for j in run.faulty:
        for at, length in source.parts_of(j):
            target.rows[at:at + length] = source.rows[at:at + length]


def case_s_table():
    """The first iteration of case S: box 4 speaks for itself as leader only."""
    table = Table(4)
    for receiver, row in ((0, 20), (1, 20), (2, 99)):
        table.first(3, receiver, row)
    for receiver, row in ((0, 20), (1, 99)):
        table.second(3, receiver, 3, row)
    table.third(3, 1, 3, 20)
    return table


# The rules, as far as a liar needs them.

class Minds:
    """What every box would hold if it followed the rules, the faulty ones too: those may follow them for a while."""

    def __init__(self, run, rng):
        self.run, self.rng = run, rng
        self.row = [row or rng.randrange(1, 9) for row in run.rows]
        self.list = [set() for _ in run.rows]

    def heard(self, box, said):
        """The columns that a box hears: [leader][sender] from said[sender][box][leader]."""
        n, listed = self.run.n, self.list[box]
        silent = [0] * n
        return list(zip(*(silent if j in listed else said[j][box] for j in range(n))))

    def finish(self, said):
        for i in range(self.run.n):
            held = []
            for k, column in enumerate(self.heard(i, said)):
                row, support = most_often(column)
                if support > self.run.t:
                    held.append(row)
                if support < 2 * self.run.t + 1:
                    self.list[i].add(k)
            chosen, _ = most_often(held)
            self.row[i] = chosen or self.row[i]


class Liars:
    """What the faulty boxes send in one iteration, step after step, each step aimed at what the last one gave."""

    def __init__(self, minds, lying, burning):
        self.minds, self.run, self.rng = minds, minds.run, minds.rng
        self.lying = sorted(lying)      # those that do not follow the rules in steps 2 and 3
        self.burning = set(burning)     # those that do not send one row to all in step 1
        self.rows = sorted({minds.row[i] for i in self.run.sound()} or set(minds.row))
        self.aim = [self.pick_aim(k) for k in range(self.run.n)]

    def pick_aim(self, leader):
        """The row that is to be graded for this leader, and a second row that disturbs it."""
        own = self.minds.row[leader]
        row = self.rng.choice(self.rows) if leader in self.burning else own
        other = self.rng.choice(self.rows + [0, 0, self.rng.randrange(1, TOP + 1)])
        return row, other

    def helpers(self, receiver):
        return [j for j in self.lying if j not in self.minds.list[receiver]]

    def step_one(self):
        said = [[self.minds.row[j]] * self.run.n for j in range(self.run.n)]
        for k in self.burning:
            row, other = self.aim[k]
            said[k] = [other] * self.run.n
            for i in self.some_sound(self.told()):
                said[k][i] = row
        return said

    def told(self):
        """How many sound boxes are told the aimed row: just enough for the helpers to reach n - t, or nearly."""
        enough = self.run.n - self.run.t
        edge = enough - len(self.lying)
        return self.rng.choice((edge, edge, edge, edge + 1, edge - 1, enough, self.rng.randrange(self.run.n + 1)))

    def some_sound(self, count):
        sound = self.run.sound()
        return self.rng.sample(sound, min(max(count, 0), len(sound)))

    def bring(self, said, leader, receiver, goal):
        """Lets helpers send the aimed row until it stands `goal` times. Listed liars send it always, and in vain."""
        row, other = self.aim[leader]
        listed = self.minds.list[receiver]
        have = sum(said[j][receiver][leader] == row for j in range(self.run.n)
                   if j not in listed and j not in self.lying)
        for j in self.lying:
            if j in listed:
                said[j][receiver][leader] = row
            else:
                said[j][receiver][leader] = row if have < goal else other
                have += have < goal

    def step_two(self, heard):
        """heard[i][k] is what box i heard from leader k in step 1."""
        said = self.followed(heard)
        n, t = self.run.n, self.run.t
        for k in range(n):
            lifted = self.some_sound(self.lifted())
            for i in range(n):
                self.bring(said, k, i, n - t if i in lifted else n - t - 1)
        return said

    def lifted(self):
        """How many sound boxes are brought to n - t in step 2."""
        t, edge = self.run.t, self.run.t + 1 - len(self.lying)
        return self.rng.choice((edge, edge, t, t + 1, 2 * t, 2 * t + 1, self.rng.randrange(self.run.n + 1)))

    def step_three(self, votes):
        said = self.followed(votes)
        for k in range(self.run.n):
            for i in range(self.run.n):
                self.bring(said, k, i, self.support(k, i))
        return said

    def support(self, leader, receiver):
        t = self.run.t
        return self.rng.choice((t, t + 1, 2 * t, 2 * t + 1))

    def followed(self, rows):
        """Everyone sends rows[j] to all; the liars get places of their own, one for each receiver."""
        return [[list(rows[j]) for _ in range(self.run.n)] if j in self.lying else [rows[j]] * self.run.n
                for j in range(self.run.n)]


class Splitters(Liars):
    """Liars that let about half of the sound boxes grade one leader with 1 and the others with 0.

    That leader's row is the one that turns the choice, so the sound boxes part.
    """

    def __init__(self, minds, lying, burning):
        super().__init__(minds, lying, burning)
        self.unlisted = [j for j in self.lying if not any(j in minds.list[i] for i in self.run.sound())]
        self.half = set(self.some_sound(len(self.run.sound()) // 2))

    def pick_aim(self, leader):
        if leader not in self.burning:
            return super().pick_aim(leader)
        led = [self.minds.row[k] for k in range(self.run.n) if k not in self.burning]
        chosen, most = most_often(led)
        rivals = [row for row in sorted(set(led)) if row != chosen and led.count(row) == most - (row < chosen)]
        return self.rng.choice(rivals or [chosen]), 0

    def told(self):
        return self.run.n - self.run.t - len(self.unlisted)

    def lifted(self):
        return self.rng.randint(max(1, self.run.t + 1 - len(self.unlisted)), self.run.t + 1)

    def support(self, leader, receiver):
        return self.run.t + 1 if receiver in self.half else self.run.t


def add_iteration(run, minds, lying=(), burning=(), how=Liars):
    """One iteration's table, and the minds after it."""
    liars = how(minds, lying, burning)
    n = run.n
    first = liars.step_one()
    heard = [[0 if k in minds.list[i] else first[k][i] for k in range(n)] for i in range(n)]
    second = liars.step_two(heard)
    votes = []
    for i in range(n):
        tops = [most_often(column) for column in minds.heard(i, second)]
        votes.append([row if count >= n - run.t else 0 for row, count in tops])
    third = liars.step_three(votes)
    table = Table(n)
    for j in run.faulty:
        for i in range(n):
            table.first(j, i, first[j][i])
            for k in range(n):
                table.second(j, i, k, second[j][i][k])
                table.third(j, i, k, third[j][i][k])
    run.tables.append(table)
    minds.finish(third)


# The kinds of run file.

def some_rows(rng, n):
    """Starting rows from a small stock, so that some agree and some tie."""
    stock = [rng.randrange(1, 100) for _ in range(rng.choice((1, 2, 2, 3, n)))]
    return [rng.choice(stock) for _ in range(n)]


def high_rows(rng, n):
    """Rows that differ only where a narrow or a signed number would lose the difference."""
    stock = [TOP, TOP - 1, 2**63, 2**63 - 1, 2**32, 2**32 + 1, 2**32 - 1, 2**33, 1, 2**63 + 1, 3 * 2**32]
    stock = rng.sample(stock, rng.randrange(2, 5))
    return [rng.choice(stock) for _ in range(n)]


def pick_size(rng, least=1):
    n = rng.choice([k for k in (1, 2, 3, 4, 4, 5, 6, 7, 7, 8, 9, 10, 10, 11, 12, 13, 13) if k >= least])
    t = largest_t(n) if rng.random() < 0.8 else rng.randrange(largest_t(n) + 1)
    return n, t


def new_run(rng, kind, n, t, faulty_count, rows=None):
    faulty = rng.sample(range(n), faulty_count)
    rows = rows or some_rows(rng, n)
    for k in faulty:
        rows[k] = rng.choice((0, rows[k], TOP))
    t_byte = 255 if t == largest_t(n) and rng.random() < 0.3 else t
    return Run(n, t, faulty, rows, kind, t_byte)


def honest(rng):
    """The faulty boxes follow the rules as well."""
    n, t = pick_size(rng)
    run = new_run(rng, "honest", n, t, rng.randrange(t + 1))
    minds = Minds(run, rng)
    for _ in range(t + 1):
        add_iteration(run, minds)
    return run


def none_faulty(rng):
    n, t = pick_size(rng)
    run = new_run(rng, "none faulty", n, t, 0, high_rows(rng, n) if rng.random() < 0.2 else None)
    run.tables = [Table(n, lambda: rng.randrange(100)) for _ in range(t + 1)]
    return run


def silent(rng):
    n, t = pick_size(rng)
    run = new_run(rng, "silent", n, t, rng.randrange(1, n + 1) if rng.random() < 0.2 else t)
    run.tables = [Table(n) for _ in range(t + 1)]
    return run


def aimed_tables(rng, run):
    """Some liars lie from the start, others follow the rules until their turn."""
    minds = Minds(run, rng)
    for _ in range(run.t + 1):
        lying = [k for k in run.faulty if rng.random() < 0.85]
        burning = [k for k in lying if rng.random() < 0.5]
        add_iteration(run, minds, lying, burning)
    return run


def aimed(rng):
    n, t = pick_size(rng, 4)
    t = max(t, 1)
    return aimed_tables(rng, new_run(rng, "aimed", n, t, rng.randrange(1, t + 1)))


def split(rng, n=None):
    """Two rows are held equally often and one leader is graded by some boxes only, iteration after iteration."""
    n = n or pick_size(rng, 4)[0]
    t = largest_t(n)
    run = new_run(rng, "split", n, t, t)
    low, high = sorted(rng.sample(range(1, 50), 2))
    for place, k in enumerate(run.sound()):
        run.rows[k] = low if place % 2 else high
    minds = Minds(run, rng)
    for _ in range(t + 1):
        burnt = [k for k in run.faulty if any(k in minds.list[i] for i in run.sound())]
        fresh = [k for k in sorted(run.faulty) if k not in burnt]
        balance(minds, fresh[1:], low, high)
        add_iteration(run, minds, run.faulty, fresh[:1] + burnt, Splitters)
    return run


def balance(minds, leaders, low, high):
    """Rows for the leaders that still send one row to all, such that both rows are held equally often."""
    held = Counter(minds.row[i] for i in minds.run.sound())
    for k in leaders:
        minds.row[k] = low if held[low] < held[high] else high
        held[minds.row[k]] += 1


def noise(rng):
    n, t = pick_size(rng)
    run = new_run(rng, "noise", n, t, rng.randrange(1, n + 1))
    stock = [0, 0] + run.rows + [rng.randrange(TOP + 1)]
    for _ in range(t + 1):
        table = Table(n)
        copy_faulty(run, Table(n, lambda: rng.choice(stock)), table)
        run.tables.append(table)
    return run


def more_than_t(rng):
    n, t = pick_size(rng, 2)
    run = new_run(rng, "more than t faulty", n, t, rng.randrange(t + 1, n))
    return aimed_tables(rng, run)


def all_faulty(rng):
    n, t = pick_size(rng)
    run = new_run(rng, "all faulty", n, t, n)
    run.tables = [Table(n, lambda: rng.randrange(4)) for _ in range(t + 1)]
    return run


def high(rng):
    n, t = pick_size(rng)
    run = new_run(rng, "high rows", n, t, rng.randrange(t + 1), high_rows(rng, n))
    return aimed_tables(rng, run)


def rubbish(rng):
    """The comparison runs these twice, with the rubbish and without it."""
    run = rng.choice((aimed, split, high, more_than_t))(rng)
    run.kind = "rubbish in sound places"
    return run


KINDS = (honest, none_faulty, silent, aimed, split, noise, more_than_t, all_faulty, high, rubbish, aimed, split)


# Damage to a run file. Each takes the file's bytes and the run it came from.

def put(data, at, piece):
    return data[:at] + bytes(piece) + data[at + len(piece):]


def hurt_mark(rng, run, data):
    at = rng.randrange(3)
    return put(data, at, [data[at] ^ rng.choice((1, 32, 128))])


def hurt_version(rng, run, data):
    return put(data, 3, struct.pack(">H", rng.choice((0, 2, 256, 257, 65535))))


def hurt_n(rng, run, data):
    return put(data, 5, [rng.choice((0, 14, 15, 16, 29, 128, 255))])


def hurt_t(rng, run, data):
    least = largest_t(run.n) + 1
    return put(data, 6, [rng.choice((least, least, least + 1, 86, 171, 254))])


def hurt_faulty(rng, run, data):
    return put(data, 7, struct.pack(">H", bits(run.faulty) | 1 << rng.randrange(run.n, 16)))


def hurt_row(rng, run, data):
    return put(data, 9 + 8 * rng.choice(run.sound()), bytes(8))


def cut_mark(rng, run, data):
    return data[:rng.randrange(9)]


def cut_heading(rng, run, data):
    whole = 9 + 8 * run.n
    return data[:rng.choice((9, whole - 1, rng.randrange(9, whole)))]


def cut_table(rng, run, data):
    heading, table = 9 + 8 * run.n, 8 * table_rows(run.n)
    edge = heading + table * rng.randrange(run.t + 1)
    return data[:edge + rng.choice((0, 1, 8, table - 1, table - 8, rng.randrange(table)))]


def add_bytes(rng, run, data):
    return data + bytes(rng.choice((1, 8, 8 * table_rows(run.n))))


# In the order of the refusals, with the number each gives. A file's length can be damaged once only.
DAMAGES = (("1", cut_mark), ("2", hurt_mark), ("3", hurt_version), ("4", hurt_n), ("5", hurt_t), ("6", hurt_faulty),
           ("8 in the heading", cut_heading), ("9", hurt_row), ("8 in a table", cut_table),
           ("8 past the end", add_bytes))
OF_LENGTH = (cut_mark, cut_heading, cut_table, add_bytes)


def damage_choices():
    """Every damage alone, and every two that can stand together."""
    for at, one in enumerate(DAMAGES):
        yield (one,)
        for two in DAMAGES[at + 1:]:
            if not (one[1] in OF_LENGTH and two[1] in OF_LENGTH):
                yield one, two


def damaged(rng, damages):
    """A run file with the damages done, and the number that must be refused: the first in order."""
    run = rng.choice((honest, aimed, none_faulty, noise))(rng)
    while not run.sound():
        run = noise(rng)
    data = run.to_bytes()
    for _, hurt in sorted(damages, key=lambda one: one[1] in OF_LENGTH):
        data = hurt(rng, run, data)
    return data, int(damages[0][0].split()[0])
