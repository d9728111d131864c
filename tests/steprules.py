"""The rules of vote, grade and steps 1 to 4 in few lines: what both programs are held to at kinds 1, 2, 14 and 34.

Boxes count from 0 here. A column is what one box hears about one leader, in the order of the senders.
"""

from collections import Counter

PLACES = 13


def most_often(column):
    """The row found most often, the lowest on a tie, and its places; 0 and 0 where every row is 0."""
    counts = Counter(row for row in column if row)
    if not counts:
        return 0, 0
    most = max(counts.values())
    return min(row for row, count in counts.items() if count == most), most


def voted(column, t):
    row, places = most_often(column)
    return row if places >= len(column) - t else 0


def confidence_at(support, t):
    return 2 if support >= 2 * t + 1 else 1 if support >= t + 1 else 0


def at_support(row, support, t):
    """Row, confidence and support of a grade, where this row is the one found most often."""
    confidence = confidence_at(support, t)
    return row if confidence else 0, confidence, support


def graded(column, t):
    return at_support(*most_often(column), t)


def size_refusal(n, t):
    return 4 if not 1 <= n <= PLACES else 5 if 3 * t >= n else 0


class Cast:
    """Steps 1 to 4, none of them refused."""

    def __init__(self, n, t, faulty, rows, lists, table):
        self.n, self.t, self.table = n, t, table
        self.rows, self.lists = rows, lists
        self.sound = [k for k in range(n) if not faulty >> k & 1]
        first = {i: [self.hears(i, j, rows[j], j * n + i) for j in range(n)] for i in self.sound}
        votes = {i: [voted(column, t) for column in self.columns(i, first, n**2)] for i in self.sound}
        self.heard = {i: self.columns(i, votes, n**2 + n**3) for i in self.sound}
        self.grades = {(i, k): graded(self.heard[i][k], t) for i in self.sound for k in range(n)}
        own = sum(rows[i] != 0 for i in self.sound)
        passed_on = sum(row != 0 for said in (first, votes) for rows in said.values() for row in rows)
        self.messages = (n - 1) * (own + passed_on)

    def hears(self, i, j, said, place):
        """What box i hears from box j: what a sound one said, or what the table has for a faulty one."""
        if self.lists[i] >> j & 1:
            return 0
        return said if j in self.sound else self.table[place]

    def columns(self, i, said, begins):
        """The n columns that box i hears in step 2 or 3, from said[sound sender][leader]."""
        n = self.n
        return [[self.hears(i, j, said[j][k] if j in said else 0, begins + (j * n + i) * n + k) for j in range(n)]
                for k in range(n)]

    def parts(self):
        """The rows, the confidences and the supports, each in 169 places."""
        parts = [[0] * PLACES**2 for _ in range(3)]
        for (i, k), grade in self.grades.items():
            for part, number in zip(parts, grade):
                part[i * self.n + k] = number
        return parts
