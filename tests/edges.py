"""Run files of which the rules tell beforehand how the listing ends, or all of it. Both programs are held to that."""

from runfiles import TOP, Run, Table, aimed_tables, bits, largest_t, new_run, table_rows

# n, and t as it is written: 255 stands for the largest.
CUT_SIZES = ((1, 0), (1, 255), (2, 255), (4, 1), (4, 255), (7, 1), (7, 255), (13, 4), (13, 255))

# The longest listing there can be: twelve sound boxes, rows of twenty digits and lists of four.
LONGEST_BYTES = 2020


def cut_run(rng, n, t_byte):
    """A run whose liars do what they can; cut or not, the number of lines does not depend on it."""
    t = largest_t(n) if t_byte == 255 else t_byte
    run = new_run(rng, "cut", n, t, t)
    run.t_byte = t_byte
    return aimed_tables(rng, run)


def end_of(run, length):
    """How many lines come before the last one, and the last one's word and number: `sent` has any number."""
    heading, table = 9 + 8 * run.n, 8 * table_rows(run.n)
    if length < 9:
        return 0, "refused 1"
    if length < heading:
        return 0, "refused 8"
    whole_tables, rest = divmod(length - heading, table)
    lines = 1 + min(whole_tables, run.t + 1) * len(run.sound())
    return lines, "sent" if whole_tables == run.t + 1 and rest == 0 else "refused 8"


def cut_files(rng):
    """Files that end with the heading, with each table, and next to that: what it is, the bytes, how it ends."""
    for n, t_byte in CUT_SIZES:
        run = cut_run(rng, n, t_byte)
        data = run.to_bytes() + bytes((1, 2))
        edges = [9 + 8 * n + 8 * table_rows(n) * done for done in range(run.t + 2)]
        for length in sorted({edge + by for edge in edges for by in (-1, 0, 1)} | {edges[-1] + 2}):
            yield f"n = {n}, t written {t_byte}, {length} bytes", data[:length], end_of(run, length)


def silent_listing(run, row):
    """The listing where all sound boxes start with one row and no faulty box says anything.

    Where the sound boxes are enough for a vote, every sound leader gets confidence 2 from all and each faulty one
    confidence 0: its bit stands on all lists, and the same is sent each time. Where they are not enough, no vote is
    cast, everybody lists everybody, and from then on the sound boxes' rows are all that is sent. Each row goes to the
    n - 1 others.
    """
    n, t, sound = run.n, run.t, run.sound()
    count, others = len(sound), run.n - 1
    if count >= n - t:
        listed, sent = bits(run.faulty), (t + 1) * others * (count + 2 * count**2)
    else:
        listed, sent = 2**n - 1, (t + 1) * others * count + others * count**2
    lines = [f"run {n} {t} {bits(run.faulty)}"]
    lines += [f"at {i} {box + 1} {row} {listed}" for i in range(1, t + 2) for box in sound]
    return "".join(line + "\n" for line in (*lines, f"sent {sent}")).encode()


def silent_run(n, t, faulty, row):
    run = Run(n, t, faulty, [row] * n, "silent")
    run.tables = [Table(n) for _ in range(t + 1)]
    return run


def long_files():
    """What it is, the bytes, and the whole listing."""
    longest = silent_run(13, 4, {12}, TOP)
    if len(silent_listing(longest, TOP)) != LONGEST_BYTES:
        raise AssertionError(f"the longest listing should have {LONGEST_BYTES} bytes")
    yield "the longest listing", longest.to_bytes(), silent_listing(longest, TOP)
    for n, t, faulty in ((13, 4, ()), (13, 4, range(5)), (13, 4, range(1, 13)), (13, 0, (0,)), (10, 3, (9,))):
        run = silent_run(n, t, faulty, TOP)
        yield f"long lines, n = {n}, t = {t}, faulty {bits(faulty)}", run.to_bytes(), silent_listing(run, TOP)
