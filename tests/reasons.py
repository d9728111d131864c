"""The call of kind 35 in docs/REQUESTS.md, drawn from a seed, and states with good and bad reasons for kinds 5 and 35.

The rules give the whole reply of each, so both programs are held to it. Boxes count from 0 here, but those that are
asked about from 1, as in a request.
"""

import struct
from itertools import combinations_with_replacement, product

import runfiles
from calls import PLACES, Request, Stated, fitting, iteration_bytes, pick_faulty, pick_n_t
from runfiles import TOP, Table, bits, largest_t
from staterules import (FAULTS, NO_REASON, State, iteration_line, iteration_refusal, iterated, most_messages,
                        reason_faults, started, why_line, why_refusal)

# Under which the comparison counts what arises.
GROUP = "reasons"


def why_bytes(state, asked, listed):
    return b"\43" + state.to_bytes() + struct.pack(">QQ", asked, listed)


def why_request(state, asked, listed, about, shows=()):
    return Request(why_bytes(state, asked, listed), about, why_refusal(state, asked, listed),
                   why_line(state, asked, listed), shows=shows)


def iteration_request(state, table, about, shows=()):
    return Request(iteration_bytes(state, table), about, iteration_refusal(state, len(table)),
                   iteration_line(state, table), shows=shows)


def odd_numbers(n):
    """No box has one of these, but some look like one in 8, 16 or 32 bits, or below 0."""
    return (0, n + 1, 14, 15, 16, 17, 32, 33, 64, 65, 255, 256, 257, 256 + n, 2**16, 2**16 + 1, 2**16 + n, 2**31,
            2**32, 2**32 + 1, 2**32 + n, 2**63, 2**63 + 1, TOP - n, TOP)


class Why(Stated):
    """A state and two boxes, of which the first is sound."""

    damages = ((4, "break_4"), (5, "break_5"), (6, "break_6"), (9, "break_9"), *Stated.wrong_states,
               (14, "break_done"), (15, "break_asked"), (15, "break_listed"), (15, "break_faulty"), (15, "break_both"))

    def __init__(self, rng):
        self.n, self.t = pick_n_t(rng)
        self.draw(rng, self.t + 1, pick_faulty(rng, self.n, some_sound=True))
        self.asked = 1 + rng.choice(sorted(set(range(self.n)) - self.boxes))
        self.listed = 1 + rng.choice((rng.randrange(self.n), self.asked - 1, self.any_listed(rng)))

    def any_listed(self, rng):
        """One that the box which is asked does list, where there is one."""
        return rng.choice([k for k in range(self.n) if self.lists[self.asked - 1] >> k & 1] or range(self.n))

    def break_done(self, rng):
        self.done = rng.choice((self.t + 2, self.t + 2, self.t + 3, 128, 255))

    def break_asked(self, rng):
        self.asked = rng.choice(odd_numbers(self.n))

    def break_listed(self, rng):
        self.listed = rng.choice(odd_numbers(self.n))

    def break_faulty(self, rng):
        self.asked = 1 + self.faulty_place(rng)

    def break_both(self, rng):
        self.break_asked(rng)
        self.break_listed(rng)

    def to_bytes(self):
        return why_bytes(self.state(), self.asked, self.listed)

    def known(self):
        return why_line(self.state(), self.asked, self.listed)


# States with chosen reasons.

def passing(t, done):
    """Reasons at the edges of what fits. Those of confidence 1 need a t of 1 at least."""
    reasons = [(1, 0, 0), (done, 0, t), (1, 0, t), (done, 0, 0)]
    return reasons + ([(1, 1, t + 1), (done, 1, 2 * t), (1, 1, 2 * t), (done, 1, t + 1)] if t else [])


def failing(fault, t, done):
    """Whether the box is listed, and a reason that has this fault and no other, as far as it can be alone: with no
    iteration done no listing can pass."""
    once, after = max(done, 1), min(done + 1, 255)
    some = [(t, 1, t + 1), (t, 1, 2 * t)] if t else []
    return {
        "a listing without its iteration":
            [(True, (0, 0, 0)), (True, (0, 0, t))] + [(True, (0, c, s)) for _, c, s in some],
        "kept without a listing":
            [(False, (1, 0, 0)), (False, (once, 0, t))] + [(False, (0, 0, 1)), (False, (0, 0, t))] * (t > 0)
            + [(False, (0, c, s)) for _, c, s in some],
        "an iteration not yet done":
            [(True, (after, 0, 0)), (True, (after, 0, t)), (True, (255, 0, 0))] + [(True, (after, c, s))
                                                                                 for _, c, s in some],
        "a confidence above 1":
            [(True, (once, 2, 2 * t + 1)), (True, (once, 2, t)), (True, (1, 3, t + 1)), (True, (1, 2, 13)),
             (True, (1, 128, 0)), (True, (1, 255, 2 * t + 1)), (True, (1, 129, 2 * t))],
        "a support that does not fit":
            [(True, (once, 0, t + 1)), (True, (1, 0, 2 * t + 1)), (True, (1, 0, 13)), (True, (1, 0, 255)),
             (True, (once, 1, t)), (True, (1, 1, 0)), (True, (once, 1, 2 * t + 1)), (True, (1, 1, 13)),
             (True, (1, 1, 255))],
    }[fault]


# A reason belongs to the box whose list it is about, and to the box that may be listed.
PLACE_NAMES = "a sound box's place", "a faulty box's place", "an unused box's place", "an unused leader's place"


def places_named(state, name):
    """Where such a reason would stand. Boxes from n on are unused."""
    sound, n = state.sound(), state.n
    boxes = {"a faulty box's place": [i for i in range(n) if i not in sound],
             "an unused box's place": range(n, PLACES)}.get(name, sound)
    leaders = {"an unused box's place": range(PLACES), "an unused leader's place": range(n, PLACES)}
    leaders = leaders.get(name, range(n))
    return list(product(boxes, leaders))


def some_state(rng, n, t, done):
    """A state that passes, with at least one sound box and, where there is room, one faulty one."""
    boxes = rng.sample(range(n), rng.randrange(1, max(2, n)) if n > 1 else 0)
    rows = [0 if k in boxes else rng.randrange(1, 9) for k in range(n)]
    state = State(n, t, bits(boxes), done, rng.randrange(done * most_messages(n) + 1), rows)
    for i in state.sound() if done else ():
        for k in range(n):
            if rng.random() < 0.3:
                put_reason(state, (i, k), True, fitting(rng, t, done))
    return state


def put_reason(state, place, listed, reason):
    i, k = place
    state.lists[i] = state.lists[i] & ~(1 << k) | listed << k
    state.reasons[place] = reason


def asked_of(rng, state, about, place=None, shows=()):
    """Why, of the place that this is about or of any other: all of the state is examined."""
    sound = [i for i in state.sound() if i < state.n]
    asked, listed = rng.choice(sound), rng.randrange(state.n)
    if place and place[0] in sound and place[1] < state.n and rng.random() < 0.5:
        asked, listed = place
    return why_request(state, 1 + asked, 1 + listed, about, shows)


# n and t, and whether iterations are asked too: the tables of many boxes are long.
SIZES = ((1, 0, True), (3, 0, True), (4, 1, True), (5, 1, False), (7, 2, True), (10, 3, False), (13, 4, False))


def both_calls(rng, state, place, about, iterations=True, shows=()):
    """Why and, where one may still be run, an iteration on this state."""
    if state.done <= state.t + 1:
        yield asked_of(rng, state, f"why, {about}", place, shows)
    if iterations and state.done <= state.t:
        yield iteration_request(state, Table(state.n).rows, f"iteration, {about}", shows)


def passing_reasons(rng):
    """Each edge of what fits, after each number of iterations: none of it is refused."""
    for n, t, iterations in SIZES:
        for done in range(1, t + 2):
            for reason in passing(t, done):
                state = some_state(rng, n, t, done)
                place = rng.choice(places_named(state, "a sound box's place"))
                put_reason(state, place, True, reason)
                yield from both_calls(rng, state, place, "a reason that fits", iterations)


def fault_requests(rng, state, name, fault, listed, reason, iterations):
    places = places_named(state, name)
    if not places:
        return
    place = rng.choice(places)
    if name != "a sound box's place":
        listed = listed and (reason == NO_REASON or rng.random() < 0.3)
    put_reason(state, place, listed, reason)
    found = set(reason_faults(state, *place))
    if name == "a sound box's place" and found != {fault} and state.done:
        raise AssertionError(f"{reason} with t = {state.t} and {state.done} done should have {fault} alone")
    shows = {(GROUP, f"{one}, in {name}") for one in found}
    if found == {fault}:
        shows.add((GROUP, f"{fault} alone"))
    yield from both_calls(rng, state, place, f"{fault}, {name}", iterations, shows)


def faulty_reasons(rng):
    """Each fault in each sort of place. In the place of a faulty or unused box, or of an unused leader, no listing can
    pass, so there most are without one, and anything is then kept without a listing."""
    for n, t, iterations in SIZES:
        for done in range(t + 2):
            for fault, name in product(FAULTS, PLACE_NAMES):
                for listed, reason in failing(fault, t, done):
                    state = some_state(rng, n, t, done)
                    yield from fault_requests(rng, state, name, fault, listed, reason, iterations)


def double_faults(rng):
    """Every two faults at once, in two places or, where both find one, in the same."""
    for n, t, iterations in ((4, 1, True), (7, 2, False), (13, 4, False)):
        for done in range(1, t + 2):
            for two in combinations_with_replacement(FAULTS, 2):
                state = some_state(rng, n, t, done)
                places = rng.sample(places_named(state, "a sound box's place"), 2)
                for fault, place in zip(two, places):
                    put_reason(state, place, *rng.choice(failing(fault, t, done)))
                yield from both_calls(rng, state, places[0], " and ".join(two), iterations)
    for reason in ((0, 2, 0), (3, 2, 9), (3, 0, 9), (0, 1, 9), (255, 255, 255), (0, 255, 255), (3, 1, 0)):
        for listed in (False, True):
            state = some_state(rng, 4, 1, 1)
            place = rng.choice(places_named(state, "a sound box's place"))
            put_reason(state, place, listed, reason)
            yield from both_calls(rng, state, place, "several faults in one place")


def every_place(rng):
    """One thing kept without a listing in each of the 169 places, and a listing without its iteration in each place
    that has a listing."""
    for n, t in ((1, 0), (4, 1), (10, 3), (13, 4)):
        for place in product(range(PLACES), repeat=2):
            state = State(n, t, 0, 1, 0, [7] * n)
            put_reason(state, place, False, rng.choice([(1, 0, 0)] + [(0, 0, 1), (0, 1, t + 1)] * (t > 0)))
            yield from both_calls(rng, state, place, "one place kept", n == 4)
            if max(place) < n:
                put_reason(state, place, True, (0, 0, 0))
                yield from both_calls(rng, state, place, "one place without its iteration", n == 4)


def full_lists(rng):
    """All boxes are sound and list all: each pair has a reason, and an iteration must leave every one as it is."""
    for n, t in ((1, 0), (4, 1), (5, 1), (7, 2), (13, 4)):
        done = max(t, 1)
        state = State(n, t, 0, done, 0, [7] * n, [2**n - 1] * n)
        state.reasons = {(i, k): fitting(rng, t, done) for i in range(n) for k in range(n)}
        for i, k in product(range(n), repeat=2):
            yield why_request(state, 1 + i, 1 + k, "why, every box lists every box")
        if t:
            yield iteration_request(state, Table(n).rows, "iteration, every box lists every box")


def iterations_done(rng):
    """As many as may be, one more, and far too many: for why that is a case of 14, and no refusal 12. Beside it a box
    that is none, so that 14 is seen to come first; and beside 14 what comes before it."""
    for n, t in sorted({(n, t) for n in range(1, PLACES + 1) for t in (0, largest_t(n))}):
        for done in sorted({0, t, t + 1, t + 2, t + 3, 128, 255}):
            state = some_state(rng, n, t, min(done, t + 1))
            state.done = done
            about = f"why, {'all are' if done == t + 1 else 'too many are' if done > t else 'not all are'} done"
            yield asked_of(rng, state, about)
            yield why_request(state, rng.choice(odd_numbers(n)), 1, f"{about}, no box")
            state.rows[rng.choice(state.sound())] = 0
            yield why_request(state, 1, n + 1, f"{about}, a sound row of 0")
            state.faulty |= 1 << rng.randrange(n, 16)
            yield why_request(state, 1, n + 1, f"{about}, a stray faulty bit")
            state.t = largest_t(n) + 1
            yield why_request(state, 1, n + 1, f"{about}, t too large")
            state.n = rng.choice((0, 14, 255))
            yield why_request(state, 1, n + 1, f"{about}, no such n")


def box_numbers(rng):
    """Every number at an edge, for each n; for four boxes every two of them."""
    for n in range(1, PLACES + 1):
        t = largest_t(n)
        state = some_state(rng, n, t, t + 1)
        good = 1 + rng.choice(state.sound())
        for number in (1, n, *odd_numbers(n)):
            yield why_request(state, good, number, "why, any number as the box that may be listed")
            yield why_request(state, number, good, "why, any number as the box that is asked")
        for k in range(n):
            yield why_request(state, 1 + k, 1 + k, "why, the same box twice")
            yield why_request(state, 1 + k, good, "why, any box asked")
            yield why_request(state, good, 1 + k, "why, any box that may be listed")
    state = State(4, 1, 2, 2, 0, [5, 0, 6, 7], [10, 0, 2, 0],
                  {(0, 1): (1, 0, 1), (0, 3): (2, 1, 2), (2, 1): (1, 1, 2)})
    for asked, listed in product((*range(1, 5), *odd_numbers(4)), repeat=2):
        yield why_request(state, asked, listed, "why, any two numbers")


# Runs: the states that they go through, and why, for every pair of boxes.

def names_of(before, after, cast):
    """What arises in one iteration of a run."""
    t = after.t
    for i, k in ((i, k) for i in cast.sound for k in range(after.n)):
        if before.lists[i] >> k & 1:
            _, confidence, support = before.reason(i, k)
            if confidence != cast.grades[i, k][1]:
                yield "a reason stays though another confidence is found"
            if support != cast.grades[i, k][2]:
                yield "a reason stays though another support is found"
            if after.lists[i] != before.lists[i]:
                yield "a reason stays while another box joins"
        elif after.lists[i] >> k & 1:
            iteration, confidence, support = after.reason(i, k)
            yield f"listed in iteration {iteration if iteration < 3 else '3 or later'}"
            yield f"confidence {confidence}"
            who = "itself" if i == k else "a sound box" if k in cast.sound else "a faulty box"
            yield f"{who} is listed with confidence {confidence}"
            edges = {(0, 0): "0, support 0", (0, t): "0, support t", (1, t + 1): "1, support t + 1",
                     (1, 2 * t): "1, support 2t"}
            if t > 1 and (confidence, support) in edges:
                yield f"confidence {edges[confidence, support]}"
        else:
            yield "not listed"


def names_between_boxes(state):
    """What boxes keep of one and the same box."""
    for k in range(state.n):
        kept = {state.reason(i, k) for i in state.sound() if state.lists[i] >> k & 1}
        if len({iteration for iteration, _, _ in kept}) > 1:
            yield "two boxes list one box in different iterations"
        if len({confidence for _, confidence, _ in kept}) > 1:
            yield "two boxes list one box with different confidence"
        if len({(confidence, support) for _, confidence, support in kept}) > len({c for _, c, _ in kept}):
            yield "two boxes list one box with different support and the same confidence"
        if 0 < sum(state.lists[i] >> k & 1 for i in state.sound()) < len(state.sound()):
            yield "one box lists a box and another does not"
    if bin(state.faulty).count("1") > state.t:
        yield "more than t faulty boxes"


SHOWN = [*(f"{fault}, in a sound box's place" for fault in FAULTS), *(f"{fault} alone" for fault in FAULTS),
         *(f"kept without a listing, in {name}" for name in PLACE_NAMES[1:]),
         "listed in iteration 1", "listed in iteration 2", "listed in iteration 3 or later", "not listed",
         "confidence 0", "confidence 1", "confidence 0, support 0", "confidence 0, support t",
         "confidence 1, support t + 1", "confidence 1, support 2t",
         *(f"{who} is listed with confidence {number}" for who in ("itself", "a sound box", "a faulty box")
           for number in (0, 1)),
         "a reason stays while another box joins", "a reason stays though another confidence is found",
         "a reason stays though another support is found", "two boxes list one box in different iterations",
         "two boxes list one box with different confidence",
         "two boxes list one box with different support and the same confidence",
         "one box lists a box and another does not", "more than t faulty boxes"]


def run_requests(rng, run):
    """Every iteration of a run; why for every pair in its last state, and for every pair, or some where n is large, in
    the states before."""
    state = started(run)
    for table in run.tables:
        before = state
        state, cast = iterated(before, table.rows)
        shows = {(GROUP, name) for name in (*names_of(before, state, cast), *names_between_boxes(state))}
        yield iteration_request(before, table.rows, "iteration of a run", shows)
        pairs = list(product(range(1, run.n + 1), repeat=2))
        all_of = state.done > run.t or run.n <= 7
        for asked, listed in pairs if all_of else rng.sample(pairs, 4):
            yield why_request(state, asked, listed, "why, of a run")


def many_liars(rng, n, count):
    """Liars near the thresholds, in every iteration others of them."""
    return runfiles.aimed_tables(rng, runfiles.new_run(rng, "aimed", n, largest_t(n), count))


def noisy(rng, n):
    """Each faulty box says one of few rows, so that sound boxes too are listed, with some support."""
    t = largest_t(n)
    run = runfiles.new_run(rng, "noise", n, t, rng.randrange(t, n) if n > 1 else 0)
    stock = [0, run.rows[rng.choice(run.sound())], rng.choice([row for row in run.rows if row])]
    for _ in range(t + 1):
        table = Table(n)
        runfiles.copy_faulty(run, Table(n, lambda: rng.choice(stock)), table)
        run.tables.append(table)
    return run


def lively_runs(rng):
    """For every n liars near the thresholds that keep to the limit and that do not; noise; and liars that part the
    sound boxes."""
    for n in range(1, PLACES + 1):
        t = largest_t(n)
        yield many_liars(rng, n, t)
        yield many_liars(rng, n, min(t + 1, n - 1))
        yield noisy(rng, n)
        if t:
            yield runfiles.split(rng, n)


def runs(rng):
    for run in lively_runs(rng):
        yield from run_requests(rng, run)


def all_edges(rng):
    for part in (passing_reasons, faulty_reasons, double_faults, every_place, full_lists, iterations_done, box_numbers,
                 runs):
        yield from part(rng)


ABOUTS = [*(f"{call}, {fault}, {name}" for call in ("why", "iteration") for fault in FAULTS for name in PLACE_NAMES),
          *(f"{call}, {one} and {two}" for call in ("why", "iteration")
            for one, two in combinations_with_replacement(FAULTS, 2)),
          "why, a reason that fits", "iteration, a reason that fits", "why, one place kept",
          "iteration, one place kept", "why, one place without its iteration",
          "iteration, one place without its iteration", "why, every box lists every box",
          "iteration, every box lists every box", "why, of a run", "iteration of a run"]
