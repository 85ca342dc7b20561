#!/usr/bin/env python3
"""Writes a sealed file for Hovmekhar from a log alone.

    python3 examples/write_bundle.py OUT N WORD...

N is the event count, and each WORD its events joined by commas, as 0,0,1; an
empty string is the empty word. A dot at the end, as in 0,0,1. marks a word as
completed: after it each place has its initial tokens again. Finds places and
weights for the log, writes the sealed file to OUT, in the new edition where a word
is completed, and prints how many rows, allowed steps, places and certificates it
has. Needs Python 3.9 or later, and nothing else. docs/FORMAT.md says what the bytes
mean, and how places and weights are found.

Ends with 0 when the file is written, 1 when the log or the numbers found for it
are beyond the limits of the format, 2 for wrong arguments, 3 when OUT cannot be
written.
"""

import math
import os
import re
import sys
from fractions import Fraction

MAX_EVENTS, MAX_WORDS, MAX_LENGTH, MAX_LOG_EVENTS, MAX_ROWS = 12, 255, 255, 1_024, 256
MAX_PLACES, MAX_NUMBER, MAX_SIGNED, MAX_BUNDLE = 64, 65_535, 32_767, 64_512
CONTENTS, MODULUS, NEW_EDITION = 504, 65_521, 128


class Usage(Exception):
    """The arguments are wrong."""


class Limit(Exception):
    """The format has no room for this log."""


def within(number, most, what):
    """The number, where it is not above a limit of the format."""
    if number > most:
        raise Limit(f"{what}: {number}, and at most {most} is allowed")
    return number


def rows_of(n, words):
    """The rows by first occurrence: the counts, and the events that follow them."""
    rows = {(0,) * n: set()}
    for events, _ in words:
        counts = (0,) * n
        for event in events:
            rows[counts].add(event)
            counts = tuple(count + (i == event) for i, count in enumerate(counts))
            rows.setdefault(counts, set())
    return rows


def completed_of(n, words):
    """The completed words, each as its number and its counts, equal counts once."""
    first = {}
    for number, (events, completed) in enumerate(words):
        counts = tuple(events.count(i) for i in range(n))
        if completed and any(counts):
            first.setdefault(counts, number)
    return [(number, counts) for counts, number in first.items()]


def steps(rows, allowed):
    """The allowed steps, or the wrong continuations, by row and then by event."""
    return [
        (row, counts, event)
        for row, (counts, following) in enumerate(rows.items())
        for event in range(len(counts))
        if (event in following) == allowed
    ]


def slopes(counts, event):
    """How m, each in(i) and each out(i), which are a place, count in a surplus."""
    return [1, *counts, *(-count - (i == event) for i, count in enumerate(counts))]


def change_slopes(counts, sign=1):
    """How m, each in(i) and each out(i) count in what a word with these counts leaves."""
    return [0, *(sign * count for count in counts), *(-sign * count for count in counts)]


def change(place, counts):
    """The sum of u(i) * (in(i) - out(i)): 0 where a place obeys the completed word."""
    return sum(x * slope for x, slope in zip(place, change_slopes(counts)))


def surplus(place, counts, event):
    """m + the sum of v(i) * (in(i) - out(i)) - out(e): below 0 where e is refused."""
    return sum(x * slope for x, slope in zip(place, slopes(counts, event)))


def solve(allowed, wrong):
    """A place that fits and refuses the wrong step, or weights on the allowed ones.

    Takes the slopes of these steps. The places that fit are a cone: numbers x >= 0
    with a surplus of 0 or more at each allowed step. Over it, minus the surplus at the
    wrong step is unbounded, along a ray that is such a place, or at most 0: then that
    surplus is a sum of allowed ones and of numbers x, with no negative weight.
    An equality is two lines, of which one is the negative of the other: the weight of
    the first less that of the second is free.

    This is the simplex method. Each line says how a basic variable depends on the
    free ones; at first the numbers x are free, and the surpluses are basic. Taking
    the lowest variable that will do is Bland's rule: with it the method ends.
    """
    size = len(wrong)
    free = list(range(size))
    basic = list(range(size, size + len(allowed)))
    lines = [[Fraction(slope) for slope in line] for line in allowed]
    goal = [Fraction(-slope) for slope in wrong]
    while True:
        rising = [column for column in range(size) if goal[column] > 0]
        if not rising:
            found = dict(zip(free, goal))
            return None, [-found.get(size + i, 0) for i in range(len(allowed))]
        column = min(rising, key=lambda column: free[column])

        falling = [i for i, line in enumerate(lines) if line[column] < 0]
        if not falling:
            ray = {variable: line[column] for variable, line in zip(basic, lines)}
            ray[free[column]] = Fraction(1)
            return [ray.get(x, Fraction(0)) for x in range(size)], None
        row = min(falling, key=lambda row: basic[row])

        # The line, solved for the free variable, which becomes basic.
        pivot = lines[row][column]
        solved = [-slope / pivot for slope in lines[row]]
        solved[column] = 1 / pivot
        lines[row] = solved
        terms = [(i, slope) for i, slope in enumerate(solved) if slope and i != column]
        for line in [*lines[:row], *lines[row + 1 :], goal]:
            factor = line[column]
            if factor:
                for i, slope in terms:
                    line[i] += factor * slope
                line[column] = factor * solved[column]
        free[column], basic[row] = basic[row], free[column]


def whole(numbers):
    """The common denominator of some fractions, and each of them times it."""
    scale = math.lcm(*(Fraction(number).denominator for number in numbers))
    return scale, [int(number * scale) for number in numbers]


def small(place):
    """The place in whole numbers as small as they can be, or rounded to two bytes.

    Rounding m and in(i) up and out(i) down makes no surplus smaller, so a place that
    fits still fits. Whether it refuses as before has to be seen.
    """
    _, place = whole(place)
    place = [number // math.gcd(*place) for number in place]
    largest, ups = max(place), 1 + len(place) // 2
    if largest <= MAX_NUMBER:
        return place
    up = [-(-number * MAX_NUMBER // largest) for number in place[:ups]]
    return up + [number * MAX_NUMBER // largest for number in place[ups:]]


def weights_hold(k, terms, pairs, v, e):
    """The three inequalities of a certificate of kind 1; f == i is [f = i]."""
    return sum(g for _, _, _, g in terms) <= k and all(
        sum(g * u[i] for _, u, _, g in terms) + of_pairs <= k * v[i]
        and sum(g * (u[i] + (f == i)) for _, u, f, g in terms) + of_pairs >= k * (v[i] + (e == i))
        for i in range(len(v))
        for of_pairs in [sum(h * u[i] for _, u, h in pairs)]
    )


def certify(places, allowed, completed, counts, event):
    """The certificate of a wrong continuation: a place's number, or k, terms and pairs.

    A new place is added to the places. A term is an allowed step and its weight, a pair
    a completed word and its weight. At most 2n + 1 weights are not 0, one for each free
    variable: never too many terms or pairs.
    """
    for number, place in enumerate(places):
        if surplus(place, counts, event) < 0:
            return number
    lines = [slopes(u, f) for _, u, f in allowed]
    lines += [change_slopes(u, sign) for _, u in completed for sign in (1, -1)]
    place, weights = solve(lines, slopes(counts, event))
    if place is None:
        k, weights = whole(weights)
        terms = [(*step, g) for step, g in zip(allowed, weights) if g > 0]
        signed = weights[len(allowed) :]
        signed = [up - down for up, down in zip(signed[::2], signed[1::2])]
        pairs = [(*word, h) for word, h in zip(completed, signed) if h]
        assert k >= 1 and weights_hold(k, terms, pairs, counts, event)
        return k, terms, pairs
    places.append(small(place))
    assert all(surplus(places[-1], u, f) >= 0 for _, u, f in allowed)
    # A place that was rounded may refuse no longer, or not obey.
    obeys = all(change(places[-1], u) == 0 for _, u in completed)
    if surplus(places[-1], counts, event) >= 0 or not obeys:
        raise Limit(f"a number of a place: no place was found with at most {MAX_NUMBER}")
    return len(places) - 1


def two_bytes(number, what="a number"):
    """A number of two bytes, the low byte first."""
    return within(number, MAX_NUMBER, what).to_bytes(2, "little")


def signed_bytes(number, what):
    """A signed number of two bytes, in two's complement."""
    within(max(number, -number - 1), MAX_SIGNED, what)
    return number.to_bytes(2, "little", signed=True)


def certificate_bytes(certificate, is_new):
    """A certificate of kind 0, or of kind 1; in the new edition this has its pairs."""
    if isinstance(certificate, int):
        return bytes([0, certificate])
    k, terms, pairs = certificate
    written = b"\1" + two_bytes(k, "k") + bytes([len(terms)])
    for row, _, event, weight in terms:
        written += two_bytes(row) + bytes([event]) + two_bytes(weight, "a weight")
    if is_new:
        written += bytes([len(pairs)])
        for word, _, weight in pairs:
            written += bytes([word]) + signed_bytes(weight, "a weight of a word")
    return written


def bundle_of(n, words, places, certificates):
    """The bytes of the bundle: in the new edition where a word is completed."""
    within(len(places), MAX_PLACES, "places")
    is_new = any(completed for _, completed in words)
    parts = [bytes([n + NEW_EDITION * is_new, len(words)])]
    for events, completed in words:
        mark = [completed] if is_new else []
        parts.append(bytes([len(events), *mark, *events]))
    parts.append(bytes([len(places)]))
    parts += [two_bytes(number) for place in places for number in place]
    parts += [certificate_bytes(certificate, is_new) for certificate in certificates]
    return b"".join(parts)


def seal(bundle):
    """The sealed file: blocks of a number, a used count, contents and two sums."""
    within(len(bundle), MAX_BUNDLE, "bytes of the bundle")
    blocks = []
    for number, start in enumerate(range(0, len(bundle), CONTENTS)):
        used = bundle[start : start + CONTENTS]
        block = two_bytes(number) + two_bytes(len(used)) + used.ljust(CONTENTS, b"\0")
        s = sum(block) % MODULUS
        w = sum((i + 1) * byte for i, byte in enumerate(block)) % MODULUS
        blocks.append(block + two_bytes(s) + two_bytes(w))
    return b"".join(blocks)


def replace(path, contents):
    """Writes a file whole or not at all."""
    beside = f"{path}.{os.getpid()}.tmp"
    try:
        with open(beside, "wb") as file:
            file.write(contents)
        os.replace(beside, path)
    finally:
        if os.path.exists(beside):
            os.remove(beside)


def read_arguments(arguments):
    """OUT, N and the words, each as its events and whether it is completed."""
    if len(arguments) < 2 or not re.fullmatch("[0-9]{1,3}", arguments[1]):
        raise Usage("usage: write_bundle.py OUT N WORD...")
    out, n, words = arguments[0], int(arguments[1]), []
    for text in arguments[2:]:
        if not re.fullmatch("([0-9]{1,3}(,[0-9]{1,3})*)?[.]?", text):
            raise Usage(f"no word of events joined by commas: {text!r}")
        joined = text.rstrip(".")
        events = [int(event) for event in joined.split(",")] if joined else []
        words.append((events, text.endswith(".")))
        if any(event >= n for event in events):
            raise Usage(f"an event is not below {n}: {text!r}")
    return out, n, words


def write(out, n, words):
    """Writes the file, and returns a line about it."""
    if not 1 <= n <= MAX_EVENTS:
        raise Limit(f"the event count: {n}, and 1 to {MAX_EVENTS} is allowed")
    within(len(words), MAX_WORDS, "words")
    lengths = [len(events) for events, _ in words]
    within(max(lengths, default=0), MAX_LENGTH, "events of a word")
    within(sum(lengths), MAX_LOG_EVENTS, "events of the log")
    rows = rows_of(n, words)
    within(len(rows), MAX_ROWS, "rows")
    allowed, wrong, places = steps(rows, True), steps(rows, False), []
    completed = completed_of(n, words)
    certificates = [
        certify(places, allowed, completed, counts, event) for _, counts, event in wrong
    ]
    replace(out, seal(bundle_of(n, words, places, certificates)))
    by_place = sum(isinstance(certificate, int) for certificate in certificates)
    return (
        f"rows {len(rows)}, allowed steps {len(allowed)}, places {len(places)}, "
        f"certificates of kind 0 {by_place}, of kind 1 {len(wrong) - by_place}"
    )


def main(arguments):
    """Writes the file, and returns the status to end with."""
    try:
        print(write(*read_arguments(arguments)))
    except (Usage, Limit, OSError) as error:
        print(f"write_bundle.py: {error}", file=sys.stderr)
        return {Usage: 2, Limit: 1}.get(type(error), 3)
    return 0


if __name__ == "__main__":
    sys.exit(main(sys.argv[1:]))
