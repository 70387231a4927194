#!/usr/bin/env python3
"""trial_leaves_expected.py: writes what crates/trial_leaves has to print for its standard input, worked out from document 01.

Run it from the repository's root:

    python3 tools/trial_leaves_vectors.py > crates/trial_leaves/stdin
    python3 tools/trial_leaves_expected.py < crates/trial_leaves/stdin > crates/trial_leaves/stdout

It follows 01's sentences and shares nothing with the program but the form of the lines, which is said in the heading of
crates/trial_leaves/src/main.rt."""
import sys
from itertools import combinations

from plans import plan_file

NORTH, EAST, SOUTH, WEST = range(4)
OUTER = [(NORTH, EAST), (EAST, SOUTH), (SOUTH, WEST), (WEST, NORTH)]


class Refused(Exception):
    """A refusal: number and place."""


def number(data, at):
    """The number of two bytes, little-endian, at an offset."""
    return data[at] + 256 * data[at + 1]


def numbers(data):
    """All numbers of two bytes."""
    return [number(data, at) for at in range(0, len(data), 2)]


def framed(data, at):
    """Kind and body of the record at an offset; 1 where its length is missing, under 2 or past the end."""
    if at + 2 > len(data) or number(data, at) < 2 or at + 2 + number(data, at) > len(data):
        raise Refused(1, at)
    return number(data, at + 2), data[at + 4 : at + 2 + number(data, at)]


def due(data, at, kind, lengths):
    """The body of a record that is due at an offset: 1 before 2."""
    found, body = framed(data, at)
    if found != kind or len(body) not in lengths:
        raise Refused(2, at)
    return body


def decode(data):
    """The rings, then for the labels and for the chart where the body begins and what stands in it; 0 and None where there is none."""
    n = number(due(data, 0, 1, [2]), 0)
    if not 5 <= n <= 200:
        raise Refused(3, 0)
    at, rings, parts = 6, [], []
    for _ in range(n):
        body = due(data, at, 2, range(0, 2 * n - 1, 2))
        rings.append(numbers(body))
        at += 4 + len(body)
    for kind, length in ((3, 6 * n - 14), (4, 4 + 4 * n)):
        if at == len(data):
            break
        parts.append((at + 4, due(data, at, kind, [length])))
        at += 4 + length
    if at < len(data):
        framed(data, at)
        raise Refused(2, at)
    labels, record = parts + [(0, None)] * (2 - len(parts))
    return rings, labels, record


def lowest(n, bad):
    """The lowest context below n that is bad; n where none is."""
    return next((u for u in range(n) if bad(u)), n)


def lists(rings, u, v):
    """Does u list v?"""
    return u < len(rings) and v in rings[u]


def entry_after(rings, u, v):
    """The entry after v in u's ring, the ring closing on itself."""
    ring = rings[u]
    return ring[(ring.index(v) + 1) % len(ring)]


def step(rings, dart):
    """The dart that follows on the same face."""
    u, v = dart
    return v, entry_after(rings, v, u)


def darts(rings):
    """All darts, in ring order, context by context."""
    return [(u, v) for u, ring in enumerate(rings) for v in ring]


def bad_border(rings, b):
    """Rule 8 at a border context: where its ring begins and ends, and that it does not touch the opposite side."""
    ring = rings[b]
    ends = ring[:1] == [(b + 1) % 4] and ring[-1:] == [(b + 3) % 4]
    return not ends or (b + 2) % 4 in ring


def returns(rings, dart):
    """Rule 9: the dart comes back to itself after three face steps, or is one of the four on the outside."""
    return dart in OUTER or step(rings, step(rings, step(rings, dart))) == dart


def enclosing(rings):
    """The smallest triple of mutual neighbours that are no inner face, or None."""
    inner = [d for d in darts(rings) if d not in OUTER]
    faces = {frozenset((u, v, step(rings, (u, v))[1])) for u, v in inner}
    for a, b, c in combinations(range(len(rings)), 3):
        if lists(rings, a, b) and lists(rings, b, c) and lists(rings, a, c) and frozenset((a, b, c)) not in faces:
            return a, b, c
    return None


def four_runs(labels):
    """Clockwise up, right, down, left, each once and not empty, wherever the ring begins."""
    changes = [(labels[i - 1], labels[i]) for i in range(len(labels)) if labels[i - 1] != labels[i]]
    return sorted(changes) == [(0, 1), (1, 2), (2, 3), (3, 0)]


def breaks(rings, labels, u):
    """Does a context break the label rules, by one of its darts or by its ring?"""
    for v in rings[u]:
        mine, other = labels[u, v], labels[v, u]
        if u < 4 and v < 4:
            if mine != 4:
                return True
        elif mine > 3 or other > 3 or (mine + 2) % 4 != other or (u < 4 and mine != [2, 3, 0, 1][u]):
            return True
    return u >= 4 and not four_runs([labels[u, v] for v in rings[u]])


def least(count, rules):
    """The least numbers, none negative, with the first of them 0, such that b is at least a + c for each rule (a, b, c); or None."""
    values = [0] * count
    for _ in range(count + 1):
        changed = False
        for a, b, c in rules:
            if values[b] < values[a] + c:
                values[b], changed = values[a] + c, True
        if not changed:
            return values if values[0] == 0 else None
    return None


def chart(rings, labels):
    """w, h and the points of the least placement, or None. Variables: 0 for zero, 1 for w or h, u for an inner context u."""
    x_of = lambda u: [1, 1, 0, 0][u] if u < 4 else u
    y_of = lambda u: [1, 0, 0, 1][u] if u < 4 else u
    x_rules, y_rules = [], []
    for u, v in darts(rings):
        if labels[u, v] == 0:
            x_rules.append((x_of(u), x_of(v), 0))
            y_rules.append((y_of(u), y_of(v), 1))
        if labels[u, v] == 1:
            x_rules.append((x_of(u), x_of(v), 1))
            y_rules.append((y_of(v), y_of(u), 0))
    n = len(rings)
    xs, ys = least(n, x_rules), least(n, y_rules)
    if xs is None or ys is None:
        return None
    return [xs[1], ys[1]] + [c for u in range(n) for c in (xs[x_of(u)], ys[y_of(u)])]


def label_line(rings, labels, record):
    """What is printed of labels: the place of the rules, the chart, the comparison with a chart record."""
    n = len(rings)
    labels = dict(zip(darts(rings), labels))
    ten = lowest(n, lambda u: breaks(rings, labels, u))
    if ten < n:
        return f" 10:{ten}"
    drawn = chart(rings, labels)
    if drawn is None:
        return f" 10:{ten} chart none"
    points = "".join(f" {drawn[2 + 2 * u]},{drawn[3 + 2 * u]}" for u in range(n))
    compared = "" if record is None else " record 0" if numbers(record) == drawn else " record 12"
    return f" 10:{ten} chart {drawn[0]}x{drawn[1]}{points}{compared}"


def plan_line(data, rings, labels, record):
    """What is printed of a plan that is framed."""
    n = len(rings)
    four = lowest(n, lambda u: any(v >= n or v == u for v in rings[u]))
    five = lowest(n, lambda u: len(set(rings[u])) < len(rings[u]))
    six = lowest(n, lambda u: any(not lists(rings, v, u) for v in rings[u]))
    line = f" 4:{four} 5:{five} 6:{six} entries {len(darts(rings))}"
    if min(four, five, six) < n:
        return line
    eight = lowest(4, lambda b: bad_border(rings, b))
    nine = lowest(n, lambda u: any(not returns(rings, (u, v)) for v in rings[u]))
    line += f" 8:{eight} 9:{nine}"
    if eight < 4 or nine < n:
        return line
    found = enclosing(rings)
    line += " triangle " + (",".join(map(str, found)) if found else "none")
    size = len(plan_file(rings))
    assert data[:size] == plan_file(rings)
    line += f" bytes {size} same {size} length {size} short {size}"
    return line if labels is None else line + label_line(rings, labels, record)


def file_line(data):
    """The line of a file."""
    try:
        rings, (labels_at, labels), (record_at, record) = decode(data)
    except Refused as refusal:
        return "refused %d at %d" % refusal.args
    return f"n {len(rings)} labels {labels_at} chart {record_at}" + plan_line(data, rings, labels, record)


def main():
    """A line for each file of standard input."""
    data, at = sys.stdin.buffer.read(), 0
    while at < len(data):
        size = number(data, at)
        print(file_line(data[at + 2 : at + 2 + size]))
        at += 2 + size


main()
