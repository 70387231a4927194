"""Plan files as document 01 has them: the four trenches, and how a file is put together."""


def word(x):
    return bytes([x % 256, x // 256])


def record(kind, body):
    return word(2 + len(body)) + word(kind) + body


def ring_record(ring):
    return record(2, b"".join(word(v) for v in ring))


def plan_file(rings, n=None):
    """The file of a plan: the kind 1 record, then a kind 2 record for each ring."""
    return record(1, word(len(rings) if n is None else n)) + b"".join(ring_record(r) for r in rings)


def labels_record(labels):
    return record(3, bytes(labels))


def chart_record(w, h, points):
    return record(4, word(w) + word(h) + b"".join(word(x) + word(y) for x, y in points))


A = [[1, 4, 3], [2, 4, 0], [3, 4, 1], [0, 4, 2], [0, 1, 2, 3]]
B = [[1, 5, 3], [2, 4, 5, 0], [3, 4, 1], [0, 5, 4, 2], [5, 1, 2, 3], [0, 1, 4, 3]]
C = [[1, 5, 4, 3], [2, 4, 5, 0], [3, 4, 1], [0, 4, 2], [0, 5, 1, 2, 3], [0, 1, 4]]
D = A + [[5 + (k + j) % 7 for j in (1, 3, 2, 6, 4, 5)] for k in range(7)]

LABELS_A = [4, 2, 4, 4, 3, 4, 4, 0, 4, 4, 1, 4, 0, 1, 2, 3]
LABELS_B = [4, 2, 4, 4, 3, 3, 4, 4, 0, 4, 4, 1, 1, 4, 0, 1, 2, 3, 0, 1, 2, 3]
LABELS_D = LABELS_A + [0, 0, 1, 2, 2, 3] * 7
CHART_A = (2, 2, [(2, 2), (2, 0), (0, 0), (0, 2), (1, 1)])
CHART_B = (2, 3, [(2, 3), (2, 0), (0, 0), (0, 3), (1, 1), (1, 2)])


def with_ring(rings, u, ring):
    """The plan with another ring for context u."""
    return rings[:u] + [ring] + rings[u + 1 :]


def turned(ring, k):
    """The ring begun k entries later."""
    return ring[k:] + ring[:k]


# One context over another, with a third between them and West: the run up of context 6 wraps its ring's end.
FAN = [[1, 4, 5, 3], [2, 6, 4, 0], [3, 6, 1], [0, 5, 6, 2], [0, 1, 6, 5], [0, 4, 6, 3], [4, 1, 2, 3, 5]]
LABELS_FAN = [4, 2, 2, 4, 4, 3, 3, 4, 4, 0, 4, 4, 1, 1, 4, 0, 1, 2, 3, 0, 1, 2, 3, 0, 1, 2, 3, 0]

# A handle, and two contexts with no neighbour: rules 4 to 9 hold.
HANDLE = [[1, 4, 6, 7, 3], [2, 8, 5, 4, 0], [3, 5, 6, 8, 1], [0, 7, 8, 4, 5, 2], [0, 1, 5, 3, 8, 6], [7, 6, 2, 3, 4, 1, 8],
          [5, 7, 0, 4, 8, 2], [6, 5, 8, 3, 0], [1, 2, 6, 4, 3, 7, 5], [], []]

# Context 4 inside a closed chain of eight.
WHEEL = [[1, 7, 6, 5, 3], [2, 9, 8, 7, 0], [3, 11, 10, 9, 1], [0, 5, 12, 11, 2], [5, 6, 7, 8, 9, 10, 11, 12], [3, 0, 6, 4, 12],
         [0, 7, 4, 5], [0, 1, 8, 4, 6], [1, 9, 4, 7], [1, 2, 10, 4, 8], [2, 11, 4, 9], [2, 3, 12, 4, 10], [3, 5, 4, 11]]
LABELS_WHEEL = [4, 2, 2, 2, 4, 4, 3, 3, 3, 4, 4, 0, 0, 0, 4, 4, 1, 1, 1, 4, 3, 0, 0, 1, 1, 2, 2, 3, 3, 0, 1, 1, 2, 0, 1, 2, 3,
                0, 1, 2, 2, 3, 1, 2, 3, 0, 1, 2, 3, 3, 0, 2, 3, 0, 1, 2, 3, 0, 0, 1, 3, 0, 1, 2]


def with_hub(labels):
    """The wheel's labels with others around the hub, and the reverse darts labelled to fit."""
    darts = [(u, v) for u, ring in enumerate(WHEEL) for v in ring]
    changed = dict(zip(darts, LABELS_WHEEL))
    for v, label in zip(WHEEL[4], labels):
        changed[4, v], changed[v, 4] = label, (label + 2) % 4
    return [changed[dart] for dart in darts]


def lone_border(border, neighbours):
    """Seven contexts: all but a border context touch each other, which has at most one neighbour; some contacts less, so that there are 28 entries."""
    others = [u for u in range(7) if u != border]
    gone = [(others[4], others[5]), (others[2], others[3])][: 1 + neighbours]
    touch = lambda u, v: u != v and (u, v) not in gone and (v, u) not in gone
    rings = [[v for v in others if touch(u, v)] for u in range(7)]
    rings[border] = others[:neighbours]
    for v in others[:neighbours]:
        rings[v].append(border)
    return rings


LONE_BORDERS = [lone_border(0, 0), lone_border(0, 1), lone_border(2, 0)]
