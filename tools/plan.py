#!/usr/bin/env python3
"""Plan files from text tables, and back.

    plan.py make TABLE > FILE     the plan file of a table of rings
    plan.py show FILE             the table of a plan file, with its labels and its chart if it holds them
    plan.py svg FILE > PICTURE    the picture of the chart that a plan file holds

A `-` in place of a name is standard input. A table has a line for each context: its number, a colon, and its neighbours
clockwise. A `#` starts a comment. Contexts 0, 1, 2, 3 are North, East, South, West; their rings begin and end as document 01
says. The trench A:

    0: 1 4 3      # North
    1: 2 4 0
    2: 3 4 1
    3: 0 4 2
    4: 0 1 2 3

`make` only asks that the lines number the contexts from 0 on: whether the plan is good is for the engine to say.

In a picture each contact is a line, and each context a point with its number. Lines labelled up and down are red, with a head
that points up; lines labelled right and left are blue, with a head that points right; lines between border contexts are grey.
`svg` draws what the file says and works out nothing. A file that holds a chart is what the examples in C and in Rust write:
`target/c/draw PLAN FILE`, after `tests/c/run`.
"""
import sys

from plans import plan_file


def read(name):
    """The bytes of a file, or of standard input."""
    if name == "-":
        return sys.stdin.buffer.read()
    with open(name, "rb") as source:
        return source.read()


def rings_of(table):
    """The rings of a table; a message where it is none."""
    rings = []
    for number, line in enumerate(table.split("\n"), 1):
        line = line.split("#")[0].strip()
        if not line:
            continue
        context, colon, ring = line.partition(":")
        if not colon or context.strip() != str(len(rings)):
            sys.exit(f"plan.py: line {number}: `{len(rings)}:` and its neighbours are due")
        try:
            rings.append([int(entry) for entry in ring.split()])
        except ValueError:
            sys.exit(f"plan.py: line {number}: neighbours are numbers")
    return rings


def numbers(body):
    """The numbers of two bytes in a body."""
    return [int.from_bytes(body[at:at + 2], "little") for at in range(0, len(body) - 1, 2)]


def records(file):
    """Kind and body of each record of a file; a message where it ends in the middle of one."""
    at = 0
    while at < len(file):
        length = int.from_bytes(file[at:at + 2], "little")
        if len(file) < at + 4 or length < 2 or len(file) < at + 2 + length:
            sys.exit(f"plan.py: no whole record at byte {at}")
        yield int.from_bytes(file[at + 2:at + 4], "little"), file[at + 4:at + 2 + length]
        at += 2 + length


def show(file):
    """The lines of a plan file."""
    lines, rings = [], []
    for kind, body in records(file):
        if kind == 1:
            lines.append(f"# {numbers(body)[0] if len(body) > 1 else 0} contexts")
        elif kind == 2:
            rings.append(numbers(body))
            lines.append(f"{len(rings) - 1}: " + " ".join(map(str, rings[-1])))
        elif kind == 3:
            lines.append("# labels: 0 up, 1 right, 2 down, 3 left, 4 between border contexts")
            at = 0
            for context, ring in enumerate(rings):
                lines.append(f"#   {context}: " + " ".join(map(str, body[at:at + len(ring)])))
                at += len(ring)
        elif kind == 4:
            size, points = numbers(body)[:2], numbers(body)[2:]
            lines.append("# chart: width and height, then x and y of each context")
            lines.append("#   " + " ".join(map(str, size)))
            for context in range(len(points) // 2):
                lines.append(f"#   {context}: {points[2 * context]} {points[2 * context + 1]}")
        else:
            lines.append(f"# a record of kind {kind}, {len(body)} bytes")
    return "\n".join(lines) + "\n"


# How a label is drawn: the name of its group, its colour. Down and left are the other ends of up and right.
SORTS = {0: ("red", "#c2281d"), 1: ("blue", "#1f5fbf"), 4: ("border", "#8a8a8a")}
CORNERS = [("North", -20), ("East", 30), ("South", 30), ("West", -20)]
MARGIN, RADIUS = 48, 11


def unit(length):
    """The pixels of a step, in a chart that is so many steps wide or high: an even number, so that lines have a middle."""
    return 2 * max(12, min(48, 360 // max(length, 1)))


def charted(file):
    """Rings, labels, size and points of a plan file; a message where it does not hold them all."""
    parts = list(records(file))
    rings = [numbers(body) for kind, body in parts if kind == 2]
    labels = [label for kind, body in parts if kind == 3 for label in body]
    chart = [number for kind, body in parts if kind == 4 for number in numbers(body)]
    entries = [entry for ring in rings for entry in ring]
    if len(chart) != 2 + 2 * len(rings) or len(labels) != len(entries) or any(entry >= len(rings) for entry in entries):
        sys.exit("plan.py: the file holds no chart")
    return rings, labels, chart[:2], list(zip(chart[2::2], chart[3::2]))


def svg(file):
    """The picture of the chart that a plan file holds."""
    rings, labels, (w, h), points = charted(file)
    across, down = unit(w), unit(h)
    wide, high = 2 * MARGIN + across * w, 2 * MARGIN + down * h
    at = [(MARGIN + across * x, MARGIN + down * (h - y)) for x, y in points]
    darts = list(zip(labels, ((u, v) for u, ring in enumerate(rings) for v in ring)))
    out = [f'<svg xmlns="http://www.w3.org/2000/svg" width="{wide}" height="{high}" viewBox="0 0 {wide} {high}">']
    out += [f"<title>A touch chart of {len(rings)} contexts, {w} by {h}</title>", f'<rect width="{wide}" height="{high}" fill="#fff"/>']
    for sort, (name, colour) in SORTS.items():
        out.append(f'<marker id="{name}-head" markerUnits="userSpaceOnUse" markerWidth="12" markerHeight="10" refX="6" refY="5" orient="auto">'
                   f'<path d="M0,0 L12,5 L0,10 z" fill="{colour}"/></marker>')
        head = "" if name == "border" else f' marker-mid="url(#{name}-head)"'
        out.append(f'<g id="{name}" fill="none" stroke="{colour}" stroke-width="2"{head}>')
        for (x, y), (p, q) in ((at[u], at[v]) for label, (u, v) in darts if label == sort and (u < v or sort != 4)):
            out.append(f'<polyline points="{x},{y} {(x + p) // 2},{(y + q) // 2} {p},{q}"/>')
        out.append("</g>")
    out += ['<g id="points" fill="#fff" stroke="#222" stroke-width="1.5">']
    out += [f'<circle cx="{x}" cy="{y}" r="{RADIUS}"/>' for x, y in at]
    out += ["</g>", '<g id="numbers" font-family="sans-serif" font-size="12" text-anchor="middle" fill="#222">']
    out += [f'<text x="{x}" y="{y + 4}">{u}</text>' for u, (x, y) in enumerate(at)]
    out += ["</g>", '<g id="corners" font-family="sans-serif" font-size="12" text-anchor="middle" fill="#222">']
    out += [f'<text x="{x}" y="{y + below}">{name}</text>' for (x, y), (name, below) in zip(at, CORNERS)]
    return "\n".join(out + ["</g>", "</svg>", ""])


def main():
    """Runs the command that the words name."""
    if len(sys.argv) != 3 or sys.argv[1] not in ("make", "show", "svg"):
        sys.exit(__doc__)
    if sys.argv[1] != "make":
        sys.stdout.write({"show": show, "svg": svg}[sys.argv[1]](read(sys.argv[2])))
        return
    try:
        sys.stdout.buffer.write(plan_file(rings_of(read(sys.argv[2]).decode())))
    except ValueError:
        sys.exit("plan.py: a number does not fit into two bytes")


main()
