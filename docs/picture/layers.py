#!/usr/bin/env python3
"""Draws the layers: the crates of crates.txt, each above those that it uses.

    docs/picture/layers.py            writes docs/picture/layers.svg
    docs/picture/layers.py --check    fails where that file is not the one that would be written

A crate's level is one more than the highest among the crates that it uses. A line is left out where
others lead the same way, and so are the crates of the toolchain. A box has the words of the comment
above the crate's line.
"""

import pathlib
import sys
import textwrap

HERE = pathlib.Path(__file__).resolve().parent
CRATES, PICTURE = HERE.parent.parent / "crates.txt", HERE / "layers.svg"
WIDE, HIGH, STEP, GAP, EDGE, TOP = 176, 58, 88, 14, 10, 42
LETTERS, LINES = 28, 3  # of the words in a box
KINDS = [  # colour, words, and whether it is used by the calls for C and by the program
    ("#a6cee3", "both the calls and the program", (True, True)),
    ("#b2df8a", "the calls alone", (True, False)),
    ("#fdbf6f", "the program alone", (False, True)),
    ("#cab2d6", "tests", (False, False)),
]


def read():
    """The crates in their order: for each the crates that it uses, and its words."""
    uses, words, comment, named = {}, {}, [], False
    for line in CRATES.read_text().splitlines():
        code, _, remark = line.partition("#")
        if remark:
            comment = ([] if named else comment) + [remark.strip()]
            named = False
        if ":" in code:
            name, _, used = code.partition(":")
            name = name.split()[0]
            uses[name], words[name], named = used.split(), " ".join(comment), True
    return {name: [u for u in used if u in uses] for name, used in uses.items()}, words


def reached(uses, name):
    """The crate and all that it rests on."""
    found = {name} & uses.keys()
    while more := {u for n in found for u in uses[n]} - found:
        found |= more
    return found


def drawn(uses):
    """For each crate those that it uses, without those that another of them rests on."""
    below = {name: reached(uses, name) - {name} for name in uses}
    return {name: [u for u in used if not any(u in below[v] for v in used)] for name, used in uses.items()}


def levels(uses):
    level = {}

    def visit(name):
        if name not in level:
            level[name] = 1 + max((visit(u) for u in uses[name]), default=-1)
        return level[name]

    for name in uses:
        visit(name)
    return level


def laid(links, level):
    """The rows from the lowest level on, and pairs of neighbours in rows next to each other.

    A line that passes a row has a place there: the pair of its ends. A crate is a name.
    """
    rows = [[n for n in links if level[n] == i] for i in range(max(level.values()) + 1)]
    pairs = []
    for name, used in links.items():
        for lower in used:
            passed = [(name, lower, i) for i in range(level[lower] + 1, level[name])]
            for place in passed:
                rows[place[2]].append(place)
            way = [lower, *passed, name]
            pairs += list(zip(way, way[1:]))
    return rows, pairs


def neighbours(pairs):
    under, over = {}, {}
    for low, high in pairs:
        under.setdefault(high, []).append(low)
        over.setdefault(low, []).append(high)
    return under, over


def crossings(rows, pairs):
    at = {place: i for row in rows for i, place in enumerate(row)}
    row_of = {place: i for i, row in enumerate(rows) for place in row}
    total = 0
    for i in range(len(rows) - 1):
        here = [(at[a], at[b]) for a, b in pairs if row_of[a] == i]
        total += sum((a - c) * (b - d) < 0 for n, (a, b) in enumerate(here) for c, d in here[:n])
    return total


def ordered(rows, pairs):
    """The rows in the order with the fewest crossings that some sweeps find."""
    under, over = neighbours(pairs)
    best, fewest = rows, crossings(rows, pairs)
    for sweep in range(40):
        beside = under if sweep % 2 == 0 else over
        for row in rows if sweep % 2 == 0 else reversed(rows):
            at = {place: i / max(1, len(r) - 1) for r in rows for i, place in enumerate(r)}
            near = {p: [at[q] for q in beside.get(p, [])] or [at[p]] for p in row}
            row.sort(key=lambda p: sum(near[p]) / len(near[p]))
        count = crossings(rows, pairs)
        if count < fewest:
            best, fewest = [list(row) for row in rows], count
    return best


def width(place):
    return WIDE if isinstance(place, str) else 0


def spread(row, wanted):
    """Places of a row in its order and without overlap, as near as can be to those wanted."""
    shifts, groups = [0], []  # a group: the place that is best for all in it, and how many
    for left, right in zip(row, row[1:]):
        shifts.append(shifts[-1] + (width(left) + width(right)) / 2 + GAP)
    for place, shift in zip(row, shifts):
        groups.append([wanted[place] - shift, 1])
        while len(groups) > 1 and groups[-2][0] >= groups[-1][0]:
            (mean, many), (last, more) = groups.pop(-2), groups.pop()
            groups.append([(mean * many + last * more) / (many + more), many + more])
    even = [mean for mean, many in groups for _ in range(many)]
    return {place: mean + shift for place, mean, shift in zip(row, even, shifts)}


def placed(rows, pairs):
    """The middle of each place, from the left."""
    under, over = neighbours(pairs)

    def beside(place):
        """Its neighbours: those that keep a long line straight count most."""
        near = under.get(place, []) + over.get(place, [])
        return [q for q in near for _ in range(1 if width(place) + width(q) else 9)]

    x = {}
    for row in rows:
        x.update(spread(row, {place: 0 for place in row}))
    for sweep in range(60):
        for row in rows if sweep % 2 == 0 else reversed(rows):
            near = {p: [x[q] for q in beside(p)] or [x[p]] for p in row}
            x.update(spread(row, {p: sum(near[p]) / len(near[p]) for p in row}))
    left = min(x[p] - width(p) / 2 for p in x)
    return {p: round(x[p] - left + EDGE) for p in x}


def text(x, y, words, size=11, anchor="middle", weight="normal"):
    words = words.replace("&", "&amp;").replace("<", "&lt;")
    return (
        f'<text x="{x}" y="{y}" font-size="{size}" text-anchor="{anchor}" '
        f'font-weight="{weight}">{words}</text>'
    )


def box(x, y, name, words, colour):
    lines = textwrap.wrap(words.rstrip("."), LETTERS, max_lines=LINES, placeholder=" …")
    parts = [
        f'<rect x="{x - WIDE // 2}" y="{y}" width="{WIDE}" height="{HIGH}" rx="6" fill="{colour}" '
        f'stroke="#333" stroke-width="1.6"/>',
        text(x, y + 16, name, 14, weight="bold"),
    ]
    return parts + [text(x, y + 29 + 12 * i, line) for i, line in enumerate(lines)]


def line(way, x, y):
    """From the box of a crate down to the one that it uses, through the rows between."""
    steps = [f"M{x[way[0]]},{y(way[0]) + HIGH}"]
    for above, below in zip(way, way[1:]):
        turn = y(below) - (STEP - HIGH) // 2
        steps.append(f"C{x[above]},{turn} {x[below]},{turn} {x[below]},{y(below)}")
        if not isinstance(below, str):
            steps.append(f"V{y(below) + HIGH}")
    return f'<path d="{" ".join(steps)}" fill="none" stroke="#555" stroke-width="1.4"/>'


def draw():
    uses, words = read()
    links, level = drawn(uses), levels(uses)
    rows, pairs = laid(links, level)
    rows = ordered(rows, pairs)
    x = placed(rows, pairs)
    high = TOP + len(rows) * STEP - (STEP - HIGH) + EDGE
    wide = max(max(x[p] + width(p) // 2 for p in x) + EDGE, 720)

    def y(place):
        row = level[place] if isinstance(place, str) else place[2]
        return TOP + (len(rows) - 1 - row) * STEP

    calls, program = reached(uses, "capi"), reached(uses, "rackmap")
    parts = [
        f'<svg xmlns="http://www.w3.org/2000/svg" viewBox="0 0 {wide} {high}" width="{wide}" '
        f'height="{high}" font-family="sans-serif" role="img">',
        "<title>The layers: each crate above those that it uses</title>",
        f'<rect width="{wide}" height="{high}" fill="#fff"/>',
        text(EDGE, 22, "used by", 13, "start"),
    ]
    at = EDGE + 60
    for colour, label, _ in KINDS:
        parts.append(f'<rect x="{at}" y="8" width="18" height="18" rx="4" fill="{colour}" stroke="#333"/>')
        parts.append(text(at + 24, 22, label, 13, "start"))
        at += 44 + 7 * len(label)
    for name, used in links.items():
        for lower in used:
            passed = [(name, lower, i) for i in range(level[name] - 1, level[lower], -1)]
            parts.append(line([name, *passed, lower], x, y))
    for name in uses:
        colour = next(c for c, _, kind in KINDS if kind == (name in calls, name in program))
        parts += box(x[name], y(name), name, words[name], colour)
    return "\n".join(parts + ["</svg>"]) + "\n"


def main():
    if sys.argv[1:] == ["--check"]:
        if not PICTURE.is_file() or PICTURE.read_text() != draw():
            sys.exit("docs/picture/layers.svg is not what docs/picture/layers.py makes of crates.txt: run it")
    elif sys.argv[1:]:
        sys.exit(__doc__)
    else:
        PICTURE.write_text(draw())


if __name__ == "__main__":
    main()
