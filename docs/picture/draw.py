#!/usr/bin/env python3
"""Draws a map growing, from what the program rackmap prints.

    docs/picture/draw.py [PROGRAM] > docs/picture/map.svg

PROGRAM is ./rackmap unless another is named. The history is document 01's example. After each
growth the program is asked where every bucket is; a bucket's block is that of its bin, and a new
interval starts where the block or the adjustment (the bucket minus its rank) changes. The number
of intervals found so must be the one that the program printed.
"""

import subprocess
import sys

HISTORY = [("fresh", 10, 2), ("grow", 10, 3), ("grow", 14, 4), ("grow", 14, 5), ("grow", 16, 5)]
COLOURS = ["#a6cee3", "#fdbf6f", "#b2df8a", "#cab2d6"]
LABEL = 8  # positions of buckets start here
CELL, HIGH, STEP, LEFT, TOP = 46, 44, 84, 150, 58


def ask(program):
    """The program's replies: for each growth its `ok` line and the places of all buckets."""
    lines = []
    for word, buckets, bins in HISTORY:
        lines.append(f"{word} {buckets} {bins}")
        lines += [f"where {bucket}" for bucket in range(buckets)]
    told = subprocess.run(
        [program], input="\n".join(lines) + "\n", capture_output=True, text=True, check=True
    ).stdout.splitlines()
    replies = []
    for _, buckets, _ in HISTORY:
        word, moved, intervals = told.pop(0).split()
        assert word == "ok", "a growth was refused"
        places = [tuple(map(int, told.pop(0).split()[1:])) for _ in range(buckets)]
        replies.append((int(moved), int(intervals), places))
    return replies


def blocks_of(step):
    """The first bin and the number of bins of each block after a step of the history."""
    tops = []
    for _, _, bins in HISTORY[: step + 1]:
        if not tops or tops[-1] < bins:
            tops.append(bins)
    return [(first, top - first) for first, top in zip([0] + tops, tops)]


def intervals_of(places, blocks):
    """Pairs of start and block. Neighbours with one block and one adjustment count as one."""
    found = []
    last = None
    for bucket, (bin_, position) in enumerate(places):
        block = max(i for i, (first, _) in enumerate(blocks) if first <= bin_)
        first, size = blocks[block]
        here = (block, bucket - ((position - LABEL) * size + bin_ - first))
        if here != last:
            found.append((bucket, block))
        last = here
    return found


def text(x, y, words, size=13, anchor="middle", weight="normal"):
    return (
        f'<text x="{x}" y="{y}" font-size="{size}" text-anchor="{anchor}" '
        f'font-weight="{weight}">{words}</text>'
    )


def row(step, reply, before):
    """One map: its intervals as boxes, its buckets with their bins and positions."""
    moved, count, places = reply
    found = intervals_of(places, blocks_of(step))
    assert len(found) == count, f"{len(found)} intervals drawn, {count} printed"
    y = TOP + step * STEP
    word, buckets, bins = HISTORY[step]
    parts = [text(8, y + 20, f"{word} {buckets} {bins}", 15, "start", "bold")]
    parts.append(text(8, y + 38, f"{moved} moved, {count} interval{'s' * (count > 1)}", 12, "start"))
    ends = [start for start, _ in found[1:]] + [buckets]
    for (start, block), end in zip(found, ends):
        parts.append(
            f'<rect x="{LEFT + start * CELL + 1}" y="{y}" width="{(end - start) * CELL - 2}" '
            f'height="{HIGH}" rx="6" fill="{COLOURS[block]}" stroke="#333" stroke-width="1.6"/>'
        )
    for bucket, (bin_, position) in enumerate(places):
        x = LEFT + bucket * CELL + CELL // 2
        changed = bucket < len(before) and before[bucket][0] != bin_
        if changed:
            parts.append(f'<path d="M{x - 6},{y - 12} h12 l-6,9 z" fill="#c00"/>')
        parts.append(text(x, y + 19, bucket, 15, weight="bold" if changed else "normal"))
        parts.append(text(x, y + 36, f"{bin_}:{position}", 12))
    return parts


def draw(replies):
    widest = max(buckets for _, buckets, _ in HISTORY)
    width, height = LEFT + widest * CELL + 12, TOP + len(HISTORY) * STEP + 8
    parts = [
        f'<svg xmlns="http://www.w3.org/2000/svg" viewBox="0 0 {width} {height}" '
        f'width="{width}" height="{height}" font-family="sans-serif" role="img">',
        "<title>A map growing: its intervals, coloured by block</title>",
        f'<rect width="{width}" height="{height}" fill="#fff"/>',
    ]
    x = LEFT
    for block, (first, size) in enumerate(blocks_of(len(HISTORY) - 1)):
        bins = f"bin {first}" if size == 1 else f"bins {first}–{first + size - 1}"
        parts.append(
            f'<rect x="{x}" y="8" width="18" height="18" rx="4" fill="{COLOURS[block]}" stroke="#333"/>'
        )
        parts.append(text(x + 24, 22, f"block {block}: {bins}", 13, "start"))
        x += 150
    parts.append(f'<path d="M{x},10 h12 l-6,9 z" fill="#c00"/>')
    parts.append(text(x + 18, 22, "moved", 13, "start"))
    parts.append(text(8, 22, "bucket, bin:position", 12, "start"))
    before = []
    for step, reply in enumerate(replies):
        parts += row(step, reply, before)
        before = reply[2]
    return "\n".join(parts + ["</svg>"])


if __name__ == "__main__":
    print(draw(ask(sys.argv[1] if len(sys.argv) > 1 else "./rackmap")))
