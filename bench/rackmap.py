"""Helper of bench/rackmap.sh: makes its inputs, and measures.

    rackmap.py inputs FOLDER
    rackmap.py measure FOLDER PLAIN PROVED RUNS INTERVALS MOVED
"""

import os
import random
import statistics
import sys
import time

BUCKETS = 325_000_000
BINS = 65
WHERE_LINES = 2_000_000
LABEL = 8  # positions of buckets start here
MOST_IN_ONE = 999_999_992  # buckets that one bin takes


# ---------------------------------------------------------------------- inputs


def history():
    """One bin more at a time, until there are as many blocks as a map may have.

    Each growth cuts nearly every old block's last interval, so the table ends close
    to the most that it can hold; the last growth moves BUCKETS / BINS buckets.
    """
    lines = [f"fresh {BUCKETS} 1"]
    lines += [f"grow {BUCKETS} {bins}" for bins in range(2, BINS + 1)]
    return "".join(line + "\n" for line in lines)


UNREADABLE = [
    b"", b" ", b"w", b"where", b"where ", b"where  1", b"where 1 ", b" where 1",
    b"where -1", b"where +1", b"where 1\r", b"where 1\0", b"where\t1", b"WHERE 1",
    b"where 00000000001", b"where 4294967296", b"where 9999999999", b"where 1 2",
    b"at 1", b"at 1 2 3", b"at 1  2", b"at 0 4294967296", b"moves ", b"moves 1",
    b"fresh 5", b"fresh 5 2 ", b"grow 5", b"grow 4294967296 1", b"grow 5 x",
    b"whereas 1", b"where1", b"\xff\xfe", b"x" * 64, b"x" * 65, b"x" * 66,
    b"where 1" + b" " * 57, b"where 1" + b" " * 58, b"moves" * 40, b"where 1" * 30_000,
]  # fmt: skip


def mixed(rng, count):
    """Small maps under all commands, with every refusal that a small map can give."""
    lines = [b"where 0", b"at 0 0", b"grow 5 2", b"moves", *UNREADABLE]  # before there is a map
    lines += [b"fresh 0 0", b"fresh 1 2", *UNREADABLE, b"where 0"]
    buckets = bins = 0
    for _ in range(count):
        kind = rng.random()
        if buckets == 0 or kind < 0.03:
            b, n = rng.randrange(0, 100), rng.randrange(0, 9)
            lines.append(b"fresh %d %d" % (b, n))
            if 1 <= n <= b:
                buckets, bins = b, n
        elif kind < 0.30:
            b = buckets + rng.choice([0, 0, 0, 1, 2, 9, 40, -1])
            n = bins + rng.choice([0, 0, 1, 1, 2, 5, -1])
            lines.append(b"grow %d %d" % (max(b, 0), n))
            lines.append(b"moves")
            if b >= buckets and bins <= n <= b:
                buckets, bins = b, n
        elif kind < 0.60:
            lines.append(b"where %d" % rng.randrange(0, buckets + 2))
        elif kind < 0.90:
            position = rng.randrange(0, LABEL + buckets // bins + 2)
            lines.append(b"at %d %d" % (rng.randrange(0, bins + 1), position))
        elif kind < 0.93:
            b = rng.choice([0, 1, MOST_IN_ONE, 1_000_000_000, 1_000_000_001, 4_294_967_295])
            n = rng.choice([0, 1, 65_535, 65_536, 4_294_967_295])
            lines.append(b"grow %d %d" % (b, n))
            if MOST_IN_ONE <= b <= 1_000_000_000 and bins <= n <= 65_535:
                lines += [b"where %d" % (b - 1), b"fresh 20 3"]
                buckets, bins = 20, 3
        else:
            lines.append(rng.choice(UNREADABLE))
    return b"\n".join(lines) + b"\n"


def one_bin():
    """As many buckets in one bin as its label leaves room for, and more."""
    lines = []
    for b in (MOST_IN_ONE, MOST_IN_ONE + 1, 1_000_000_000):
        lines += [b"fresh 10 1", b"fresh %d 1" % b, b"where %d" % (b - 1), b"grow %d 1" % b]
        lines += [b"grow %d 1" % (b + 1), b"grow %d 2" % b, b"where %d" % (b - 1)]
    lines.append(b"fresh %d 1" % MOST_IN_ONE)
    for position in (0, LABEL - 1, LABEL, 999_999_999, 1_000_000_000, 4_294_967_295):
        lines.append(b"at 0 %d" % position)
    return lines


def limits(rng):
    """The largest table: growths by one bucket until no interval can be added. Then one bin."""
    lines = [history().encode().rstrip(b"\n")]
    for more in range(1, 80):
        lines.append(b"grow %d %d" % (BUCKETS + more, BINS))
        lines.append(b"where %d" % (BUCKETS + more - 1))
    lines.append(b"grow %d %d" % (BUCKETS + 200, BINS + 1))
    size = BUCKETS // BINS
    for _ in range(1000):
        lines.append(b"at %d %d" % (rng.randrange(BINS), LABEL + rng.randrange(size)))
    for position in [*range(LABEL + 2), *range(LABEL + size - 1, LABEL + size + 3)]:
        lines += [b"at %d %d" % (y, position) for y in range(BINS + 1)]
    lines += one_bin()
    return b"\n".join(lines) + b"\n"


def make_inputs(folder):
    rng = random.Random(1)
    where = "".join(f"where {rng.randrange(BUCKETS)}\n" for _ in range(WHERE_LINES))
    mix = mixed(rng, 20_000)
    inputs = {
        "history": history().encode(),
        "where-many.in": (history() + where).encode(),
        "where-one.in": (f"fresh {BUCKETS} {BINS}\n" + where).encode(),
        "moves.in": (history() + "moves\n").encode(),
        "mixed.in": mix,
        "limits.in": limits(rng),
        "empty.in": b"",
        "unfinished.in": b"fresh 10 2\nwhere 7",
        "unfinished-long.in": b"fresh 10 2\n" + b"where 7" * 20_000,
    }
    for name, data in inputs.items():
        with open(os.path.join(folder, name), "wb") as file:
            file.write(data)


# ----------------------------------------------------------------- measurement


def start(program, path):
    """Starts the program with a file as its input and its output thrown away."""
    files = [
        (os.POSIX_SPAWN_OPEN, 0, path, os.O_RDONLY, 0),
        (os.POSIX_SPAWN_OPEN, 1, os.devnull, os.O_WRONLY, 0),
    ]
    return os.posix_spawn(program, [program], os.environ, file_actions=files)


def finish(pid):
    """User and system time of the process, in seconds."""
    _, status, usage = os.wait4(pid, 0)
    if status != 0:
        sys.exit("a program failed while it was measured")
    return usage.ru_utime + usage.ru_stime


def memory(program, path):
    """Largest resident memory of a run, in KiB.

    The kernel's high-water mark of the process is read until the process ends.
    ru_maxrss would not do: it includes the memory of the process that started it,
    which is larger here.
    """
    pid = start(program, path)
    most = 0
    while True:
        with open(f"/proc/{pid}/status") as status:
            marks = [line.split()[1] for line in status if line.startswith("VmHWM:")]
        if not marks:
            break
        most = int(marks[0])
        time.sleep(0.001)
    finish(pid)
    return most


def measure(folder, plain, proved, runs, intervals, moved):
    tests = [
        (f"where, {intervals:,} intervals", "where-many.in", WHERE_LINES),
        (f"moves, {intervals:,} intervals", "moves.in", moved),
        ("where, 1 interval", "where-one.in", WHERE_LINES),
    ]
    print(f"Lines a second, by user and system time: medians of {runs} runs, each of both programs in turn.")
    print("proved / C: the median over the runs, and the quartiles.")
    print(f"{'':24}{'lines':>12}{'C':>14}{'proved':>14}{'proved / C':>12}{'quartiles':>14}")
    for title, name, lines in tests:
        path = os.path.join(folder, name)
        taken = {plain: [], proved: []}
        for turn in range(runs):
            for program in (plain, proved) if turn % 2 == 0 else (proved, plain):
                taken[program].append(finish(start(program, path)))
        ratios = sorted(c / ours for c, ours in zip(taken[plain], taken[proved]))
        rates = [lines / statistics.median(taken[program]) for program in (plain, proved)]
        quartiles = f"{ratios[(runs - 1) // 4]:.2f} to {ratios[(runs - 1) * 3 // 4]:.2f}"
        print(
            f"{title:24}{lines:12,}{rates[0]:14,.0f}{rates[1]:14,.0f}"
            f"{statistics.median(ratios):12.2f}{quartiles:>14}"
        )
    print("Largest resident memory, KiB:")
    for title, name, _ in tests[:2]:
        path = os.path.join(folder, name)
        sizes = [memory(program, path) for program in (plain, proved)]
        print(f"{title:24}{'':12}{sizes[0]:14,}{sizes[1]:14,}{sizes[1] / sizes[0]:12.2f}")


if __name__ == "__main__":
    if sys.argv[1] == "inputs":
        make_inputs(sys.argv[2])
    else:
        measure(*sys.argv[2:5], *map(int, sys.argv[5:8]))
