"""Prints, in Markdown, which functions take the steps of some lines: profile.py FOLDER, a folder of what `bench steps` left under
callgrind. `bench/run profile` calls it."""

import os
import re
import sys
from collections import Counter

COUNTED = re.compile(r"^counted: (.*): (\d+): (opening|whole): (\d+)$", re.M)
COST = re.compile(r"^(0x[0-9a-f]+|[0-9]+) ([0-9]+)$")
# The lines, by the begin of their names, which of their sides stand beside ours, and what they are called. A node and the merger have lines of
# one name, of which the second is the merger's.
LINES = (
    ("write data | 1/0/0", 2, "plain, as ours", ("write data, 1/0/0",)),
    ("1/0/0 | 64", 2, "plain, as ours", ("a node, 1/0/0, window 64", "the merger, 1/0/0, window 64")),
    ("8/4/1 | 64", 2, "plain, as ours", ("a node, 8/4/1, window 64", "the merger, 8/4/1, window 64")),
    ("32/32/8 | 64", 2, "plain, as ours", ("a node, 32/32/8, window 64", "the merger, 32/32/8, window 64")),
    ("8/4/1, one datagram in ten refused", 2, "plain, as ours", ("a node, 8/4/1, one datagram in ten refused",)),
    ("8/4/1, one PMU in four absent", 2, "plain, as ours", ("a node, 8/4/1, one PMU in four absent",)),
    ("16 puts, 4 ticks", 1, "plain ring", ("alignment, 48 rows open",)),
    ("fill the window, close it with one tick | 64", 1, "plain ring", ("alignment, a window of 64 filled",)),
)
# Functions below so many of a hundred of a side's steps are told together.
LEAST = 0.02


def steps_in(file):
    """The steps of each function itself, without those that it calls."""
    steps, name, is_call = Counter(), "", False
    with open(file, encoding="utf-8", errors="replace") as lines:
        for line in lines:
            if line.startswith("fn="):
                name = line[3:].strip()
            elif line.startswith("calls="):
                is_call = True
            elif cost := COST.match(line.strip()):
                # (behind a call stand the steps of what was called, which has its own)
                if not is_call:
                    steps[name] += int(cost[2])
                is_call = False
    return steps


def short(name):
    """A function's own name: its path's last word that is no closure, without types. The plain side's two forms of a check word are told
    together, and the C library's copies by the name of the call."""
    bare = re.sub(r"<[^<>]*>", "", re.sub(r"<[^<>]*>", "", name))
    words = [it for it in re.split(r"::|'", bare) if it and not it.startswith("{")]
    last = words[-1] if words else name
    if "::check::" in name and last.startswith("of"):
        return "check word"
    return re.sub(r"^__(mem[a-z]+)_.*", r"\1", last.removeprefix("dagluwis_"))


def told(steps, count):
    """The functions with most steps for each frame, datagram or put."""
    each = Counter()
    for name, number in steps.items():
        each[short(name)] += number / count
    whole = sum(each.values())
    most = [(name, number) for name, number in each.most_common() if number >= LEAST * whole]
    rest = whole - sum(number for _, number in most)
    return f"{whole:.0f}: " + ", ".join([f"`{name}` {number:.0f}" for name, number in most] + [f"other {rest:.0f}"])


def begin_of(sides, begin):
    """The name of the line that begins so."""
    return next(name for name, _ in sides if name.startswith(begin))


def main():
    folder = sys.argv[1]
    with open(f"{folder}/log", encoding="utf-8") as log:
        works = COUNTED.findall(log.read())
    parts = sorted(int(it[5:]) for it in os.listdir(folder) if it.startswith("part."))
    sides, opening = {}, None
    for (name, side, kind, count), part in zip(works, parts):
        steps = steps_in(f"{folder}/part.{part}")
        if kind == "opening":
            opening = steps
            continue
        key = (name, int(side))
        sides.setdefault(key, []).append((steps - opening if opening else steps, int(count)))
        opening = None
    print("| line | ours | beside it |\n|---|---|---|")
    for begin, other, beside, called in LINES:
        ours, plain = sides[begin_of(sides, begin), 0], sides[begin_of(sides, begin), other]
        for name, own, others in zip(called, ours, plain):
            print(f"| {name} | {told(*own)} | {beside}: {told(*others)} |")


if __name__ == "__main__":
    main()
