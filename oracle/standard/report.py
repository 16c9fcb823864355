#!/usr/bin/env python3
"""Sums up what `compare compare` counted, as tables of Markdown: report.py CLASSES FILE.."""

import sys
from collections import Counter

FEEDS = ["mixed", "extreme", "speech", "truncated", "sample", "watch"]
KINDS = ["reset", "open", "pitch", "pulses", "gain", "filter", "lag"]
KINDS += ["fresh", "watch", "spectrum", "limit", "commit", "refused"]


def row(cells):
    print("| " + " | ".join(str(cell) for cell in cells) + " |")


def table(head, rows):
    row(head)
    print("|" + "---|" * len(head))
    for cells in rows:
        row(cells)
    print()


def names_of(file):
    """The names of classes by kind and place, in the order of their text."""
    names, name = {}, ""
    for line in open(file):
        word, _, rest = line.rstrip("\n").partition(" ")
        if word == "class":
            name = rest
        elif word == "where":
            names[name.partition(":")[0], rest] = name.partition(": ")[2]
    return names


def main():
    names = names_of(sys.argv[1])
    compared, standard, package, classes = Counter(), Counter(), Counter(), Counter()
    cases = Counter()
    for name in sys.argv[2:]:
        for line in open(name):
            what, feed, kind, *rest = line.rstrip("\n").split("\t")
            if what == "count":
                compared[feed, kind] += int(rest[0])
                standard[feed, kind] += int(rest[1])
                package[feed, kind] += int(rest[2])
            elif what == "case":
                cases[kind, rest[0]] += int(rest[1])
            else:
                classes[feed, kind, names.get((kind, rest[0]), rest[0])] += int(rest[1])

    def over(counts, kinds):
        return sum(counts[feed, kind] for feed in FEEDS for kind in kinds)

    print("Records compared, and in brackets those that the package answers otherwise:\n")
    rows = [
        [kind]
        + [f"{compared[feed, kind]} ({package[feed, kind]})" for feed in FEEDS]
        + [over(counts, [kind]) for counts in (compared, standard, package)]
        for kind in KINDS
    ]
    totals = [over(counts, KINDS) for counts in (compared, standard, package)]
    sums = [
        f"{sum(compared[feed, kind] for kind in KINDS)} ({sum(package[feed, kind] for kind in KINDS)})"
        for feed in FEEDS
    ]
    rows.append(["all"] + sums + totals)
    table(["kind"] + FEEDS + ["compared", "standard differs", "package differs"], rows)

    print("Where the package leaves the quoted standard:\n")
    order = {(kind, name): place for place, ((kind, _), name) in enumerate(names.items())}
    found = {
        (KINDS.index(kind), order.get((kind, name), len(order)), name) for _, kind, name in classes
    }
    rows = []
    for kind, _, name in sorted(found):
        counts = [classes[feed, KINDS[kind], name] for feed in FEEDS]
        rows.append([KINDS[kind], name] + counts + [sum(counts)])
    table(["kind", "where"] + FEEDS + ["all"], rows)
    print("Cases that the records of the watch must meet:\n")
    table(["kind", "case", "records"], [[*case, count] for case, count in cases.items()])
    never = [f"{kind}: {case}" for (kind, case), count in cases.items() if count == 0]
    never += [kind for kind in KINDS if over(compared, [kind]) == 0]
    for case in never:
        print(f"never met: {case}")
    print(f"{totals[0]} compared, standard {totals[1]} differ, package {totals[2]} differ")
    sys.exit(1 if totals[1] or never else 0)


main()
