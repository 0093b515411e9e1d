#!/usr/bin/env python3
"""How long the gate takes by the clock on so many processors, computed from what each part of it costs.

    bench/schedule.py LOG [PROCESSORS..]      (1, 2, 4 and 8, where none are given)

LOG is a log of bench/gate.sh: its lines `cost CRATE KIND SECONDS` are read, and what a crate stands on from crates.txt. A crate is
proved when all that it stands on is proved, and its tests and its edits begin then; of what may begin, the part with the longest chain
of crates behind it comes first, as in the kit's gate. A part takes one processor. So it is what a quiet machine with as many
processors would take if a part cost there what it cost in the log; linking, runs and scripts come after it, one after another.
"""
import heapq
import os
import sys

TOP = os.path.dirname(os.path.dirname(os.path.realpath(__file__)))


def stands_on():
    """Returns for each crate of crates.txt those of them that it stands on."""
    with open(f"{TOP}/crates.txt", encoding="utf-8") as lines:
        said = dict(line.split(":") for line in lines if line.strip() and not line.startswith("#"))
    return {crate: [it for it in used.split() if it in said] for crate, used in said.items()}


def parts_of(log):
    """Returns the seconds of each part, `(crate, kind)`, and those of the whole run beside them."""
    costs, total = {}, 0.0
    with open(log, encoding="utf-8", errors="replace") as lines:
        for words in map(str.split, lines):
            if len(words) == 4 and words[0] == "cost":
                costs[words[1], words[2]] = costs.get((words[1], words[2]), 0.0) + float(words[3])
            elif len(words) == 4 and words[0] == "total":
                total = float(words[2])
    return costs, max(0.0, total - sum(costs.values()))


def minutes(costs, uses, processors):
    """Returns the minutes until all parts have ended."""
    waits = {part: {(it, "proofs") for it in uses.get(part[0], []) if (it, "proofs") in costs} for part in costs}
    for crate, kind in costs:
        if kind != "proofs" and (crate, "proofs") in costs:
            waits[crate, kind].add((crate, "proofs"))
    behind = {}

    def chain(part):
        if part not in behind:
            behind[part] = costs[part] + max((chain(it) for it, of in waits.items() if part in of), default=0.0)
        return behind[part]

    ready = [(-chain(it), it) for it in costs if not waits[it]]
    heapq.heapify(ready)
    running, now = [], 0.0
    while ready or running:
        while ready and len(running) < processors:
            part = heapq.heappop(ready)[1]
            heapq.heappush(running, (now + costs[part], part))
        now, ended = heapq.heappop(running)
        for part, of in waits.items():
            if ended in of:
                of.remove(ended)
                if not of:
                    heapq.heappush(ready, (-chain(part), part))
    return now / 60


def main(log, *processors):
    costs, rest = parts_of(log)
    if not costs:
        sys.exit("schedule: this log has no costs")
    print(f"{sum(costs.values()) / 60:.1f} processor minutes in {len(costs)} parts, and {rest / 60:.1f} beside them")
    for count in map(int, processors or (1, 2, 4, 8)):
        print(f"{count} processors: {minutes(costs, stands_on(), count) + rest / 60:.0f} minutes")


if __name__ == "__main__":
    if len(sys.argv) < 2:
        sys.exit(__doc__)
    main(*sys.argv[1:])
