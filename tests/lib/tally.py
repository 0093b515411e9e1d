"""What the scripts in Python here share: cases that are counted, the words that a script takes, and cases that are drawn from seeds.

A case is one line, `ok NAME` or `FAILED NAME: ..`. A script ends with `end`, whose line is `N passed, M failed`, and whose status is 1
where a case failed. `run_python` of cases.sh counts these lines; without the last one the script has ended early.
"""

import argparse
import collections
import concurrent.futures
import os
import sys

MOST_SEEDS = 10  # that are named where a case fails

passed = failed = 0


def check(name, fault="", said=""):
    """Tells a case, and what is wrong with it, or nothing. What is said of it besides ends its line."""
    global passed, failed
    if fault:
        failed += 1
        line = f"FAILED {name}: {fault}" + (said and f"; {said}")
    else:
        passed += 1
        line = f"ok {name}" + (said and f": {said}")
    print(line.replace("\n", "|"), flush=True)


def end():
    """Prints the last line and ends the script."""
    print(f"{passed} passed, {failed} failed", flush=True)
    sys.exit(1 if failed else 0)


def words(*names, **numbers):
    """What reads the words of a script: these, in their order, and options with a number, which is as given here where it isn't given there."""
    parser = argparse.ArgumentParser()
    for name in names:
        parser.add_argument(name)
    for name, number in numbers.items():
        parser.add_argument(f"--{name}", type=int, default=number)
    return parser


# ---- cases that are drawn from seeds


def drawn(name, compare, words, size):
    """The cases, for `sweep`, of --count seeds from --first on, so many seeds a case. The name has the first and the last one in its braces."""
    for first in range(words.first, words.first + words.count, size):
        seeds = range(first, min(first + size, words.first + words.count))
        yield name.format(seeds[0], seeds[-1]), (of_seeds, compare, seeds)


def of_seeds(compare, seeds):
    """What is wrong, by seed, and what occurs: `compare` returns both of a seed, the first empty where nothing is wrong."""
    differing, census = {}, collections.Counter()
    for seed in seeds:
        found, seen = compare(seed)
        census += seen
        if found:
            differing[seed] = found
    return differing, census


def sweep(cases):
    """Works at the cases side by side and tells each. Each is a name and a call, a function with its words, that returns what `of_seeds` does.
    What is wrong goes to standard error in full. Returns what occurs in all of them."""
    census = collections.Counter()
    with concurrent.futures.ProcessPoolExecutor(os.cpu_count()) as processes:
        for name, job in [(name, processes.submit(*call)) for name, call in cases]:
            differing, seen = job.result()
            census += seen
            for seed, found in differing.items():
                print(f"=== seed {seed}\n{found}", file=sys.stderr)
            seeds = " ".join(map(str, list(differing)[:MOST_SEEDS]))
            check(name, f"seeds {seeds}, {len(differing)} in all" if differing else "")
    return census


def occurs(kinds, census, least, told="{0}: {1} times"):
    """A case for each kind, which has to occur at least so many times; `told` is its line, with that number."""
    for kind in kinds:
        times = census[kind]
        check(told.format(kind, times), "" if times >= least else f"it occurs {times} times, of at least {least}")
