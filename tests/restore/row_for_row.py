"""Restores the dumps of two large books, and compares each row of each table: one of edition 2, and one that `migrate` took over.

    row_for_row.py PROGRAM SCRATCH [--entries N]

The answers have to come within some minutes, and in at most 100 MB of memory for 100,000 entries.
"""

import os
import subprocess
import sys
import time

import ground

import large
import tables
import tally

MOST_SECONDS = 300  # on a machine with much other work; bench/restore.sh has the time
MOST_KIB = 100_000  # for 100,000 entries


# Runs a call, and says its most memory. A call that were started here would count this process, which holds rows of books.
RUN = """
import resource, subprocess, sys
status = subprocess.run(sys.argv[1:]).returncode
print(resource.getrusage(resource.RUSAGE_CHILDREN).ru_maxrss, file=sys.stderr)
sys.exit(status)
"""


def measured(program, path, dump):
    """What a call of `restore` answers, its seconds, and its most memory in KiB."""
    begun = time.monotonic()
    call = [sys.executable, "-c", RUN, program, "restore", "--quiet", "--book", tables.removed(path)]
    with open(dump, "rb") as text:
        ended = subprocess.run(call, stdin=text, capture_output=True, check=False)
    return (ended.stdout, ended.returncode), time.monotonic() - begun, int(ended.stderr)


def fault_of(program, first, scratch, entries):
    """What is wrong with restoring the dump of a book, or nothing."""
    new, dump = (os.path.join(scratch, name) for name in ("new.book", "dump"))
    with open(dump, "wb") as file:
        file.write(ground.dump(program, first))
    answer, seconds, kib = measured(program, new, dump)
    if answer != (b"book restored\n", 0):
        return f"{answer}"
    count = len(ground.contents(new)["entry"])
    if count != entries:
        return f"{count} entries"
    if fault := ground.difference(first, new):
        return fault
    if ground.digest(program, new) != ground.digest(program, first):
        return "another digest"
    if seconds > MOST_SECONDS or kib > MOST_KIB * max(1, entries / 100_000):
        return f"{seconds:.1f} s, {kib} KiB"
    return ""


def posted(program, path, entries):
    ground.made(program, path, ground.ledger(entries), "a", ["--all-or-none"])


def migrated(program, path, entries):
    large.make(tables.removed(path), entries)
    ground.sure(program, ["migrate", "--book", path])


def main():
    words = tally.words("program", "scratch", entries=100_000).parse_args()
    first = os.path.join(words.scratch, "first.book")
    for name, make in (("a book", posted), ("a migrated book", migrated)):
        make(words.program, first, words.entries)
        tally.check(f"{name} of {words.entries:,} entries, row for row", fault_of(words.program, first, words.scratch, words.entries))


if __name__ == "__main__":
    main()
    tally.end()
