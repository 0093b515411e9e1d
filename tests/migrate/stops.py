"""Stops `migrate` at random moments, and has it meet a disk without room.

    stops.py PROGRAM SCRATCH [--entries N] [--kills N] [--step STEP] [--seed N]

After each stop the file is a book of edition 1 or of edition 2, by what its table `book` says, with all tables of that edition as they
have to be; and `migrate` again makes what one makes that isn't stopped. Of the lengths that files may have each STEPth is tried.
"""

import os
import random
import subprocess
import time

import compare
import large

import stopping
import tables
import tally

DONE = "book migrated"


class Ground:
    """The book of edition 1, and what has to stand once it is migrated."""

    def __init__(self, program, scratch, entries):
        self.program = program
        names = ("source", "stopped", "new", "whole")
        self.source, self.book, self.new, self.whole = (os.path.join(scratch, f"{name}.book") for name in names)
        large.make(self.source, entries)
        self.before = compare.Before(self.source)
        self.call("init", self.new)
        self.of_new = compare.schema_of(self.new)
        tables.copied(self.source, self.whole)
        begun = time.monotonic()
        self.first = self.call("migrate", self.whole)
        self.took = time.monotonic() - begun
        self.journal = self.call("journal", self.whole)
        self.gains = self.call("gains", self.whole)
        self.contents = tables.of_copy(self.whole, tables.contents)

    def call(self, word, book):
        done = subprocess.run([self.program, word, "--book", book], stdin=subprocess.DEVNULL, capture_output=True, timeout=600)
        return done.stdout.decode(), done.stderr.decode(), done.returncode

    def fresh(self):
        """The path of a book that is still to be migrated."""
        return tables.copied(self.source, self.book)

    def whole_fault(self):
        """What is wrong with the migration that isn't stopped, or nothing."""
        if self.first != (DONE + "\n", "", 0):
            return f"{self.first}"
        return compare.fault_of(self.before, self.whole, self.of_new)

    def fault_then(self, is_told):
        """What is wrong with the book after a stop, and once it is migrated again, or nothing; and the edition that the stop left."""
        edition, fault = compare.fault_of_either(self.before, self.book, self.of_new)
        if fault:
            return edition, fault
        if is_told and edition != 2:
            return edition, "it said that the book is migrated"
        if edition == 2 and (self.call("journal", self.book), self.call("gains", self.book)) != (self.journal, self.gains):
            return edition, "another journal, or other gains"
        again = self.call("migrate", self.book)
        if again != (DONE + "\n", "", 0):
            return edition, f"again: {again}"
        if fault := compare.fault_of(self.before, self.book, self.of_new):
            return edition, f"again: {fault}"
        return edition, "" if tables.of_copy(self.book, tables.contents) == self.contents else "again: other rows than without a stop"


def killed(ground, rng, kills):
    """What is wrong where the program is killed so often, or nothing."""

    def begin():
        words = [ground.program, "migrate", "--book", ground.fresh()]
        return subprocess.Popen(words, stdin=subprocess.DEVNULL, stdout=subprocess.PIPE)

    def moment(_):
        return rng.uniform(0, ground.took)

    return stopping.killed(kills, begin, moment, DONE, lambda _, is_told: ground.fault_then(is_told), early=1)


def roomless(ground, room):
    """What is wrong where no file may be longer than so many bytes, or nothing; and what was said."""
    words = [ground.program, "migrate", "--book", ground.fresh()]
    done = subprocess.run(words, stdin=subprocess.DEVNULL, capture_output=True, timeout=600, preexec_fn=stopping.limited(room))
    said = done.stdout.decode()
    fault = stopping.fault_of_limited(said, done.returncode, done.stderr, DONE, stopping.TOO_LARGE + b"\n")
    return fault or ground.fault_then(done.returncode == 0)[1], said


def rooms(ground, step):
    """What is wrong where files may be of several lengths, or nothing: some that the log passes, some that the book's file does."""
    size = os.path.getsize(ground.source)
    lengths = [*range(0, 400 * 1024, 16 * 1024), *(size + pages * tables.PAGE for pages in range(-8, 40, 4))]
    return stopping.without_room(lengths[::step], 4 * size, lambda room: roomless(ground, room), DONE)


def main():
    words = tally.words("program", "scratch", entries=3003, kills=100, step=1, seed=1).parse_args()
    ground = Ground(words.program, words.scratch, words.entries)
    rng = random.Random(words.seed)
    tally.check("a migration without a stop", ground.whole_fault())
    tally.check(f"killed {words.kills} times, a book is of one edition or of the other", killed(ground, rng, words.kills))
    tally.check("without room for the log or for the file", rooms(ground, words.step))


if __name__ == "__main__":
    main()
    tally.end()
