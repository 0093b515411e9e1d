"""Stops `restore` at random moments, and has it meet a disk without room.

    stopped.py PROGRAM SCRATCH [--entries N] [--kills N] [--rooms N] [--seed N]

After each stop the file is `S1 NotABook` to every other word and has no tables, or it is the whole book, which it is where the program said
so. Then `restore` takes the one again, and leaves the other as it is.
"""

import os
import random
import sqlite3
import subprocess
import time

import ground

import stopping
import tables
import tally

DONE = "book restored"
SURE = ([DONE], 0, b"")
NOT_A_BOOK = (["fault S1 NotABook"], 4)
NEAR_THE_END = (0.8, 1.1)  # in parts of the time that a call takes: there it commits


class Dump:
    """A dump in a file, and what is made of it without a stop."""

    def __init__(self, program, scratch, entries):
        self.program = program
        self.first, self.book, self.input = (os.path.join(scratch, name) for name in ("first.book", "stopped.book", "dump"))
        ground.made(program, self.first, ground.ledger(entries))
        self.text, self.contents = ground.dump(program, self.first), ground.contents(self.first)
        if len(self.contents["entry"]) != entries:
            raise RuntimeError("not all commands were accepted")
        with open(self.input, "wb") as file:
            file.write(self.text)
        self.digest = ground.digest(program, self.first)
        begun = time.monotonic()
        self.answer = ground.restore(program, tables.removed(self.book), self.text)
        self.took = time.monotonic() - begun
        self.size = os.path.getsize(self.book)

    def whole_fault(self):
        """What is wrong with restoring it without a stop, or nothing."""
        return f"{self.answer}" if self.answer != SURE else ground.difference(self.first, self.book)

    def is_whole(self):
        """Whether a copy of the file is the book, by the program; raises where it is neither that nor none."""
        copy = tables.copied(self.book, self.book + ".asked", tables.ENDS)
        output, status, _ = ground.call(self.program, ["verify", "--book", copy, "--digest"])
        tables.removed(copy)
        if (output, status) == (b"fault S1 NotABook\n", 4):
            return False
        if output.decode() != "book verified\n" + self.digest:
            raise ValueError(f"the file is another one: {output!r}, status {status}")
        return True

    def fault_then(self, is_told, asks_all):
        """What is wrong with the file after a stop, and once the dump is restored again, or nothing; and whether it was the book."""
        try:
            is_whole = self.is_whole()
        except ValueError as error:
            return None, f"{error}"
        if is_told and not is_whole:
            return is_whole, "it said that the book is restored"
        if is_whole:
            if ground.contents(self.book) != self.contents:
                return is_whole, "other rows than without a stop"
            return is_whole, "" if ground.restore(self.program, self.book, self.text)[:2] == NOT_A_BOOK else "the book is taken for none"
        try:
            if not ground.is_empty(self.book):
                return is_whole, "there are tables"
        except sqlite3.Error:
            pass  # a file that was cut in its first write
        if asks_all and (fault := ground.fault_of_unfinished(self.program, self.book)):
            return is_whole, fault
        if (again := ground.restore(self.program, self.book, self.text)) != SURE:
            return is_whole, f"again: {again}"
        return is_whole, "" if ground.contents(self.book) == self.contents else "again: other rows than without a stop"


def killed(dump, rng, kills):
    """What is wrong where the program is killed so often, or nothing; each second time near its end."""

    def begin():
        tables.removed(dump.book)
        with open(dump.input, "rb") as text:
            return subprocess.Popen([dump.program, "restore", "--book", dump.book], stdin=text, stdout=subprocess.PIPE)

    def moment(number):
        return dump.took * rng.uniform(*(NEAR_THE_END if number % 2 else (0, 1)))

    def fault_then(number, is_told):
        return dump.fault_then(is_told, number % 8 == 0)

    return stopping.killed(kills, begin, moment, DONE, fault_then, early=False)


def roomless(dump, room):
    """What is wrong where no file may be longer than so many bytes, or nothing; and what was said."""
    words = ["restore", "--book", tables.removed(dump.book)]
    output, status, errors = ground.call(dump.program, words, dump.text, preexec_fn=stopping.limited(room))
    fault = stopping.fault_of_limited(output.decode(), status, errors, DONE)
    return fault or dump.fault_then(status == 0, True)[1], output.decode()


def rooms(dump, count):
    """What is wrong where files may be of several lengths, or nothing."""
    lengths = [at * tables.PAGE if at < 4 else at * dump.size * 3 // (2 * count) for at in range(count)]
    return stopping.without_room(lengths, 8 * dump.size, lambda room: roomless(dump, room), DONE)


def main():
    words = tally.words("program", "scratch", entries=1500, kills=40, rooms=24, seed=1).parse_args()
    dump = Dump(words.program, words.scratch, words.entries)
    rng = random.Random(words.seed)
    tally.check(f"{words.entries:,} entries without a stop", dump.whole_fault())
    tally.check(f"killed {words.kills} times, it is the whole book or none", killed(dump, rng, words.kills))
    tally.check("without room for the log or for the file", rooms(dump, words.rooms))


if __name__ == "__main__":
    main()
    tally.end()
