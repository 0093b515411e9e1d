"""Restores dumps that were edited at random, beside the plain restorer: the same lines and the same status, and where a book is made, each
row of each table that the plain book has.

    edited.py PROGRAM SCRATCH [--first SEED] [--count N]

The dumps are those of ledgers drawn from seeds, of edition 2, or of edition 1 with commands behind their migration. A case is the texts
of 25 seeds, or a kind of answer, which has to occur at least some times.
"""

import collections
import functools
import hashlib
import os
import random
import re
import sys

import books
import ground
import plain
import rows

import mutate
import tables
import tally

A_CASE = 25  # seeds
EDITS = 4  # texts of a seed
AT_LEAST = 3
KINDS = (
    "book restored", "a book of the accepted ones", "nothing made", "a dry run", "refused", "L1 KeyReused", "D1 NotADump", "D2 NewerFormat",
    "D3 WrongDigest", "D4 WrongCount", "line X", "a refusal before a fault", "without met nothing", "without-batch met nothing",
    "without-entries met nothing", "entries left out", "gains differ", "held differ", "nothing differs", "a place that falls",
    "an entry that edition 1 judges again",
)  # fmt: skip


class Text:
    """A dump in its parts: what its head and its end say, and for each entry a number, a key and a body."""

    def __init__(self, data):
        lines = data.decode().splitlines(keepends=True)
        self.head = [int(it) for it in re.findall("[0-9]+", lines[0])]
        self.parts = []
        for line in lines[1:-1]:
            if found := re.fullmatch("; entry ([0-9]+) key (.+)\n", line):
                self.parts.append([int(found[1]), found[2], ""])
            else:
                self.parts[-1][2] += line
        self.count, self.is_honest = self.head[3], False

    def data(self):
        text = "; lotbook dump {} edition {} migrated {} entries {}\n".format(*self.head)
        text += "".join(f"; entry {number} key {key}\n{body}" for number, key, body in self.parts)
        digest = hashlib.sha256(text.encode()).hexdigest() if self.is_honest else "0" * 64
        return f"{text}; end {self.count} sha256 {digest}\n".encode()


def leave_out(rng, text):
    text.parts.pop(rng.randrange(len(text.parts)))


def double(rng, text):
    at = rng.randrange(len(text.parts))
    text.parts.insert(at, [*text.parts[at]])


def swap(rng, text):
    """Two neighbours change places, mostly under the numbers that stood there."""
    at = rng.randrange(len(text.parts) - 1)
    one, other = text.parts[at : at + 2]
    if rng.random() < 0.8:
        one[0], other[0] = other[0], one[0]
    text.parts[at : at + 2] = other, one


def put_in(rng, text):
    """A command of the dump once more, under another key and the number of the one before."""
    at = rng.randrange(len(text.parts))
    text.parts.insert(at + 1, [text.parts[at][0], f"post:more {rng.randint(1, 3)}", rng.choice(text.parts)[2]])


def change(rng, text):
    part = rng.choice(text.parts)
    part[2] = mutate.changed_token(rng, part[2].encode()).decode(errors="replace")


def change_number(rng, text):
    part = rng.choice(text.parts)
    part[2] = re.sub(r"(?<=[ {])[1-9][0-9]*(?=[ .])", lambda found: str(rng.choice((1, 2, 5, int(found[0]) + 1))), part[2], count=1)


def say_otherwise(rng, text):
    """What the head or the end says."""
    if rng.random() < 0.5:
        text.count += rng.choice((-1, 1)) if text.count else 1
    else:
        text.head[3] += 1


def move_place(rng, text):
    text.head[2] = rng.randint(0, len(text.parts) + 1)


def newer(rng, text):
    text.head[rng.randint(0, 1)] += rng.choice((1, 1, -1, 2**32))


MANY = (leave_out, leave_out, double, swap, put_in, put_in, change, change_number, change_number, say_otherwise, move_place)


def edited(rng, data):
    """A changed text of a dump."""
    text = Text(data)
    text.is_honest = rng.random() < 0.4
    if len(text.parts) > 2:
        for _ in range(rng.choice((0, 1, 1, 2, 3))):
            rng.choice(MANY)(rng, text)
    if rng.random() < 0.06:
        newer(rng, text)
    data = text.data()
    return mutate.mutated(rng, data) if rng.random() < 0.05 else data


def options_of(rng, data):
    """What is left out."""
    keys = re.findall("^; entry ([0-9]+) key ([^ ]+) (.+)$", data.decode(errors="replace"), re.MULTILINE)
    found = []
    while keys and rng.random() < 0.35:
        number, source, name = rng.choice(keys)
        odd = rng.random() < 0.3
        number = int(number) if 0 < int(number) < 1000 else 1
        found.append(rng.choice((
            plain.Without("without", f"{source} {name}{'x' * odd}"),
            plain.Without("without-batch", "post:other" if odd else source),
            plain.Without("without-entries", "1000-2000" if odd else f"{number}-{number + rng.randint(0, 2)}"),
        )))  # fmt: skip
    return [it for it in found if plain.is_label(it.value.split(" ")[0]) and plain.is_label(it.value.partition(" ")[2] or "x")]


def note(seen, answer, lines, without, data, is_dry):
    last = answer.lines[-1:] or [""]
    seen["a dry run"] += is_dry
    seen["book restored"] += answer.status == 0
    seen["a book of the accepted ones"] += answer.status == 1 and answer.book is not None
    seen["nothing made"] += answer.book is None
    seen["refused"] += any(" refused " in it for it in answer.lines)
    seen["L1 KeyReused"] += any(it.endswith(" refused L1 KeyReused") for it in answer.lines)
    for code in ("D1 NotADump", "D2 NewerFormat", "D3 WrongDigest", "D4 WrongCount"):
        seen[code] += last[0] == f"fault {code}"
    seen["line X"] += last[0].startswith("fault line ")
    seen["a refusal before a fault"] += len(answer.lines) > 1 and last[0].startswith("fault ")
    for option in plain.ORDER:
        seen[f"{option} met nothing"] += any(it.startswith(option + " ") and it.endswith(" met nothing") for it in answer.lines)
    seen["entries left out"] += bool(without) and answer.book is not None
    seen["gains differ"] += any(it.startswith("gains ") for it in lines)
    seen["held differ"] += any(it.startswith("held ") for it in lines)
    if answer.book is not None:
        place = int(data.split(b" ")[7])
        seen["a place that falls"] += answer.book.place < place
        seen["an entry that edition 1 judges again"] += answer.book.place > 0


def fault_of(program, path, rng, original, first, seen):
    """What is wrong with one edited text, or nothing. `original` is the dump, `first` the path of its book."""
    data = edited(rng, original)
    without = options_of(rng, data)
    is_edited, keeps_going, compares, is_dry = (rng.random() < chance for chance in (0.6, 0.4, 0.5, 0.25))
    answer = plain.restored(data, without, is_edited, keeps_going)
    lines = plain.differences(answer.book.entries, plain.restored(original).book.entries) if compares and answer.book is not None else []
    seen["nothing differs"] += compares and answer.book is not None and not lines
    note(seen, answer, lines, without, data, is_dry)
    options = [word for it in without for word in ("--" + it.option, it.value)]
    options += ["--edited"] * is_edited + ["--keep-going"] * keeps_going + ["--dry-run"] * is_dry + ["--compare", first] * compares
    got = ground.restore(program, tables.removed(path), data, *options)
    wanted = [*answer.lines, *lines], 4 if lines and lines[-1] == "fault P1 Range" else answer.status
    words = " ".join(options)
    if got[:2] != wanted or ground.notes.without(got[2]):
        print(f"=== {words}\n{data.decode(errors='replace')}--- wanted\n{wanted}\n--- got\n{got}", file=sys.stderr)
        return f"with {words}: {got[0][-3:]}, status {got[1]} instead of {wanted[0][-3:]}, status {wanted[1]}"
    if is_dry and os.path.exists(path):
        return f"with {words}: a dry run made a file"
    if answer.book is None or is_dry:
        return "" if ground.is_empty(path) else f"with {words}: there are tables"
    if ground.contents(path) != rows.Rows(answer.book).sorted():
        return f"with {words}: other rows than those of the plain book"
    return "" if ground.dump(program, path) == plain.dump(answer.book) else f"with {words}: another dump than that of the plain book"


def of_seed(program, scratch, seed):
    """What is wrong with the texts of a seed, or nothing, and what occurred in them."""
    rng, seen = random.Random(seed), collections.Counter()
    first, path = (os.path.join(scratch, f"{name}-{seed}.book") for name in ("first", "edited"))
    (books.migrated if seed % 2 else books.drawn)(program, first, seed, collections.Counter())
    original = ground.dump(program, first)
    faults = [fault_of(program, path, rng, original, first, seen) for _ in range(EDITS)]
    tables.removed(first)
    tables.removed(path)
    return "\n".join(filter(None, faults)), seen


def main():
    words = tally.words("program", "scratch", first=1, count=100).parse_args()
    compare = functools.partial(of_seed, words.program, words.scratch)
    census = tally.sweep(tally.drawn("the edited dumps of the seeds {} to {}", compare, words, A_CASE))
    tally.occurs(KINDS, census, AT_LEAST)


if __name__ == "__main__":
    main()
    tally.end()
