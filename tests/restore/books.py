"""Restores the dumps of books of every kind, and compares what is made with the first book, table by table and row for row.

    books.py PROGRAM SCRATCH [--first SEED] [--count N] [--migrated FOLDER]

Ledgers drawn from seeds: of edition 2, of edition 1 that `migrate` took over with commands behind it, and with crumbs. The books of
FOLDER, which a program of edition 1 wrote. Rows of a broker whose references have every byte, blanks and semicolons. Each is restored
twice, and what is restored has the schema of a new book, the dump of the first and its digest.
"""

import collections
import concurrent.futures
import csv
import functools
import gzip
import io
import os
import random

import ground
import plain
import rows

import changed
import draw
import large
import model
import spell
import tables
import tally

A_CASE = 25  # seeds
AT_LEAST = 3
KINDS = ("a tie that edition 1 decided otherwise", "a command of edition 2 behind a migration", "a refused command", "a command with crumbs")

# References that look like other lines of a dump, or have blanks where a reader could cut.
REFERENCES = [
    *changed.EACH_LABEL, " ", " a", "a ", "a  b", ";", "; end 1 sha256 " + "0" * 40, "; entry 2 key post:a 2", "1 key post:a 1", "post:a 1",
    "2020-01-01 open Assets:A", "* a", "key", "entry 3",
]  # fmt: skip


def fault_of(program, book, *options):
    """What is wrong with restoring the dump of a book, or nothing."""
    text, digest = ground.dump(program, book), ground.digest(program, book)
    if not text.decode().endswith(f"; end {digest}"):
        return f"the digest {digest!r} isn't that of the dump"
    new = book + ".new"
    sure = (["book restored"], 0, b"")
    for again in (0, 1):
        if (got := ground.restore(program, tables.removed(new), text, *options)) != sure:
            return f"{'again: ' * again}{got[0][-2:]}, status {got[1]}, {got[2][-200:]}"
        if fault := ground.difference(book, new):
            return "again: " * again + fault
    if ground.dump(program, new) != text:
        return "another dump"
    if (found := ground.digest(program, new)) != digest:
        return f"the digest {found!r} instead of {digest!r}"
    tables.removed(new)
    return ""


# ---- books


def drawn(program, path, seed, seen):
    """Of a ledger of edition 2."""
    drawing = draw.small(seed)
    text = spell.Speller(drawing.rng).ledger([it.command for it in drawing.judged])
    seen["a refused command"] += any(it.refused for it in drawing.judged)
    ground.made(program, path, text, "r")


def crumbs(program, path, seed, seen):
    """Of a ledger with a rounding account, whose completed commands the book has."""
    drawing = draw.with_crumbs(seed)
    text = spell.Speller(drawing.rng).ledger([it.command for it in drawing.judged])
    account, within, decimals = drawing.rounding
    options = ["--rounding", account, "--within", model.number_text(within), "--decimals", str(decimals)]
    ground.made(program, path, text, "r", options)
    seen["a command with crumbs"] += any(it.entry and it.entry.command != it.command for it in drawing.judged)


def migrated(program, path, seed, seen):
    """Of a ledger whose first commands a program of edition 1 judged."""
    rng, drawing = random.Random(seed), draw.small(seed)
    commands = [it.command for it in drawing.judged]
    at = rng.randint(0, len(commands))
    book, other = plain.Book(), plain.Book()
    for number, command in enumerate(commands[:at], 1):
        for edition, it in ((1, book), (2, other)):
            try:
                it.take(edition, plain.Key("post:r", str(number)), command)
            except model.Refused:
                pass
    seen["a tie that edition 1 decided otherwise"] += book.entries != other.entries
    rows.write(tables.removed(path), book)
    ground.sure(program, ["migrate", "--book", path])
    text = spell.Speller(drawing.rng).ledger(commands)
    before = len(ground.contents(path)["entry"])
    ground.sure(program, ["post", "--quiet", "--book", path, "--batch", "r", "--from", str(at + 1)], text)
    seen["a command of edition 2 behind a migration"] += 0 < before < len(ground.contents(path)["entry"])


def of_seed(program, scratch, make, seed):
    """What is wrong with the book of a seed, or nothing, and what occurred in it."""
    path, seen = os.path.join(scratch, f"{make.__name__}-{seed}.book"), collections.Counter()
    make(program, path, seed, seen)
    fault = fault_of(program, path, *["--edited"] * (seed % 5 == 0))
    tables.removed(path)
    return fault, seen


def broker(program, path):
    """Of rows under keys with every byte that a label may have."""
    accounts = "".join(f"2020-01-01 open {it}\n" for it in ("Assets:Broker", "Assets:Cash", "Expenses:Fees", "Income:Gains"))
    ground.made(program, path, accounts.encode())
    text = io.StringIO()
    written = csv.writer(text, lineterminator="\n")
    written.writerow(ground.HEADER.decode().strip().split(","))
    written.writerows([it, "2020-01-02", "BUY", "HOOL", "1", "100", "USD", ""] for it in REFERENCES)
    for batch in ("deals", "a.b-c_"):
        ground.sure(program, ["import", "--quiet", "--book", path, "--batch", batch, *ground.ACCOUNTS], text.getvalue().encode())
    names = {name for _, source, name, _ in ground.contents(path)["entry"] if source.startswith("import:")}
    return fault_of(program, path) if names == {*REFERENCES} else f"not all rows were taken: {sorted({*REFERENCES} - names)[:3]}"


def stored(program, path, folder):
    """Of a book that a program of edition 1 wrote, migrated, and then with later sales."""
    with gzip.open(os.path.join(folder, "book.gz")) as packed, open(tables.removed(path), "wb") as file:
        file.write(packed.read())
    ground.sure(program, ["migrate", "--book", path])
    if fault := fault_of(program, path):
        return fault
    with open(os.path.join(folder, "later.ledger"), "rb") as later:
        ground.sure(program, ["post", "--quiet", "--book", path, "--batch", "later"], later.read())
    return fault_of(program, path)


def large_book(program, path):
    large.make(tables.removed(path), 1203)
    ground.sure(program, ["migrate", "--book", path])
    return fault_of(program, path)


def older(program, path):
    tables.older(tables.removed(path))
    ground.sure(program, ["migrate", "--book", path])
    return fault_of(program, path)


def empty(program, path):
    ground.made(program, path, b"")
    return fault_of(program, path)


def main():
    words = tally.words("program", "scratch", first=1, count=50)
    words.add_argument("--migrated")
    words = words.parse_args()
    single = [("an empty book", empty, ()), ("a book whose ties edition 1 decided", older, ()), ("a migrated book of 1,203 entries", large_book, ())]
    single.append(("keys with blanks, semicolons and every other byte", broker, ()))
    for name in sorted(os.listdir(words.migrated)) if words.migrated else ():
        if os.path.exists(os.path.join(words.migrated, name, "book.gz")):
            single.append((f"the migrated book {name}, and with later sales", stored, (os.path.join(words.migrated, name),)))
    with concurrent.futures.ProcessPoolExecutor(os.cpu_count()) as pool:
        jobs = [(name, pool.submit(make, words.program, os.path.join(words.scratch, f"single-{at}.book"), *more)) for at, (name, make, more) in enumerate(single)]
        for name, job in jobs:
            tally.check(name, job.result())
    cases = []
    for make in (drawn, migrated, crumbs):
        compare = functools.partial(of_seed, words.program, words.scratch, make)
        cases += tally.drawn(f"the {make.__name__} books of the seeds {{}} to {{}}", compare, words, A_CASE)
    tally.occurs(KINDS, tally.sweep(cases), AT_LEAST, "{0}: in {1} books")


if __name__ == "__main__":
    main()
    tally.end()
