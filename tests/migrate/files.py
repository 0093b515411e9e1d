"""Files of every kind that `migrate` is called on: books of edition 1 of other forms, and all that it refuses.

    files.py PROGRAM SCRATCH

What is refused is named, with status 4, and every table is as before; of what is no book of edition 1 or 2 the answer is that of
`holdings` and of a post of nothing, and what they leave.
"""

import os
import subprocess
import sys

import compare
import large

import changed
import notes
import tables
import tally

NOT_A_BOOK, NEWER, DAMAGED = "fault S1 NotABook", "fault S2 NewerEdition", "fault S7 Damaged"
MIGRATED = ("book migrated\n", "", 0)


def call(program, word, book, *more):
    done = subprocess.run([program, word, "--book", book, *more], stdin=subprocess.DEVNULL, capture_output=True, timeout=600)
    return done.stdout.decode(), done.stderr.decode(), done.returncode


def held(path):
    """All that the database at this path holds, its schema and its rows, in any order."""

    def read(copy):
        with tables.connect(copy) as db:
            return changed.dump(db)

    return tables.of_copy(path, read)


# ---- books of edition 1 of other forms


def empty(path):
    with tables.connect(path) as db:
        large.tables_of_edition_1(db)


def logged(path):
    """A book whose rows stand in its log alone, as where the program that wrote them was killed."""
    source = tables.removed(path + ".source")
    with tables.connect(source) as db:
        db.execute("PRAGMA journal_mode = WAL")
        db.execute("PRAGMA wal_autocheckpoint = 0")
        with open(tables.OLDER, encoding="utf-8") as text:
            db.executescript(text.read())
        tables.copied(source, path)
    tables.removed(source)


def rewritten(path):
    """A book that SQLite's own library has written anew, with a journal instead of a log."""
    tables.older(path)
    with tables.connect(path) as db:
        db.execute("PRAGMA journal_mode = DELETE")
        db.execute("VACUUM")


FORMS = {
    "a book without entries": empty,
    "a book whose rows stand in its log": logged,
    "a book that was written anew": rewritten,
    "a book of a thousand entries": lambda path: large.make(path, 1000),
}


def fault_of_form(program, path, make, of_new):
    make(tables.removed(path))
    before = compare.Before(path)
    if not before.rows["book"]:
        return "the case has no book"
    got = call(program, "migrate", path)
    if got != MIGRATED:
        return f"{got}"
    if fault := compare.fault_of(before, path, of_new):
        return fault
    there = tables.bytes_of(path)
    again = call(program, "migrate", path)
    if again != MIGRATED or tables.bytes_of(path) != there:
        return f"again: {again}, or the file changed"
    journal, errors, status = call(program, "journal", path)
    wanted = "".join(line + "\n" for line in tables.of_copy(path, tables.journal))
    return "" if (journal, errors, status) == (wanted, "", 0) else "another journal than that of its entries"


# ---- books of edition 1 that are refused

# Each name of a table that is added, taken by something of another.
TAKEN = {
    f"{what.split('; ')[0]} named {name}": [statement.format(name) for statement in what.split("; ")[1:]]
    for what in (
        "table; CREATE TABLE {} (other)",
        "view; CREATE VIEW {} AS SELECT 1 AS other",
        "index; CREATE TABLE kept (other); CREATE INDEX {} ON kept (other)",
    )
    for name in ("opening", "migration", "Opening", "MIGRATION")
}
TAKEN["table that looks like the one that is added"] = [
    "CREATE TABLE migration (entries INTEGER NOT NULL, UNIQUE (entries)) STRICT",
]

LEG = "entry = 6 AND posting = 1"
# A value of a leg that no book has. Where columns have types, some can't stand there.
VALUES = {
    "units": ["1000000000000000000", "-1000000000000000000", "9223372036854775807", "-9223372036854775808"],
    "entry": ["0", "-1", "2000000001", "4294967297"],
    "posting": ["0", "-1", "65", "4294967297"],
    "place": ["-1", "4294967296"],
    "account": ["''", "'x'", "'Assets'"],
    "commodity": ["''", "'x'"],
    "cost_number": ["NULL", "-1", "10000000000000000"],
    "cost_currency": ["NULL", "'x'"],
    "cost_day": ["NULL", "2932897", "-719163"],
    "cost_label": ["NULL", "'a\"b'"],
}
UNTYPED = {
    "units": ["'500000000'", "'five'", "500000000.5", "x'35'", "NULL"],
    "entry": ["'6'", "x'36'"],
    "posting": ["'1'", "NULL"],
    "place": ["'0'", "NULL"],
    "account": ["NULL", "5", "x'41'"],
    "commodity": ["NULL", "5"],
    "cost_day": ["'18263'"],
    "cost_label": ["5"],
}


def damages(db):
    """The name and the statements of each damage of the table `leg`."""
    for column, values in VALUES.items():
        for value in values:
            yield f"a leg with {column} = {value}", [f"UPDATE leg SET {column} = {value} WHERE {LEG}"]
    for column, values in UNTYPED.items():
        for value in values:
            untyped = changed.without_types(db, "leg")
            yield f"a leg with {column} = {value} without a type", [*untyped, f"UPDATE leg SET {column} = {value} WHERE {LEG}"]
    # Two legs of the same lot, each of them units.
    sums = f"UPDATE leg SET units = 999999999999999999, cost_label = 'a' WHERE entry = 5 AND posting = 1"
    yield "units that leave the range together", [sums]
    yield "units that leave the range together, below zero", [sums.replace("= 9", "= -9"), f"UPDATE leg SET units = -1 WHERE {LEG}"]
    yield "a row of leg that is damaged, the last of all", ["UPDATE leg SET posting = 65 WHERE entry = 7 AND posting = 2"]
    yield "no table leg", ["DROP TABLE leg"]
    yield "a table leg of another form", ["DROP TABLE leg", "CREATE TABLE leg (other)"]
    yield "no table entry", ["DROP TABLE entry"]


def fault_of_refusal(program, path, statements, fault):
    tables.older(tables.removed(path))
    changed.changed(path, statements)
    there = held(path)
    for _ in range(2):
        output, errors, status = call(program, "migrate", path)
        if (output, status) != (fault + "\n", 4) or not notes.are(errors, changed.note_of(fault, path)):
            return f"{output!r}, {errors!r}, {status}"
        if held(path) != there:
            return "the file holds something else"
    return ""


# ---- what is no book of edition 1 or 2


def filled(data):
    def make(path):
        with open(path, "wb") as file:
            file.write(data)

    return make


def foreign(name):
    def make(path):
        with tables.connect(path) as db:
            tables.foreign(db, name)

    return make


def of_edition(mark, edition, count=1):
    """A book of edition 1 whose table `book` says something else."""

    def make(path):
        tables.older(path)
        rows = [f"INSERT INTO book VALUES ('{mark}', {edition})", *["INSERT INTO book VALUES ('other', 1)"] * (count - 1)]
        changed.changed(path, ["DELETE FROM book", *rows * (count > 0)])

    return make


def half(path):
    tables.older(path)
    with open(path, "r+b") as file:
        file.truncate(5000)


OTHERS = {
    "a book of edition 9": (of_edition("lot-book", 9), NEWER),
    "a book of edition 3": (of_edition("lot-book", 3), NEWER),
    "a book of edition 0": (of_edition("lot-book", 0), NOT_A_BOOK),
    "a book of another mark": (of_edition("lot-books", 1), NOT_A_BOOK),
    "a book that says no edition": (of_edition("lot-book", 1, 0), NOT_A_BOOK),
    "a book that says two": (of_edition("lot-book", 1, 2), NOT_A_BOOK),
    "a database with another table": (foreign("notes"), NOT_A_BOOK),
    "a database with a table account": (foreign("account"), NOT_A_BOOK),
    "a database with a table opening": (foreign("opening"), NOT_A_BOOK),
    "an empty file": (filled(b""), NOT_A_BOOK),
    "a file of one zero byte": (filled(b"\0"), NOT_A_BOOK),
    "a file of one letter": (filled(b"x"), "fault open"),
    "a text": (filled(b"no database\n" * 1000), "fault open"),
    "half a database": (half, "fault open"),
    "a folder": (os.mkdir, "fault open"),
    "a missing file": (lambda path: None, NOT_A_BOOK),
}


def left(program, path, make, word, *more):
    """The answer of a word on the file, without the file's path, and what is left there."""
    make(tables.removed(path))
    before = tables.bytes_of(path)
    output, errors, status = call(program, word, path, *more)
    return (output, errors.replace(path, "F"), status), before, tables.bytes_of(path), sorted(os.listdir(os.path.dirname(path)))


# Opening them makes empty databases of them.
EMPTY = ("an empty file", "a file of one zero byte")


def fault_of_other(program, folder, name, make, fault):
    os.mkdir(folder)
    path = os.path.join(folder, "family.book")
    got, before, after, names = left(program, path, make, "migrate")
    if got[0] != fault + "\n" or got[2] != 4 or not notes.are(got[1], "S2 NewerEdition: " if fault == NEWER else "F"):
        return f"{got}"
    if name in EMPTY:
        after = after[:1]  # of a log each call writes another
    elif before != after:
        return "the file changed"
    for words in (["holdings"], ["post", "--batch", "a"]):
        other = left(program, path, make, *words)
        wanted = got, after, names
        if (name, *words) == ("an empty file", "holdings"):  # a report leaves it empty
            wanted = got, before, ["family.book"]
        if (other[0], other[2][: len(wanted[1])], other[3]) != wanted:
            return f"{words[0]} answers {other[0]}, and leaves {other[3]}"
    return ""


def main():
    program, scratch = sys.argv[1:]
    path, new = (os.path.join(scratch, name) for name in ("files.book", "files-new.book"))
    made = call(program, "init", tables.removed(new))
    tally.check("a new book", "" if made == ("book ready\n", "", 0) else f"{made}")
    of_new = compare.schema_of(new)
    cases = [(name, fault_of_form, (path, make, of_new)) for name, make in FORMS.items()]
    cases += [(f"a book of edition 1 with a {name}", fault_of_refusal, (path, them, NOT_A_BOOK)) for name, them in TAKEN.items()]
    tables.older(tables.removed(path))
    with tables.connect(path) as db:
        cases += [(f"a book of edition 1 with {name}", fault_of_refusal, (path, them, DAMAGED)) for name, them in damages(db)]
    for number, (name, (make, fault)) in enumerate(OTHERS.items()):
        cases.append((name, fault_of_other, (os.path.join(scratch, f"other-{number}"), name, make, fault)))
    for name, ask, words in cases:
        tally.check(name, ask(program, *words))


if __name__ == "__main__":
    main()
    tally.end()
