"""Books that were changed by SQLite's own library, and what the program answers then.

    changed.py PROGRAM SCRATCH

Each case changes a copy of one book: a value of a row that no book has, a table that is gone, one of another form, columns that hold
other types. Then a report or a post that reads this row ends with S7, or with S1, S2 or S3 where it is the table `book`, and the book
is as it was changed. What tests/reports/ shows of damaged rows doesn't stand here again. A row of `opening` without its row of `lot`, or
the other way round, is S7 of a post to that account and commodity with braces. No report reads `opening`, `verify` alone reads `migration`,
and `migrate` reads `book` alone of a book of this edition: whatever stands there, the others answer as ever. `verify` meets each change.
"""

import concurrent.futures
import csv
import io
import os
import shutil
import subprocess
import sys

sys.path.append(os.path.join(os.path.dirname(os.path.abspath(__file__)), "..", "lib"))

import notes
import tables
import tally

LEDGER = """\
2020-01-01 open Assets:Broker USD,HOOL "FIFO"
2020-01-01 open Assets:Cash
2020-01-01 open Income:Gains
2020-01-01 open Assets:Old
2020-01-31 close Assets:Old
2020-01-02 commodity HOOL
2020-01-02 price HOOL 110 USD
2020-01-03 * "Buy"
  Assets:Broker 10 HOOL {100 USD, "a"}
  Assets:Cash
2020-01-04 * "Sell"
  Assets:Broker -4 HOOL {} @ 120 USD
  Assets:Cash 480 USD
  Income:Gains
"""

# What is asked of a changed book: words and input. Each post has one command.
PROBES = {
    "holdings": (["holdings"], ""),
    "values": (["holdings", "--day", "2020-12-31"], ""),
    "past": (["holdings", "--as-of", "2020-01-31"], ""),
    "gains": (["gains"], ""),
    "sums": (["gains", "--by", "year,commodity"], ""),
    "register": (["register", "--account", "Assets:"], ""),
    "activity": (["activity", "--by", "quarter"], ""),
    "statement": (["reconcile", "--account", "Assets:"], "commodity,units\nHOOL,5\n"),
    "journal": (["journal"], ""),
    "page": (["page"], ""),
    "migrate": (["migrate"], ""),
    "verify": (["verify"], ""),
    "buy": (["post", "--batch", "b"], "2020-03-01 *\n  Assets:Broker 1 HOOL {100 USD}\n  Assets:Cash\n"),
    "sell": (["post", "--batch", "b"], "2020-03-01 *\n  Assets:Broker -1 HOOL {} @ 100 USD\n  Assets:Cash 100 USD\n"),
    "back": (["post", "--batch", "b"], "2020-03-01 *\n  Assets:Old 1 USD\n  Assets:Cash\n"),
    "declare": (["post", "--batch", "b"], "2020-03-01 commodity HOOL\n"),
    "quote": (["post", "--batch", "b"], "2020-03-01 price HOOL 130 USD\n"),
    "again": (["post", "--batch", "a"], '2020-01-01 open Assets:Broker USD,HOOL "FIFO"\n'),
    "other": (["post", "--batch", "a"], "2020-01-01 open Assets:Other\n"),
}

# The greatest and the least day are 2932896 and -719162, units have up to 18 digits, rates up to 16.
DAYS = ["2932897", "-719163"]
ACCOUNTS = ["''", "'Assets'", "'Assets:x'", "'assets:X'", "'Assets:X '"]
COMMODITIES = ["'x'", "'USD '", "'USD-'", "'É'"]
LABELS = ["'\"'", "'a\"b'", r"'a\b'", "char(9) || 'a'", "'0123456789abcdef0123456789abcdef0123456789abcdef0123456789abcdefx'"]
UNITS = ["-1000000000000000000", "9223372036854775807", "-9223372036854775808"]

# Texts of an entry that aren't the canonical text of a command: some that the reader refuses, and some that say one command, two or none.
BODIES = [
    "''",
    "CAST(x'ff0a' AS TEXT)",
    "'open' || char(10)",
    "replace(body, '2020-01-01', '2020-13-01')",
    "replace(body, ' open ', ' reopen ')",
    "replace(body, ' open ', '  open ')",
    "replace(body, ',HOOL', ', HOOL')",
    "replace(body, 'FIFO', 'fifo')",
    "replace(body, char(10), ' ' || char(10))",
    "replace(body, char(10), char(13, 10))",
    "replace(body, char(10), '')",
    "body || char(10)",
    "char(10) || body",
    "body || '; ' || body",
    "'; ' || body",
    "body || body",
]

# Table, row, column, the values of it that no book has, and the probe that meets them.
ROWS = [
    ("account", "name = 'Assets:Broker'", "opened", [*DAYS, "4294967296", "-9223372036854775808"], "buy"),
    ("account", "name = 'Assets:Old'", "closed", [*DAYS, "9223372036854775807"], "back"),
    ("account", "name = 'Assets:Broker'", "method", ["'AVERAGE'", "'strict'", "''", "'STRICT '"], "buy"),
    ("allowed", "place = 1", "place", ["-1", "4294967296"], "buy"),
    ("allowed", "place = 1", "commodity", ["''", *COMMODITIES], "buy"),
    ("commodity", "name = 'HOOL'", "day", [*DAYS, "4294985558"], "declare"),
    ("price", "1", "base", ["''", *COMMODITIES[1:]], "values"),
    ("price", "1", "quote", ["''", *COMMODITIES], "values"),
    ("price", "1", "day", DAYS, "values"),
    ("price", "1", "rate", ["10000000000000000", "-9223372036854775808"], "values"),
    ("entry", "number = 1", "number", ["0", "-1", "-9223372036854775808"], "journal"),
    ("entry", "number = 1", "number", ["0", "-1", "4294967296", "4294967297"], "again"),
    ("entry", "number = 9", "number", ["4294967296", "4294967297", "9223372036854775807"], "buy"),
    ("entry", "number = 2", "source", LABELS, "journal"),
    ("entry", "number = 2", "name", ["''", *LABELS], "journal"),
    ("entry", "number = 2", "body", ["''", "CAST(x'ff0a' AS TEXT)"], "journal"),
    ("entry", "number = 1", "body", BODIES, "journal"),
    ("entry", "number = 1", "body", BODIES, "again"),
    ("entry", "number = 1", "body", BODIES, "other"),
    ("leg", "entry = 9 AND posting = 1", "entry", ["0", "4294967297"], "gains"),
    ("leg", "entry = 9 AND posting = 1", "posting", ["0", "-1"], "gains"),
    ("leg", "entry = 9 AND posting = 1", "place", ["-1", "4294967296"], "gains"),
    ("leg", "entry = 9 AND posting = 1", "account", ["'x'"], "gains"),
    ("leg", "entry = 9 AND posting = 1", "commodity", ["'x'"], "gains"),
    ("leg", "entry = 9 AND posting = 1", "units", ["1000000000000000000", *UNITS], "gains"),
    ("leg", "entry = 9 AND posting = 1", "cost_number", ["NULL", "-1", "10000000000000000"], "gains"),
    ("leg", "entry = 9 AND posting = 1", "cost_currency", ["NULL", "'x'"], "gains"),
    ("leg", "entry = 9 AND posting = 1", "cost_day", ["NULL", *DAYS], "gains"),
    ("leg", "entry = 9 AND posting = 1", "cost_label", ["NULL", "'a\"b'"], "gains"),
    ("sale", "1", "entry", ["0", "4294967296"], "gains"),
    ("sale", "1", "posting", ["0", "-1"], "gains"),
    ("sale", "1", "day", ["-719163"], "gains"),
    ("sale", "1", "commodity", ["'x'"], "gains"),
    ("sale", "1", "units", ["1000000000000000000", *UNITS], "gains"),
    ("sale", "1", "kind", ["-1", "4294967297"], "gains"),
    ("sale", "1", "kind", ["0, amount = NULL", "0, currency = NULL", "1, amount = NULL, currency = NULL"], "gains"),
    ("sale", "1", "kind", ["1, amount = 10000000000000000", "1, currency = 'x'"], "gains"),
    ("sale", "1", "kind", ["2, amount = NULL", "2, currency = NULL", "2, amount = NULL, currency = NULL"], "gains"),
    ("sale", "1", "kind", ["2, amount = -1", "2, amount = 1000000000000000000", "2, currency = ''"], "gains"),
    ("lot", "1", "account", ACCOUNTS, "holdings"),
    ("lot", "1", "commodity", ["''", *COMMODITIES], "holdings"),
    ("lot", "1", "cost_day", ["-719163"], "holdings"),
    ("lot", "1", "cost_currency", ["''", *COMMODITIES[1:]], "holdings"),
    ("lot", "1", "cost_number", ["10000000000000000"], "holdings"),
    ("lot", "1", "cost_label", LABELS, "holdings"),
    ("lot", "1", "units", UNITS, "holdings"),
    ("lot", "1", "units", ["0", *UNITS], "sell"),
    ("plain", "account = 'Assets:Cash'", "account", ["'x'", *ACCOUNTS], "holdings"),
    ("plain", "account = 'Assets:Cash'", "commodity", COMMODITIES, "holdings"),
    ("plain", "account = 'Assets:Cash'", "units", ["1000000000000000000", *UNITS], "holdings"),
    ("plain", "account = 'Assets:Cash'", "units", ["0", *UNITS], "buy"),
    ("head", "1", "day", [*DAYS, "-4294967296"], "buy"),
    ("opening", "1", "opening", ["0", "-1", "-449", "-9223372036854775808"], "buy"),
    ("opening", "1", "opening", ["0", "-1"], "sell"),
    # The key of another row, or of one that no lot can have: the row of `lot` is then without its own.
    ("opening", "1", "account", ["'Assets:Cash'", *ACCOUNTS], "buy"),
    ("opening", "1", "commodity", ["'USD'", "''", *COMMODITIES], "sell"),
    ("opening", "1", "cost_day", ["18263", *DAYS], "sell"),
    ("opening", "1", "cost_currency", ["'EUR'", "''", *COMMODITIES], "buy"),
    ("opening", "1", "cost_number", ["10000000001", "-1", "10000000000000000"], "sell"),
    ("opening", "1", "cost_label", ["''", "'b'", "'A'", *LABELS], "buy"),
]

# Values of the table `book`, as a mark and an edition, and what every call answers; but `migrate` finds the tables that it would make.
NOT_A_BOOK, NEWER, OLDER, DAMAGED = "fault S1 NotABook", "fault S2 NewerEdition", "fault S3 OlderEdition", "fault S7 Damaged"
MARKS = {
    "no row": ("", NOT_A_BOOK),
    "another mark": ("('lot-books', 2)", NOT_A_BOOK),
    "another mark of edition 1": ("('lot-books', 1)", NOT_A_BOOK),
    "a mark in capitals": ("('LOT-BOOK', 2)", NOT_A_BOOK),
    "a part of the mark": ("('lot', 2)", NOT_A_BOOK),
    "an empty mark": ("('', 2)", NOT_A_BOOK),
    "a mark of bytes": ("(x'6c6f742d626f6f6b', 2)", NOT_A_BOOK),
    "a number as mark": ("(2, 2)", NOT_A_BOOK),
    "no mark": ("(NULL, 2)", NOT_A_BOOK),
    "two rows": ("('lot-book', 2), ('other', 2)", NOT_A_BOOK),
    "two rows, ours behind": ("('a', 2), ('lot-book', 2)", NOT_A_BOOK),
    "the row twice": ("('lot-book', 2), ('lot-book', 2)", NOT_A_BOOK),
    "two rows of two editions": ("('lot-book', 2), ('lot-book', 1)", NOT_A_BOOK),
    "edition -1": ("('lot-book', -1)", NOT_A_BOOK),
    "edition 0": ("('lot-book', 0)", NOT_A_BOOK),
    "a text as edition": ("('lot-book', '2')", NOT_A_BOOK),
    "a text as edition 1": ("('lot-book', '1')", NOT_A_BOOK),
    "a fraction as edition": ("('lot-book', 1.5)", NOT_A_BOOK),
    "bytes as edition": ("('lot-book', x'32')", NOT_A_BOOK),
    "no edition": ("('lot-book', NULL)", NOT_A_BOOK),
    "edition 1": ("('lot-book', 1)", OLDER),
    "edition 3": ("('lot-book', 3)", NEWER),
    "edition 4294967298": ("('lot-book', 4294967298)", NEWER),
    "the greatest edition": ("('lot-book', 9223372036854775807)", NEWER),
}

# Rows that are there or aren't, and the probes that meet that: those that post with braces to the account and commodity.
LOTS = "account, commodity, cost_day, cost_currency, cost_number, 'b'"
OTHERS = "'Assets:Old', commodity, cost_day, cost_currency, cost_number, cost_label"
AT_LOTS = ("buy", "sell")
APART = {
    "no row of opening": ("DELETE FROM opening", AT_LOTS),
    "no row of lot": ("DELETE FROM lot", AT_LOTS),
    "a row of opening more": (f"INSERT INTO opening SELECT {LOTS}, opening FROM opening", AT_LOTS),
    "a row of lot more": (f"INSERT INTO lot SELECT {LOTS}, units FROM lot", AT_LOTS),
    "a row of opening of another account": (f"INSERT INTO opening SELECT {OTHERS}, opening FROM opening", ()),
}

# All but the one that reads every row.
OTHERS = [name for name in PROBES if name != "verify"]

# Rows of `opening` that no report reads, and of `migration`, that only `verify` reads. A posting asks for the table `opening`.
UNREAD = {
    "holdings values gains journal migrate declare quote again other": [
        "DROP TABLE opening", "ALTER TABLE opening RENAME COLUMN opening TO other",
    ],
    "holdings values gains journal migrate declare quote again other back": [
        "DELETE FROM opening", "UPDATE opening SET opening = 0", "UPDATE opening SET account = 'x'",
    ],
    " ".join(OTHERS): [
        "DELETE FROM migration", "UPDATE migration SET entries = 9", "UPDATE migration SET entries = -1", "DROP TABLE migration",
        "UPDATE migration SET entries = 9223372036854775807", "INSERT INTO migration VALUES (1)",
        "ALTER TABLE migration RENAME COLUMN entries TO other",
    ],
}  # fmt: skip

# Of the place of migration: values of other types.
UNTYPED = ["'0'", "0.5", "x'30'", "NULL"]

# Of each table but `book` and `migration` the columns that are read, and the probes that read a row, found by its key or in the order of it.
COLUMNS = {
    "account": ("opened closed method", "name = 'Assets:Broker'", "buy"),
    "allowed": ("place commodity", "place = 1", "buy"),
    "commodity": ("day", "1", "declare"),
    "price": ("base quote day rate", "1", "values page"),
    "entry": ("number source name body", "number = 9", "journal page past register activity statement"),
    "leg": (
        "place account commodity units cost_number cost_currency cost_day cost_label", "entry = 9 AND posting = 1",
        "gains sums page past register activity statement",
    ),
    "sale": ("entry posting day account commodity units kind amount currency", "1", "gains sums page"),
    "lot": ("account commodity cost_day cost_currency cost_number cost_label units", "1", "holdings"),
    "plain": ("account commodity units", "account = 'Assets:Cash'", "holdings"),
    "head": ("day", "1", "buy"),
    "opening": ("account commodity cost_day cost_currency cost_number cost_label opening", "1", "sell"),
}

# The columns by which the rows of a report are read: a sale from 0 on, an entry from the least number, others from the least text. What
# SQLite orders before that isn't read: NULL, and before a text each number.
PAGED = {("entry", "number"), ("sale", "entry"), ("lot", "account"), ("price", "base")}

# The probes that a table is needed for. Those of tables that are gone are in tests/reports/, for reports.
NEEDED = {
    "account": ["buy"],
    "allowed": ["buy"],
    "commodity": ["declare"],
    "price": ["values", "quote"],
    "entry": ["journal", "buy", "declare"],
    "leg": ["gains", "buy"],
    "sale": ["gains", "sell"],
    "lot": ["holdings", "buy"],
    "plain": ["holdings", "buy"],
    "head": ["buy"],
    "opening": ["buy", "sell"],
}


def call(program, words, text=""):
    done = subprocess.run([program, *words], input=text.encode(), capture_output=True, timeout=600)
    return done.stdout.decode(), done.stderr.decode(), done.returncode


def probe(program, book, name):
    words, text = PROBES[name]
    output, errors, status = call(program, [words[0], "--book", book, *words[1:]], text)
    return output.replace(os.path.basename(book), "BOOK"), errors, status  # a page says the name of the file


def dump(db):
    """All that the file holds, in any order, also texts that aren't UTF-8."""
    db.text_factory = lambda it: it.decode(errors="surrogateescape")
    return sorted(db.iterdump())


def changed(book, statements):
    """Changes a book. Returns what its file holds then."""
    with tables.connect(book) as db:
        for statement in statements:
            db.execute(statement)
        return dump(db)


def without_types(db, table):
    """The statements that put the table's rows into one whose columns have no types and no rules."""
    names = [row[1] for row in db.execute(f"PRAGMA table_info({table})")]
    return [
        f"CREATE TABLE moved ({', '.join(names)})",
        f"INSERT INTO moved SELECT * FROM {table}",
        f"DROP TABLE {table}",
        f"ALTER TABLE moved RENAME TO {table}",
    ]


def note_of(line, book):
    """How the one line on standard error begins beside the line of a fault: with what the book is and what helps, or with the name of
    the fault, behind the place of the command that met it."""
    return {
        NOT_A_BOOK: f"{book} is a database of another program: ",
        OLDER: f"{book} is a book of edition 1: `lotbook migrate --book {book}` ",
    }.get(line, line.replace("1 fault ", "line 1, command 1: ").removeprefix("fault ") + ": ")


# A place of migration that is one of the book, too: ties were decided alike.
STILL_A_BOOK = "UPDATE migration SET entries = 9"


def is_within(lines, all_lines):
    """Whether lines are some of the others, in their order."""
    rest = iter(all_lines)
    return all(line in rest for line in lines)


def fault_of(program, book, statements, name, fault, sound):
    """What is wrong with the answer of a probe on a copy of the book that was changed by these statements, or nothing."""
    held = changed(book, statements)
    output, errors, status = probe(program, book, name)
    lines = output.splitlines()
    said = [note_of(lines[-1], book)] if lines else []
    if name == "verify" and fault == DAMAGED:
        said.append(f"{book}: ")  # where the damage is
    if status != 4 or not lines or lines[-1] not in (fault, f"1 {fault}") or not notes.are(errors, *said):
        return f"status {status}, {lines[-1:]}, '{errors[:60]}'"
    if not is_within(lines[:-1], sound):
        return f"other lines before the fault: {lines[:3]}"
    with tables.connect(book) as db:
        return "" if dump(db) == held else "the file holds something else"


def as_ever(program, book, statements, name, sound):
    """What is wrong with the answer of a probe on a copy of the book where what the statements changed isn't read, or nothing."""
    changed(book, statements)
    answer = probe(program, book, name)
    return "" if answer == sound else f"{answer}"


def wrong_types(db, table, column, row):
    """Values of other types than that of a column: as texts, numbers or bytes that look like the one that stands there."""
    ((value,),) = db.execute(f"SELECT {column} FROM {table} WHERE {row}")
    begins = (table, column) in PAGED
    if isinstance(value, str):
        return [f"x'{value.encode().hex()}'"] + ["1", "NULL"] * (not begins)
    number = 18292 if value is None else value
    return [f"'{number}'", f"{number}.5", f"x'{str(number).encode().hex()}'"] + ["NULL"] * (value is not None and not begins)


def damages(db):
    """The name, the statements, the probe and the fault of each case of a changed book."""
    for table, row, column, values, probe_of in ROWS:
        for value in values:
            for name in (probe_of, "verify"):
                yield f"{name} with {table}.{column} = {value}", [f"UPDATE {table} SET {column} = {value} WHERE {row}"], name, DAMAGED
    for table, (columns, row, probes) in COLUMNS.items():
        for column in columns.split():
            for value in wrong_types(db, table, column, row):
                statements = [*without_types(db, table), f"UPDATE {table} SET {column} = {value} WHERE {row}"]
                for name in (*probes.split(), "verify"):
                    yield f"{name} with {table}.{column} = {value} in a column without a type", statements, name, DAMAGED
    for table, names in NEEDED.items():
        for name in (*names, "verify"):
            gone = [f"DROP TABLE {table}"]
            if name not in ("values", "journal", "gains", "holdings") and table != "lot":
                yield f"{name} without the table {table}", gone, name, DAMAGED
            yield f"{name} with a table {table} of another form", [*gone, f"CREATE TABLE {table} (other)"], name, DAMAGED
    for what, (rows, fault) in MARKS.items():
        statements = [*without_types(db, "book"), "DELETE FROM book", *[f"INSERT INTO book VALUES {rows}"] * bool(rows)]
        for name in ("buy", "holdings", "migrate", "verify"):
            told = NOT_A_BOOK if (name, fault) == ("migrate", OLDER) else fault
            yield f"{name} with {what} in the table book", statements, name, told
    yield "buy with a table book of another form", ["DROP TABLE book", "CREATE TABLE book (other)"], "buy", NOT_A_BOOK
    for what, (statement, names) in APART.items():
        for name in (*names, "verify"):
            yield f"{name} where there is {what}", [statement], name, DAMAGED
    for statement in [it for statements in UNREAD.values() for it in statements]:
        if statement != STILL_A_BOOK:
            yield f"verify after {statement}", [statement], "verify", DAMAGED
    for value in UNTYPED:
        statements = [*without_types(db, "migration"), f"UPDATE migration SET entries = {value}"]
        yield f"verify with migration.entries = {value} in a column without a type", statements, "verify", DAMAGED


def unread(db):
    """The name, the statements and the probe of each case of a changed book that is answered as ever."""
    for names, statements in UNREAD.items():
        for statement in statements:
            for name in names.split():
                yield f"{name} after {statement}", [statement], name
    yield f"verify after {STILL_A_BOOK}", [STILL_A_BOOK], "verify"
    for value in UNTYPED:
        statements = [*without_types(db, "migration"), f"UPDATE migration SET entries = {value}"]
        for name in OTHERS:
            yield f"{name} with migration.entries = {value} in a column without a type", statements, name
    for what, (statement, names) in APART.items():
        for name in OTHERS:
            is_of_lots = "lot" in what.split() and name in ("holdings", "values")
            if name not in names and not is_of_lots:
                yield f"{name} where there is {what}", [statement], name


def takings():
    """Of each name of a table something of another program that has it."""
    for at, name in enumerate(tables.TABLES):
        if name != "account":
            yield f"a table {name}", f"CREATE TABLE {name} (other)", f"DROP TABLE {name}"
        yield f"a view {name}", f"CREATE VIEW {name} AS SELECT 1 AS other", f"DROP VIEW {name}"
        odd = (str.upper, str.capitalize, lambda it: it[:-1] + it[-1].upper())[at % 3](name)
        yield f"a table {odd}", f"CREATE TABLE {odd} (other)", f"DROP TABLE {odd}"
    yield "an index Leg", "CREATE INDEX Leg ON kept (other)", "DROP INDEX Leg"


def taken(program, book, make, drop):
    """What is wrong with making a book where another program has a table and a name of a book's, a table alone, or nothing; or nothing."""
    held = changed(book, ["CREATE TABLE kept (other)", "INSERT INTO kept VALUES ('lot')", make])
    for statement in (drop, "DROP TABLE kept"):
        output, errors, status = call(program, ["init", "--book", book])
        if (output, status) != (NOT_A_BOOK + "\n", 4) or not notes.are(errors, note_of(NOT_A_BOOK, book)):
            return f"before {statement}: {output!r}, {errors!r}, {status}"
        with tables.connect(book) as db:
            if dump(db) != held:
                return f"before {statement} the file holds something else"
            db.execute(statement)
            held = dump(db)
    answer = call(program, ["init", "--book", book])
    if answer != ("book ready\n", "", 0):
        return f"then {answer}"
    with tables.connect(book) as db:
        names = {name for (name,) in db.execute("SELECT name FROM sqlite_schema WHERE type = 'table'")}
    return "" if names == set(tables.TABLES) else f"then tables {sorted(names)}"


def full(program, book):
    """What is wrong with a command on a book whose last entry has the greatest number, or nothing."""
    changed(book, ["UPDATE entry SET number = 1999999999 WHERE number = 9"])
    answer = probe(program, book, "buy")
    if answer != ("1 accepted\n", "", 0):
        return f"{answer}"
    for batch, code in (("b", "L1 KeyReused"), ("c", "L16 BookFull")):
        output, errors, status = call(program, ["post", "--book", book, "--batch", batch], PROBES["quote"][1])
        if (output, status) != (f"1 refused {code}\n", 1) or not notes.are(errors, f"line 1, command 1: {code}: "):
            return f"batch {batch}: {output!r}, {errors!r}, {status}"
    with tables.connect(book) as db:
        numbers = list(db.execute("SELECT opening FROM opening ORDER BY opening"))
    return "" if numbers == [(64 * 7 + 1,), (64 * 1_999_999_999 + 1,)] else f"opening numbers {numbers}"


# Each byte that a label may have alone, then some of several bytes, and as many as there may be.
EACH_LABEL = [*(chr(it) for it in range(33, 127) if chr(it) not in '"\\'), "é", "€", "😀", "\u00a0", "a b", "x" * 64, "é" * 32]


def labelled(program, book):
    """What is wrong with lots whose labels have each byte: they stand in the order of bytes, and each is found, or nothing."""
    call(program, ["init", "--book", book])
    opened = '2020-01-01 open Assets:Broker "STRICT"\n2020-01-01 open Assets:Cash\n'
    lots = [f'2020-01-02 *\n  Assets:Broker 1 HOOL {{100 USD, "{it}"}}\n  Assets:Cash\n' for it in EACH_LABEL]
    output, errors, status = call(program, ["post", "--book", book, "--batch", "a"], opened + "".join(lots))
    if errors or status:
        return f"{[line for line in output.splitlines() if 'accepted' not in line][:2]}"
    held = [f'Assets:Broker 1 HOOL {{100 USD, 2020-01-02, "{it}"}}' for it in sorted(EACH_LABEL, key=str.encode)]
    lines = call(program, ["holdings", "--book", book])[0].splitlines()
    if lines[: len(held)] != held:
        return f"held: {[line for line in lines if line not in held][:2]}"
    sold = [f'2020-01-03 *\n  Assets:Broker -1 HOOL {{"{it}"}}\n  Assets:Cash\n' for it in reversed(EACH_LABEL)]
    output, errors, status = call(program, ["post", "--book", book, "--batch", "b"], "".join(sold))
    if errors or status:
        return f"{[line for line in output.splitlines() if 'accepted' not in line][:2]}"
    answer = call(program, ["holdings", "--book", book])
    return "" if answer == ("nothing held\n", "", 0) else f"then {answer}"


def named(program, book):
    """What is wrong with an import of rows whose references have each byte: sent again each is found, or nothing."""
    call(program, ["init", "--book", book])
    accounts = "".join(f"2020-01-01 open {it}\n" for it in ("Assets:Broker", "Assets:Cash", "Expenses:Fees", "Income:Gains"))
    call(program, ["post", "--book", book, "--batch", "a"], accounts)
    text = io.StringIO()
    rows = csv.writer(text, lineterminator="\n")
    rows.writerow("ref date action symbol units price currency fee".split())
    rows.writerows([it, "2020-01-02", "BUY", "HOOL", "1", "100", "USD", ""] for it in EACH_LABEL)
    words = "--batch deals --invest Assets:Broker --cash Assets:Cash --fees Expenses:Fees --gains Income:Gains".split()
    for answer in ("accepted", "repeat"):
        wanted = "".join(f"{number} {answer}\n" for number in range(1, len(EACH_LABEL) + 1))
        told = call(program, ["import", "--book", book, *words], text.getvalue())
        if told != (wanted, "", 0):
            return f"{answer}: {told[0].splitlines()[:2]}, status {told[2]}"
    return ""


def main():
    program, scratch = sys.argv[1:]
    first = os.path.join(scratch, "first.book")
    call(program, ["init", "--book", first])
    made = call(program, ["post", "--book", first, "--batch", "a"], LEDGER)
    tally.check("the book", "" if made == ("".join(f"{it} accepted\n" for it in range(1, 10)), "", 0) else f"{made}")
    with concurrent.futures.ThreadPoolExecutor(os.cpu_count()) as pool:
        count = 0

        def on_copy(call_, *words, copies=True):
            nonlocal count
            count += 1
            book = os.path.join(scratch, f"changed-{count}.book")
            if copies:
                shutil.copyfile(first, book)
            return pool.submit(call_, program, book, *words)

        with tables.connect(first) as db:
            cases, passed_over = list(damages(db)), list(unread(db))
        answers = {name: job.result() for name, job in [(name, on_copy(probe, name)) for name in PROBES]}
        sound = {name: answer[0].splitlines() for name, answer in answers.items()}
        wrong = [name for name, lines in sound.items() if not lines or "fault" in lines[-1]]
        tally.check("without a change each is answered", f"not {wrong}" if wrong else "")
        jobs = [(case, on_copy(fault_of, statements, name, fault, sound[name])) for case, statements, name, fault in cases]
        jobs += [(case, on_copy(as_ever, statements, name, answers[name])) for case, statements, name in passed_over]
        jobs += [(f"init where there is {what}", on_copy(taken, make, drop, copies=False)) for what, make, drop in takings()]
        jobs.append(("a book with as many entries as there may be", on_copy(full)))
        jobs.append(("lots whose labels have each byte", on_copy(labelled, copies=False)))
        jobs.append(("rows whose references have each byte", on_copy(named, copies=False)))
        for case, job in jobs:
            tally.check(case, job.result())


if __name__ == "__main__":
    main()
    tally.end()
