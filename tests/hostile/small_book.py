"""A small book with a row in each table, and what each subcommand of the program answers on it."""

import fcntl
import functools
import os
import sqlite3
import subprocess
import sys
import time
from typing import NamedTuple

import sweep

import changed
import stops
import tables

# A post that is repeated, and then reads a row of each table.
POST = changed.LEDGER + "".join(changed.PROBES[name][1] for name in ("buy", "sell", "back", "declare", "quote"))
ROWS = "ref,date,action,symbol,units,price,currency,fee\nB1,2020-03-01,BUY,HOOL,1,100,USD,\nB2,2020-03-02,SELL,HOOL,1,120,USD,0.5\n"
DAY, PAST = "2020-12-31", "2020-01-03"

# Each report, the words that ask for it, and the plain function that prints it from the rows of the tables.
REPORTS = {
    "holdings": (["holdings", "--day", DAY], functools.partial(tables.holdings, day=DAY)),
    "holdings as CSV": (["holdings", "--day", DAY, "--format", "csv"], functools.partial(tables.holdings_csv, day=DAY)),
    "holdings of a past day": (["holdings", "--as-of", PAST, "--format", "csv"], functools.partial(tables.holdings_csv, day=PAST, last=PAST)),
    "gains": (["gains"], tables.gains),
    "gains as CSV": (["gains", "--format", "csv"], tables.gains_csv),
    "register": (["register", "--account", "Assets:", "--format", "csv"], functools.partial(tables.register_csv, account="Assets:")),
    "activity": (["activity", "--by", "month", "--format", "csv"], functools.partial(tables.activity_csv, period="month")),
    "journal": (["journal"], tables.journal),
    "dump": (["dump"], tables.dump),
}
WRITERS = {
    "post": (["--batch", "a"], POST),
    "import": ("--batch b --invest Assets:Broker --cash Assets:Cash --fees Assets:Cash --gains Income:Gains".split(), ROWS),
}
READERS = (*REPORTS, "verify")
WORDS = ("init", "migrate", *READERS, *WRITERS)
COUNT = sum(line[:1].isdigit() for line in changed.LEDGER.splitlines())  # of its entries

SET_PIPE_SIZE, GET_PIPE_SIZE = 1031, 1032  # of fcntl(2)

UNREADABLE = (sqlite3.Error, UnicodeError)  # the second where SQLite's message itself has other bytes


def ask(program, book, word, **streams):
    """The answer of one word, or of one report, on a book, which messages call BOOK wherever it lies."""
    options, text = WRITERS.get(word, ([], ""))
    words = REPORTS[word][0] if word in REPORTS else [word, *options]
    got = sweep.call(program, [*words, "--book", book], text.encode(), **streams)
    return got._replace(errors=got.errors.replace(book.encode(), b"BOOK"))


def read(path):
    """What SQLite's own library reads of each table, and of the names of all; none where it can't."""
    held = {}
    with tables.connect(path) as db:
        db.text_factory = lambda it: it.decode(errors="surrogateescape")
        for table in ("sqlite_schema", *tables.TABLES):
            try:
                held[table] = sorted(db.execute(f"SELECT * FROM {table} NOT INDEXED"), key=repr)
            except UNREADABLE:
                held[table] = None
    return held


class Book(NamedTuple):
    """The small book: its path, its bytes, what SQLite reads of it, the answers on it, and what it holds after those that change it."""

    path: str
    data: bytes
    held: dict
    answers: dict
    then: dict


def small_book(program, path):
    sweep.made(program, path, changed.LEDGER.encode())
    with open(path, "rb") as file:
        data = file.read()
    held, answers, then = read(path), {}, {}
    for word in WORDS:
        asked = tables.copied(path, path + ".asked")
        answers[word] = ask(program, asked, word)
        if word in WRITERS:
            then[word] = tables.contents(asked)
    return Book(path, data, held, answers, then)


def with_log(program, book):
    """A book whose commands stand in its log alone: the program is stopped while it waits to write its last reply."""
    sweep.made(program, book)
    reading, writing = os.pipe()
    fcntl.fcntl(writing, SET_PIPE_SIZE, tables.PAGE)
    replies = sum(len(f"{number} accepted\n") for number in range(1, COUNT + 1))
    os.write(writing, b"x" * (fcntl.fcntl(writing, GET_PIPE_SIZE) - replies + 1))
    text = os.memfd_create("text")
    sweep.write_all(text, changed.LEDGER.encode())
    os.lseek(text, 0, os.SEEK_SET)
    running = subprocess.Popen([program, "post", "--book", book, "--batch", "a"], stdin=text, stdout=writing)
    until = time.monotonic() + sweep.PATIENCE
    while running.poll() is None and time.monotonic() < until and stops.entries(book) < COUNT:
        time.sleep(0.01)
    running.kill()
    running.wait()
    for descriptor in (reading, writing, text):
        os.close(descriptor)
    if stops.entries(book) != COUNT:
        sys.exit("no book could be left with a log")
