"""Compares reports with what SQLite's own library finds in the tables of the book's file, and in nothing else.

    by_sql.py PROGRAM SCRATCH [--first SEED] [--count N]

The books are ledgers drawn from seeds, some with days out of order; those of edition 1 in tests/migrate/, once they are migrated and
sold from again; and one whose sums are beyond 64 bits. Of each, what was held at the end of some days, the register of some accounts,
the activity of some by each length of a period, the gains by some keys, and what some statements differ in, have to be printed as CSV,
byte for byte, as tests/book/tables.py works them out by SQL. Gains by keys and differences are added up, as in compare.py, from the
records of sales and the units held that SQL finds. A case is the ledgers of a hundred seeds, a book, or a kind of record, which has to
occur. A difference goes to standard error.
"""

import collections
import functools
import gzip
import os
import random
import re
import sys

import compare

import draw
import model
import spell
import tables
import tally

A_CASE = 100  # seeds
BOOKS = ("broker", "shorts", "ties")
MIGRATED = os.path.join(os.path.dirname(os.path.abspath(__file__)), "..", "migrate")
KINDS = (
    "a day before the last entry", "a position of a past day beyond units", "an entry behind one of a later day", "a leg of a lot",
    "a leg of plain units", "a register that ends beyond units", "a register of one commodity", "a row of activity", "a row of gains",
    "gains by several keys", "a statement that agrees", "a statement that differs",
)
MOST, DEAREST = "9999999999.99999999", "99999999.99999999"


def found_by(program, book, words, lines, status=0, given=""):
    """How what the program prints differs from these lines, or nothing."""
    words = [words[0], "--book", book, "--format", "csv", *words[1:]]
    got = compare.call(program, words, given)
    wanted = "".join(line + "\n" for line in lines)
    return "" if got[:2] == (wanted, status) else f"--- {' '.join(words)}, wanted\n{wanted}--- got, status {got[1]}\n{got[0]}{got[2]}"


def look(program, book, rng):
    """How the reports of a book differ, or nothing; and what occurs in them."""
    seen, found = collections.Counter(), ""
    with tables.connect(book) as db:
        dated = [day for (day,) in db.execute("SELECT substr(body, 1, 10) FROM entry ORDER BY number")]
        accounts = [name for (name,) in db.execute("SELECT DISTINCT account FROM leg ORDER BY 1")] or ["Assets:None"]
        commodities = [name for (name,) in db.execute("SELECT DISTINCT commodity FROM leg ORDER BY 1")]
    days = sorted({*dated}) or ["2020-01-01"]
    seen["an entry behind one of a later day"] += dated != sorted(dated)
    some = lambda: rng.choice(accounts + [name + ":" for name in accounts] + [name.rpartition(":")[0] + ":" for name in accounts])
    ranges = [(tables.FIRST_DAY, tables.LAST_DAY), (rng.choice(days), rng.choice(days))]

    for last, day in [(rng.choice(days), None), (rng.choice(days), rng.choice(days)), (tables.LAST_DAY, None)]:
        lines = tables.holdings_csv(book, day or last, last)
        words = ["holdings", "--as-of", last] + (["--day", day] if day else [])
        found += found_by(program, book, words, lines, 4 * (lines[-1] == tables.BEYOND))
        seen["a day before the last entry"] += last < days[-1]
        seen["a position of a past day beyond units"] += lines[-1] == tables.BEYOND

    for account in sorted({some(), some(), *accounts[:1]}):
        for first, last in ranges:
            commodity = rng.choice([None, None, *commodities[:2]])
            lines = tables.register_csv(book, account, commodity, first, last)
            words = ["register", "--account", account, "--first", first, "--last", last] + (["--commodity", commodity] if commodity else [])
            found += found_by(program, book, words, lines, 4 * (lines[-1] == tables.BEYOND))
            at_lots = [line.split(",")[6] != "" for line in lines[1:] if line != tables.BEYOND]
            seen["a leg of a lot"] += any(at_lots)
            seen["a leg of plain units"] += not all(at_lots)
            seen["a register that ends beyond units"] += lines[-1] == tables.BEYOND
            seen["a register of one commodity"] += commodity is not None and len(lines) > 1

    for period in tables.PERIODS:
        first, last = rng.choice(ranges)
        for account in ("", some()):
            lines = tables.activity_csv(book, account, period, first, last)
            words = ["activity", "--by", period, "--first", first, "--last", last] + (["--account", account] if account else [])
            found += found_by(program, book, words, lines)
            seen["a row of activity"] += len(lines) > 1

    sales = list(compare.csv.reader(tables.gains_csv(book)))
    for keys in [[key] for key in compare.KEYS] + [rng.sample(sorted(compare.KEYS), rng.randint(2, 4))]:
        first, last = rng.choice(ranges)
        records = [record for record in sales[1:] if first <= record[compare.GAINS.index("sold")] <= last]
        table, _ = compare.gains_by(keys, [sales[0], *records], collections.Counter())
        words = ["gains", "--by", ",".join(keys), "--first", first, "--last", last]
        found += found_by(program, book, words, map(tables.record_text, table))
        seen["a row of gains"] += len(table) > 1
        seen["gains by several keys"] += len(keys) > 1 and len(table) > 1

    for last in (tables.LAST_DAY, rng.choice(days)):
        account = some()
        statement, table, _ = compare.reconciled(rng, tables.commodities_of(book, account, last), collections.Counter())
        words = ["reconcile", "--account", account] + (["--as-of", last] if last != tables.LAST_DAY else [])
        found += found_by(program, book, words, map(tables.record_text, table), int(len(table) > 1), statement)
        seen["a statement that differs" if len(table) > 1 else "a statement that agrees"] += 1
    return found, seen


def made(program, book, text, batch="r"):
    """Makes a book, and posts a text to it."""
    compare.call(program, ["init", "--book", book])
    return compare.call(program, ["post", "--book", book, "--batch", batch], text)[0]


def of_drawing(program, scratch, seed):
    """How the reports of a drawn ledger differ, or nothing; and what occurs in them."""
    drawing = draw.small(seed)
    book = os.path.join(scratch, f"drawn-{seed}.book")
    compare.reports.quote_more(random.Random(seed), drawing)
    text = spell.Speller(drawing.rng).ledger([it.command for it in drawing.judged]).decode()
    made(program, book, text)
    found, seen = look(program, book, random.Random(seed))
    tables.removed(book)
    return found and text + found, seen


def of_migrated(program, scratch, name):
    """The same of a book of edition 1, once it is migrated and sold from again."""
    book = os.path.join(scratch, f"{name}.book")
    with gzip.open(os.path.join(MIGRATED, name, "book.gz")) as packed, open(book, "wb") as file:
        file.write(packed.read())
    with open(os.path.join(MIGRATED, name, "later.ledger"), encoding="utf-8") as text:
        calls = [(["migrate"], ""), (["post", "--batch", "later"], text.read())]
    said = [compare.call(program, [words[0], "--book", book, *words[1:]], text)[0] for words, text in calls]
    if said[0] != "book migrated\n" or " accepted" not in said[1]:
        return f"it isn't migrated, or nothing is sold from it: {said}", collections.Counter()
    return look(program, book, random.Random(name))


def wide_ledger():
    """Units that go to and fro, so that the sums of what came and went are beyond 64 bits; sales of the most units at the dearest rate; and
    a transaction that is entered late, whose day leaves an account beyond units until a later one."""

    def moved(day, account, units, commodity, end="", other_end=""):
        other = units[1:] if units.startswith("-") else "-" + units
        return f'{day} * "Wide"\n  {account} {units} {commodity}{end}\n  Equity:Wide {other} {commodity}{other_end}\n'

    text = "".join(f"2020-01-01 open {name}\n" for name in ("Assets:Lots", "Assets:Plain", "Equity:Wide"))
    for number in range(1, 41):
        text += moved(f"2020-{1 + number // 4:02}-{1 + number % 4:02}", "Assets:Plain", MOST if number % 2 else "-" + MOST, "USD")
    for number in range(1, 13):
        day, name, price = f"2020-{number:02}-15", f"C{number:02}", f" @ {DEAREST} EUR"
        text += moved(day, "Assets:Lots", MOST, name, f" {{{DEAREST} EUR}}", price)
        text += moved(day, "Assets:Lots", "-" + MOST, name, " {} @ 0 EUR", price)
    for day, units in (("2021-01-01", MOST), ("2021-03-01", "-" + MOST), ("2021-02-01", MOST)):
        text += moved(day, "Assets:Plain", units, "USD")
    return text


def of_wide(program, scratch):
    """The same of a book of great numbers, whose register and past days are asked for more often, since few of them are in range."""
    book = os.path.join(scratch, "wide.book")
    said = made(program, book, wide_ledger())
    if re.search("refused|fault", said):
        return f"not all of it is accepted: {re.search('.*(refused|fault).*', said)[0]}", collections.Counter()
    found, seen = "", collections.Counter()
    for seed in range(4):
        more, kinds = look(program, book, random.Random(seed))
        found, seen = found + more, seen + kinds
    with tables.connect(book) as db:
        sums = list(db.execute(f"SELECT {tables.total('abs(units)')} FROM leg GROUP BY account, commodity"))
    if max(tables.joined(*parts) for parts in sums) < 2**63:
        found += "no sum is beyond 64 bits"
    return found, seen


def main():
    words = tally.words("program", "scratch", first=1, count=100).parse_args()
    of_seed = functools.partial(of_drawing, words.program, words.scratch)
    census = tally.sweep(tally.drawn("by SQL, the ledgers of seeds {} to {}", of_seed, words, A_CASE))
    books = {f"the migrated book {name}": functools.partial(of_migrated, words.program, words.scratch, name) for name in BOOKS}
    books["a book whose sums are beyond 64 bits"] = functools.partial(of_wide, words.program, words.scratch)
    for name, of_book in books.items():
        found, seen = of_book()
        census += seen
        if found:
            print(f"=== {name}\n{found}", file=sys.stderr)
        tally.check(f"by SQL, {name}", found[:300])
    tally.occurs(KINDS, census, 1, "by SQL, {0}: {1} times")


if __name__ == "__main__":
    main()
    tally.end()
