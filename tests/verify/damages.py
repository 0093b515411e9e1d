"""Books that somebody changed so that each row is still one that a book can have, and where `verify` says that the damage is.

    damages.py PROGRAM SCRATCH

Of each table a value is changed, a row is taken away and a row is added. What no single row can show is S7 then, and standard error
names the first place where it shows. Where the changed tables are those of another book, that one is verified. The file keeps what it
was changed to.
"""

import os
import sys

HERE = os.path.dirname(os.path.abspath(__file__))
for folder in ("book", "lib"):
    sys.path.append(os.path.join(HERE, "..", folder))

import changed  # noqa: E402  (the folders are named above)
import tables  # noqa: E402
import tally  # noqa: E402

NO_ENTRY = "the row isn't the canonical text of a command that is accepted there, under a key of its own"
NO_ROW = "of an account, its currencies, a commodity, a price or a latest day at cost"
HELD = "a row of what is held isn't there, in table lot, opening or plain"


def row_of(table, key):
    return f"table {table}: the row of {key} isn't what the entries come to"


def rows_of(table, entry):
    return f"table {table}: the rows of entry {entry} aren't those that the entry makes"


def besides(table):
    return f"table {table} has rows that no entry makes"


def no_book(table):
    return f"table {table} has a row that no book has"


def entry(number):
    return f"entry {number}: {NO_ENTRY}"


def made_by(number):
    return f"a row that entry {number} makes isn't there: {NO_ROW}"


PLAIN_LEG = "account, commodity, units) SELECT {entry}, {posting}, 0, 'Assets:Cash', 'USD', 100000000"
LOT = "account, commodity, cost_day, cost_currency, cost_number"

# What is changed, and where it shows. The book is that of tests/book/changed.py: 1 to 4 open accounts, 5 closes Assets:Old, 6 declares
# HOOL, 7 is a price, 8 buys, 9 sells.
DAMAGES = {
    "UPDATE account SET opened = opened + 1 WHERE name = 'Assets:Cash'": row_of("account", "Assets:Cash"),
    "UPDATE account SET closed = NULL WHERE name = 'Assets:Old'": row_of("account", "Assets:Old"),
    "UPDATE account SET method = 'LIFO' WHERE name = 'Assets:Broker'": row_of("account", "Assets:Broker"),
    "DELETE FROM account WHERE name = 'Assets:Old'": made_by(4),
    "INSERT INTO account VALUES ('Assets:More', 18262, NULL, 'STRICT')": row_of("account", "Assets:More"),
    "UPDATE allowed SET commodity = 'EUR' WHERE place = 1": made_by(1),
    "DELETE FROM allowed WHERE place = 1": made_by(1),
    "INSERT INTO allowed VALUES ('Assets:Cash', 0, 'USD')": made_by(2),
    "INSERT INTO allowed VALUES ('Assets:More', 0, 'USD')": row_of("allowed", "Assets:More USD"),
    "UPDATE commodity SET day = day + 1": made_by(6),
    "DELETE FROM commodity": made_by(6),
    "INSERT INTO commodity VALUES ('ZZZ', 18262)": row_of("commodity", "ZZZ"),
    "UPDATE price SET rate = rate + 1": row_of("price", "HOOL USD 18263"),
    "DELETE FROM price": made_by(7),
    "INSERT INTO price VALUES ('HOOL', 'USD', 18264, 1)": row_of("price", "HOOL USD 18264"),
    "UPDATE entry SET body = replace(body, 'Assets:Cash', 'Assets:Other') WHERE number = 2": made_by(2),
    "UPDATE entry SET body = replace(body, '-01-02', '-01-03') WHERE number = 7": made_by(7),
    "UPDATE entry SET body = replace(body, '-4 HOOL', '-14 HOOL') WHERE number = 9": entry(9),
    "UPDATE entry SET body = replace(body, '-4 HOOL', '-3 HOOL') WHERE number = 9": rows_of("leg", 9),
    "UPDATE entry SET body = replace(body, '10 HOOL', '11 HOOL') WHERE number = 8": rows_of("leg", 8),
    "UPDATE entry SET number = 11 WHERE number = 9": entry(11),
    "DELETE FROM entry WHERE number = 5": entry(6),
    "DELETE FROM entry WHERE number = 9": besides("sale"),
    "DELETE FROM entry": besides("sale"),
    "INSERT INTO entry SELECT 10, source, '10', body FROM entry WHERE number = 2": entry(10),
    "INSERT INTO entry SELECT 10, source, '10', '2020-03-01 open Assets:New' || char(10) FROM entry WHERE number = 2": made_by(10),
    "UPDATE leg SET units = units + 1 WHERE entry = 9 AND posting = 1": rows_of("leg", 9),
    "UPDATE leg SET place = 1 WHERE entry = 8 AND posting = 2": rows_of("leg", 8),
    "UPDATE leg SET cost_label = 'b' WHERE entry = 8 AND posting = 1": rows_of("leg", 8),
    "DELETE FROM leg WHERE entry = 8 AND posting = 1": rows_of("leg", 8),
    f"INSERT INTO leg (entry, posting, place, {PLAIN_LEG.format(entry=2, posting=1)}": rows_of("leg", 2),
    f"INSERT INTO leg (entry, posting, place, {PLAIN_LEG.format(entry=9, posting=4)}": rows_of("leg", 9),
    f"INSERT INTO leg (entry, posting, place, {PLAIN_LEG.format(entry=10, posting=1)}": besides("leg"),
    "UPDATE sale SET amount = amount + 1": rows_of("sale", 9),
    "UPDATE sale SET day = day + 1": rows_of("sale", 9),
    "DELETE FROM sale": rows_of("sale", 9),
    "INSERT INTO sale SELECT 9, 3, day, account, commodity, units, kind, amount, currency FROM sale": besides("sale"),
    "UPDATE lot SET units = units + 1": row_of("lot", "Assets:Broker HOOL"),
    "UPDATE lot SET account = 'Assets:Cash'": row_of("lot", "Assets:Cash HOOL"),
    "DELETE FROM lot": HELD,
    f"INSERT INTO lot SELECT {LOT}, 'b', units FROM lot": row_of("lot", "Assets:Broker HOOL"),
    "UPDATE lot SET units = 0": no_book("lot"),
    "UPDATE plain SET units = -units WHERE account = 'Income:Gains'": row_of("plain", "Income:Gains USD"),
    "DELETE FROM plain WHERE account = 'Income:Gains'": HELD,
    "INSERT INTO plain VALUES ('Assets:Old', 'USD', 5)": row_of("plain", "Assets:Old USD"),
    "UPDATE head SET day = day + 1": row_of("head", "Assets:Broker HOOL"),
    "DELETE FROM head": made_by(8),
    "INSERT INTO head VALUES ('Assets:Cash', 'USD', 18264)": row_of("head", "Assets:Cash USD"),
    "UPDATE opening SET opening = opening + 1": row_of("opening", "Assets:Broker HOOL"),
    "DELETE FROM opening": HELD,
    f"INSERT INTO opening SELECT {LOT}, 'b', opening FROM opening": row_of("opening", "Assets:Broker HOOL"),
    "UPDATE migration SET entries = 10": no_book("migration"),
    "DELETE FROM migration": no_book("migration"),
    "INSERT INTO migration VALUES (1)": no_book("migration"),
}

# Tables of another book.
OTHER_BOOKS = (
    "UPDATE entry SET body = replace(body, 'Buy', 'Bought') WHERE number = 8",
    "UPDATE entry SET name = '99' WHERE number = 2",
    "UPDATE migration SET entries = 9",
)


def answer_of(program, book, statement):
    """The answer of `verify` on the changed book, and whether the file holds something else then."""
    held = changed.changed(book, [statement])
    answer = changed.call(program, ["verify", "--book", book])
    with tables.connect(book) as db:
        return answer, changed.dump(db) != held


def main():
    program, scratch = sys.argv[1:]
    first, book = (os.path.join(scratch, f"{name}.book") for name in ("sound", "other"))
    changed.call(program, ["init", "--book", first])
    changed.call(program, ["post", "--book", first, "--batch", "a"], changed.LEDGER)
    wanted = {statement: ("fault S7 Damaged\n", place, 4) for statement, place in DAMAGES.items()}
    wanted |= {statement: ("book verified\n", "", 0) for statement in OTHER_BOOKS}
    for statement, (output, place, status) in wanted.items():
        tables.copied(first, book)
        answer, is_changed = answer_of(program, book, statement)
        said = answer[1].splitlines()[1:] if place else answer[1].splitlines()
        is_told = (answer[0], said, answer[2]) == (output, [f"lotbook: {book}: {place}"] * bool(place), status)
        fault = "" if is_told else f"{answer[0]!r}, {said}, status {answer[2]}"
        if is_changed:
            fault = fault or "the file holds something else"
        tally.check(statement, fault)


if __name__ == "__main__":
    main()
    tally.end()
