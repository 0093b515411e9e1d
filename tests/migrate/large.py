"""Makes a book of edition 1 by SQLite's own library: as many entries as are asked for, as a program of edition 1 would have left them.

    large.py FILE ENTRIES

Its tables are those of tests/book/edition-1.sql. After three openings two purchases and a sale come in turn, thirty of a commodity.
Each sale takes the one lot of its commodity that was bought first, whole, which is also the first by its key: no tie is decided.
"""

import os
import sys

sys.path.insert(0, os.path.join(os.path.dirname(os.path.abspath(__file__)), "..", "book"))

import tables  # noqa: E402  (the folder is named above)

ONE = 10**8
DAY = tables.number_of("2020-01-02")
KEY = "account, commodity, cost_day, cost_currency, cost_number, cost_label"
ACCOUNTS = (("Assets:Broker", "FIFO"), ("Assets:Cash", "STRICT"), ("Income:Gains", "STRICT"))


def tables_of_edition_1(db):
    """Makes the eleven tables, and says the edition."""
    with open(tables.OLDER, encoding="utf-8") as text:
        for line in text:
            if line.startswith("CREATE TABLE ") or line.startswith("INSERT INTO book "):
                db.execute(line)


def purchase(entry, at):
    commodity, number = f"C{at // 30}", 100 + at % 30
    body = f'2020-01-02 * "Buy"\n  Assets:Broker 2 {commodity} {{{number} USD}}\n  Assets:Cash\n'
    return body, [
        (entry, 1, 0, "Assets:Broker", commodity, 2 * ONE, number * ONE, "USD", DAY, ""),
        (entry, 2, 0, "Assets:Cash", "USD", -2 * number * ONE, None, None, None, None),
    ]


def sale(entry, at, number):
    commodity = f"C{at // 30}"
    body = f'2020-01-02 * "Sell"\n  Assets:Broker -2 {commodity} {{}} @ 130 USD\n  Assets:Cash 260 USD\n  Income:Gains\n'
    gain = [(entry, 3, 0, "Income:Gains", "USD", (2 * number - 260) * ONE, None, None, None, None)]
    return body, [
        (entry, 1, 0, "Assets:Broker", commodity, -2 * ONE, number * ONE, "USD", DAY, ""),
        (entry, 2, 0, "Assets:Cash", "USD", 260 * ONE, None, None, None, None),
        *gain,
    ]


def fill(db, entries):
    """Puts the rows of so many entries."""
    bodies, legs, sales, held = [], [], [], []
    for account, method in ACCOUNTS:
        db.execute("INSERT INTO account VALUES (?, ?, NULL, ?)", (account, DAY - 1, method))
        bodies.append(f"2020-01-01 open {account}" + (f' "{method}"' if method != "STRICT" else "") + "\n")
    for at in range(entries - len(ACCOUNTS)):
        entry = len(bodies) + 1
        if at % 30 == 0:
            held = []
        if at % 3 < 2:
            held.append(100 + at % 30)
            body, rows = purchase(entry, at)
        else:
            body, rows = sale(entry, at, held.pop(0))
            sales.append((entry, 1, DAY, "Assets:Broker", f"C{at // 30}", -2 * ONE, 1, 130 * ONE, "USD"))
        bodies.append(body)
        legs += rows
    db.executemany("INSERT INTO entry VALUES (?, 'post:a', ?, ?)", [(at, str(at), body) for at, body in enumerate(bodies, 1)])
    db.executemany(f"INSERT INTO leg VALUES ({', '.join('?' * 10)})", legs)
    db.executemany(f"INSERT INTO sale VALUES ({', '.join('?' * 9)})", sales)
    sums = "sum(units) FROM leg WHERE cost_day IS {} NULL GROUP BY {} HAVING sum(units) != 0"
    db.execute(f"INSERT INTO lot SELECT {KEY}, {sums.format('NOT', KEY)}")
    db.execute(f"INSERT INTO plain SELECT account, commodity, {sums.format('', 'account, commodity')}")
    db.execute(f"INSERT INTO head SELECT DISTINCT account, commodity, {DAY} FROM leg WHERE cost_day IS NOT NULL")


def make(path, entries):
    with tables.connect(path) as db:
        db.execute("BEGIN")
        tables_of_edition_1(db)
        fill(db, entries)
        db.execute("COMMIT")
        db.execute("PRAGMA journal_mode = WAL")  # as the program has it


if __name__ == "__main__":
    make(sys.argv[1], int(sys.argv[2]))
