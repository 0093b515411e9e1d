"""Writes the rows of a book to another file with no rule, a commit for each entry, and prints the milliseconds that one takes.

    plain.py [--reads] BOOK FILE RUNS

The statements are those of the program; what each entry writes is worked out before the clock begins. With --reads each entry
first reads, by their keys, the rows that judging it needs. The least of some runs counts.
"""

import os
import sqlite3
import sys
import time

PUT = {
    "account": "INSERT OR REPLACE INTO account (name, opened, closed, method) VALUES (?1, ?2, ?3, ?4)",
    "entry": "INSERT INTO entry (number, source, name, body) VALUES (?1, ?2, ?3, ?4)",
    "leg": "INSERT INTO leg (entry, posting, place, account, commodity, units, cost_number, cost_currency, cost_day, cost_label) "
    "VALUES (?1, ?2, ?3, ?4, ?5, ?6, ?7, ?8, ?9, ?10)",
    "sale": "INSERT INTO sale (entry, posting, day, account, commodity, units, kind, amount, currency) VALUES (?1, ?2, ?3, ?4, ?5, ?6, ?7, ?8, ?9)",
    "lot": "INSERT OR REPLACE INTO lot (account, commodity, cost_day, cost_currency, cost_number, cost_label, units) VALUES (?1, ?2, ?3, ?4, ?5, ?6, ?7)",
    "plain": "INSERT OR REPLACE INTO plain (account, commodity, units) VALUES (?1, ?2, ?3)",
    "head": "INSERT OR REPLACE INTO head (account, commodity, day) VALUES (?1, ?2, ?3)",
    "opening": "INSERT OR REPLACE INTO opening (account, commodity, cost_day, cost_currency, cost_number, cost_label, opening) VALUES (?1, ?2, ?3, ?4, ?5, ?6, ?7)",
}
SET = {
    "plain": "UPDATE plain SET units = ?3 WHERE account = ?1 AND commodity = ?2",
    "head": "UPDATE head SET day = ?3 WHERE account = ?1 AND commodity = ?2",
}
DROP = {
    "lot": "DELETE FROM lot WHERE account = ?1 AND commodity = ?2 AND cost_day = ?3 AND cost_currency = ?4 AND cost_number = ?5 AND cost_label = ?6",
    "opening": "DELETE FROM opening WHERE account = ?1 AND commodity = ?2 AND cost_day = ?3 AND cost_currency = ?4 AND cost_number = ?5 AND cost_label = ?6",
    "plain": "DELETE FROM plain WHERE account = ?1 AND commodity = ?2",
}
OF_KEY = "SELECT number, source, name, body FROM entry WHERE source = ?1 AND name = ?2"
LAST = "SELECT number FROM entry ORDER BY number DESC LIMIT 1"
OF_ACCOUNT = [
    "SELECT name, opened, closed, method FROM account WHERE name = ?1",
    "SELECT account, place, commodity FROM allowed WHERE account = ?1 ORDER BY place",
]
OF_PAIR = [
    "SELECT account, commodity, day FROM head WHERE account = ?1 AND commodity = ?2",
    "SELECT account, commodity, units FROM plain WHERE account = ?1 AND commodity = ?2",
    "SELECT * FROM lot WHERE account = ?1 AND commodity = ?2 ORDER BY cost_day, cost_currency, cost_number, cost_label",
    "SELECT * FROM opening WHERE account = ?1 AND commodity = ?2 ORDER BY cost_day, cost_currency, cost_number, cost_label",
]


def by_entry(db, table):
    rows = {}
    for row in db.execute(f"SELECT * FROM {table} ORDER BY entry, posting"):
        rows.setdefault(row[0], []).append(row)
    return rows


def writes(db):
    """For each entry the statements that write its rows, in the order in which the program writes them."""
    legs, sales = by_entry(db, "leg"), by_entry(db, "sale")
    accounts = iter(db.execute("SELECT name, opened, closed, method FROM account ORDER BY rowid").fetchall())
    heads = {(account, commodity): day for account, commodity, day in db.execute("SELECT account, commodity, day FROM head")}
    sums, days = {}, set()
    for number, source, name, body in db.execute("SELECT number, source, name, body FROM entry ORDER BY number"):
        list_ = [(PUT["entry"], (number, source, name, body))]
        if " open " in body:
            list_.append((PUT["account"], next(accounts)))
        changed, opened, held = {}, {}, set()
        for leg in legs.get(number, []):
            list_.append((PUT["leg"], leg))
            account, commodity, units, rate, currency, day, label = leg[3:]
            key = (account, commodity) if rate is None else (account, commodity, day, currency, rate, label)
            if rate is not None and not sums.get(key):
                opened[key] = 64 * (number - 1) + leg[1]
            if key not in changed and sums.get(key):
                held.add(key)
            sums[key] = sums.get(key, 0) + units
            changed[key] = sums[key]
            if rate is not None:
                changed[account, commodity, "head"] = heads[account, commodity]
        list_ += [(PUT["sale"], sale) for sale in sales.get(number, [])]
        for key, value in changed.items():
            table = {2: "plain", 3: "head"}.get(len(key), "lot")
            if table == "head":
                list_.append(((SET if key in days else PUT)["head"], (*key[:2], value)))
                days.add(key)
            else:
                put = SET if table == "plain" and key in held else PUT
                list_.append((put[table], (*key, value)) if value else (DROP[table], key))
                if table == "lot" and not value:
                    list_.append((DROP["opening"], key))
                elif key in opened:
                    list_.append((PUT["opening"], (*key, opened[key])))
        yield list_


def reads(db):
    """For each entry the statements that read what it touches: what stands under its key, its accounts, and its pairs."""
    legs = by_entry(db, "leg")
    for number, source, name in db.execute("SELECT number, source, name FROM entry ORDER BY number"):
        pairs = sorted({leg[3:5] for leg in legs.get(number, [])})
        accounts = sorted({(account,) for account, _ in pairs})
        yield (
            [(OF_KEY, (source, name)), (LAST, ())]
            + [(statement, account) for account in accounts for statement in OF_ACCOUNT]
            + [(statement, pair) for pair in pairs for statement in OF_PAIR]
        )


def run(schema, entries, path):
    for end in ("", "-wal", "-shm"):
        if os.path.exists(path + end):
            os.remove(path + end)
    db = sqlite3.connect(path, isolation_level=None)
    db.execute("PRAGMA journal_mode = WAL")
    db.execute("PRAGMA synchronous = FULL")
    for statement in schema:
        db.execute(statement)
    begun = time.monotonic()
    for before, statements in entries:
        for statement, values in before:
            db.execute(statement, values).fetchall()
        db.execute("BEGIN")
        for statement, values in statements:
            db.execute(statement, values)
        db.execute("COMMIT")
    taken = time.monotonic() - begun
    db.close()
    return taken


def main():
    words = [word for word in sys.argv[1:] if word != "--reads"]
    book, path, runs = words
    db = sqlite3.connect(book)
    schema = [text for (text,) in db.execute("SELECT sql FROM sqlite_schema WHERE type = 'table'")]
    put = list(writes(db))
    entries = list(zip(reads(db) if len(words) < len(sys.argv[1:]) else ([] for _ in put), put))
    db.close()
    least = min(run(schema, entries, path) for _ in range(int(runs)))
    print(f"{1000 * least / len(entries):.4f}")


if __name__ == "__main__":
    main()
