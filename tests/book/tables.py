"""A book's file, looked into and changed by SQLite's own library.

    tables.py rows FILE QUERY       prints the rows of a query, columns apart by a bar
    tables.py holdings FILE         prints what the rows of `lot` and `plain` hold, as the program prints holdings
    tables.py openings FILE         prints the rows of `opening`
    tables.py numbered FILE         prints the rows of `opening` as the rows of `leg` leave them
    tables.py sound FILE            prints what `integrity_check` says
    tables.py edition FILE NUMBER   gives the book another edition
    tables.py damage FILE           adds an account that no book has, with units
    tables.py foreign FILE NAME     makes a database with one table of that name and one row
    tables.py older FILE            makes a book of edition 1, whose text is edition-1.sql
"""

import contextlib
import csv
import datetime
import hashlib
import io
import os
import shutil
import sqlite3
import sys

sys.path.insert(0, os.path.join(os.path.dirname(os.path.abspath(__file__)), "..", "random"))

import model  # noqa: E402  (the folder is named above)
import text as second  # noqa: E402

TABLES = ("book", "account", "allowed", "commodity", "price", "entry", "leg", "sale", "lot", "plain", "head", "opening", "migration")
OF_EDITION_1, ADDED = TABLES[:11], TABLES[11:]

# A book as a program of edition 1 left it: seven entries, of which the last is a sale from the lot of the label "a".
OLDER = os.path.join(os.path.dirname(os.path.abspath(__file__)), "edition-1.sql")

KEY = "account, commodity, cost_day, cost_currency, cost_number, cost_label"

# The names of the columns of tables for a spreadsheet.
HOLDINGS = "account,commodity,units,acquired,label,unit_cost,currency,cost"
VALUES = ",price,value"
GAINS = "entry,posting,account,commodity,units,acquired,sold,days_held,label,unit_cost,currency,proceeds,cost,gain,term"
REGISTER = "day,entry,posting,account,commodity,units,acquired,label,unit_cost,currency,left,narration"
ACTIVITY = "period,account,commodity,in,out"

# Legs with the days and the texts of their entries.
MOVED = "(SELECT leg.*, body, substr(body, 1, 10) AS day FROM leg JOIN entry ON number = entry)"
# They are of an account, or of those whose names begin so, where it ends with a colon; of any where it is empty.
OF_ACCOUNT = """(account = :account OR :account = ''
    OR substr(:account, -1) = ':' AND substr(account, 1, length(:account)) = :account)"""
PERIODS = {
    "year": "substr(day, 1, 4)", "quarter": "substr(day, 1, 4) || '-Q' || ((substr(day, 6, 2) + 2) / 3)", "month": "substr(day, 1, 7)",
}
FIRST_DAY, LAST_DAY = "0001-01-01", "9999-12-31"
PART = 10**9  # a sum is asked for in two parts, since in one it may be beyond the 64 bits of SQLite
BEYOND = "fault P1 Range"
ENDS = ("", "-wal", "-shm", "-journal")  # of the names of a book's file and of those beside it
PAGE = 4096


def connect(path):
    """A connection for a `with`, which closes it: an open one would keep the program out."""
    return contextlib.closing(sqlite3.connect(path, isolation_level=None))


def day_text(number):
    return (datetime.date(1970, 1, 1) + datetime.timedelta(days=number)).isoformat()


def contents(path, names=TABLES):
    """All rows of all tables, as the program left them: the log beside the file is read, too."""
    with connect(path) as db:
        return {table: sorted(db.execute(f"SELECT * FROM {table}"), key=repr) for table in names}


def removed(path):
    """The path of a book, at which nothing lies any more, nor beside it."""
    for end in ENDS:
        if os.path.isdir(path + end) and not os.path.islink(path + end):
            shutil.rmtree(path + end)
        elif os.path.lexists(path + end):
            os.remove(path + end)
    return path


def copied(path, copy, ends=ENDS[:2]):
    """The path of a copy of a book's file and of its log, in the place of what was there; with ENDS of all that lies beside it."""
    removed(copy)
    for end in ends:
        if os.path.isfile(path + end):
            shutil.copyfile(path + end, copy + end)
    return copy


def bytes_of(path):
    """The bytes of a book's file and of the commits in its log, where they are there: a log shorter than a page holds none."""
    held = []
    for end, least in (("", 0), ("-wal", PAGE)):
        if os.path.isfile(path + end) and os.path.getsize(path + end) >= least:
            with open(path + end, "rb") as file:
                held.append((end, file.read()))
    return held


def of_copy(path, read):
    """What `read` finds in a copy of a book's files: SQLite would mend the files that it looks into."""
    copy = copied(path, path + ".copy")
    try:
        return read(copy)
    finally:
        removed(copy)


def number_of(day):
    """The number of a day text."""
    return (datetime.date.fromisoformat(day) - datetime.date(1970, 1, 1)).days


def lot_text(number, currency, day, label):
    end = f', "{label}"' if label else ""
    return f"{{{model.number_text(number)} {currency}, {day_text(day)}{end}}}"


def totals_of(name, totals):
    return [f"total {name} {model.money_text(total, 16)} {currency}" for currency, total in sorted(totals.items())]


def price_at(db, day, base, quote):
    """The rate of the greatest day that isn't after this one, or none."""
    found = db.execute("SELECT rate FROM price WHERE base = ? AND quote = ? AND day <= ? ORDER BY day DESC", (base, quote, day)).fetchone()
    return found and found[0]


def total(units, over=""):
    """What asks for a sum, in two parts; over a window where there is one."""
    return ", ".join(f"sum({units} {by} {PART}) {over}" for by in "/%")


def joined(high, low):
    return high * PART + low


def held(db, last=None):
    """The positions of `plain` and `lot`, or at the end of the last day those of `leg`: the key of each, with its units."""
    query = f"SELECT account, commodity, NULL, NULL, NULL, NULL, 0, units FROM plain UNION ALL SELECT {KEY}, 0, units FROM lot"
    if last is not None:
        query = f"SELECT {KEY}, {total('units')} FROM {MOVED} WHERE day <= :last GROUP BY {KEY}"
    rows = []
    for account, commodity, day, *cost, high, low in db.execute(query, dict(last=last)):
        key = (account, commodity, 0) if day is None else (account, commodity, 1, day, *cost)
        rows.append((key, joined(high, low)))
    return rows if last is None else [(key, units) for key, units in rows if units]


def holdings(path, day=None):
    """The lines that the program prints of these rows, with values at that day (docs/FORMATS.md, Holdings)."""
    with connect(path) as db:
        rows = held(db)
        rates = {}
        for (_, commodity, is_lot, *key), _ in rows:
            if is_lot and day is not None:
                rates[commodity, key[1]] = price_at(db, number_of(day), commodity, key[1])
    lines, totals, values = [], {}, {}
    for (account, commodity, is_lot, *key), units in sorted(rows):
        if not is_lot:
            lines.append(f"{account} {model.money_text(units)} {commodity}")
            continue
        cost_day, currency, number, label = key
        totals[currency] = totals.get(currency, 0) + units * number
        line = f"{account} {model.number_text(units)} {commodity} {lot_text(number, currency, cost_day, label)}"
        rate = rates.get((commodity, currency))
        if rate is not None:
            values[currency] = values.get(currency, 0) + units * rate
            line += f" value {model.money_text(units * rate, 16)} {currency}"
        elif day is not None:
            line += " value none"
        lines.append(line)
    return lines + totals_of("cost", totals) + totals_of("value", values) or ["nothing held"]


def record_text(fields):
    """The line of a record, without its end."""
    text = io.StringIO()
    csv.writer(text, lineterminator="").writerow(fields)
    return text.getvalue()


def holdings_csv(path, day=None, last=None):
    """The lines that the program prints of these rows as CSV, with values at that day, or of what was held at the end of the last day
    (docs/FORMATS.md, Tables for a spreadsheet)."""
    lines = []
    with connect(path) as db:
        rows = held(db, last)
        if any(abs(units) >= model.UNITS_LIMIT for _, units in rows):
            return [BEYOND]
        for (account, commodity, is_lot, *key), units in sorted(rows):
            record = [account, commodity, model.number_text(units)]
            rate = None
            if is_lot:
                cost_day, currency, number, label = key
                record += [day_text(cost_day), label, model.number_text(number), currency, model.money_text(units * number, 16)]
                rate = None if day is None else price_at(db, number_of(day), commodity, currency)
            else:
                record += [""] * 5
            if day is not None:
                record += ["", ""] if rate is None else [model.number_text(rate), model.money_text(units * rate, 16)]
            lines.append(record_text(record))
    return [HOLDINGS + ("" if day is None else VALUES), *lines]


def opening_text(key, opening):
    account, commodity, day, currency, number, label = key
    return f"{account} {commodity} {lot_text(number, currency, day, label)} {opening}"


def openings(path):
    """A line for each row of `opening`, in the order of the holdings."""
    with connect(path) as db:
        return [opening_text(key, opening) for *key, opening in sorted(db.execute(f"SELECT {KEY}, opening FROM opening"))]


def openings_of_legs(path):
    """The same of the rows of `leg`: the number of a lot is that of the last leg before which it was empty (docs/FORMATS.md, Tables)."""
    held, numbers = {}, {}
    with connect(path) as db:
        legs = f"SELECT {KEY}, units, entry, posting FROM leg WHERE cost_day IS NOT NULL ORDER BY entry, posting, place"
        for *key, units, entry, posting in db.execute(legs):
            key = tuple(key)
            if not held.get(key):
                numbers[key] = model.opening_number(entry, posting)
            held[key] = held.get(key, 0) + units
    return [opening_text(key, numbers[key]) for key in sorted(held) if held[key]]


def sales_of(db):
    """The row of each sale, and of each of its legs units, number, currency, day and label."""
    sales = "SELECT entry, posting, day, account, commodity, units, kind, amount, currency FROM sale ORDER BY entry, posting"
    legs_of = "SELECT units, cost_number, cost_currency, cost_day, cost_label FROM leg WHERE entry = ? AND posting = ? ORDER BY place"
    for sale in db.execute(sales):
        yield sale, list(db.execute(legs_of, sale[:2]))


def gains(path):
    """The lines that the program prints of these rows (docs/FORMATS.md, Gains)."""
    lines, totals = [], {}
    with connect(path) as db:
        for (_, _, day, account, commodity, units, kind, amount, currency), legs in sales_of(db):
            line = f"{day_text(day)} {account} {model.number_text(units)} {commodity}"
            if kind and all(leg[2] == currency for leg in legs):
                cost = sum(-leg[0] * leg[1] for leg in legs)
                proceeds = -units * amount if kind == 1 else (-amount if units > 0 else amount) * model.ONE
                parts = {"proceeds": proceeds, "cost": cost, "gain": proceeds - cost}
                lines.append(" ".join([line, *(f"{name} {model.money_text(it, 16)}" for name, it in parts.items()), currency]))
                totals[currency] = totals.get(currency, 0) + proceeds - cost
            else:
                lines.append(line + " unpriced")
            lines += [f"  {model.number_text(leg[0])} {commodity} {lot_text(*leg[1:])}" for leg in legs]
    return lines + totals_of("gain", totals) or ["no gains"]


def proceeds_of(kind, amount, units, legs):
    """What each leg of a sale goes for, at scale 16: so much for each unit, or its share of the price of all, the last what is left."""
    if kind == 1:
        return [-leg[0] * amount for leg in legs]
    parts = [amount * abs(leg[0]) // abs(units) for leg in legs[:-1]]
    return [share * model.ONE * (-1 if units > 0 else 1) for share in (*parts, amount - sum(parts))]


def term_of(acquired, sold):
    """How long a lot was held, by its day numbers (docs/FORMATS.md, Tables for a spreadsheet)."""
    (year, *rest), end = ([int(part) for part in day_text(day).split("-")] for day in (acquired, sold))
    return "over-a-year" if end > [year + 1, *([2, 28] if rest == [2, 29] else rest)] else "up-to-a-year"


def gains_csv(path):
    """The lines that the program prints of these rows as CSV (docs/FORMATS.md, Tables for a spreadsheet)."""
    lines = [GAINS]
    with connect(path) as db:
        for (entry, posting, day, account, commodity, units, kind, amount, currency), legs in sales_of(db):
            is_priced = kind and all(leg[2] == currency for leg in legs)
            proceeds = proceeds_of(kind, amount, units, legs) if is_priced else [None] * len(legs)
            for (taken, number, cost_currency, acquired, label), got in zip(legs, proceeds):
                cost = -taken * number
                money = ["" if it is None else model.money_text(it, 16) for it in (got, cost, None if got is None else got - cost)]
                record = [entry, posting, account, commodity, model.number_text(taken), day_text(acquired), day_text(day), day - acquired]
                lines.append(record_text([*record, label, model.number_text(number), cost_currency, *money, term_of(acquired, day)]))
    return lines


def narration(body):
    """What the first line of an entry says, without the payee."""
    try:
        return second.read(body.partition("\n")[0].encode())[0].narration or ""
    except (second.Fault, LookupError, AttributeError) as fault:
        raise ValueError("the entry is no transaction") from fault


def register_csv(path, account, commodity=None, first=FIRST_DAY, last=LAST_DAY):
    """The lines that the program prints of these rows as CSV (docs/FORMATS.md, Register)."""
    query = f"""
        SELECT day, entry, posting, account, commodity, units, cost_day, cost_label, cost_number, cost_currency, body,
            {total('units', 'OVER way')}
        FROM {MOVED} WHERE {OF_ACCOUNT} AND day <= :last AND (commodity = :commodity OR :commodity IS NULL)
        WINDOW way AS (PARTITION BY account, commodity ORDER BY day, entry, posting, place) ORDER BY day, entry, posting, place"""
    lines, asked = [REGISTER], dict(account=account, commodity=commodity, last=last)
    with connect(path) as db:
        for *front, units, acquired, label, number, currency, body, high, low in db.execute(query, asked):
            left = joined(high, low)
            if abs(left) >= model.UNITS_LIMIT:
                return [*lines, BEYOND]
            if front[0] >= first:
                key = [""] * 4 if acquired is None else [day_text(acquired), label, model.number_text(number), currency]
                lines.append(record_text([*front, model.number_text(units), *key, model.number_text(left), narration(body)]))
    return lines


def activity_csv(path, account="", period="year", first=FIRST_DAY, last=LAST_DAY):
    """The lines that the program prints of these rows as CSV (docs/FORMATS.md, Activity)."""
    query = f"""
        SELECT {PERIODS[period]}, account, commodity, {total('max(units, 0)')}, {total('max(-units, 0)')}
        FROM {MOVED} WHERE {OF_ACCOUNT} AND cost_day IS NULL AND day BETWEEN :first AND :last GROUP BY 1, 2, 3 ORDER BY 1, 2, 3"""
    lines = [ACTIVITY]
    with connect(path) as db:
        for *row, came, of_came, went, of_went in db.execute(query, dict(account=account, first=first, last=last)):
            lines.append(record_text([*row, *map(model.money_text, (joined(came, of_came), joined(went, of_went)))]))
    return lines


def commodities_of(path, account, last=LAST_DAY):
    """How many units of each commodity accounts hold at the end of a day, plain and at lots, as `reconcile` counts them."""
    query = f"SELECT commodity, {total('units')} FROM {MOVED} WHERE {OF_ACCOUNT} AND day <= :last GROUP BY commodity"
    with connect(path) as db:
        return {name: joined(*parts) for name, *parts in db.execute(query, dict(account=account, last=last))}


def journal(path):
    """The lines that the program prints of these rows (docs/FORMATS.md, Journal)."""
    lines = []
    with connect(path) as db:
        for number, source, name, body in db.execute("SELECT number, source, name, body FROM entry ORDER BY number"):
            lines += [f"; entry {number} key {source} {name}", *body.splitlines()]
    return lines


def dump(path):
    """The lines of a dump of these rows (docs/FORMATS.md, Dump)."""
    with connect(path) as db:
        rows = db.execute("SELECT number, source, name, body FROM entry ORDER BY number").fetchall()
        (place,) = db.execute("SELECT entries FROM migration").fetchone()
    count = rows[-1][0] if rows else 0
    text = f"; lotbook dump 1 edition 2 migrated {place} entries {count}\n"
    text += "".join(f"; entry {number} key {source} {name}\n{body}" for number, source, name, body in rows)
    return [*text.splitlines(), f"; end {count} sha256 {hashlib.sha256(text.encode()).hexdigest()}"]


def damage(db):
    db.execute("INSERT INTO account (name, opened, closed, method) VALUES ('x', 18262, NULL, 'STRICT')")
    db.execute("INSERT INTO plain (account, commodity, units) VALUES ('x', 'USD', 500000000)")
    db.execute("UPDATE account SET opened = 99999999 WHERE name = 'Assets:Cash'")


def older(path):
    """Makes a book of edition 1."""
    with open(OLDER, encoding="utf-8") as text, connect(path) as db:
        db.executescript(text.read())


def foreign(db, name):
    db.execute(f"CREATE TABLE {name} (content TEXT)")
    db.execute(f"INSERT INTO {name} VALUES ('kept')")


PRINTED = {"holdings": holdings, "openings": openings, "numbered": openings_of_legs}


def main():
    what, path, *words = sys.argv[1:]
    if what in PRINTED:
        print("\n".join(PRINTED[what](path)))
        return
    if what == "older":
        older(path)
        return
    with connect(path) as db:
        if what == "rows":
            for row in db.execute(words[0]):
                print("|".join("" if column is None else str(column) for column in row))
        elif what == "sound":
            print(db.execute("PRAGMA integrity_check").fetchone()[0])
        elif what == "edition":
            db.execute("UPDATE book SET edition = ?", (int(words[0]),))
        elif what == "damage":
            damage(db)
        elif what == "foreign":
            foreign(db, words[0])
        else:
            sys.exit(f"tables.py: no such word: {what}")


if __name__ == "__main__":
    main()
