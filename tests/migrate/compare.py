"""Compares a book of edition 1 with what `migrate` made of it, by SQLite's own library, which reads copies of the files.

    compare.py NAME BEFORE AFTER NEW

BEFORE is the file as it was, AFTER as it is; NEW is a book that the same program made.
"""

import os
import sqlite3
import sys

sys.path.insert(0, os.path.join(os.path.dirname(os.path.abspath(__file__)), "..", "book"))
sys.path.append(os.path.join(os.path.dirname(os.path.abspath(__file__)), "..", "lib"))

import tables  # noqa: E402  (the folders are named above)
import tally  # noqa: E402

OF_EDITION_1 = tables.OF_EDITION_1
KEY = ("account", "commodity", "cost_day", "cost_currency", "cost_number", "cost_label")


def pages(db):
    """The page of the root of each table and index, by its name."""
    return dict(db.execute("SELECT name, rootpage FROM sqlite_schema"))


def schema(db):
    """What stands in the schema, in its order, and the names in the order of their pages."""
    found = list(db.execute("SELECT type, name, tbl_name, sql FROM sqlite_schema ORDER BY rowid"))
    return found, [name for (name,) in db.execute("SELECT name FROM sqlite_schema ORDER BY rootpage")]


def rows(db, names):
    """The rows of these tables in the order of their making, with the numbers that SQLite gave them."""
    return {name: list(db.execute(f"SELECT rowid, * FROM {name} ORDER BY rowid")) for name in names}


def numbers_of_lots(db):
    """The opening number of each lot, worked out leg by leg, from the tables `lot` and `leg` alone."""
    found = {}
    legs = f"SELECT entry, posting, units FROM at_cost WHERE {' AND '.join(f'{name} = ?' for name in KEY)} ORDER BY entry, posting, place"
    db.execute("CREATE TEMP TABLE at_cost AS SELECT * FROM leg WHERE cost_day IS NOT NULL")
    db.execute(f"CREATE INDEX temp.by_key ON at_cost ({', '.join(KEY)})")
    for key in list(db.execute(f"SELECT {', '.join(KEY)} FROM lot")):
        there = 0
        for entry, posting, units in db.execute(legs, key):
            if there == 0:
                found[key] = 64 * (entry - 1) + posting
            there += units
    return found


class Before:
    """What a book of edition 1 holds, and what has to stand in the tables that a migration adds."""

    def __init__(self, path):
        self.rows, self.pages, self.numbers = tables.of_copy(path, self.read)

    @staticmethod
    def read(path):
        with tables.connect(path) as db:
            return rows(db, OF_EDITION_1), pages(db), numbers_of_lots(db)


def kept(before, db):
    there = rows(db, OF_EDITION_1[1:])
    for name, was in before.rows.items():
        if name != "book" and there[name] != was:
            return f"{name} has {[row for row in there[name] if row not in was][:2]}"
    moved = [name for name, page in before.pages.items() if pages(db)[name] != page]
    return f"other pages: {moved}" if moved else ""


def edition(_, db):
    found = list(db.execute("SELECT * FROM book"))
    return "" if found == [("lot-book", 2)] else f"{found}"


def place(before, db):
    found, wanted = list(db.execute("SELECT * FROM migration")), [(len(before.rows["entry"]),)]
    return "" if found == wanted else f"{found} instead of {wanted}"


def openings(before, db):
    found = list(db.execute(f"SELECT {', '.join(KEY)}, opening FROM opening"))
    wanted = [(*key, number) for key, number in before.numbers.items()]
    wrong = set(found) ^ set(wanted)
    return f"{sorted(wrong)[:3]}" if wrong or len(found) != len(wanted) else ""


def lots(_, db):
    keys = f"SELECT {', '.join(KEY)} FROM "
    wrong = set(db.execute(keys + "lot")) ^ set(db.execute(keys + "opening"))
    return f"{sorted(wrong)[:3]}" if wrong else ""


def sound(_, db):
    found = list(db.execute("PRAGMA integrity_check"))
    return "" if found == [("ok",)] else f"{found[:3]}"


ASKED = {
    "it is of edition 2": edition,
    "the place of migration is the number of its entries": place,
    "the opening numbers are those of its legs": openings,
    "one opening number for each lot": lots,
    "all other rows are as before": kept,
    "its file is sound": sound,
}


def schema_of(path):
    def read(copy):
        with tables.connect(copy) as db:
            return schema(db)

    return tables.of_copy(path, read)


def answers(before, path, of_new):
    """What is wrong with each thing that is asked of a migrated book, by its name, or nothing."""

    def asked(ask, db):
        try:
            return ask(before, db)
        except sqlite3.Error as error:  # a table isn't there, or the file isn't sound
            return f"{error}"

    def read(copy):
        with tables.connect(copy) as db:
            found = {name: asked(ask, db) for name, ask in ASKED.items()}
            wrong = [pair for pair in zip(schema(db), of_new) if pair[0] != pair[1]]
            found["its schema is that of a new book"] = f"{wrong[0]}" if wrong else ""
            return found

    return tables.of_copy(path, read)


def fault_of(before, path, of_new):
    """What is wrong with a migrated book, or nothing."""
    return "; ".join(f"{name}: {fault}" for name, fault in answers(before, path, of_new).items() if fault)


def fault_before(before, path):
    """What is wrong with a book that wasn't migrated, or nothing."""

    def read(copy):
        with tables.connect(copy) as db:
            if pages(db) != before.pages:
                return f"other tables: {sorted(set(pages(db)) ^ set(before.pages))}"
            there = rows(db, OF_EDITION_1)
            return "" if there == before.rows else f"other rows: {[name for name in there if there[name] != before.rows[name]]}"

    return tables.of_copy(path, read)


def edition_of(path):
    def read(copy):
        with tables.connect(copy) as db:
            return db.execute("SELECT edition FROM book").fetchone()[0]

    return tables.of_copy(path, read)


def fault_of_either(before, path, of_new):
    """What is wrong with a book that was migrated or wasn't, by what its table `book` says, or nothing; and its edition."""
    try:
        found = edition_of(path)
    except sqlite3.Error as error:
        return None, f"{error}"
    fault = fault_before(before, path) if found == 1 else fault_of(before, path, of_new)
    return found, fault and f"of edition {found}, {fault}"


def main():
    name, before, after, new = sys.argv[1:]
    for asked, fault in answers(Before(before), after, schema_of(new)).items():
        tally.check(f"{name}, {asked}", fault)


if __name__ == "__main__":
    main()
    tally.end()
