"""Compares what Beancount's own command, `bean-query`, finds held at the end of a past day with what the program says.

    by_bean_query.py FOLDER DIFFERS SCRATCH

For each NAME.past under the folder, the program's table of that day, there are NAME.day, which has the day, and NAME.journal. The query
adds up numbers, by account, commodity and the parts of a cost. `bean-query` rounds numbers as it prints them, so they are asked for as texts.
It is asked of the journal behind the line that sets Beancount's tolerance to nothing, as in by_beancount.py. Journals that the file DIFFERS
names aren't compared. It prints a line `ok NAME` or `FAILED NAME: ..` for each.
"""

import csv
import io
import os
import re
import subprocess
import sys
from decimal import Decimal

import tally

EXACT_BALANCE = 'option "inferred_tolerance_multiplier" "0"\n'
PARTS = "account, currency, cost_date, cost_label, {} cost_currency"
ASKED, GROUPED = PARTS.format("str(cost_number) AS each,"), PARTS.format("each,")
QUERY = f"SELECT {ASKED}, str(sum(number)) AS held WHERE date <= {{}} GROUP BY {GROUPED}"
NUMBER = re.compile(r"Decimal\('(.+)'\)")


def positions(rows):
    """What is held, by account, commodity, day, label, number and currency of a cost, from rows with the units behind these."""
    held = {}
    for account, commodity, day, label, number, currency, units in rows:
        if Decimal(units):
            held[account, commodity, day, label, Decimal(number) if number else None, currency] = Decimal(units)
    return held


def of_table(text):
    """What the program's table says."""
    columns = ("account", "commodity", "acquired", "label", "unit_cost", "currency", "units")
    return positions([record[name] for name in columns] for record in csv.DictReader(io.StringIO(text, newline="")))


def number(text):
    """The number that `bean-query` says as a text, or nothing where it says `None`."""
    found = NUMBER.fullmatch(text)
    return found[1] if found else ""


def of_query(text):
    """What `bean-query` prints as CSV: its fields are filled up with blanks. Of nothing it says that it is empty."""
    if text.strip() == "(empty)":
        return {}
    rows = [[field.strip() for field in row] for row in csv.reader(io.StringIO(text, newline="")) if row]
    return positions([*row[:4], number(row[4]), row[5], number(row[6])] for row in rows[1:])


def content(path):
    with open(path, encoding="utf-8", newline="") as file:
        return file.read()


def difference(path, scratch):
    """How the two differ, or nothing."""
    ledger = os.path.join(scratch, "asked.beancount")
    with open(ledger, "w", encoding="utf-8") as file:
        file.write(EXACT_BALANCE + content(path + ".journal"))
    query = QUERY.format(content(path + ".day").strip())
    done = subprocess.run(["bean-query", "--format", "csv", ledger, query], capture_output=True, timeout=600)
    if done.returncode or not done.stdout:
        return f"bean-query ends with {done.returncode}: {done.stderr[:200]!r}"
    wanted, found = of_table(content(path + ".past")), of_query(done.stdout.decode())
    wrong = sorted({*wanted.items()} ^ {*found.items()}, key=repr)
    return f"{len(wrong)} positions differ, the first is {wrong[0]}" if wrong else ""


def main():
    folder, differs, scratch = sys.argv[1:]
    known = {line.split(": ", 1)[0] for line in content(differs).splitlines() if line.strip() and not line.startswith("#")}
    for root, _, names in sorted(os.walk(folder)):
        for name in sorted(name for name in names if name.endswith(".past")):
            path = os.path.join(root, name)[: -len(".past")]
            case = os.path.relpath(path, folder)
            if case not in known:
                tally.check(f"{case} at the end of {content(path + '.day').strip()}", difference(path, scratch))


if __name__ == "__main__":
    main()
    tally.end()
