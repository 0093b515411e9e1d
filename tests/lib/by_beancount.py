"""Compares what Beancount makes of journals with what the program says is held.

    by_beancount.py FOLDER DIFFERS

For each NAME.journal under the folder there is a NAME.holdings, the program's report. A journal is read as it stands, behind one
line that sets Beancount's tolerance to nothing: else it would round the amount of a posting without one, and pass over small
residuals. Compared are, line by line, the positions that Beancount's own inventories hold once every posting was added as Beancount
booked it, lots with cost, day and label and plain units, and the sums of the lots' costs. Beancount must find no error, by the
checks of `bean-check`. The file DIFFERS names the journals that Beancount judges otherwise, each with the reason; of those it is
checked that they do differ. It prints a line `ok NAME` or `FAILED NAME: ..` for each.
"""

import os
import sys
from decimal import Context, Decimal

import tally
from beancount import loader
from beancount.core import data, inventory
from beancount.ops import validation

EXACT_BALANCE = 'option "inferred_tolerance_multiplier" "0"\n'
EXACT = Context(prec=60)


def number_text(number, decimals=0):
    """The shortest text of a number, with at least so many decimals."""
    whole, _, digits = format(number.copy_abs(), "f").partition(".")
    digits = digits.rstrip("0").ljust(decimals, "0")
    return ("-" if number < 0 else "") + whole + ("." + digits if digits else "")


def order(account, position):
    """The order of rows: account, commodity, the plain one first, then lots by day, currency, number and label."""
    cost = position.cost
    key = (account.encode(), position.units.currency.encode())
    if cost is None:
        return (*key, 0)
    return (*key, 1, cost.date, cost.currency.encode(), cost.number, (cost.label or "").encode())


def row(account, position):
    units, cost = position
    if cost is None:
        return f"{account} {number_text(units.number, 2)} {units.currency}"
    label = f', "{cost.label}"' if cost.label else ""
    return f"{account} {number_text(units.number)} {units.currency} {{{number_text(cost.number)} {cost.currency}, {cost.date}{label}}}"


def holdings(entries):
    """The lines of what is held after these entries, as docs/FORMATS.md has them."""
    accounts = {}
    for entry in entries:
        if isinstance(entry, data.Transaction):
            for posting in entry.postings:
                accounts.setdefault(posting.account, inventory.Inventory()).add_position(posting)
    positions = [(account, position) for account, held in accounts.items() for position in held if position.units.number]
    positions.sort(key=lambda held: order(*held))
    totals = {}
    for _, (units, cost) in positions:
        if cost is not None:
            totals[cost.currency] = EXACT.add(totals.get(cost.currency, Decimal()), EXACT.multiply(units.number, cost.number))
    lines = [row(account, position) for account, position in positions]
    lines += [f"total cost {number_text(totals[currency], 2)} {currency}" for currency in sorted(totals)]
    return lines or ["nothing held"]


def difference(path, wanted):
    """How Beancount judges the journal otherwise, or nothing."""
    with open(path, encoding="utf-8") as journal:
        text = EXACT_BALANCE + journal.read()
    entries, errors, _ = loader.load_string(text, extra_validations=validation.HARDCORE_VALIDATIONS)
    for error in errors:
        return "line {}: {}".format(error.source.get("lineno", 1) - 1, error.message.splitlines()[0])
    held = holdings(entries)
    for line in held:
        if line not in wanted:
            return f"it holds '{line}'"
    return "" if held == wanted else f"it holds {len(held)} lines instead of {len(wanted)}"


def main():
    folder, differs = sys.argv[1:]
    with open(differs, encoding="utf-8") as lines:
        known = dict(line.rstrip("\n").split(": ", 1) for line in lines if line.strip() and not line.startswith("#"))
    for root, _, names in sorted(os.walk(folder)):
        for name in sorted(name for name in names if name.endswith(".journal")):
            path = os.path.join(root, name)[: -len(".journal")]
            case = os.path.relpath(path, folder)
            with open(path + ".holdings", encoding="utf-8") as report:
                wanted = report.read().splitlines()
            found = difference(path + ".journal", wanted)
            reason = known.pop(case, None)
            if reason is None:
                tally.check(case, found)
            else:
                tally.check(f"{case} differs", "" if found else "it no longer does", reason)
    for case in known:
        tally.check(case, "there is no such journal")


if __name__ == "__main__":
    main()
    tally.end()
