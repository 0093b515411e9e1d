"""Compares holdings and gains as CSV with plain ones, on ledgers drawn from seeds, and with the reports as text.

    compare.py PROGRAM SCRATCH [--first SEED] [--count N]

The plain records are written from docs/FORMATS.md and docs/RULES.md alone, over the entries of the plain judge of tests/random/.
Each ledger is posted to a new book; then its holdings, with and without days, those of past days, and its gains, whole and in
ranges, are asked for as CSV. What is printed has to be what Python's `csv` writes of the plain records, byte for byte, and to read
back as they are. Of the same gains as text, each sale has to be what its records add up to, exactly; and so has each row of a table
by keys. The register of some accounts has to be their legs in the order of days, as CSV and as text. The activity of some accounts,
by periods of some length, has to be what the legs come to, as CSV and as text; and a statement of them, changed in some rows, has to
differ in just these. A case is the ledgers of a hundred seeds, or a kind of record, which has to occur. A difference goes to standard
error, with its seed.
"""

import collections
import csv
import datetime
import functools
import io
import os
import random
import re
import subprocess
import sys
from decimal import Decimal, getcontext

for folder in ("random", "book", "lib"):
    sys.path.append(os.path.join(os.path.dirname(os.path.abspath(__file__)), "..", folder))

import draw
import model
import reports
import spell
import tables
import tally
from model import ONE, day_text, key_order, money_text, number_text

getcontext().prec = 60

A_CASE = 100  # seeds
GAINS, REGISTER, ACTIVITY = (names.split(",") for names in (tables.GAINS, tables.REGISTER, tables.ACTIVITY))
HOLDINGS, VALUES = tables.HOLDINGS.split(","), tables.VALUES.split(",")[1:]
SUMS = "currency,lots,proceeds,cost,gain".split(",")
STATEMENT = "commodity,units".split(",")
RECONCILED = "commodity,statement,book,difference".split(",")
PERIODS = {
    "year": lambda year, month: f"{year:04}", "quarter": lambda year, month: f"{year:04}-Q{(month + 2) // 3}",
    "month": lambda year, month: f"{year:04}-{month:02}",
}
KEYS = {"year": lambda record: record["sold"][:4], **{key: lambda record, key=key: record[key] for key in ("commodity", "account", "term")}}

draw.LABELS = (None, None, None, "a", "b", "é", "a lot; {}", "of ten, the first") # some with a comma

KINDS = (
    "a price of each unit", "a total price", "a total that a lot has no whole part of", "a total of several lots", "an unpriced sale",
    "a short that is covered", "a lot that is sold before its day", "a lot that is held over a year", "a label in quotes",
    "a plain position", "a lot with a price", "a lot without a price", "no sales", "nothing held", "a row of several sales",
    "a row with priced and unpriced lots", "rows in two currencies", "a past day", "a past day with an entry behind a later one",
    "an account that takes and gives in a period", "a leg behind one of a later entry", "no legs", "a register of one commodity",
    "legs before the first day", "a narration", "no narration",
    "an account with a colon at its end", "no activity", "a statement that agrees", "a statement that leaves out what is held",
    "a statement of what isn't held",
)


def ordinal(day):
    return datetime.date(*day).toordinal()


def shares(total, units, legs):
    """The shares of legs in the price of all units: parts cut at eight decimals, the last what is left."""
    parts = [total * abs(leg.units) // abs(units) for leg in legs[:-1]]
    return parts + [total - sum(parts)]


def term(acquired, sold):
    """Over a year where the sale is later than the same day of the next year, which for 29 February is 28 February."""
    year, month, day = acquired
    return "over-a-year" if sold > (year + 1, month, 28 if (month, day) == (2, 29) else day) else "up-to-a-year"


def gains(book, first, last, seen):
    records = []
    for number, entry in enumerate(book, 1):
        if not isinstance(entry.command, model.Transaction) or not first <= entry.command.day <= last:
            continue
        for place, (posting, booked) in enumerate(zip(entry.command.postings, entry.booked), 1):
            if not booked.reduces:
                continue
            price, legs, units = posting.amount.price, booked.legs, posting.amount.units
            if reports.gain_of(posting, legs) is None:
                proceeds = [None] * len(legs)
                seen["an unpriced sale"] += 1
            elif price.whole:
                sign = 1 if units < 0 else -1
                proceeds = [sign * share * ONE for share in shares(price.amount, units, legs)]
                seen["a total price"] += 1
                seen["a total of several lots"] += len(legs) > 1
                seen["a total that a lot has no whole part of"] += any(price.amount * abs(leg.units) % abs(units) for leg in legs)
            else:
                proceeds = [-leg.units * price.amount for leg in legs]
                seen["a price of each unit"] += 1
            seen["a short that is covered"] += units > 0
            for leg, got in zip(legs, proceeds):
                cost = -leg.units * leg.key.number
                held = ordinal(entry.command.day) - ordinal(leg.key.day)
                seen["a lot that is sold before its day"] += held < 0
                seen["a lot that is held over a year"] += term(leg.key.day, entry.command.day) == "over-a-year"
                seen["a label in quotes"] += "," in (leg.key.label or "")
                records.append([
                    str(number), str(place), posting.account, posting.amount.commodity, number_text(leg.units),
                    day_text(leg.key.day), day_text(entry.command.day), str(held), leg.key.label or "",
                    number_text(leg.key.number), leg.key.currency, "" if got is None else reports.money(got), reports.money(cost),
                    "" if got is None else reports.money(got - cost), term(leg.key.day, entry.command.day),
                ])
    seen["no sales"] += not records
    return [GAINS] + records


def total(records, name):
    return reports.money(sum(int(Decimal(record[name]) * 10**16) for record in records))


def gains_by(keys, records, seen):
    """The table by these keys, as CSV and as text, of the records of gains."""
    records = [dict(zip(GAINS, record)) for record in records[1:]]
    table, text = [keys + SUMS], []
    rows = collections.defaultdict(list)
    for record in records:
        rows[tuple(KEYS[key](record) for key in keys) + (record["currency"],)].append(record)
    by_bytes = lambda mark: sorted(rows, key=lambda row: ("".join(field + mark for field in row[:-1]).encode(), row[-1].encode()))
    for mark in (",", " "):
        for row in by_bytes(mark):
            priced = [record for record in rows[row] if record["gain"]]
            others = [record for record in rows[row] if not record["gain"]]
            seen["a row of several sales"] += len({(record["entry"], record["posting"]) for record in priced}) > 1
            seen["a row with priced and unpriced lots"] += bool(priced and others)
            if mark == ",":
                table += [[*row, str(len(lots)), total(lots, "proceeds") if lots is priced else "", total(lots, "cost"),
                           total(lots, "gain") if lots is priced else ""] for lots in (priced, others) if lots]
                continue
            front = f"{' '.join(row)} lots"
            if priced:
                sums = " ".join(f"{name} {total(priced, name)}" for name in ("proceeds", "cost", "gain"))
                text.append(f"{front} {len(priced)} {sums}")
            if others:
                text.append(f"{front} {len(others)} cost {total(others, 'cost')} unpriced")
    currencies = sorted({record["currency"] for record in records if record["gain"]}, key=str.encode)
    seen["rows in two currencies"] += len(currencies) > 1
    for currency in currencies:
        text.append(f"total gain {total([r for r in records if r['gain'] and r['currency'] == currency], 'gain')} {currency}")
    return table, "".join(line + "\n" for line in text or ["no gains"])


def is_asked(account, leg):
    """Whether a leg is of that account, or of one whose name begins so, where it ends with a colon; of any where it is empty."""
    return leg.account.startswith(account) if account.endswith(":") else not account or leg.account == account


def register(book, account, commodity, first, last, seen):
    """The legs of accounts in the order of days, each with what is left behind it, as CSV and as text."""
    legs = [
        (entry.command.day, number, place, leg, entry.command.narration)
        for number, entry in enumerate(book, 1)
        for place, booked in enumerate(entry.booked, 1)
        for leg in booked.legs
    ]
    left, behind = collections.Counter(), 0
    table, text = [REGISTER], []
    for day, number, place, leg, narration in sorted(legs, key=lambda leg: leg[:3]): # those of a posting stay in their order
        if not is_asked(account, leg) or day > last or commodity and leg.commodity != commodity:
            continue
        left[leg.account, leg.commodity] += leg.units
        seen["a leg behind one of a later entry"] += number < behind
        behind = max(behind, number)
        if day < first:
            seen["legs before the first day"] += 1
            continue
        now = left[leg.account, leg.commodity]
        if abs(now) >= model.UNITS_LIMIT:
            return None, None
        key = leg.key and [day_text(leg.key.day), leg.key.label or "", number_text(leg.key.number), leg.key.currency]
        table.append([day_text(day), str(number), str(place), leg.account, leg.commodity, number_text(leg.units), *(key or [""] * 4),
                      number_text(now), narration or ""])
        write, lot = (number_text, " " + reports.lot_read(leg.key)) if key else (money_text, "")
        text.append(f"{day_text(day)} {leg.account} {write(leg.units)} {leg.commodity}{lot} left {write(now)} entry {number}"
                    + ("" if narration is None else f" {narration}"))
        seen["no narration" if narration is None else "a narration"] += 1
    seen["no legs"] += not text
    seen["a register of one commodity"] += commodity is not None
    return table, "".join(line + "\n" for line in text or ["no legs"])


def activity(book, account, first, last, length, seen):
    """The table of plain units that went in and out by periods of that length, as CSV and as text."""
    rows = collections.defaultdict(lambda: [0, 0])
    for entry in book:
        year, month, _ = entry.command.day
        for leg in entry.legs():
            if leg.key is None and first <= entry.command.day <= last and is_asked(account, leg):
                rows[PERIODS[length](year, month), leg.account, leg.commodity][leg.units < 0] += abs(leg.units)
    table, text = [ACTIVITY], []
    for row in sorted(rows, key=lambda row: [part.encode() for part in row]):
        came, went = (money_text(units) for units in rows[row])
        seen["an account that takes and gives in a period"] += all(rows[row])
        table.append([*row, came, went])
        text.append(f"{' '.join(row)} in {came} out {went}")
    seen["no activity"] += not rows
    return table, "".join(line + "\n" for line in text or ["no activity"])


def reconcile(rng, book, account, day, seen):
    """A statement of what is held at the end of a day, changed here and there, and what it differs in, as CSV and as text."""
    held = collections.Counter()
    for entry in book:
        for leg in entry.legs():
            if entry.command.day <= day and is_asked(account, leg):
                held[leg.commodity] += leg.units
    return reconciled(rng, held, seen)


def reconciled(rng, held, seen):
    """The same of units by commodity."""
    said = {name: units + rng.choice((0, 0, 0, 1, -ONE)) for name, units in held.items() if rng.random() < 0.9}
    said = {name: units for name, units in said.items() if abs(units) < model.UNITS_LIMIT} # more can't be written
    said.update((name, rng.choice((0, ONE))) for name in ("NONE", "A.N-ONE") if name not in held and rng.random() < 0.2)
    statement = [STATEMENT, *([name, number_text(said[name])] for name in rng.sample(sorted(said), len(said)))]
    table, text = [RECONCILED], []
    for name in sorted({*said, *held}, key=str.encode):
        amounts = said.get(name, 0), held.get(name, 0), said.get(name, 0) - held.get(name, 0)
        if amounts[2]:
            row = [name, *map(money_text, amounts)]
            table.append(row)
            text.append("{} statement {} book {} difference {}".format(*row))
            seen["a statement that leaves out what is held"] += name not in said
            seen["a statement of what isn't held"] += name not in held
    seen["a statement that agrees"] += len(said) > 0 and not text
    return written(statement), table, "".join(line + "\n" for line in text or ["nothing differs"])


def holdings(book, day, seen, last=None):
    records, held = [], model.Held(reports.up_to(book, last, seen))
    if reports.is_beyond(held):
        return [[reports.BEYOND]]
    for pair in held.pairs():
        account, commodity = pair
        lots = held.lots_of(pair)
        empty = [] if day is None else ["", ""]
        if pair in held.plain:
            records.append([account, commodity, number_text(held.plain[pair]), "", "", "", "", ""] + empty)
            seen["a plain position"] += 1
        for key in sorted(lots, key=key_order):
            units, value = lots[key], empty
            rate = None if day is None else reports.price_at(book, day, commodity, key.currency, collections.Counter())
            if rate is not None:
                value = [number_text(rate), reports.money(units * rate)]
            if day is not None:
                seen["a lot without a price" if rate is None else "a lot with a price"] += 1
            records.append([
                account, commodity, number_text(units), day_text(key.day), key.label or "", number_text(key.number), key.currency,
                reports.money(units * key.number),
            ] + value)
    seen["nothing held"] += not records
    return [HOLDINGS if day is None else HOLDINGS + VALUES] + records


def written(records):
    text = io.StringIO()
    csv.writer(text, lineterminator="\n").writerows(records)
    return text.getvalue()


def sums_differ(text, table):
    """How the sales of a report as text differ from what their records add up to, or nothing."""
    sales = [line for line in text.splitlines() if re.match(r"[0-9]{4}-", line)]
    groups = collections.OrderedDict()
    for record in csv.DictReader(io.StringIO(table, newline="")):
        groups.setdefault((int(record["entry"]), int(record["posting"])), []).append(record)
    if list(groups) != sorted(groups) or len(groups) != len(sales):
        return f"{len(sales)} sales and {len(groups)} groups of records"
    for line, records in zip(sales, groups.values()):
        words = line.split(" ")
        front = [records[0]["sold"], records[0]["account"], str(sum(Decimal(r["units"]) for r in records)), records[0]["commodity"]]
        if [words[0], words[1], str(Decimal(words[2])), words[3]] != front and Decimal(words[2]) != Decimal(front[2]):
            return f"{line}: {front}"
        if words[4] == "unpriced":
            if any(r["proceeds"] or r["gain"] for r in records):
                return f"{line}: a record of an unpriced sale has proceeds or a gain"
            continue
        for name, place in (("proceeds", 5), ("cost", 7), ("gain", 9)):
            if sum(Decimal(r[name]) for r in records) != Decimal(words[place]):
                return f"{line}: the records come to another {name}"
    return ""


def warning(book, account):
    """What standard error says of a report of an account, where the book has none of that name, or none whose name begins so."""
    opened = [entry.command.account for entry in book if isinstance(entry.command, model.Opening)]
    known = not account or any(name.startswith(account) if account.endswith(":") else name == account for name in opened)
    return "" if known else f"lotbook: warning: the book has no account {account}\n"


def call(program, words, given=""):
    done = subprocess.run([program, *words], input=given.encode(), capture_output=True, timeout=600)
    return done.stdout.decode(), done.returncode, done.stderr.decode()


def compare(program, scratch, seed):
    drawing = draw.small(seed)
    rng, seen = random.Random(seed), collections.Counter()
    reports.quote_more(rng, drawing)
    book = os.path.join(scratch, f"drawn-{seed}.book")
    text = spell.Speller(drawing.rng).ledger([it.command for it in drawing.judged])
    call(program, ["init", "--book", book])
    subprocess.run([program, "post", "--book", book, "--batch", "r"], input=text, capture_output=True, timeout=600)
    days, ranges = reports.asked(rng, drawing.book)
    held = [([], None, None), (["--as-of", day_text(days[0]), "--day", day_text(days[1])], days[1], days[0])]
    for day in days:
        held += [(["--day", day_text(day)], day, None), (["--as-of", day_text(day)], day, day)]
    asked = [
        (["holdings", *options], holdings(drawing.book, day, seen, last), reports.unpriced(drawing.book, day, last))
        for options, day, last in held
    ]
    asked.append((["gains"], gains(drawing.book, reports.FIRST_DAY, reports.LAST_DAY, seen), ""))
    for first, last in ranges:
        asked.append((["gains", "--first", day_text(first), "--last", day_text(last)], gains(drawing.book, first, last, seen), ""))
    found = ""
    for words, records, told in asked:
        got = call(program, [words[0], "--book", book, "--format", "csv", *words[1:]])
        wanted = written(records)
        if got != (wanted, 4 if records == [[reports.BEYOND]] else 0, told):
            found += f"--- {' '.join(words)}, wanted\n{wanted}{told}--- got, status {got[1]}\n{got[0]}{got[2]}"
        elif list(csv.reader(io.StringIO(got[0], newline=""))) != records:
            found += f"--- {' '.join(words)} doesn't read back\n{got[0]}"
        elif words[0] == "gains":
            plain = call(program, [words[0], "--book", book, *words[1:]])
            differs = sums_differ(plain[0], got[0])
            if differs:
                found += f"--- {' '.join(words)}: {differs}\n"
    whole = reports.FIRST_DAY, reports.LAST_DAY
    some = rng.sample(sorted(KEYS), rng.randint(1, len(KEYS)))
    # A drawn ledger has few sales, so a row has several of them by a single key, if at all.
    for (first, last), keys in [*((whole, [key]) for key in KEYS), (ranges[0] if ranges else whole, some)]:
        table, plain = gains_by(keys, gains(drawing.book, first, last, seen), seen)
        words = ["gains", "--book", book, "--by", ",".join(keys), "--first", day_text(first), "--last", day_text(last)]
        for wanted, more in ((written(table), ["--format", "csv"]), (plain, [])):
            got = call(program, words + more)
            if got != (wanted, 0, ""):
                found += f"--- {' '.join(words + more)}, wanted\n{wanted}--- got, status {got[1]}\n{got[0]}{got[2]}"
    accounts = sorted({leg.account for entry in drawing.book for leg in entry.legs()}) or ["Assets:None"]
    for first, last in [(reports.FIRST_DAY, reports.LAST_DAY), *ranges[:1]]:
        account, length = rng.choice(accounts), rng.choice(sorted(PERIODS))
        account = rng.choice(["", account, account + ":", account.rpartition(":")[0] + ":"])
        seen["an account with a colon at its end"] += account.endswith(":")
        table, plain = activity(drawing.book, account, first, last, length, seen)
        words = ["activity", "--book", book, "--by", length, "--first", day_text(first), "--last", day_text(last)]
        words += ["--account", account] if account else []
        for wanted, more in ((written(table), ["--format", "csv"]), (plain, [])):
            got = call(program, words + more)
            if got != (wanted, 0, warning(drawing.book, account)):
                found += f"--- {' '.join(words + more)}, wanted\n{wanted}--- got, status {got[1]}\n{got[0]}{got[2]}"
    commodities = sorted({leg.commodity for entry in drawing.book for leg in entry.legs()})
    for first, last in [(reports.FIRST_DAY, reports.LAST_DAY), *ranges[:2]]:
        account, commodity = rng.choice(accounts), rng.choice([None, None, *commodities[:1]])
        account = rng.choice([account, account, account.rpartition(":")[0] + ":", account + ":"])
        table, plain = register(drawing.book, account, commodity, first, last, seen)
        if table is None:
            continue # what is left is out of range: tests/reports/register-range.session
        words = ["register", "--book", book, "--account", account, "--first", day_text(first), "--last", day_text(last)]
        words += ["--commodity", commodity] if commodity else []
        for wanted, more in ((written(table), ["--format", "csv"]), (plain, [])):
            got = call(program, words + more)
            if got != (wanted, 0, warning(drawing.book, account)):
                found += f"--- {' '.join(words + more)}, wanted\n{wanted}--- got, status {got[1]}\n{got[0]}{got[2]}"
    for day in [reports.LAST_DAY, *days[:1]]:
        account = rng.choice(accounts)
        account = rng.choice([account, account + ":", account.rpartition(":")[0] + ":"])
        statement, table, plain = reconcile(rng, drawing.book, account, day, seen)
        words = ["reconcile", "--book", book, "--account", account]
        words += [] if day == reports.LAST_DAY else ["--as-of", day_text(day)]
        for wanted, more in ((written(table), ["--format", "csv"]), (plain, [])):
            got = call(program, words + more, statement)
            if got != (wanted, int(len(table) > 1), warning(drawing.book, account)):
                found += f"--- {' '.join(words + more)} of\n{statement}--- wanted\n{wanted}--- got, status {got[1]}\n{got[0]}{got[2]}"
    tables.removed(book)
    return found and text.decode() + found, seen


def main():
    words = tally.words("program", "scratch", first=1, count=100).parse_args()
    of_seed = functools.partial(compare, words.program, words.scratch)
    census = tally.sweep(tally.drawn("tables of the ledgers of seeds {} to {}", of_seed, words, A_CASE))
    tally.occurs(KINDS, census, 1, "a table has {0}")


if __name__ == "__main__":
    main()
    tally.end()
