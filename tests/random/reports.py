"""Compares the reports of books in files with plain ones, on ledgers drawn from seeds.

    reports.py PROGRAM SCRATCH [--first SEED] [--count N]

The plain reports are written from docs/FORMATS.md and docs/RULES.md alone, over the entries of the plain judge: each looks over
all entries of the book. Each ledger is posted to a new book, in two calls, of which the second finds in the file what the first one
left, and before it a dry run of the same tells what it would gain and leave; then its holdings, with and without days, those of past
days, its gains, whole and in ranges, and its journal are compared, byte for byte, and the opening number of each lot in the tables. A case is the ledgers of a hundred seeds, or a kind of row, which has
to occur at least some times. A difference goes to standard error, with its seed.
"""

import collections
import functools
import os
import random
import subprocess
import sys

sys.path.append(os.path.join(os.path.dirname(os.path.abspath(__file__)), "..", "book"))
sys.path.append(os.path.join(os.path.dirname(os.path.abspath(__file__)), "..", "lib"))

import draw
import model
import notes
import spell
import tables
import tally
from model import ONE, day_text, key_order, money_text, number_text

A_CASE = 100  # seeds
AT_LEAST = 3  # times that each kind occurs
FIRST_DAY, LAST_DAY = (1, 1, 1), (9999, 12, 31)
BEYOND = "fault P1 Range"  # with status 4

KINDS = (
    "a price of each unit", "a total price", "no price", "a price in another currency than that of a lot", "lots of several currencies",
    "one leg", "several legs", "legs in another order than by keys", "legs of one day in another order than by keys",
    "lots sold", "shorts covered", "a gain", "a loss", "a lot with a label",
    "totals in several currencies", "sales without a total", "no sales", "a range that leaves some sales out", "a range of one day with a sale",
    "a range whose first day is after its last", "a value", "no value", "a value below zero", "a value on the day of its price",
    "a price that was replaced", "a later price that doesn't count", "plain units of a commodity with lots", "nothing held",
    "an entry of Opening", "an entry of Closing", "an entry of Declaring", "an entry of Quoting", "an entry of Transaction",
    "a refused command before an entry", "lots of one day in another order than that of their openings",
    "a past day", "a past day with an entry behind a later one",
    "a dry run with sales behind earlier ones", "a dry run with sales", "a dry run without a sale", "a dry run that tells what it would leave",
    "a dry run with a refusal", "a dry run with a refusal that keeps all or none",
)


def money(weight):
    """The text of a weight, which has scale 16."""
    return money_text(weight, 16)


def lot_read(key):
    label = "" if key.label is None else f', "{key.label}"'
    return f"{{{number_text(key.number)} {key.currency}, {day_text(key.day)}{label}}}"


# Holdings.


def price_at(book, day, base, quote, seen):
    """The rate of the last quoting of the greatest day that isn't after this one, or none."""
    quotings = [e.command for e in book if isinstance(e.command, model.Quoting) and (e.command.base, e.command.quote) == (base, quote)]
    days = [quoting.day for quoting in quotings if quoting.day <= day]
    if len(days) < len(quotings):
        seen["a later price that doesn't count"] += 1
    if not days:
        return None
    rates = [quoting.rate for quoting in quotings if quoting.day == max(days)]
    if len(rates) > 1:
        seen["a price that was replaced"] += 1
    if max(days) == day:
        seen["a value on the day of its price"] += 1
    return rates[-1]


def up_to(book, last, seen):
    """The entries with days up to this one, in their order; all of them where there is none."""
    entries = [entry for entry in book if last is None or entry.command.day <= last]
    seen["a past day"] += len(entries) < len(book)
    seen["a past day with an entry behind a later one"] += len(entries) < len(book) and book[: len(entries)] != entries
    return entries


def is_beyond(held):
    """Whether a position is beyond units, as one of a past day may be."""
    units = [*held.plain.values(), *(units for lots in held.lots.values() for units in lots.values())]
    return any(abs(of_one) >= model.UNITS_LIMIT for of_one in units)


def holdings(book, day, seen, last=None):
    """The lines of the holdings, or of what was held at the end of the last day, with values where there is a day."""
    lines, costs, values = [], {}, {}
    held = model.Held(up_to(book, last, seen))
    if is_beyond(held):
        return [BEYOND]
    for pair in held.pairs():
        account, commodity = pair
        lots = held.lots_of(pair)
        if pair in held.plain:
            lines.append(f"{account} {money_text(held.plain[pair])} {commodity}")
            seen["plain units of a commodity with lots"] += bool(lots)
        for key in sorted(lots, key=key_order):
            line = f"{account} {number_text(lots[key])} {commodity} {lot_read(key)}"
            costs[key.currency] = costs.get(key.currency, 0) + lots[key] * key.number
            if day is not None:
                rate = price_at(book, day, commodity, key.currency, seen)
                if rate is None:
                    line += " value none"
                    seen["no value"] += 1
                else:
                    value = lots[key] * rate
                    values[key.currency] = values.get(key.currency, 0) + value
                    line += f" value {money(value)} {key.currency}"
                    seen["a value below zero" if value < 0 else "a value"] += 1
            lines.append(line)
    if not lines:
        seen["nothing held"] += 1
        return ["nothing held"]
    lines += [f"total cost {money(costs[currency])} {currency}" for currency in sorted(costs)]
    return lines + [f"total value {money(values[currency])} {currency}" for currency in sorted(values)]


def unpriced(book, day, last=None):
    """What standard error says beside these holdings: how many lots have no price, or nothing."""
    held, count, costs, values = model.Held(up_to(book, last, collections.Counter())), 0, {}, {}
    if day is None or is_beyond(held):
        return ""
    for pair in held.pairs():
        for key, units in held.lots_of(pair).items():
            rate = price_at(book, day, pair[1], key.currency, collections.Counter())
            sums, each = (costs, key.number) if rate is None else (values, rate)
            sums[key.currency] = sums.get(key.currency, 0) + units * each
            count += rate is None
    cost, value = (", ".join(f"{money(sums[currency])} {currency}" for currency in sorted(sums)) for sums in (costs, values))
    told = f"lotbook: warning: lots without a price in their currency at {day_text(day)}: {count}, total cost {cost}; total value of the others: {value or 'none'}\n"
    return told if count else ""


# Gains.


def gain_of(posting, legs):
    """Proceeds and cost of a sale, or none where it is unpriced."""
    price = posting.amount.price
    if price is None or any(leg.key.currency != price.currency for leg in legs):
        return None
    if price.whole:
        proceeds = price.amount * ONE if posting.amount.units < 0 else -price.amount * ONE
    else:
        proceeds = sum(-leg.units * price.amount for leg in legs)
    return proceeds, sum(-leg.units * leg.key.number for leg in legs)


def note_sale(posting, legs, gain, seen):
    price = posting.amount.price
    currencies = {leg.key.currency for leg in legs}
    seen["no price" if price is None else "a total price" if price.whole else "a price of each unit"] += 1
    seen["several legs" if len(legs) > 1 else "one leg"] += 1
    seen["lots sold" if posting.amount.units < 0 else "shorts covered"] += 1
    seen["lots of several currencies"] += len(currencies) > 1
    days = [leg.key.day for leg in legs]
    in_order = [leg.key for leg in legs] == sorted((leg.key for leg in legs), key=key_order)
    seen["legs in another order than by keys"] += not in_order
    seen["legs of one day in another order than by keys"] += not in_order and len({*days}) == 1
    seen["a lot with a label"] += any(leg.key.label is not None for leg in legs)
    if price is not None and gain is None:
        seen["a price in another currency than that of a lot"] += 1
    if gain is not None:
        seen["a gain"] += gain[0] > gain[1]
        seen["a loss"] += gain[0] < gain[1]


def gains(book, first, last, seen):
    """The lines of the gains of a range of days."""
    lines, totals, left_out = [], {}, 0
    for entry in book:
        if not isinstance(entry.command, model.Transaction):
            continue
        for posting, booked in zip(entry.command.postings, entry.booked):
            if not booked.reduces:
                continue
            if not first <= entry.command.day <= last:
                left_out += 1
                continue
            gain = gain_of(posting, booked.legs)
            note_sale(posting, booked.legs, gain, seen)
            units, commodity, _, price = posting.amount
            line = f"{day_text(entry.command.day)} {posting.account} {number_text(units)} {commodity}"
            if gain is None:
                lines.append(line + " unpriced")
            else:
                proceeds, cost = gain
                lines.append(f"{line} proceeds {money(proceeds)} cost {money(cost)} gain {money(proceeds - cost)} {price.currency}")
                totals[price.currency] = totals.get(price.currency, 0) + proceeds - cost
            lines += [f"  {number_text(leg.units)} {commodity} {lot_read(leg.key)}" for leg in booked.legs]
    seen["a range that leaves some sales out"] += bool(left_out and lines)
    seen["a range of one day with a sale"] += bool(first == last and lines)
    seen["a range whose first day is after its last"] += bool(first > last and left_out)
    seen["no sales"] += not lines and not left_out
    seen["sales without a total"] += bool(lines and not totals)
    seen["totals in several currencies"] += len(totals) > 1
    lines += [f"total gain {money(totals[currency])} {currency}" for currency in sorted(totals)]
    return lines or ["no gains"]


# The journal.


def note_text(note):
    return '"' + note.replace("\\", "\\\\").replace('"', '\\"') + '"'


def cost_text(cost):
    parts = []
    if cost.number is not None or cost.currency is not None:
        number = "" if cost.number is None else number_text(cost.number)
        parts.append(" ".join(filter(None, (number, cost.currency))))
    if cost.day is not None:
        parts.append(day_text(cost.day))
    if cost.label is not None:
        parts.append(f'"{cost.label}"')
    opened, closed = ("{{", "}}") if cost.whole else ("{", "}")
    return opened + ", ".join(parts) + closed


def posting_text(posting):
    text = "  " + posting.account
    if posting.amount is None:
        return text
    units, commodity, cost, price = posting.amount
    text += f" {number_text(units)} {commodity}"
    if cost is not None:
        text += " " + cost_text(cost)
    if price is not None:
        text += f" {'@@' if price.whole else '@'} {number_text(price.amount)} {price.currency}"
    return text


def canonical(command):
    """The lines of the canonical text of a command."""
    day = day_text(command.day)
    if isinstance(command, model.Opening):
        currencies = " " + ",".join(command.currencies) if command.currencies else ""
        method = "" if command.method == "STRICT" else f' "{command.method}"'
        return [f"{day} open {command.account}{currencies}{method}"]
    if isinstance(command, model.Closing):
        return [f"{day} close {command.account}"]
    if isinstance(command, model.Declaring):
        return [f"{day} commodity {command.commodity}"]
    if isinstance(command, model.Quoting):
        return [f"{day} price {command.base} {number_text(command.rate)} {command.quote}"]
    notes = [note_text(note) for note in (command.payee, command.narration) if note is not None]
    return [" ".join((day, command.flag, *notes))] + [posting_text(posting) for posting in command.postings]


def journal(judged, seen):
    """The lines of the journal of these commands, which were sent as the batch `r`."""
    lines, entries = [], 0
    for number, it in enumerate(judged, 1):
        if it.entry is not None:
            entries += 1
            seen["an entry of " + type(it.command).__name__] += 1
            seen["a refused command before an entry"] += number > entries
            lines += [f"; entry {entries} key post:r {number}"] + canonical(it.command)
    return lines


# Opening numbers.


def openings(book, seen):
    """A line for each lot with its opening number, in the order of the holdings."""
    lines = []
    held = model.Held(book)
    for pair in held.pairs():
        opened = held.openings_of(pair)
        keys = sorted(opened, key=key_order)
        lines += [" ".join((*pair, lot_read(key), str(opened[key]))) for key in keys]
        seen["lots of one day in another order than that of their openings"] += any(
            one.day == other.day and opened[one] > opened[other] for one, other in zip(keys, keys[1:])
        )
    return lines


# Comparing.


def answer(program, words, text=b""):
    """What a call prints, its status, and what it says on standard error."""
    done = subprocess.run([program, *words], input=text, capture_output=True, timeout=600)
    return done.stdout.decode(), done.returncode, done.stderr.decode()


def call(program, words, text=b""):
    """The same without the notes on standard error."""
    printed, status, said = answer(program, words, text)
    return printed, status, notes.without(said.encode()).decode()


def quote_more(rng, drawing):
    """Adds prices to a drawing, of what is held in lots and in their currencies, on days around those of the ledger."""
    days = sorted({entry.command.day for entry in drawing.book}) or [(2020, 1, 1)]
    for (_, commodity), lots in sorted(model.Held(drawing.book).lots.items()):
        for currency in sorted({key.currency for key in lots}):
            for _ in range(rng.choice((0, 1, 2, 3))):
                drawing.judge(model.Quoting(rng.choice(days), commodity, rng.choice(draw.RATES), currency))


def asked(rng, book):
    """Some days and ranges to ask for: around those of the ledger, and at the ends of the calendar."""
    days = sorted({entry.command.day for entry in book}) or [(2020, 1, 1)]
    sold = [e.command.day for e in book if any(booked.reduces for booked in e.booked)] or days
    one = rng.choice(sold)
    ranges = [(FIRST_DAY, LAST_DAY), (one, one), (FIRST_DAY, one), (one, LAST_DAY), (rng.choice(days), rng.choice(days)), (LAST_DAY, FIRST_DAY)]
    return rng.sample([rng.choice(days), rng.choice(days), FIRST_DAY, LAST_DAY], 2), rng.sample(ranges, 3)


def told(rng, drawing, at, seen):
    """Options of a dry run of what is behind the first commands, and what it prints: the replies, and of the book that it would leave the
    gains of the entries that it would add, and what is held."""
    options = rng.choice((["--gains"], ["--holdings"], ["--gains", "--holdings"])) + rng.choice(([], [], ["--all-or-none"]))
    lines = [model.reply(number, it.refused) for number, it in enumerate(drawing.judged, 1)][at:]
    refused = any(it.refused is not None for it in drawing.judged[at:])
    before = sum(it.entry is not None for it in drawing.judged[:at])
    left = drawing.book[:before] if refused and "--all-or-none" in options else drawing.book
    if "--gains" in options:
        added = gains(left[before:], FIRST_DAY, LAST_DAY, collections.Counter())
        seen["a dry run without a sale" if added == ["no gains"] else "a dry run with sales"] += 1
        earlier = any(booked.reduces for entry in left[:before] for booked in entry.booked)
        seen["a dry run with sales behind earlier ones"] += earlier and added != ["no gains"]
        lines += added
    if "--holdings" in options:
        lines += holdings(left, None, collections.Counter())
        seen["a dry run that tells what it would leave"] += 1
    seen["a dry run with a refusal"] += refused
    seen["a dry run with a refusal that keeps all or none"] += refused and "--all-or-none" in options
    return options, lines, int(refused)


def compare(program, scratch, seed):
    """How the reports of a drawn ledger differ, or nothing; and what occurs in them, each kind once."""
    drawing = draw.small(seed)
    rng, seen = random.Random(seed), collections.Counter()
    quote_more(rng, drawing)
    commands = [it.command for it in drawing.judged]
    at = rng.randint(0, len(commands))  # so many are posted by a call of their own
    begun, text = (spell.Speller(drawing.rng).ledger(them) for them in (commands[:at], commands))
    book = os.path.join(scratch, f"drawn-{seed}.book")
    call(program, ["init", "--book", book])
    calls = (["--from", "1"], begun), (["--from", str(at + 1)], text)
    post = ["post", "--book", book, "--batch", "r"]
    posted = [call(program, post + calls[0][0], calls[0][1])]
    options, would, status = told(random.Random(f"told {seed}"), drawing, at, seen)
    tried = call(program, [*post, *calls[1][0], "--dry-run", *options], text)
    posted.append(call(program, post + calls[1][0], calls[1][1]))
    replies, messages = ("".join(part[which] for part in posted) for which in (0, 2))
    wanted = [model.reply(number, it.refused) for number, it in enumerate(drawing.judged, 1)]
    cases = [(["post"], wanted, "", (replies, 0, messages))]
    days, ranges = asked(rng, drawing.book)
    held = [([], None, None), (["--as-of", day_text(days[0]), "--day", day_text(days[1])], days[1], days[0])]
    for day in days:
        held += [(["--day", day_text(day)], day, None), (["--as-of", day_text(day)], day, day)]
    reports = [
        (["holdings", *options], holdings(drawing.book, day, seen, last), unpriced(drawing.book, day, last))
        for options, day, last in held
    ]
    reports.append((["journal"], journal(drawing.judged, seen), ""))
    for first, last in ranges:
        reports.append((["gains", "--first", day_text(first), "--last", day_text(last)], gains(drawing.book, first, last, seen), ""))
    reports.append((["gains"], gains(drawing.book, FIRST_DAY, LAST_DAY, seen), ""))
    for words, lines, noted in reports:
        cases.append((words, lines, noted, answer(program, [words[0], "--book", book, *words[1:]])))
    numbers = "".join(line + "\n" for line in tables.openings(book))
    cases.append((["the table opening"], openings(drawing.book, seen), "", (numbers, 0, "")))
    tables.removed(book)
    found = ""
    report = "".join(line + "\n" for line in would)
    if tried != (report, status, ""):
        found += f"--- post --from {at + 1} --dry-run {' '.join(options)}, wanted\n{report}--- got, status {tried[1]}\n{tried[0]}{tried[2]}"
    for words, lines, noted, got in cases:
        report = "".join(line + "\n" for line in lines)
        if got != (report, 4 if lines == [BEYOND] else 0, noted):
            found += f"--- {' '.join(words)}, wanted\n{report}{noted}--- got, status {got[1]}\n{got[0]}{got[2]}"
    return found and text.decode() + found, collections.Counter(kind for kind in seen if seen[kind])


def main():
    words = tally.words("program", "scratch", first=1, count=200).parse_args()
    of_seed = functools.partial(compare, words.program, words.scratch)
    census = tally.sweep(tally.drawn("the reports of the ledgers {} to {}", of_seed, words, A_CASE))
    tally.occurs(KINDS, census, AT_LEAST, "{0}: in {1} ledgers")


if __name__ == "__main__":
    main()
    tally.end()
