"""Compares the program with the plain judge and the second reader, on ledgers drawn from seeds and on changed ones.

    compare.py PROGRAM [--first SEED] [--count N] [--changed N] [--crowded METHOD ..]

Each seed gives a ledger of commands, whose answer is the judge's, and so many changed texts of it, whose answer is that of
the reader and the judge. A case is the texts of a hundred seeds, a ledger of 10,000 lots, or something that has to occur at
least some times: a refusal, a booking, a form or a fault of text. For a text whose answer is another one, its seed, the text and
the two answers go to standard error; to repeat that seed alone: --first SEED --count 1 --crowded.
"""

import collections
import functools
import itertools
import os
import subprocess
import sys

sys.path.append(os.path.join(os.path.dirname(os.path.abspath(__file__)), "..", "lib"))

import draw
import forms
import model
import mutate
import notes
import spell
import tally
import text as second

A_CASE = 100  # seeds
AT_LEAST = 3  # times that each kind occurs

ORDERED = ("FIFO", "LIFO", "HIFO")


def orders(count):
    """Each order in which so many lots may be opened, by their places in the order of keys."""
    return [" ".join(map(str, order)) for order in itertools.permutations(range(1, count + 1))]


KINDS = (
    ["opening accepted", "opening refused L2 AlreadyOpen", "transaction accepted"]
    + ["closing accepted", "declaring accepted", "quoting accepted", "closing refused L3 UnknownAccount"]
    + ["closing refused L4 NotOpenYet", "closing refused L5 Closed", "declaring refused L6 AlreadyDeclared"]
    + ["transaction refused " + code for code in (
        "L3 UnknownAccount", "L4 NotOpenYet", "L5 Closed", "L7 CurrencyNotAllowed", "L8 TooManyPostings", "L9 TwoElided",
        "L10 BackDated", "L11 Range", "L12 InexactFill", "L13 FillNotAllowed", "L14 NotBalanced", "L15 TooManyLots",
        "B1 NoMatch", "B2 Ambiguous", "B3 NotEnough", "B4 IncompleteCost", "B5 InexactCost", "B6 ZeroUnits",
    )]
    + [f"{method} opens a {lot}" for method in model.METHODS for lot in ("lot", "short")]
    + [f"{method} takes {lots} of {sign}" for method in model.METHODS[:-1]
       for lots in ("one lot", "several lots") for sign in ("longs", "shorts")]
    + ["a lot taken in the transaction that opened it", "lots of both signs under NONE", "L11 Range of a fill"]
    + [f"{method} takes some of {lots}" for method in ORDERED for lots in (
        *(f"{count} lots that tie, opened as {order}" for count in (2, 3) for order in orders(count)), "20 lots and more that tie")]
    + [f"{method} takes {what}" for method in ORDERED for what in (
        "another lot than by keys alone", "another lot than by the first openings", "shorts that tie")]
    + ["a lot opened again " + where for where in (
        "by a later transaction", "by a later posting", "twice in a transaction", "in a transaction without a fill",
        "in one whose fill has no leg", "under NONE")]
    + [f"a fill of {legs}" for legs in ("no leg", "one leg", "several legs")]
    + ["braces and a price", "a price without braces", "units of zero", "no postings"]
    + ["a whole cost opens", "a whole cost takes", "braces and a whole price", "a whole price without braces"]
    + ["a part of a specification: " + part for part in ("number", "currency", "day", "label")]
    + ["the form " + form for form in forms.ALL]
    + ["changed, read", "changed, X1 NotUtf8", "changed, X3 UnknownDirective", "changed, X6 BadDay of day"]
    + ["changed, X2 Syntax of " + place for place in ("tokens", "form", "transaction")]
    + ["changed, X4 BadNumber of " + place for place in ("units", "rate", "total")]
    + ["changed, X5 BadName of " + place for place in ("account", "commodity", "method", "label", "note")]
    + ["changed, X7 LineTooLong"]
)


# Ties: lots that differ in their openings alone, for the method that takes them.

TIES = {"FIFO": lambda key: key.day, "LIFO": lambda key: key.day, "HIFO": lambda key: key.number}


def ties(book):
    """The kinds of sales that ties decide, and of lots that are opened again."""
    methods = {entry.command.account: entry.command.method for entry in book if isinstance(entry.command, model.Opening)}
    held, first, emptied = model.Held([]), {}, {}
    for number, entry in enumerate(book, 1):
        times = collections.Counter()
        for place, booked in enumerate(entry.booked, 1):
            posting = entry.command.postings[place - 1]
            if booked.reduces and methods[posting.account] in TIES:
                yield from tie(methods[posting.account], posting, booked, held, first)
            for leg in booked.legs:
                if leg.key is None:
                    continue
                at, opening = (leg.account, leg.commodity, leg.key), model.opening_number(number, place)
                if leg.key not in held.lots_of(at[:2]):
                    if at in emptied:
                        times[at] += 1
                        yield from opened_again(entry, emptied[at] == number, times[at], methods[leg.account])
                    first.setdefault(at, opening)
                if held.add(leg, opening) == 0:
                    emptied[at] = number


def opened_again(entry, within, times, method):
    """The kinds of a lot that is opened again by this entry, so many times, within the transaction that emptied it or behind it."""
    yield "a lot opened again " + ("by a later posting" if within else "by a later transaction")
    if times > 1:
        yield "a lot opened again twice in a transaction"
    if method == "NONE":
        yield "a lot opened again under NONE"
    fills = [booked for posting, booked in zip(entry.command.postings, entry.booked) if posting.amount is None]
    if not fills:
        yield "a lot opened again in a transaction without a fill"
    elif not fills[0].legs:
        yield "a lot opened again in one whose fill has no leg"


def tie(method, posting, booked, held, first):
    """The kinds of a sale that takes some of several lots that tie, and leaves some."""
    units, _, cost, _ = posting.amount
    number = model.rate_of(cost.number, units) if cost.whole else cost.number
    lots, opened = held.lots_of(posting.pair), held.openings_of(posting.pair)
    same = TIES[method](booked.legs[-1].key)
    tied = [
        key for key in model.lots_of_other_sign(lots, units)
        if model.fits(cost, number, key) and TIES[method](key) == same
    ]  # fmt: skip
    taken = {leg.key: -leg.units for leg in booked.legs}
    if all(taken.get(key) == lots[key] for key in tied):
        return
    by_keys = sorted(tied, key=model.key_order)
    by_opening = sorted(tied, key=opened.get)
    if len(tied) in (2, 3):
        order = " ".join(str(1 + by_keys.index(key)) for key in by_opening)
        yield f"{method} takes some of {len(tied)} lots that tie, opened as {order}"
    if len(tied) >= 20:
        yield f"{method} takes some of 20 lots and more that tie"
    count = sum(key in taken for key in tied)
    if {*by_keys[:count]} != {*by_opening[:count]}:
        yield f"{method} takes another lot than by keys alone"
    by_first = sorted(tied, key=lambda key: first[(*posting.pair, key)])
    if {*by_first[:count]} != {*by_opening[:count]}:
        yield f"{method} takes another lot than by the first openings"
    if units > 0 and len(tied) > 1:
        yield f"{method} takes shorts that tie"


def kinds(book, it):
    """The kinds of refusals and bookings that a judged command is of."""
    name = type(it.command).__name__.lower()
    if it.refused:
        yield f"{name} refused {it.refused.code}"
        if name == "transaction" and it.refused.code == "L11 Range":
            place = int(it.refused.argument.split()[1])
            if it.command.postings[place - 1].amount is None:
                yield "L11 Range of a fill"
        return
    yield f"{name} accepted"
    if name != "transaction":
        return
    if not it.command.postings:
        yield "no postings"
    opened = set()
    for posting, booked in zip(it.command.postings, it.entry.booked):
        if posting.amount is None:
            yield "a fill of " + ("no leg", "one leg", "several legs")[min(len(booked.legs), 2)]
            continue
        units, _, cost, price = posting.amount
        if units == 0:
            yield "units of zero"
        if price:
            yield ("braces and a " if cost else "a ") + ("whole " if price.whole else "") + "price" + (
                "" if cost else " without braces")
        if not cost:
            continue
        method = model.opening_of(book, posting.account).method
        if booked.reduces:
            count = "one lot" if len(booked.legs) == 1 else "several lots"
            yield f"{method} takes {count} of {'longs' if units < 0 else 'shorts'}"
            if opened & {(leg.account, leg.commodity, leg.key) for leg in booked.legs}:
                yield "a lot taken in the transaction that opened it"
        else:
            yield f"{method} opens a {'lot' if units > 0 else 'short'}"
            opened |= {(leg.account, leg.commodity, leg.key) for leg in booked.legs}
        if cost.whole:
            yield "a whole cost takes" if booked.reduces else "a whole cost opens"
        elif booked.reduces:
            for part in ("number", "currency", "day", "label"):
                if getattr(cost, part) is not None:
                    yield "a part of a specification: " + part


def both_signs(book):
    for lots in model.Held(book).lots.values():
        if {units > 0 for units in lots.values()} == {True, False}:
            return True
    return False


def run(program, text):
    done = subprocess.run([program], input=text, capture_output=True, timeout=600)
    return done.stdout, done.returncode, notes.without(done.stderr)


def answer_to(text):
    """What the program prints on this text and its status, by the second reader and the plain judge; and what became of it."""
    try:
        return model.answer(*model.run(second.read(text))), "read"
    except second.Fault as fault:
        place = f" of {fault.place}" if fault.place else ""
        return (f"fault line {fault.line} {fault.code}\n".encode(), 3), fault.code + place


def difference(program, text, answer):
    """How the program's answer to this text differs from this one, or nothing."""
    wanted = (*answer, b"")
    got = run(program, text)
    if got == wanted:
        return ""
    shown = text.decode(errors="replace") if len(text) < 20000 else f"{len(text)} bytes\n"
    return shown + "".join(
        f"--- {whose}, status {status}\n{out.decode(errors='replace')}{err.decode(errors='replace')}"
        for whose, (out, status, err) in (("wanted", wanted), ("got", got))
    )


def compare(program, drawing, changed):
    """The differences on the text of a drawing and on so many changed ones, and what occurs in them."""
    text = spell.Speller(drawing.rng).ledger([it.command for it in drawing.judged])
    census = collections.Counter("the form " + form for form in forms.of(text))
    for it in drawing.judged:
        census.update(kinds(drawing.book, it))
    census.update(ties(drawing.book))
    census["lots of both signs under NONE"] += both_signs(drawing.book)
    differences = [difference(program, text, model.answer(drawing.book, drawing.judged))]
    for _ in range(changed):
        other = mutate.mutated(drawing.rng, text)
        answer, outcome = answer_to(other)
        census["changed, " + outcome] += 1
        differences.append(difference(program, other, answer))
    return "".join(differences), census


def compare_small(program, changed, seed):
    return compare(program, draw.small(seed), changed)


def compare_crowded(program, method, seed):
    return compare(program, draw.crowded(seed, method), 0)


def main():
    words = tally.words("program", first=1, count=1800, changed=1)
    words.add_argument("--crowded", nargs="*", default=["NONE", "FIFO"], choices=model.METHODS)
    words = words.parse_args()
    cases = []
    for method in words.crowded:
        crowded = functools.partial(compare_crowded, words.program, method)
        cases.append((f"a ledger of 10,000 lots under {method}", (tally.of_seeds, crowded, [words.first])))
    small = functools.partial(compare_small, words.program, words.changed)
    cases += tally.drawn("the texts of the seeds {} to {}", small, words, A_CASE)
    tally.occurs(KINDS, tally.sweep(cases), AT_LEAST)


if __name__ == "__main__":
    main()
    tally.end()
