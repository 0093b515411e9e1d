"""Compares calls with a rounding account with the plain judge, on ledgers drawn from seeds.

    rounding.py PROGRAM SCRATCH [--first SEED] [--count N]

Each seed gives a ledger with its options. It is judged by a call without a subcommand, and posted to a new book, as another batch
near it is. Both batches are sent again with the options, some commands changed, and the first once more without them; then the
reports are compared, and the journal is posted to another new book without the options, which comes to the same tables. Every
answer is compared, byte for byte, with its status. Of each command it is checked that what is accepted without the options is so
with them, that a completion is its own, and that it balances. A case is the ledgers of twenty seeds, or a kind of completion, which
has to occur at least some times. A difference goes to standard error, with its seed.
"""

import collections
import functools
import os
import sys

sys.path.append(os.path.join(os.path.dirname(os.path.abspath(__file__)), "..", "book"))
sys.path.append(os.path.join(os.path.dirname(os.path.abspath(__file__)), "..", "lib"))

import draw
import model
import reports
import spell
import tables
import tally
from model import ONE, Asked, number_text

A_CASE = 20  # seeds
COUNT = 160
AT_LEAST = 1  # times that each kind occurs
DEFAULT = model.Rounding("", 500_000, 8)

KINDS = (
    *("completed, " + why for why in (*model.COMPLETED, "a fill with more decimals")),
    *("a crumb of " + parts for parts in ("whole units", "a speck", "both")),
    *("a crumb " + where for where in ("above zero", "below zero", "at the bound", "just over the bound")),
    "crumbs in two currencies", "a rate for a total, and no crumb", "a rate for a total of lots that are taken", "a sale with a crumb",
    "a whole price with a crumb", "a fill beside a crumb", "64 postings with those for crumbs",
    *("no completion, since " + why for why in ("there is no rate", "no currency is given", "a posting can't be booked")),
    *("a completion refused, " + why for why in (
        "L3 UnknownAccount", "L4 NotOpenYet", "L5 Closed", "L7 CurrencyNotAllowed", "L8 TooManyPostings", "L14 NotBalanced")),
    "a fill with more decimals that stays",
    *(f"sent again {how}, {reply}" for how, replies in (
        ("with the options", ("repeat, by form", "repeat, by its text", "refused L1 KeyReused")),
        ("without them", ("repeat, by its text", "refused L1 KeyReused, of a completion")),
    ) for reply in replies),
    *("near a completion, " + reply for reply in ("repeat", "refused L1 KeyReused")),
)  # fmt: skip


def options_of(rng, rounding):
    """The words for it. What is given where nothing is may be left out."""
    words = ["--rounding", rounding.account]
    if rounding.within != DEFAULT.within or rng.random() < 0.5:
        words += ["--within", number_text(rounding.within)]
    if rounding.decimals != DEFAULT.decimals or rng.random() < 0.5:
        words += ["--decimals", str(rounding.decimals)]
    return words


# What has to be so of each command, and what occurs.


def plainly(book, command):
    """The entry of a command without the options, or the refusal."""
    try:
        return model.judge(book, command)
    except model.Refused as refused:
        return refused


def faults(book, it, rounding):
    """What isn't so of a judged transaction, on the book before it."""
    plain = plainly(book, it.command)
    if isinstance(plain, model.Entry) and it.refused:
        yield "it is accepted without the options, and refused with them"
    if it.refused or it.entry.command == it.command:
        return
    again = model.completion(book, it.entry.command, rounding)
    if again is None or again.crumbs or again.command != it.entry.command:
        yield "its completion isn't complete"
    if any(model.balance(book, it.entry.command).residuals[leg.commodity] + leg.units * ONE
           for posting, booked in zip(it.entry.command.postings, it.entry.booked) if posting.amount is None for leg in booked.legs):
        yield "its completion doesn't balance"
    if plainly(book, it.entry.command) != it.entry:
        yield "its completion isn't booked so without the options"
    if not model.is_completion_by_form(Asked(it.command), it.entry.command):
        yield "its completion isn't one by form"


def kinds(book, it, rounding):
    """The kinds of completions that a judged transaction is of."""
    plain = plainly(book, it.command)
    code = plain.code if isinstance(plain, model.Refused) else ""
    found = model.completion(book, it.command, rounding) if code in model.COMPLETED or not code else None
    is_completed = not it.refused and it.entry.command != it.command
    if is_completed:
        yield "completed, " + (code or "a fill with more decimals")
        for crumb in found.crumbs.values():
            whole, rest = divmod(abs(crumb), ONE)
            yield "a crumb of " + ("both" if whole and rest else "whole units" if whole else "a speck")
            yield "a crumb " + ("above zero" if crumb > 0 else "below zero")
            if 0 <= rounding.within * ONE - abs(crumb) < ONE:
                yield "a crumb at the bound"
        if len(found.crumbs) > 1:
            yield "crumbs in two currencies"
        if not found.crumbs:
            yield "a rate for a total, and no crumb"
        if len(it.entry.command.postings) == model.MOST_POSTINGS and found.crumbs:
            yield "64 postings with those for crumbs"
        for posting, booked in zip(it.command.postings, it.entry.booked):
            if found.crumbs and booked.reduces:
                yield "a sale with a crumb"
            if found.crumbs and not posting.braces and posting.amount and posting.amount.price and posting.amount.price.whole:
                yield "a whole price with a crumb"
            if found.crumbs and posting.amount is None and booked.legs:
                yield "a fill beside a crumb"
            if booked.reduces and posting.amount.cost.whole and model.rate_of(posting.amount.cost.number, posting.amount.units) is None:
                yield "a rate for a total of lots that are taken"
    elif code in model.COMPLETED:
        if found is None:
            yield "no completion, since " + why_none(it.command)
        elif over := [crumb for crumb in found.crumbs.values() if abs(crumb) > rounding.within * ONE]:
            if all(abs(crumb) - rounding.within * ONE <= ONE for crumb in over):
                yield "a crumb just over the bound"
        else:
            yield "a completion refused, " + plainly(book, found.command).code
    elif not code and model.has_long_fill(plain, rounding.decimals):
        yield "a fill with more decimals that stays"


def why_none(command):
    if model.with_rates(command) is not None:
        return "a posting can't be booked"
    for posting in command.postings:
        if posting.braces and posting.amount.cost.whole:
            units, cost = posting.amount.units, posting.amount.cost
            if units == 0 or model.nearest(cost.number * ONE, abs(units)) >= model.RATE_LIMIT:
                return "there is no rate"
    return "no currency is given"


# A batch that is sent again.


class Batch:
    """What is sent to a book under the keys of a batch."""

    def __init__(self, kept, name):
        self.kept, self.name = kept, name

    def send(self, commands, rounding=None):
        """The replies to these commands, without their numbers, each with the command that stood under its key before."""
        replies = []
        for number, command in enumerate(commands, 1):
            stood = self.stored(number)
            replies.append((self.kept.reply((self.name, number), Asked(command), rounding), stood))
        return replies

    def stored(self, number):
        return self.kept.keys.get((self.name, number))


def lines_of(replies):
    return [f"{number} {reply}" for number, (reply, _) in enumerate(replies, 1)]


def kinds_sent_again(how, commands, before, replies):
    for command, first, (reply, stood) in zip(commands, before, replies):
        if stood is None:
            yield f"sent again {how}, {reply}"
        elif reply == "repeat":
            yield f"sent again {how}, repeat, by " + ("its text" if stood == command else "form")
        else:
            yield f"sent again {how}, {reply}" + (", of a completion" if command == first != stood else "")


# Comparing.


def status_of(lines):
    return int(any(" refused " in line for line in lines))


def without_keys(contents):
    return {**contents, "entry": [(number, body) for number, _, _, body in contents["entry"]]}


class Cases:
    """Calls of the program, each with what it has to answer."""

    def __init__(self, program):
        self.program, self.found = program, ""

    def call(self, words, lines, text=b"", status=None):
        wanted = "".join(line + "\n" for line in lines), status_of(lines) if status is None else status, ""
        got = reports.call(self.program, words, text)
        if got != wanted:
            self.found += f"--- {' '.join(words)}, on\n{text.decode(errors='replace')}--- wanted, status {wanted[1]}\n{wanted[0]}"
            self.found += f"--- got, status {got[1]}\n{got[0]}{got[2]}"
        return got[0]


def compare(program, scratch, seed):
    """How the answers on a drawn ledger differ, or nothing; and what occurs in them."""
    drawing = draw.with_crumbs(seed)
    rng, rounding = drawing.rng, drawing.rounding
    options, seen = options_of(rng, rounding), collections.Counter()
    commands = [it.command for it in drawing.judged]
    cases = Cases(program)

    def spelled(commands):
        return spell.Speller(rng).ledger(commands)

    # On an empty book in memory.
    entries, judged = model.run(commands, rounding)
    answer, status = model.answer(entries, judged)
    cases.call(options, answer.decode().splitlines(), spelled(commands), status)
    before = []
    for it in judged:
        if isinstance(it.command, model.Transaction):
            seen.update(kinds(before, it, rounding))
            for fault in faults(before, it, rounding):
                cases.found += f"--- {fault}: {it.command}\n"
        if it.entry:
            before.append(it.entry)

    # In a file.
    book = os.path.join(scratch, f"crumbs-{seed}.book")
    kept = model.Kept()
    ledger, near = Batch(kept, "post:r"), Batch(kept, "post:n")
    cases.call(["init", "--book", book], ["book ready"])
    to_ledger, to_near = (["post", "--book", book, "--batch", name] for name in "rn")
    cases.call([*to_ledger, *options], lines_of(ledger.send(commands, rounding)), spelled(commands))
    pairs = [drawing.near() for _ in range(4)]
    sent = [longer for _, longer in pairs]
    cases.call([*to_near, *options], lines_of(near.send(sent, rounding)), spelled(sent))
    sent = [short for short, _ in pairs]
    replies = near.send(sent, rounding)
    seen.update(f"near a completion, {reply}" for reply, stood in replies if stood is not None)
    cases.call([*to_near, *options], lines_of(replies), spelled(sent))
    again = [drawing.sent_again(command, ledger.stored(number)) for number, command in enumerate(commands, 1)]
    replies = ledger.send(again, rounding)
    seen.update(kinds_sent_again("with the options", again, commands, replies))
    cases.call([*to_ledger, *options], lines_of(replies), spelled(again))
    replies = ledger.send(commands)
    seen.update(kinds_sent_again("without them", commands, commands, replies))
    cases.call(to_ledger, lines_of(replies), spelled(commands))

    # Reports, and the journal in another book.
    nothing = collections.Counter()
    cases.call(["holdings", "--book", book], reports.holdings(kept.book, None, nothing), status=0)
    cases.call(["gains", "--book", book], reports.gains(kept.book, reports.FIRST_DAY, reports.LAST_DAY, nothing), status=0)
    names = {id(entry): key for key, entry in zip(kept.keys, kept.book)}
    lines = []
    for number, entry in enumerate(kept.book, 1):
        source, name = names[id(entry)]
        lines += [f"; entry {number} key {source} {name}"] + reports.canonical(entry.command)
    journal = cases.call(["journal", "--book", book], lines, status=0)
    other = book + ".again"
    cases.call(["init", "--book", other], ["book ready"])
    numbers = range(1, len(kept.book) + 1)
    cases.call(["post", "--book", other, "--batch", "j"], [f"{number} accepted" for number in numbers], journal.encode())
    if without_keys(tables.contents(book)) != without_keys(tables.contents(other)):
        cases.found += "--- the journal comes to other tables\n"
    tables.removed(book)
    tables.removed(other)
    return cases.found and f"{' '.join(options)}\n{cases.found}", seen


def main():
    words = tally.words("program", "scratch", first=1, count=COUNT).parse_args()
    of_seed = functools.partial(compare, words.program, words.scratch)
    census = tally.sweep(tally.drawn("the ledgers with crumbs {} to {}", of_seed, words, A_CASE))
    if words.count >= COUNT:
        tally.occurs(KINDS, census, AT_LEAST)


if __name__ == "__main__":
    main()
    tally.end()
