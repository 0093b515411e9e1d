"""Kills the program at random moments, and sends what it had not replied to again.

    stops.py PROGRAM SCRATCH [--commands N] [--kills N] [--seed N] [--crumbs] [--all-or-none]

The book that is left in the end has the rows of one that was posted to without a stop, and after each stop it has every
command that was acknowledged. Twice as often it is killed while a book is made. With --crumbs each post has a rounding account, which
most commands need, and no making is stopped. With --all-or-none the post keeps all commands or none, so after each stop the book has
all of them or none, and all where a reply was written; no making is stopped, either.
"""

import os
import random
import subprocess
import sys
import time

sys.path.append(os.path.join(os.path.dirname(os.path.abspath(__file__)), "..", "lib"))

import stopping
import tables
import tally

CASES = (
    "2020-01-01 open Assets:Broker \"FIFO\"\n",
    "2020-01-01 open Assets:Cash\n",
    "2020-01-01 open Income:Gains\n",
    "2020-01-01 open Equity:Rounding\n",
)
ROUNDING = ["--rounding", "Equity:Rounding", "--decimals", "2"]


def ledger(count, has_crumbs):
    """Purchases, and sales of the oldest lots. With crumbs the purchases have whole costs, and the sales fractions of a unit."""
    text = list(CASES)
    for number in range(count - len(CASES)):
        day = f"2020-{1 + number // 28 % 12:02}-{1 + number % 28:02}"
        if has_crumbs and number % 3 == 2:
            text.append(f"{day} *\n  Assets:Broker -3.3333 HOOL {{}} @ 130 USD\n  Assets:Cash 433.33 USD\n  Income:Gains\n")
        elif has_crumbs:
            text.append(f"{day} *\n  Assets:Broker 2.{number:04} HOOL {{{{{200 + number % 7}.99 USD}}}}\n  Assets:Cash\n")
        elif number % 3 == 2:
            text.append(f"{day} *\n  Assets:Broker -3 HOOL {{}} @ 130 USD\n  Assets:Cash 390 USD\n  Income:Gains\n")
        else:
            text.append(f"{day} *\n  Assets:Broker 2 HOOL {{{100 + number % 7} USD}}\n  Assets:Cash\n")
    return "".join(text)


def post(program, book, path, first, options):
    with open(path, "rb") as text:
        return subprocess.Popen(
            [program, "post", "--book", book, "--batch", "a", "--from", str(first), *options],
            stdin=text, stdout=subprocess.PIPE, stderr=subprocess.PIPE,
        )


def answered(output):
    """The whole lines of an output, and how many of them say that a command stands in the book."""
    lines = output.decode().split("\n")[:-1]
    return lines, sum(line.endswith((" accepted", " repeat")) for line in lines)


def entries(book):
    """How many entries a book has, by a copy of its files."""
    return len(tables.of_copy(book, tables.contents)["entry"])


def journal(program, book):
    return subprocess.run([program, "journal", "--book", book], check=True, stdout=subprocess.PIPE).stdout


def uninterrupted(program, scratch, path, options):
    book = os.path.join(scratch, "whole.book")
    subprocess.run([program, "init", "--book", book], check=True, stdout=subprocess.DEVNULL)
    begun = time.monotonic()
    run = post(program, book, path, 1, options)
    output, _ = run.communicate(timeout=600)
    return book, answered(output), time.monotonic() - begun


def stopped_posts(program, scratch, path, rng, kills, count, took, options):
    """One book after another is posted to, killed and sent on, until there were so many stops."""
    stops = books = 0
    while stops < kills:
        books += 1
        book = os.path.join(scratch, f"stopped-{books}.book")
        subprocess.run([program, "init", "--book", book], check=True, stdout=subprocess.DEVNULL)
        first, standing = 1, 0
        while first <= count:
            run = post(program, book, path, first, options)
            is_last = stops >= kills
            output = run.communicate(timeout=600)[0] if is_last else stopping.kill_at(run, rng.uniform(0, took / 4))
            stops += run.returncode < 0
            lines, stood = answered(output)
            if [line.split(" ")[0] for line in lines] != [str(first + at) for at in range(len(lines))]:
                return f"replies from {first} on: {lines[:3]}"
            if any(line.split(" ")[1] not in ("accepted", "repeat", "refused") for line in lines):
                return f"a line that is no reply: {[line for line in lines if ' fault ' in line][:1]}"
            first, standing = first + len(lines), standing + stood
            # One command more than those acknowledged may stand: the one whose reply was cut off.
            kept = entries(book)
            if not standing <= kept <= standing + 1:
                return f"{kept} entries where {standing} were acknowledged"
        if tables.contents(book) != tables.contents(os.path.join(scratch, "whole.book")):
            return f"book {books}: other rows than without a stop"
    return ""


def stopped_batches(program, scratch, path, rng, kills, count, took, options):
    """One book after another is given all commands or none, killed and given them again, until there were so many stops."""
    stops = books = 0
    whole = tables.contents(os.path.join(scratch, "whole.book"))
    while stops < kills:
        books += 1
        book = os.path.join(scratch, f"batch-{books}.book")
        subprocess.run([program, "init", "--book", book], check=True, stdout=subprocess.DEVNULL)
        stood, is_over = 0, False
        while not is_over:
            run = post(program, book, path, 1, options)
            output = stopping.kill_at(run, rng.uniform(0, took)) if stops < kills else run.communicate(timeout=600)[0]
            is_killed, is_over = run.returncode < 0, run.returncode == 0
            stops += is_killed
            if not is_killed and not is_over:
                return f"status {run.returncode}: {output[-60:]}"
            word = "repeat" if stood else "accepted"
            replies = "".join(f"{number} {word}\n" for number in range(1, count + 1)).encode()
            if not replies.startswith(output) or is_over and output != replies:
                return f"replies where the book had {stood} entries: {output[-60:]}"
            kept = entries(book)
            if kept not in (stood, count):
                return f"{kept} entries of {count}, where there were {stood}"
            if output and kept != count:
                return f"{kept} entries of {count} behind {output[:60]}"
            stood = kept
        if tables.contents(book) != whole:
            return f"book {books}: other rows than without a stop"
    return ""


def init_took(program, scratch):
    """How long making a book takes here."""
    begun = time.monotonic()
    subprocess.run([program, "init", "--book", os.path.join(scratch, "timed.book")], check=True, stdout=subprocess.DEVNULL)
    return time.monotonic() - begun


def stopped_inits(program, scratch, rng, kills):
    """A stop while a book is made leaves a file that can be made into a book, or one that is a book."""
    took = init_took(program, scratch)
    unready = 0
    for number in range(kills):
        book = os.path.join(scratch, f"init-{number}.book")
        run = subprocess.Popen([program, "init", "--book", book], stdout=subprocess.PIPE)
        output = stopping.kill_at(run, rng.uniform(0, took))
        # Those count that had begun with the file and hadn't said yet that the book is made.
        unready += run.returncode < 0 and not output and os.path.exists(book)
        again = subprocess.run([program, "init", "--book", book], capture_output=True, timeout=600)
        used = subprocess.run(
            [program, "post", "--book", book, "--batch", "a"], input=CASES[1].encode(), capture_output=True, timeout=60
        )
        is_made = again.stdout in (b"book ready\n", b"fault S1 NotABook\n")
        if not is_made and not again.stderr:
            return f"init again: {again.stdout}, and no message"
        if is_made and used.stdout != b"1 accepted\n":
            return f"post after it: {used.stdout}"
    return "" if unready >= kills / 10 else f"only {unready} of {kills} stops hit the making, within {took:.3f} s"


def main():
    parser = tally.words("program", "scratch", commands=300, kills=100, seed=1)
    parser.add_argument("--crumbs", action="store_true")
    parser.add_argument("--all-or-none", action="store_true")
    words = parser.parse_args()
    rng = random.Random(words.seed)
    options, kind = (ROUNDING, ", with crumbs") if words.crumbs else ([], "")
    if words.all_or_none:
        options, kind = [*options, "--all-or-none"], kind + ", all or none"
    path = os.path.join(words.scratch, "stops.ledger")
    with open(path, "w", encoding="ascii") as text:
        text.write(ledger(words.commands, words.crumbs))
    book, (lines, stood), took = uninterrupted(words.program, words.scratch, path, options)
    fault = "" if len(lines) == words.commands and entries(book) == stood else f"{len(lines)} replies, {entries(book)} entries"
    if words.crumbs and b"Equity:Rounding" not in b"".join(journal(words.program, book).split(b"\n")[8:]):
        fault = "no crumb"
    tally.check(f"a run without a stop{kind}", fault)
    stopped = stopped_batches if words.all_or_none else stopped_posts
    fault = stopped(words.program, words.scratch, path, rng, words.kills, words.commands, took, options)
    tally.check(f"killed {words.kills} times{kind}, no acknowledged command is lost, and the rows are those of one run", fault)
    if not words.crumbs and not words.all_or_none:
        tally.check("killed while a book is made", stopped_inits(words.program, words.scratch, rng, 2 * words.kills))


if __name__ == "__main__":
    main()
    tally.end()
