"""What the sweeps of truncated and malicious input share: a call of the program, the lines that it may write, and how a sweep is told.

A sweep is a case of tests/lib/tally.py: `ok NAME: 1,234 cases, 900 this, 334 that`; its first differences go to standard error in full.
"""

import collections
import concurrent.futures
import os
import random
import re
import subprocess
import sys
from typing import NamedTuple

HERE = os.path.dirname(os.path.abspath(__file__))
for folder in ("random", "book", "lib"):
    sys.path.append(os.path.join(HERE, "..", folder))

import notes  # noqa: E402  (the folders are named above)
import tables  # noqa: E402
import tally  # noqa: E402
import text as second  # noqa: E402

ROOT = os.path.join(HERE, "..", "..")
SHOWN = 3  # differences of a sweep
A_PART = 200  # cases that one process looks at before it takes others
PATIENCE = 600  # seconds, on a machine with much other work: a call takes hundredths of one

FIRST_PURCHASE = os.path.join(ROOT, "examples", "first-purchase.ledger")


class Answer(NamedTuple):
    output: bytes
    status: object  # a number, below 0 where a signal ended the call, or a text where it didn't end
    errors: bytes

    def fault(self):
        """The fault of the last line, as its code and name, or an empty text: those of an input aren't looked for."""
        last = self.output.decode(errors="replace").splitlines()[-1:]
        found = FAULT.fullmatch(last[0]) if last else None
        return (found["fault"] or "") if found else ""


# The lines that the program may write (docs/FORMATS.md, Printed texts).
NUMBER = r"-?[0-9]+(\.[0-9]+)?"
DAY = r"[0-9]{4}-[0-9]{2}-[0-9]{2}"
ACCOUNT = r"[A-Z][A-Za-z]*(:[A-Z0-9][A-Za-z0-9-]*)+"
COMMODITY = r"[A-Z][A-Z0-9'._-]*"
LOT = rf'\{{{NUMBER} {COMMODITY}, {DAY}(, "[^"\\\x00-\x1f\x7f]+")?\}}'
STORE = "S1 NotABook|S2 NewerEdition|S3 OlderEdition|S4 Device|S5 InDoubt|S6 NeedsReopen|S7 Damaged|S8 Ended"
OUTSIDE = f"{STORE}|P1 Range|P2 Write|P3 Spent|K1 Read|K2 TooLong|Memory|open|C3 TooManyRows"
COUNT = "[1-9][0-9]*"
FAULT = re.compile(
    rf"({COUNT} )?fault (?P<fault>{OUTSIDE})|fault (line {COUNT} X|header C|row {COUNT} C)[0-9] [A-Za-z0-9]+( [A-Z][a-z]+)?"
)
PERIOD = "[0-9]{4}(-Q[1-4]|-[0-9]{2})?"
SUM_KEY = rf"([0-9]{{4}}|{ACCOUNT}|{COMMODITY}|(up-to|over)-a-year)"
NOTE = r"[^\x00-\x08\x0a-\x1f\x7f]*"
REPORT = re.compile(
    rf"{ACCOUNT} {NUMBER} {COMMODITY}( {LOT}( value (none|{NUMBER} {COMMODITY}))?)?|total (cost|value|gain) {NUMBER} {COMMODITY}"
    rf"|{DAY} {ACCOUNT} {NUMBER} {COMMODITY}( {LOT})? left {NUMBER} entry {COUNT}( {NOTE})?"
    rf"|({SUM_KEY} )+{COMMODITY} lots {COUNT} (proceeds {NUMBER} cost {NUMBER} gain {NUMBER}|cost {NUMBER} unpriced)"
    rf"|{PERIOD} {ACCOUNT} {COMMODITY} in {NUMBER} out {NUMBER}|{COMMODITY} statement {NUMBER} book {NUMBER} difference {NUMBER}"
    r"|no legs|no activity|nothing differs"
    rf"|{DAY} {ACCOUNT} {NUMBER} {COMMODITY} (unpriced|proceeds {NUMBER} cost {NUMBER} gain {NUMBER} {COMMODITY})"
    rf"|  {NUMBER} {COMMODITY} {LOT}|nothing held|no gains|book ready|book migrated|book verified"
)
FIELD = r'([^",\\\x00-\x1f\x7f]*|"[^"\\\x00-\x1f\x7f]+")'
TABLE = re.compile(
    r"account,commodity,units,acquired,label,unit_cost,currency,cost(,price,value)?"
    r"|entry,posting,account,commodity,units,acquired,sold,days_held,label,unit_cost,currency,proceeds,cost,gain,term"
    rf"|{ACCOUNT},{COMMODITY},{NUMBER},({DAY},{FIELD},{NUMBER},{COMMODITY},{NUMBER}|,,,,)(,({NUMBER},{NUMBER}|,))?"
    rf"|{COUNT},{COUNT},{ACCOUNT},{COMMODITY},{NUMBER},{DAY},{DAY},-?[0-9]+,{FIELD},{NUMBER},{COMMODITY}"
    rf",({NUMBER},{NUMBER},{NUMBER}|,{NUMBER},),(up-to|over)-a-year"
    rf"|{tables.REGISTER}|{tables.ACTIVITY}|{PERIOD},{ACCOUNT},{COMMODITY},{NUMBER},{NUMBER}"
    rf"|{DAY},{COUNT},{COUNT},{ACCOUNT},{COMMODITY},{NUMBER},({DAY},{FIELD},{NUMBER},{COMMODITY}|,,,),{NUMBER},{NOTE}"
)
REPLY = re.compile(rf"{COUNT} (accepted|repeat|refused [LB][0-9]+ [A-Za-z]+( posting {COUNT}| {COMMODITY})?)")
KEY = re.compile(rf"; entry {COUNT} key [^\x00-\x1f\x7f]+")
NUMBER = r"(0|[1-9][0-9]*)"
DUMP = re.compile(rf"; lotbook dump 1 edition 2 migrated {NUMBER} entries {NUMBER}|(; end )?{NUMBER} sha256 [0-9a-f]{{64}}")


def is_ours(line):
    """Whether the program may write this line: a reply, a fault, a row of a report or of a table, or a line of a journal or of a
    dump, which is ledger text."""
    if any(kind.fullmatch(line) for kind in (FAULT, REPORT, TABLE, REPLY, KEY, DUMP)):
        return True
    try:
        if line.startswith(" "):  # a posting is one of the transaction before it
            return second.read(b"2020-01-01 *\n" + line.encode())[0].postings != ()
        return second.read(line.encode()) != []
    except second.Fault:
        return False


def strange(answer):
    """What no input may bring about: a signal, a hang, another status, a line that is none of ours, a message beside an answer."""
    if answer.status not in (0, 1, 2, 3, 4):
        return f"status {answer.status}"
    try:
        lines = answer.output.decode().splitlines()
    except UnicodeDecodeError:
        return "output that isn't UTF-8"
    for line in lines:
        if not is_ours(line):
            return f"the line '{line[:200]}'"
    if answer.fault() == "S3 OlderEdition":  # one line names what helps
        is_one = answer.errors.endswith(b"\n") and answer.errors.count(b"\n") == 1
        return "" if is_one and b"lotbook migrate" in answer.errors else "no line names what helps"
    return "" if answer.status == 2 else notes.wrong(answer.errors, answer.status, answer.output)


def call(program, words, text=b"", seconds=PATIENCE, **streams):
    """Calls the program with the text as a file, and its output to one. Streams, and what else Popen takes, may be given instead."""
    files = [os.memfd_create(name) for name in ("in", "out", "err")]
    try:
        write_all(files[0], text)
        os.lseek(files[0], 0, os.SEEK_SET)
        streams = {**dict(zip(("stdin", "stdout", "stderr"), files)), **streams}
        running = subprocess.Popen([program, *words], **streams)
        try:
            status = running.wait(seconds)
        except subprocess.TimeoutExpired:
            running.kill()
            running.wait()
            status = f"none after {seconds} seconds"
        output, errors = (os.pread(file, os.fstat(file).st_size, 0) for file in files[1:])
        return Answer(output, status, errors)
    finally:
        for file in files:
            os.close(file)


def write_all(file, data):
    while data:
        data = data[os.write(file, data) :]


def lines(*texts):
    """Texts as lines of output."""
    return "".join(text + "\n" for text in texts).encode()


def first_purchase():
    with open(FIRST_PURCHASE, "rb") as file:
        return file.read()


def made(program, book, text=b"", batch="a"):
    """Makes a book with these commands, which have to be accepted."""
    tables.removed(book)
    answers = [call(program, ["init", "--book", book]), call(program, ["post", "--book", book, "--batch", batch], text)]
    if any(answer.status for answer in answers):
        sys.exit(f"no book could be made: {answers}")
    return book


# Telling.


class Sweep:
    """How many cases a sweep had, by outcome, and those that differ."""

    def __init__(self):
        self.outcomes = collections.Counter()
        self.differences = []

    def saw(self, outcome, difference=""):
        """A case with this outcome, and what is wrong with it, or nothing."""
        self.outcomes[outcome] += 1
        self.also(difference)

    def also(self, difference):
        """What else is wrong with the last case, or nothing."""
        if difference:
            self.differences.append(difference)

    def compare(self, case, outcome, wanted, got, may_warn=False, said=None):
        """A case whose answer has to be this output and status, with the messages that are due beside them, or beside what was said, and
        without a warning where none may be due."""
        told = f"--- wanted\n{wanted}\n--- got\n{got}"
        wrong = "another answer" if got[:2] != (*wanted,) else notes.wrong(got[2], wanted[1], wanted[0] if said is None else said, may_warn)
        self.saw(outcome, wrong and f"{case}\n{wrong}\n{told}")

    def add(self, other):
        self.outcomes.update(other.outcomes)
        self.differences += other.differences

    def tell(self, name, least=1):
        """Tells the sweep, which has to have at least so many cases."""
        count = sum(self.outcomes.values())
        for difference in self.differences[:SHOWN]:
            print(f"=== {name}\n{difference}", file=sys.stderr)
        fault = f"fewer than {least:,} cases" if count < least else ""
        if self.differences:
            fault = f"{len(self.differences)} differ, first {self.differences[0][:300]!r}"
        tally.check(name, fault, f"{count:,} cases" + "".join(f", {times:,} {outcome}" for outcome, times in sorted(self.outcomes.items())))


def swept(pool, work, shared, cases):
    """The sweep over all cases, in parts side by side: `work` makes the sweep of one part, from what is shared and its cases."""
    whole = Sweep()
    parts = max(1, len(cases) // A_PART)
    for part in pool.map(work, [(*shared, cases[at::parts]) for at in range(parts)]):
        whole.add(part)
    return whole


def pool():
    return concurrent.futures.ProcessPoolExecutor(len(os.sched_getaffinity(0)))


def words_of_a_sweep():
    """What reads the words that each script takes."""
    words = tally.words("program", "scratch")
    words.add_argument("--whole", action="store_true", help="everything, not a sample alone")
    return words


def sample(seed, cases, count):
    """So many of the cases, drawn from a seed, or all where there are no more."""
    return cases if len(cases) <= count else random.Random(seed).sample(cases, count)
