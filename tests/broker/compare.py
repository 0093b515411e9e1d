"""Compares imports of the program with a second reader of broker files and the plain judge, on files drawn from seeds.

    compare.py PROGRAM [--first SEED] [--count N] [--crumbs]

Each seed gives a book and files that are imported into it one after another, each in one batch. With --crumbs that is done with a
rounding account, last once without one; the reports are then compared, too, and the journal is posted to another book without the
options, which comes to the same tables. A case is the files of 25 seeds, or something that has to occur at least some times. For a
file whose answer is another one, its seed, the file and the two answers go to standard error; to repeat that seed alone:
--first SEED --count 1.
"""

import collections
import functools
import pathlib
import subprocess
import sys
import tempfile

HERE = pathlib.Path(__file__).resolve().parent
sys.path.append(str(HERE.parent / "random"))
sys.path.append(str(HERE.parent / "lib"))
sys.path.append(str(HERE.parent / "book"))

import draw
import model
import notes
import reader
import reports
import tables
import tally

A_CASE = 25  # seeds
AT_LEAST = 3  # times that each kind occurs

KINDS = (
    ["accepted", "repeat", "refused L1 KeyReused", "refused L4 NotOpenYet", "refused L7 CurrencyNotAllowed", "refused L10 BackDated"]
    + ["refused B1 NoMatch", "refused B2 Ambiguous", "refused B3 NotEnough", "refused B4 IncompleteCost", "refused B6 ZeroUnits"]
    + ["fault C1 BadHeader", "fault C4 InexactAmount"]
    + ["fault C2 BadRow " + cause for cause in ("Length", *reader.READERS)]
)

KINDS_OF_CRUMBS = (
    *("completed, " + why for why in (*model.COMPLETED[1:], "a fill with more decimals")),
    "accepted as it is", "refused L14 NotBalanced", "refused L12 InexactFill", "repeat, by form", "repeat, by its text",
    "repeat, at other decimals", "refused L1 KeyReused", "refused L1 KeyReused, without the options", "fault C4 InexactAmount",
    "fault C4 InexactAmount, without the options", "cash of half a step", "cash that is rounded", "cash rounded out of range",
)  # fmt: skip


# What the program has to answer.


class Book:
    """A book to which files are imported in one batch. Notes what occurs."""

    def __init__(self, openings):
        self.kept = model.Kept([model.Entry(opening, ()) for opening in openings])
        self.seen = collections.Counter()

    def reply(self, ref, asked, rounding):
        """What becomes of the command of a row."""
        stood, count = self.kept.keys.get(ref), len(self.kept.book)
        before = self.kept.book[:]
        reply = self.kept.reply(ref, asked, rounding)
        if stood is None and len(self.kept.book) > count:
            is_completed = self.kept.book[-1].command != asked.command
            self.seen["completed, " + why_completed(before, asked.command) if is_completed else "accepted as it is"] += 1
        elif reply == "repeat":
            self.seen["repeat, by " + ("its text" if stood == asked.command else "form")] += 1
            cash = asked.cash.place - 1
            self.seen["repeat, at other decimals"] += stood.postings[cash] != asked.command.postings[cash]
        else:
            code = " ".join(reply.split()[:3])
            self.seen[code] += 1
            self.seen[code + ", without the options"] += rounding is None
        if rounding is not None:
            step = 10 ** (16 - rounding.decimals)
            self.seen["cash that is rounded"] += asked.cash.exact % step != 0
            self.seen["cash of half a step"] += asked.cash.exact % step * 2 == step
        return reply

    def answer(self, file, rounding):
        """What an import of the file prints, and its status."""
        try:
            commands = reader.commands(file, draw.ACCOUNTS, rounding.decimals if rounding else None)
        except reader.Fault as fault:
            self.note_fault(str(fault), file, rounding)
            return f"{fault}\n".encode(), 3
        replies = [self.reply(*command, rounding) for command in commands]
        lines = "".join(f"{number} {reply}\n" for number, reply in enumerate(replies, 1))
        return lines.encode(), int(any(reply.startswith("refused") for reply in replies))

    def note_fault(self, fault, file, rounding):
        if "C4" in fault:
            self.seen["fault C4 InexactAmount"] += rounding is not None
            self.seen["fault C4 InexactAmount, without the options"] += rounding is None
            exact = reader.exact_cash(reader.rows(file)[int(fault.split()[2]) - 1])
            self.seen["cash rounded out of range"] += abs(exact) < model.UNITS_LIMIT * model.ONE and rounding is not None

    def report(self, lines):
        return "".join(line + "\n" for line in lines).encode(), 0

    def holdings(self):
        return self.report(model.holdings(self.kept.book))

    def gains(self):
        return self.report(reports.gains(self.kept.book, reports.FIRST_DAY, reports.LAST_DAY, collections.Counter()))

    def journal(self, openings):
        """The journal of a book whose first entries are so many openings."""
        keys = [f"post:openings {number}" for number in range(1, openings + 1)] + [f"import:x {ref}" for ref in self.kept.keys]
        lines = []
        for number, (key, entry) in enumerate(zip(keys, self.kept.book), 1):
            lines += [f"; entry {number} key {key}", *reports.canonical(entry.command)]
        return self.report(lines)


def why_completed(book, command):
    """Why the completion of a command is judged."""
    try:
        model.judge(book, command)
        return "a fill with more decimals"
    except model.Refused as refused:
        return refused.code


def kinds(answer):
    """The kinds of replies and faults in an answer."""
    for line in answer.decode().splitlines():
        words = line.split()
        if words[0] == "fault":
            yield " ".join(["fault", *(word for word in words[1:] if not word.isdigit() and word not in ("row", "header"))])
        else:
            yield " ".join(words[1:4])


# What it answers.


class Program:
    """The program on one book in a file."""

    def __init__(self, program, folder):
        self.program = program
        self.book = str(pathlib.Path(folder) / "book")

    def run(self, word, options, data):
        words = [self.program, word, "--book", self.book, *options]
        done = subprocess.run(words, input=data, capture_output=True, timeout=600)
        return done.stdout, done.returncode, notes.without(done.stderr)

    def begin(self, openings):
        ledger = "".join(
            " ".join([model.day_text(it.day), "open", it.account, *filter(None, [",".join(it.currencies)]), f'"{it.method}"']) + "\n"
            for it in openings
        )
        self.run("init", [], b"")
        self.run("post", ["--batch", "openings"], ledger.encode())

    def answer(self, file, rounding):
        options = [word for name, account in draw.ACCOUNTS._asdict().items() for word in ("--" + name, account)]
        if rounding is not None:
            options += ["--rounding", rounding.account, "--within", model.number_text(rounding.within), "--decimals", str(rounding.decimals)]
        return self.run("import", ["--batch", "x", *options], file)

    def report(self, word):
        return self.run(word, [], b"")

    def again(self):
        """What is wrong with the tables that the journal comes to in another book, or nothing."""
        other = Program(self.program, pathlib.Path(self.book).parent / "again")
        pathlib.Path(other.book).parent.mkdir()
        other.run("init", [], b"")
        out, status, _ = other.run("post", ["--batch", "journal"], self.report("journal")[0])
        ours, theirs = (without_keys(tables.contents(book)) for book in (self.book, other.book))
        return "" if status == 0 and ours == theirs else f"--- the journal comes to another book, status {status}\n{out.decode()}"


def without_keys(contents):
    return {**contents, "entry": [(number, body) for number, _, _, body in contents["entry"]]}


def difference(shown, wanted, got):
    """How an answer differs from the wanted one, or nothing."""
    if got == (*wanted, b""):
        return ""
    sides = (("wanted", (*wanted, b"")), ("got", got))
    return f"{shown!r}\n" + "".join(
        f"--- {whose}, status {status}\n{out.decode(errors='replace')}{err.decode(errors='replace')}" for whose, (out, status, err) in sides
    )


def compare(program, has_crumbs, seed):
    """The differences on the files of a seed, and what occurs in them."""
    drawing = draw.with_crumbs(seed) if has_crumbs else draw.small(seed)
    book = Book(drawing.openings)
    census = collections.Counter()
    differences = []
    with tempfile.TemporaryDirectory() as folder:
        at = Program(program, folder)
        at.begin(drawing.openings)
        for file, rounding in zip(drawing.files, drawing.roundings):
            wanted = book.answer(file, rounding)
            census.update(kinds(wanted[0]))
            differences.append(difference((file, rounding), wanted, at.answer(file, rounding)))
        differences.append(difference("what is held", book.holdings(), at.report("holdings")))
        if has_crumbs:
            differences.append(difference("the gains", book.gains(), at.report("gains")))
            differences.append(difference("the journal", book.journal(len(drawing.openings)), at.report("journal")))
            differences.append(at.again())
    return "".join(differences), book.seen if has_crumbs else census


def main():
    words = tally.words("program", first=1, count=200)
    words.add_argument("--crumbs", action="store_true")
    words = words.parse_args()
    files = "the broker files" + " with crumbs" * words.crumbs
    of_seed = functools.partial(compare, words.program, words.crumbs)
    census = tally.sweep(tally.drawn(files + " of the seeds {} to {}", of_seed, words, A_CASE))
    if words.count >= 100:
        tally.occurs(KINDS_OF_CRUMBS if words.crumbs else KINDS, census, AT_LEAST, "{0}")


if __name__ == "__main__":
    main()
    tally.end()
