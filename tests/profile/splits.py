"""Splits that the program posts by a profile: what is held behind each, what is refused and why, and what comes again.

    splits.py PROGRAM

Each case begins with a new book in which one account has lots, and imports files of a few rows. What is wanted was worked out by hand
from docs/FORMATS.md, 'Profiles'.
"""

import os
import subprocess
import sys
import tempfile

sys.path.insert(0, os.path.dirname(os.path.abspath(__file__)))
sys.path.append(os.path.join(os.path.dirname(os.path.abspath(__file__)), "..", "lib"))
import faults
import tally
from tally import check

SPLITS = """[[kind]]
is = "split"
when = { Kind = "Split" }
columns = { ratio = "Units" }

[[kind]]
is = "split"
when = { Kind = "Added" }"""
OLD, NEW = faults.kind_more(SPLITS)
PROFILE = faults.PROFILE.replace(OLD, NEW, 1)


def file_of(rows):
    """The file of rows: day, kind, symbol, units, price, amount, currency and id, without a fee."""
    lines = [";".join([*fields[:7], "", fields[7]]) for fields in (row.split(",") for row in rows)]
    return faults.file_of(lines).decode()


class Book:
    """A book with an account of a method, and lots that are posted as ledger text."""

    def __init__(self, program, folder, method, lots):
        self.program, self.path, self.folder = program, f"{folder}/book", folder
        for name in os.listdir(folder):
            os.remove(f"{folder}/{name}")
        with open(f"{folder}/profile.toml", "w", encoding="utf-8") as file:
            file.write(PROFILE)
        self.run("init", "--book", self.path)
        accounts = "Assets:Cash Income:Gains Equity:Rounding".split()
        text = f'2020-01-01 open Assets:Broker "{method}"\n' + "".join(f"2020-01-01 open {name}\n" for name in accounts) + lots
        status, out, said = self.run("post", "--book", self.path, "--batch", "lots", data=text)
        if status:
            raise SystemExit(f"the lots aren't posted: {out}{said}")

    def run(self, *words, data=""):
        done = subprocess.run([self.program, *words], input=data.encode(), capture_output=True, timeout=120)
        return done.returncode, done.stdout.decode(), done.stderr.decode()

    def take(self, rows, *words):
        return self.run("import", "--book", self.path, "--batch", "b", "--profile", f"{self.folder}/profile.toml", *words, data=file_of(rows))

    def held(self, account="Assets:Broker"):
        lines = self.run("holdings", "--book", self.path, "--format", "csv")[1].splitlines()[1:]
        return [line.removeprefix(account + ",") for line in lines if line.startswith(account + ",")]

    def journal(self):
        return self.run("journal", "--book", self.path)[1]


def is_split(name, book, rows, held, crumbs=(), again=True):
    """The rows are accepted, this is held then, these are the crumbs, and nothing changes where they come again."""
    status, out, said = book.take(rows)
    check(f"{name}: accepted", "" if status == 0 and out.count("accepted") == len(rows) else f"status {status}: {out}{said}")
    check(f"{name}: held", "" if book.held() == list(held) else f"{book.held()}")
    check(f"{name}: crumbs", "" if book.held("Equity:Rounding") == list(crumbs) else f"{book.held('Equity:Rounding')}")
    if again:
        before = book.journal()
        status, out, said = book.take(rows)
        check(f"{name}: again", "" if status == 0 and out.count("repeat") == len(rows) and book.journal() == before else f"status {status}: {out}{said}")


def is_refused(name, book, rows, line, *words):
    """The rows are refused with that line, nothing is kept, and standard error says these words."""
    before = book.journal()
    status, out, said = book.take(rows)
    told = f"status {status}: {out}{said}"
    check(f"{name}: refused", "" if status == 1 and line in out and book.journal() == before else told)
    check(f"{name}: why", "" if all(word in said for word in words) else told)


def lots(*each):
    """Lots of one unit's cost, day, units and number."""
    return "".join(f'{day} * "lot"\n  Assets:Broker  {units} HOOL {{{cost} USD}}\n  Assets:Cash  {cash} USD\n' for day, units, cost, cash in each)


def by_method(new):
    two = lots(("2024-01-02", "10", "100", "-1000"), ("2024-01-03", "5", "101.01", "-505.05"))
    split = ["2024-02-01,Split,HOOL,4:1,,,,S1"]
    held = ["HOOL,40,2024-01-02,,25,USD,1000.00", "HOOL,20,2024-01-03,,25.2525,USD,505.05"]
    for method in ("STRICT", "FIFO", "LIFO", "HIFO", "NONE"):
        is_split(f"4:1 under {method}", new(method, two), split, held)
    is_split("units added", new("FIFO", two), ["2024-02-01,Added,HOOL,45,,,,S1"], held)
    is_split("a ratio that isn't in lowest terms", new("FIFO", two), ["2024-02-01,Split,HOOL,400:100,,,,S1"], held)
    is_split("a reverse split", new("FIFO", two), ["2024-02-01,Split,HOOL,1:5,,,,S1"],
             ["HOOL,2,2024-01-02,,500,USD,1000.00", "HOOL,1,2024-01-03,,505.05,USD,505.05"])
    is_split("units taken away", new("FIFO", two), ["2024-02-01,Added,HOOL,-12,,,,S1"],
             ["HOOL,2,2024-01-02,,500,USD,1000.00", "HOOL,1,2024-01-03,,505.05,USD,505.05"])


def crumbs(new):
    # 1000 / 30 is 33.33333333.., and thirty of 33.33333333 cost 999.9999999.
    is_split("a crumb", new("FIFO", lots(("2024-01-02", "10", "100", "-1000"))), ["2024-02-01,Split,HOOL,3:1,,,,S1"],
             ["HOOL,30,2024-01-02,,33.33333333,USD,999.9999999"], ["USD,0.0000001,,,,,"])
    # 2000 / 30 is 66.66666666.., rounded up, so that thirty cost 2000.0000001.
    is_split("a crumb below zero", new("FIFO", lots(("2024-01-02", "10", "200", "-2000"))), ["2024-02-01,Split,HOOL,3:1,,,,S1"],
             ["HOOL,30,2024-01-02,,66.66666667,USD,2000.0000001"], ["USD,-0.0000001,,,,,"])
    both = '2024-01-02 * "lot"\n  Assets:Broker  10 HOOL {100 USD}\n  Assets:Broker  10 HOOL {200 EUR}\n  Assets:Cash  -1000 USD\n  Assets:Cash  -2000 EUR\n'
    is_split("lots in two currencies", new("FIFO", both), ["2024-02-01,Split,HOOL,3:1,,,,S1"],
             ["HOOL,30,2024-01-02,,66.66666667,EUR,2000.0000001", "HOOL,30,2024-01-02,,33.33333333,USD,999.9999999"],
             ["EUR,-0.0000001,,,,,", "USD,0.0000001,,,,,"])


def behind(new):
    """What comes behind a split, or stands before it in the file."""
    rows = ["2024-01-02,Buy,HOOL,10,200,-2000,USD,B1", "2024-01-02,Buy,HOOL,10,100,-1000,USD,B2", "2024-02-01,Split,HOOL,2:1,,,,S1",
            "2024-03-01,Sell,HOOL,-20,120,2400,USD,V1"]
    # The lot that was opened first is the one of 200, and of 100 a unit behind the split. FIFO takes it first, though the other costs less.
    book = new("FIFO", "")
    is_split("lots of one day keep their order", book, rows, ["HOOL,20,2024-01-02,,50,USD,1000.00"])
    gains = book.run("gains", "--book", book.path)[1]
    check("lots of one day keep their order: the gain", "" if "total gain 400.00 USD" in gains else gains)
    book = new("STRICT", "")
    is_split("purchases of the same file", book, rows[:3], ["HOOL,20,2024-01-02,,50,USD,1000.00", "HOOL,20,2024-01-02,,100,USD,2000.00"])
    book.take(["2024-02-02,Buy,HOOL,7,10,-70,USD,B3"])
    status, out, said = book.take(rows[:3])
    check("a split comes again, and more was bought", "" if status == 0 and out.count("repeat") == 3 else f"{out}{said}")
    label = '2024-01-02 * "lot"\n  Assets:Broker  10 HOOL {100 USD, 2023-05-06, "old"}\n  Assets:Cash  -1000 USD\n'
    is_split("day and label stay", new("STRICT", label), ["2024-02-01,Split,HOOL,2:1,,,,S1"], ["HOOL,20,2023-05-06,old,50,USD,1000.00"])


def refused(new):
    ten = lots(("2024-01-02", "10", "100", "-1000"))
    is_refused("nothing is held", new("FIFO", ""), ["2024-02-01,Split,HOOL,2:1,,,,S1"], "1 refused L14 NotBalanced HOOL", "row 1", "no lot")
    is_refused("units don't divide", new("FIFO", ten), ["2024-02-01,Split,HOOL,1:3,,,,S1"], "1 refused L14 NotBalanced HOOL", "divided")
    is_refused("a ratio above 100 by units", new("FIFO", ten), ["2024-02-01,Added,HOOL,1000,,,,S1"], "1 refused L14 NotBalanced HOOL", "100")
    is_refused("all units taken away", new("FIFO", ten), ["2024-02-01,Added,HOOL,-10,,,,S1"], "1 refused L14 NotBalanced HOOL", "100")
    is_refused("an account that isn't open", new("FIFO", ten), ["2019-02-01,Split,HOOL,2:1,,,,S1"], "1 refused L4 NotOpenYet posting 1")
    is_refused("a day before a purchase", new("FIFO", ten), ["2024-01-01,Split,HOOL,2:1,,,,S1"], "1 refused L14 NotBalanced HOOL", "L10 BackDated")
    for count in (60, 61):
        text = "".join(f'2024-01-02 * "lot"\n  Assets:Broker  1 HOOL {{{n} USD}}\n  Assets:Cash  -{n} USD\n' for n in range(1, count + 1))
        book = new("FIFO", text)
        row = ["2024-02-01,Split,HOOL,2:1,,,,S1"]
        if count == 60:
            status, out, said = book.take(row)
            check("60 lots: accepted", "" if status == 0 and len(book.held()) == 60 and book.held()[0] == "HOOL,2,2024-01-02,,0.5,USD,1.00" else f"{out}{said}")
        else:
            is_refused("61 lots", book, row, "1 refused L14 NotBalanced HOOL", "60 lots")
    book = new("FIFO", ten)
    book.take(["2024-02-01,Split,HOOL,2:1,,,,S1"])
    is_refused("another ratio under the same key", book, ["2024-02-01,Split,HOOL,3:1,,,,S1"], "1 refused L1 KeyReused")
    is_refused("another symbol under the same key", book, ["2024-02-01,Split,OTHER,2:1,,,,S1"], "1 refused L1 KeyReused")
    status, out, said = book.take(["2024-02-01,Added,HOOL,10,,,,S1"])
    check("the same by units added is a repeat", "" if status == 0 and "1 repeat" in out else f"{out}{said}")
    status, out, said = book.take(["2024-02-01,Added,HOOL,11,,,,S1"])
    check("other units added aren't", "" if status == 1 and "1 refused L1 KeyReused" in out else f"{out}{said}")


def shown(new):
    book = new("FIFO", lots(("2024-01-02", "10", "100", "-1000")))
    rows = file_of(["2024-02-01,Split,HOOL,6:2,,,,S1", "2024-02-02,Added,HOOL,-20,,,,S2"])
    status, out, said = book.run("import", "--profile", f"{book.folder}/profile.toml", "--show", data=rows)
    wanted = ("; row 1 key 2024-02-01 1 S1: split 6:2 of HOOL in Assets:Broker\n"
              "; row 2 key 2024-02-02 1 S2: split, -20 units of HOOL added in Assets:Broker\n; 0 skipped\n")
    check("shown as comments", "" if status == 0 and out == wanted else f"{out}{said}")
    status, out, said = book.run("import", "--book", book.path, "--batch", "b", "--profile", f"{book.folder}/profile.toml", "--dry-run", data=rows)
    check("a dry run keeps nothing", "" if status == 0 and out == "1 accepted\n2 accepted\n" and book.held() == ["HOOL,10,2024-01-02,,100,USD,1000.00"] else f"{out}{said}")


def main(words):
    if len(words) != 1:
        raise SystemExit(__doc__)
    with tempfile.TemporaryDirectory() as folder:
        for cases in (by_method, crumbs, behind, refused, shown):
            cases(lambda method, text: Book(words[0], folder, method, text))


if __name__ == "__main__":
    main(sys.argv[1:])
    tally.end()
