"""Compares what the program makes of the made exports and of the examples in profiles/ with their truth, and its keys with reader.py's.

    program.py PROGRAM [NAME..]

Each year goes into a book of its own: both files are imported by the profile, then again, which changes nothing. What is held and what
was gained has to be the truth; the keys of the book are those of reader.py, as are the rows that are booked. Then come the cases of
faults.py: where reader.py finds a fault, the program names the same row or the same entry of the profile, and keeps nothing.
"""

import csv
import io
import os
import re
import subprocess
import sys
import tempfile
from fractions import Fraction

sys.path.insert(0, os.path.dirname(os.path.abspath(__file__)))
import compare
import faults
import fifo
import make
import reader
import tally

BATCH = "made"


class Program:
    def __init__(self, path, folder):
        self.path, self.book, self.folder = path, f"{folder}/book", folder

    def run(self, *words, data=b""):
        done = subprocess.run([self.path, *words], input=data, capture_output=True, timeout=120)
        return done.returncode, done.stdout.decode(), done.stderr.decode()

    def start(self, profile, deals):
        """A book with the accounts that the deals post to."""
        for name in os.listdir(self.folder):
            os.remove(f"{self.folder}/{name}")
        self.run("init", "--book", self.book)
        invest = {deal.split[0] for deal in deals if deal.kind == "split"}
        names = dict.fromkeys(account for deal in deals for account in re.findall(r"^  (\S+)", deal.text_, re.M))
        for deal in deals:
            invest.update(re.findall(r"^  (\S+) \S+ \S+ \{", deal.text_, re.M))
        names.update(dict.fromkeys(sorted(invest) + [profile.accounts.get("rounding", "Equity:Rounding")]))
        text = "".join(f"2000-01-01 open {name}" + (' "FIFO"' if name in invest else "") + "\n" for name in names)
        return self.run("post", "--book", self.book, "--batch", "accounts", data=text.encode())

    def take(self, profile_path, data):
        return self.run("import", "--book", self.book, "--batch", BATCH, "--profile", profile_path, "--explain-all", data=data)

    def keys(self):
        return re.findall(f"^; entry [0-9]+ key import:{BATCH} (.*)$", self.run("journal", "--book", self.book)[1], re.M)

    def digest(self):
        return self.run("verify", "--book", self.book, "--digest")[1]

    def summary(self):
        """What is held and was gained, as compare.summary has it."""
        book = fifo.Book(Fraction(1))
        for row in self.table("holdings"):
            units = Fraction(row["units"])
            if row["acquired"]:
                day = make.datetime.date.fromisoformat(row["acquired"])
                book.opened += 1
                book.lots.append(fifo.Lot((row["account"], row["commodity"], day, row["currency"], Fraction(row["unit_cost"])), units, book.opened))
            else:
                book.plain[row["account"], row["commodity"]] = units
        for row in self.table("gains"):
            if row["gain"]:
                key = int(row["sold"][:4]), row["currency"]
                book.gains[key] = book.gains.get(key, 0) + Fraction(row["gain"])
        return compare.summary(book)

    def table(self, word):
        return list(csv.DictReader(io.StringIO(self.run(word, "--book", self.book, "--format", "csv")[1])))


def sorted_lots(lines):
    """Lots of one day in one order: the program's report has them by cost."""
    lots = sorted((line for line in lines if line[0][0] == "lot"), key=lambda line: (line[0], line[1]))
    return lots + [line for line in lines if line[0][0] != "lot"]


def rows_said(out):
    return {int(line.split()[0]): line.split()[1] for line in out.splitlines() if re.match("[0-9]+ (accepted|repeat|refused)", line)}


def year(program, name, folder):
    profile_path = f"{folder}/{name}.toml"
    profile = reader.read_profile(compare.load(profile_path))
    truths = compare.truths(f"{folder}/{name}.truth")
    reads = {file: reader.read_export(profile, compare.load(f"{folder}/{file}")) for file in truths}
    status, _, said = program.start(profile, [deal for read in reads.values() for deal in read.deals])
    compare.check(f"{name}: the accounts", said if status else "")
    known = set()
    for file, truth in truths.items():
        status, out, said = program.take(profile_path, compare.load(f"{folder}/{file}"))
        if status:
            compare.check(f"{name}: {file}", f"status {status}: {(out + said)[:300]}")
            return
        compare.check(f"{name}: {file}: numbers that were rounded", "" if rounded_said(said) == reads[file].rounded else f"{rounded_said(said)}, wanted {reads[file].rounded}")
        wanted = {deal.row.number: "repeat" if deal.key in known else "accepted" for deal in reads[file].deals}
        compare.check(f"{name}: {file}: the rows", "" if rows_said(out) == wanted else f"{len(rows_said(out))} rows, wanted {len(wanted)}: {out[:100]}")
        known.update(deal.key for deal in reads[file].deals)
        compare.check(f"{name}: {file}: the keys", "" if set(program.keys()) == known else str(sorted(set(program.keys()) ^ known)[:3]))
        compare.check(f"{name}: {file}: it is as it was", compare.difference(sorted_lots(program.summary()), sorted_lots(truth)))
    before = program.digest()
    for file in truths:
        status, out, _ = program.take(profile_path, compare.load(f"{folder}/{file}"))
        compare.check(f"{name}: {file} again", "" if not status and set(rows_said(out).values()) <= {"repeat"} else out[:200])
    compare.check(f"{name}: nothing changed", "" if program.digest() == before and before.startswith("book verified") else before)


def rounded_said(said):
    """How many numbers were rounded, as standard error says it."""
    found = re.search(r"^lotbook: ([0-9]+) numbers? (?:was|were) rounded to eight decimals$", said, re.M)
    return int(found[1]) if found else 0


def as_told(key):
    """A key of reader.py as the program tells it: `kind.2.when` as `kind 2, when`."""
    return re.sub(r", ([0-9]+)\b", r" \1", key.replace(".", ", "))


def case(program, name, changes, lines):
    text, data = faults.PROFILE, faults.file_of(lines)
    for old, new in changes:
        text = text.replace(old, new, 1)
    path = f"{program.folder}.toml"
    with open(path, "w", encoding="utf-8") as file:
        file.write(text)
    wanted, read, profile = None, None, None
    try:
        profile = reader.read_profile(text.encode())
        read = reader.read_export(profile, data)
    except (reader.ProfileFault, reader.Fault) as fault:
        wanted = fault
    base = profile or reader.read_profile(faults.PROFILE.encode())
    deals = read.deals if read else []
    program.start(base, deals)
    status, out, said = program.take(path, data)
    told = f"status {status}: {(out + said)[:300]}"
    if wanted is None:
        good = status == 0 and sorted(program.keys()) == sorted(deal.key for deal in deals) and rounded_said(said) == read.rounded
    elif isinstance(wanted, reader.ProfileFault):
        good = status == 2 and (wanted.key == "-" or as_told(wanted.key) in out + said)
    else:
        place = "line" if "in the header" in str(wanted) else "row"
        good = status == 3 and not program.keys() and (not wanted.row or re.search(rf"\b{place} {wanted.row}\b", out))
    compare.check(f"case: {name}", "" if good else f"{told}, wanted {wanted or 'no fault'}")


def main(words):
    if not words:
        raise SystemExit(__doc__)
    if reader.tomllib is None:
        print(f"skipped: {reader.WITHOUT_TOMLLIB}")
        return
    with tempfile.TemporaryDirectory() as above:
        os.mkdir(f"{above}/a")
        program = Program(words[0], f"{above}/a")
        for name, folder in compare.years():
            if not words[1:] or name in words[1:]:
                year(program, name, folder)
        if not words[1:]:
            for name, changes, lines, _ in faults.CASES:
                case(program, name, changes, lines)


if __name__ == "__main__":
    main(sys.argv[1:])
    tally.end()
