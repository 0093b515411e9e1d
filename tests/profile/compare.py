"""Compares what reader.py makes of the made exports with the truth of make.py, and its faults with those that are wanted.

    compare.py [PROGRAM]

Each made year is read, booked by a plain book (fifo.py) and compared with its truth; then its second file, of which the rows that are
there already have to have the keys and the texts of before. Units, cash, dividends, taxes, fees, interest and rewards are compared to
the last digit, costs and gains to the cent. Then come the cases of faults.py, and the examples in profiles/. With PROGRAM the texts are
judged by the program, too.
"""

import glob
import os
import re
import subprocess
import sys
from fractions import Fraction

HERE = os.path.dirname(os.path.abspath(__file__))
sys.path.insert(0, HERE)
sys.path.append(os.path.join(HERE, "..", "lib"))
import faults
import fifo
import make
import reader
import tally
from tally import check

ROOT = os.path.dirname(os.path.dirname(HERE))
CENT = Fraction(1, 200)
LOOSE = ("lot", "gain")


def load(path):
    with open(path, "rb") as file:
        return file.read()


def summary(book):
    """The lines of a truth, as (words, amount)."""
    lines = []
    for lot in sorted(book.lots, key=lambda lot: (lot.key[:3], lot.opened)):
        account, symbol, day, currency, number = lot.key
        lines.append((("lot", account, symbol, str(day), currency), lot.units, lot.units * number))
    for (year, currency), gain in sorted(book.gains.items()):
        lines.append((("gain", str(year), currency), None, gain))
    named = {"dividends": (-1, "Income:Dividends"), "fees": (1, "Expenses:Fees"), "interest": (-1, "Income:Interest"), "rewards": (-1, "Income:Rewards"), "taxes": (1, "Expenses:Withholding")}
    for what, (sign, account) in named.items():
        for currency, amount in sorted(book.sums(sign, account).items()):
            lines.append(((what, currency), None, amount))
    for (account, currency), amount in sorted(book.plain.items()):
        if account.startswith("Assets:") and amount:
            lines.append((("cash", account, currency), None, amount))
    return lines


def truths(path):
    """The truth of each file: lines as `summary` has them."""
    found = {}
    for line in load(path).decode().splitlines():
        words = line.split(" ")
        if words[0] == "after":
            lines = found[words[1]] = []
        elif words[0] == "lot":
            lines.append((("lot", *words[1:4], words[6]), Fraction(words[4]), Fraction(words[5])))
        elif words[0] == "gain":
            lines.append((("gain", words[1], words[2]), None, Fraction(words[3])))
        else:
            lines.append((tuple(words[:-1]), None, Fraction(words[-1])))
    return found


def difference(got, wanted):
    for mine, theirs in zip(got + [None] * len(wanted), wanted + [None] * len(got)):
        if mine is None and theirs is None:
            return ""
        if mine is None or theirs is None or mine[:2] != theirs[:2] or abs(mine[2] - theirs[2]) > (CENT if mine[0][0] in LOOSE else 0):
            return f"{told(mine)}, wanted {told(theirs)}"
    return ""


def told(line):
    return "nothing" if line is None else " ".join(line[0]) + "".join(f" {float(part)}" for part in line[1:] if part is not None)


def post(book, deals):
    for deal in deals:
        try:
            if deal.kind == "split":
                book.split(*deal.split)
            else:
                book.book(deal.text_)
        except fifo.Refused as refused:
            return f"row {deal.row.number}: {refused}"
    return ""


def year(name, folder, wanted=None):
    """A profile, its files and its truth."""
    try:
        profile = reader.read_profile(load(f"{folder}/{name}.toml"))
    except reader.ProfileFault as fault:
        return check(f"{name}: the profile", str(fault))
    wanted = wanted or truths(f"{folder}/{name}.truth")
    book, known, texts = fifo.Book(max(profile.within, Fraction(1, 10**6))), {}, []
    for file, truth in wanted.items():
        try:
            read = reader.read_export(profile, load(f"{folder}/{file}"))
        except reader.Fault as fault:
            return check(f"{name}: {file}", str(fault))
        keys = [deal.key for deal in read.deals + read.by_hand]
        check(f"{name}: {file}: keys are distinct", "" if len(set(keys)) == len(keys) else "two rows have one key")
        new = [deal for deal in read.deals if deal.key not in known]
        changed = [deal for deal in read.deals if deal.key in known and known[deal.key] != deal.text_]
        check(f"{name}: {file}: what comes again is a repeat", f"row {changed[0].row.number}: {changed[0].text_}" if changed else "")
        if known:
            again = len(read.deals) - len(new)
            day = min(deal.day for deal in read.deals)
            there = sum(before >= day for before in days)
            check(f"{name}: {file}: the overlap is known", "" if again == there and again else f"{again} of {there} rows")
        problem = post(book, new)
        check(f"{name}: {file}: it is as it was", problem or difference(summary(book), truth))
        known.update((deal.key, deal.text_) for deal in new)
        days = [deal.day for deal in read.deals]
        texts.append(new)
    return profile, texts


def judged(program, name, profile, texts):
    """The program takes the texts of the years, with a rounding account; those behind a split are left out, since it has none."""
    accounts, lines = {}, []
    for deals in texts:
        for deal in deals:
            if deal.kind == "split":
                break
            lines.append(deal.text_)
        else:
            continue
        break
    for account in re.findall(r"^  (\S+)", "".join(lines), re.M):
        accounts[account] = None
    rounding = profile.accounts.get("rounding", "Equity:Rounding")
    invest = {deal.text_.split("\n")[1].split()[0] for deals in texts for deal in deals if deal.kind in ("buy", "reward", "transfer-in")}
    opens = ""
    for account in dict.fromkeys([*accounts, rounding]):
        opens += "2000-01-01 open " + account + (' "FIFO"' if account in invest else "") + "\n"
    words = [program, "--rounding", rounding, "--within", reader.show(max(profile.within, Fraction(1, 1000)))]
    run = subprocess.run(words, input=(opens + "".join(lines)).encode(), capture_output=True, timeout=60)
    refused = re.search(rb"^[0-9]+ refused .*|^fault .*", run.stdout, re.M)
    check(f"{name}: the program takes it", run.stderr.decode()[:300] if refused or run.returncode else "")


def years():
    """The name and the folder of each profile that has a truth."""
    every = [(name, make.HERE) for name in make.FORMATS]
    for folder in (f"{ROOT}/profiles", f"{ROOT}/examples/profile"):
        every += [(os.path.basename(path)[:-5], folder) for path in sorted(glob.glob(f"{folder}/*.toml"))]
    return every


def main(words):
    if reader.tomllib is None:
        print(f"skipped: {reader.WITHOUT_TOMLLIB}")
        return
    stale = [name for name, data in make.files() if load(f"{make.HERE}/{name}") != data]
    check("the made files are those of make.py", " ".join(stale))
    for name, folder in years():
        done = year(name, folder)
        if done and words:
            judged(words[0], name, *done)
    for name, problem in faults.cases():
        check(name, problem)


if __name__ == "__main__":
    main(sys.argv[1:])
    tally.end()
