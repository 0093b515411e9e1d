"""A small file and its profile, each byte changed, fields swapped, kinds left out: the program finds a fault where reader.py does, or its
rows come to what those of reader.py come to.

    changed.py PROGRAM [--every N]

Compared is what `import --profile P --show` prints: days and postings, narrations apart. With --every N only each N-th change is tried.
A changed profile has to be a fault where reader.py finds one, else the same rows.
"""

import itertools
import os
import re
import subprocess
import sys
import tempfile

sys.path.insert(0, os.path.dirname(os.path.abspath(__file__)))
sys.path.append(os.path.join(os.path.dirname(os.path.abspath(__file__)), "..", "lib"))
import faults
import reader
import tally

LINES = [
    faults.BUY,
    faults.BUY.replace("D1", ""),
    faults.SELL,
    "2024-03-04;Cancel;HOOL;-10;100.50;1,009.95;USD;-4.95;D5",
    faults.DIVIDEND,
    faults.CASH,
    faults.CASH.replace(";500;", ";($20.5);"),
    "Total;Note;;;;1;;;",
]
BYTES = b'09-,.;"\n x$(\xff'
DEAL = re.compile(r"[0-9]{4}-[0-9]{2}-[0-9]{2} [*!]")


def transactions(text):
    """Days and postings of ledger text."""
    found = []
    for line in text.splitlines():
        if DEAL.match(line):
            found.append([line[:10]])
        elif line.startswith("  ") and found:
            found[-1].append(line.strip())
    return [(deal[0], sorted(deal[1:])) for deal in found]


def wanted(profile, data):
    """The status of the program, and what it shows."""
    try:
        read = reader.read_export(reader.read_profile(profile), data)
    except reader.ProfileFault:
        return 2, None
    except reader.Fault as fault:
        return 3, fault.row
    return 0, transactions("".join(deal.text_ for deal in read.deals))


def shown(program, folder, profile, data):
    path = f"{folder}/profile.toml"
    with open(path, "wb") as file:
        file.write(profile)
    run = subprocess.run([program, "import", "--profile", path, "--show"], input=data, capture_output=True, timeout=60)
    out = run.stdout.decode("utf-8", "replace")
    if run.returncode == 3:
        row = re.search(r"\brow ([0-9]+)\b", out)
        return 3, int(row[1]) if row else 0
    return run.returncode, transactions(out) if run.returncode == 0 else None


def texts():
    """What a change is, the profile and the file."""
    profile, data = faults.PROFILE.encode(), faults.file_of(LINES)
    yield "no change", profile, data
    for place, byte in itertools.product(range(len(data)), BYTES):
        if data[place] != byte:
            yield f"byte {place} is {byte}", profile, data[:place] + bytes([byte]) + data[place + 1 :]
    for place in range(len(data)):
        yield f"byte {place} is gone", profile, data[:place] + data[place + 1 :]
    records = [line.split(";") for line in data.decode().splitlines()]
    for one, two in itertools.combinations(range(9), 2):
        for rows in (records[1:], records[3:4]):
            for record in rows:
                record[one], record[two] = record[two], record[one]
            yield f"fields {one} and {two} of {len(rows)} rows", profile, "\n".join(map(";".join, records)).encode()
            for record in rows:
                record[one], record[two] = record[two], record[one]
    parts = re.split(r"(?=\[\[kind\]\])", faults.PROFILE)
    for place in range(1, len(parts)):
        yield f"kind {place} is left out", "".join(parts[:place] + parts[place + 1 :]).encode(), data
    columns = dict(re.findall(r'^([a-z]+) = "([A-Z][a-z]*)"$', faults.PROFILE, re.M))
    for one, two in itertools.combinations(columns, 2):
        swapped = faults.PROFILE.replace(f'{one} = "{columns[one]}"', f'{one} = "{columns[two]}"', 1)
        yield f"columns {one} and {two}", swapped.replace(f'{two} = "{columns[two]}"', f'{two} = "{columns[one]}"', 1).encode(), data
    for place, byte in itertools.product(range(0, len(profile), 7), b'"x]=\n1'):
        yield f"byte {place} of the profile is {byte}", profile[:place] + bytes([byte]) + profile[place + 1 :], data


def main(words):
    if not words:
        raise SystemExit(__doc__)
    if reader.tomllib is None:
        print(f"skipped: {reader.WITHOUT_TOMLLIB}")
        return
    every = int(words[2]) if words[1:2] == ["--every"] else 1
    count, bad = 0, []
    with tempfile.TemporaryDirectory() as folder:
        for name, profile, data in itertools.islice(texts(), 0, None, every):
            count += 1
            want, got = wanted(profile, data), shown(words[0], folder, profile, data)
            if want != got:
                bad.append(f"{name}: {str(got)[:200]}, wanted {str(want)[:200]}")
    for problem in bad[:20]:
        tally.check("changed", problem)
    tally.failed += len(bad[20:])
    tally.passed += count - len(bad)


if __name__ == "__main__":
    main(sys.argv[1:])
    tally.end()
