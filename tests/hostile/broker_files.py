"""Broker files that end early, that someone changed byte by byte, or that are as long as may be; beside the second reader and the judge.

    broker_files.py PROGRAM SCRATCH [--whole]

Each file is imported into a fresh copy of one book. What it answers, and what is held then, is what the reader and the judge say; a
faulty file leaves the book as it was. Without --whole the changes are some, drawn from a fixed seed.
"""

import itertools
import os
import sys

import sweep

sys.path.insert(0, os.path.join(sweep.HERE, "..", "broker"))

import compare
import draw
import model
import reader
import tables
import tally

LONGEST_INPUT = 16_777_216
MOST_COLUMNS = 100_000
IN_THE_GATE = 60  # changes of bytes, and as many bytes put in, and cuts
TOO_LONG = 6  # of the longest files each sixth comes with a byte more, too, there

HEADERS = draw.HEADERS
FILES = (
    HEADERS[0] + b'\nA1,2020-01-02,BUY,HOOL,10,"1,000.5",USD,\r\n"A2",2020-01-03,SELL,HOOL,4,1001,USD,0.99\n',
    HEADERS[1] + b'\n\nA1,2020-01-02,BUY,HOOL,10,100,USD,1.5,A1\nA2,2020/1/3,SELL,HOOL,4,120,USD,-0,"A1"',
)
PUT_IN = (b'"', b",", b"\n", b"\r", b"\0", b'""', b"\r\n\r", reader.BYTE_ORDER_MARK)


def openings():
    return [model.Opening((2019, 1, 1), account, (), "FIFO") for account in draw.ACCOUNTS]


class Imports:
    """Imports into copies of one book on which the accounts are open, beside the reader and the judge."""

    def __init__(self, program, scratch):
        at = compare.Program(program, scratch)
        at.begin(openings())
        self.program, self.first, self.book = program, at.book, at.book + f"-{os.getpid()}"
        self.before = tables.bytes_of(self.first)
        self.words = ["import", "--book", self.book, "--batch", "x"]
        self.words += [word for name, account in draw.ACCOUNTS._asdict().items() for word in ("--" + name, account)]

    def get(self, file):
        tables.copied(self.first, self.book)
        return sweep.call(self.program, self.words, file)

    def see(self, done, case, file):
        """A case of the sweep: the file's answer and its holdings."""
        judge = compare.Book(openings())
        wanted = judge.answer(file, None)
        outcome = " ".join(word for word in wanted[0].decode().split("\n")[0].split() if not word.isdigit())
        done.compare(f"{case}: {file!r}", outcome or "no rows", wanted, self.get(file), may_warn=True)
        if wanted[1] == 3:
            done.also("" if tables.bytes_of(self.book) == self.before else f"{case}: {file!r}: the book changed")
        else:
            held = sweep.call(self.program, ["holdings", "--book", self.book])
            done.compare(f"holdings after {case}: {file!r}", "holdings", judge.holdings(), held)


def beside(words):
    """A sweep over small files."""
    program, scratch, cases = words
    folder = os.path.join(scratch, f"imports-{os.getpid()}")
    os.makedirs(folder, exist_ok=True)
    done, imports = sweep.Sweep(), Imports(program, folder)
    for case, file in cases:
        imports.see(done, case, file)
    return done


def cut_files():
    for file in FILES:
        for at in range(len(file)):
            yield f"cut at {at}", file[:at]


def changed_files():
    for file in FILES:
        for at in range(len(file)):
            for byte in range(256):
                if byte != file[at]:
                    yield f"byte {at} as {byte}", file[:at] + bytes([byte]) + file[at + 1 :]


def longer_files():
    for file in FILES:
        for at in range(len(file) + 1):
            for more in PUT_IN:
                yield f"{more!r} at {at}", file[:at] + more + file[at:]
        yield "NUL behind each byte", b"".join(bytes([byte, 0]) for byte in file)


def mixed_headers():
    """Headers between the two versions: columns that are absent, come twice, or stand elsewhere; and rows of one under the other."""
    first, second = reader.VERSIONS
    headers = [[*first[:at], "lot", *first[at:]] for at in range(len(first) + 1)]
    headers += [[*second[:at], *second[at + 1 :]] for at in range(len(second))]
    headers += [[*second[:at], second[at], *second[at:]] for at in range(len(second))]
    headers += [[second[order.get(at, at)] for at in range(len(second))] for one, two in itertools.combinations(range(len(second)), 2)
                for order in ({one: two, two: one},)]  # fmt: skip
    headers += [[*first, *first], [*first, *second], [*second, *second], first[:1], ["", *first], [*first, ""]]
    for header in headers:
        for file in FILES:
            yield f"header {','.join(header)}", ",".join(header).encode() + b"\n" + file.split(b"\n", 1)[1]
    for one, two in itertools.product(HEADERS, repeat=2):
        yield "two headers", one + b"\n" + two + b"\n"
    for header, file in itertools.product(HEADERS, FILES):
        yield "rows of both versions", header + b"\n" + b"\n".join(it.split(b"\n", 1)[1] for it in (file, *FILES))


def full_files(imports, whole):
    """Files of as many bytes as there may be, and of one more; and rows of 100,000 columns."""
    done = sweep.Sweep()
    bad_header, length, ref = "fault header C1 BadHeader", "fault row 1 C2 BadRow Length", "fault row 1 C2 BadRow Ref"
    cases = [(b"", filling, bad_header) for filling in (b'"', b",", b"\r", b"\n", b"\0", b"A", b"\xff", b'"",')]
    for header in HEADERS if whole else HEADERS[1:]:
        begun = header + b"\n"
        fields = b",2020-01-02,BUY,HOOL,1,1,USD," + b"," * (header == HEADERS[1])
        cases += [(begun + b'"', filling, length) for filling in (b"A", b",", b"\n", b"\r", b"\0", b'""')]
        cases += [(begun, filling, length) for filling in (b",", b"A", b"\0", b"\xff")]
        cases += [(begun, filling, None) for filling in (b"\r", b"\n")]
        cases.append((begun + b'"', b"A", ref, b'"' + fields))
        cases.append((begun, b"\0", ref, fields))
    for at, (before, filling, said, *behind) in enumerate(cases):
        behind = b"".join(behind)
        room = LONGEST_INPUT - len(before) - len(behind)
        full = before + (filling * (room // len(filling) + 1))[:room] + behind
        wanted = (sweep.lines(said), 3) if said else (b"", 0)
        done.compare(f"{before[-60:]!r}, then {filling!r}", "full files", wanted, imports.get(full))
        if whole or at % TOO_LONG == 0:
            longer = imports.get(full + b"A")
            done.compare(f"{before[-60:]!r}, then {filling!r} and one more", "K2 TooLong", (sweep.lines("fault K2 TooLong"), 3), longer)
    for header in HEADERS:
        many = b",".join([header] * (MOST_COLUMNS // 8))
        done.compare("a header of many columns", "many columns", (sweep.lines(bad_header), 3), imports.get(many + b"\n"))
        for row in (b"," * (MOST_COLUMNS - 1), b",".join([b"A"] * MOST_COLUMNS), b'"' + b'","' * (MOST_COLUMNS - 1) + b'"'):
            done.compare("a row of many columns", "many columns", (sweep.lines(length), 3), imports.get(header + b"\n" + row))
    return done


def main():
    words = sweep.words_of_a_sweep().parse_args()
    full_files(Imports(words.program, words.scratch), words.whole).tell("broker files of 16,777,216 bytes, of one more, and of 100,000 columns")
    sweeps = {
        "broker files cut at a byte": list(cut_files()),
        "broker files with one byte changed": list(changed_files()),
        "broker files with a quote, an end or a NUL put in": list(longer_files()),
        "broker files with headers between the two versions": list(mixed_headers()),
    }
    with sweep.pool() as pool:
        for seed, (name, cases) in enumerate(sweeps.items()):
            if not words.whole:
                cases = sweep.sample(seed, cases, IN_THE_GATE)
            sweep.swept(pool, beside, (words.program, words.scratch), cases).tell(name)


if __name__ == "__main__":
    main()
    tally.end()
