"""A plain restorer, written from docs/FORMATS.md (Dump, Restoring) and docs/RULES.md alone, over the plain judge: what `restore` answers to
a text, and the book that it makes.
"""

import contextlib
import hashlib
import os
import re
import sys
from typing import NamedTuple

HERE = os.path.dirname(os.path.abspath(__file__))
for folder in ("random", "book", "lib"):
    sys.path.append(os.path.join(HERE, "..", folder))

import model  # noqa: E402  (the folders are named above)
import reports  # noqa: E402
import text as second  # noqa: E402

WORDS_LIMIT = 2**32
FORMAT, EDITION = 1, 2
NUMBER = r"(0|[1-9][0-9]*)"
HEAD = re.compile(rf"; lotbook dump {NUMBER} edition {NUMBER} migrated {NUMBER} entries {NUMBER}")
HEADING = re.compile(rf"; entry {NUMBER} key ([^ ]+) (.+)", re.DOTALL)
END = re.compile(rf"; end {NUMBER} sha256 ([0-9a-f]{{64}})")
OTHER = tuple(b"; " + word for word in (b"lotbook dump ", b"entry ", b"end "))
NOT_A_DUMP = "D1 NotADump"
LONGEST_LABEL, LONGEST_LINE, LONGEST_TEXT = 64, 1_048_576, 16_777_216


class Fault(Exception):
    """What the line of a fault says behind `fault `."""


class Dumped(NamedTuple):
    """A command of a dump, with what its heading says."""

    number: int
    source: str
    name: str
    command: model.Command


class Key(NamedTuple):
    source: str
    name: str


# ---- reading


def numbers(found):
    """The numbers of a line, or none where one of them doesn't fit 32 bits."""
    values = [int(group) for group in found]
    return values if all(value < WORDS_LIMIT for value in values) else None


def decoded(line):
    try:
        return line.decode()
    except UnicodeDecodeError:
        return ""


def is_label(text):
    plain = not any(ord(letter) < 32 or ord(letter) == 127 or letter in '"\\' for letter in text)
    return 1 <= len(text.encode()) <= LONGEST_LABEL and plain


class Reader:
    """The commands of a dump, one after another: `place` is that of its head, and `commands` yields them and ends with the comparison."""

    def __init__(self, data, is_edited):
        self.data, self.at, self.number, self.is_edited = data, 0, 0, is_edited
        found = HEAD.fullmatch(decoded(self.line()))
        said = found and numbers(found.groups())
        if said and (said[0] > FORMAT or said[1] > EDITION):
            raise Fault("D2 NewerFormat")
        if not said or said[:2] != [FORMAT, EDITION]:
            raise Fault(NOT_A_DUMP)
        self.place, self.count = said[2:]

    def line(self):
        """The next line, which has a line end."""
        end = self.data.find(b"\n", self.at)
        if (len(self.data) if end < 0 else end) - self.at > LONGEST_LINE:
            raise Fault("K2 TooLong")
        if end < 0:
            raise Fault(NOT_A_DUMP)
        line, self.at, self.number = self.data[self.at : end], end + 1, self.number + 1
        return line

    def read_below(self):
        """The commands below the line that was read last, and the next line that is no ledger text."""
        number, start = self.number, self.at
        while not (line := self.line()).startswith(OTHER):
            if self.at - start > LONGEST_TEXT:
                raise Fault("K2 TooLong")
        text = self.data[start : self.at - len(line) - 1]
        try:
            return second.read(text), line
        except second.Fault as fault:
            raise Fault(f"line {number + fault.line} {fault.code}") from None

    def commands(self):
        last, count = 0, 0
        said, line = self.read_below()
        if said:
            raise Fault(NOT_A_DUMP)
        while found := HEADING.fullmatch(decoded(line)):
            number, source, name = numbers(found.groups()[:1]), *found.groups()[1:]
            if not number or number[0] < last or not is_label(source) or not is_label(name):
                raise Fault(NOT_A_DUMP)
            said, line = self.read_below()
            if len(said) != 1:
                raise Fault(NOT_A_DUMP)
            last, count = number[0], count + 1
            yield Dumped(last, source, name, said[0])
        found = END.fullmatch(decoded(line))
        said = found and numbers(found.groups()[:1])
        if not said or self.at != len(self.data):
            raise Fault(NOT_A_DUMP)
        digest = hashlib.sha256(self.data[: self.at - len(line) - 1]).hexdigest()
        if self.is_edited:
            return
        if found[2] != digest:
            raise Fault("D3 WrongDigest")
        if (self.count, said[0]) != (count, count):
            raise Fault("D4 WrongCount")


# ---- judging

# How edition 1 decided ties.
OF_EDITION_1 = {
    "STRICT": model.METHOD_ORDER["STRICT"],
    "FIFO": lambda key, _: model.key_order(key),
    "LIFO": lambda key, _: (tuple(-part for part in key.day), *model.key_order(key)[1:]),
    "HIFO": lambda key, _: (-key.number, key.day, key.currency, model.label_order(key.label)),
}
OF_EDITION_2 = model.METHOD_ORDER


@contextlib.contextmanager
def by_edition(number):
    """Within this the plain judge is that of an edition."""
    model.METHOD_ORDER = OF_EDITION_1 if number == 1 else OF_EDITION_2
    try:
        yield
    finally:
        model.METHOD_ORDER = OF_EDITION_2


class Book:
    """A book of entries that were judged by one edition and then by the other: `keys` are those of its entries, in order."""

    def __init__(self):
        self.kept, self.keys, self.place = model.Kept(), [], 0

    def take(self, edition, key, command):
        """Takes a command by an edition. Raises its refusal, which a repeat is here, too."""
        with by_edition(edition):
            if self.kept.take(key, model.Asked(command)) is None:
                raise model.Refused("L1 KeyReused")
        self.keys.append(key)
        self.place += edition == 1

    @property
    def entries(self):
        return self.kept.book


class Without(NamedTuple):
    """An option that leaves out entries, and its value."""

    option: str
    value: str

    def meets(self, dumped):
        if self.option == "without":
            return self.value == f"{dumped.source} {dumped.name}"
        if self.option == "without-batch":
            return self.value == dumped.source
        first, last = map(int, self.value.split("-"))
        return first <= dumped.number <= last


ORDER = ("without", "without-batch", "without-entries")


class Answer(NamedTuple):
    lines: list
    status: int
    book: object  # none: none is made


def restored(data, without=(), is_edited=False, keeps_going=False):
    """What becomes of a text."""
    book, lines = Book(), []
    unmet = sorted(without, key=lambda it: ORDER.index(it.option))
    try:
        reader = Reader(data, is_edited)
        for dumped in reader.commands():
            left_out = any(it.meets(dumped) for it in without)
            unmet = [it for it in unmet if not it.meets(dumped)]
            if left_out:
                continue
            try:
                book.take(1 if dumped.number <= reader.place else 2, Key(dumped.source, dumped.name), dumped.command)
            except model.Refused as refused:
                lines.append(f"entry {dumped.number} key {dumped.source} {dumped.name} {model.refusal(refused)}")
    except Fault as fault:
        return Answer([*lines, f"fault {fault}"], 3, None)
    is_made = not unmet and (keeps_going or not lines)
    status = 1 if lines or unmet else 0
    lines += [f"{it.option} {it.value} met nothing" for it in unmet]
    return Answer([*lines, "book restored"] if is_made else lines, status, book if is_made else None)


# ---- comparing


def gained(entries):
    """What the priced sales gained, by year and currency, at scale 16."""
    sums = {}
    for entry in entries:
        if not isinstance(entry.command, model.Transaction):
            continue
        for posting, booked in zip(entry.command.postings, entry.booked):
            found = booked.reduces and reports.gain_of(posting, booked.legs)
            if found:
                at = "%04d" % entry.command.day[0], posting.amount.price.currency
                sums[at] = sums.get(at, 0) + found[0] - found[1]
    return sums


def held(entries):
    """What is held, plain and in lots, by account and commodity, at scale 8."""
    sums = {}
    for entry in entries:
        for leg in entry.legs():
            at = leg.account, leg.commodity
            sums[at] = sums.get(at, 0) + leg.units
    return sums


def differences(new, old):
    """The lines of what the entries of two books differ in, up to units that are out of their range, which is a fault."""
    lines = []
    for word, of, text in (("gains", gained, lambda it: model.money_text(it, 16)), ("held", held, model.number_text)):
        news, olds = of(new), of(old)
        for at in sorted({*news, *olds}):
            one, other = news.get(at, 0), olds.get(at, 0)
            if one != other:
                if word == "held" and max(abs(one), abs(other)) >= model.UNITS_LIMIT:
                    return [*lines, "fault P1 Range"]
                lines.append(f"{word} {' '.join(at)} {text(one)} was {text(other)}")
    return lines


# ---- writing


def canonical(command):
    return "".join(line + "\n" for line in reports.canonical(command))


def dump_of(parts, place):
    """The dump with these parts, a number, a key and a text each."""
    text = f"; lotbook dump 1 edition 2 migrated {place} entries {len(parts)}\n"
    text += "".join(f"; entry {number} key {key}\n{body}" for number, key, body in parts)
    data = text.encode()
    return data + f"; end {len(parts)} sha256 {hashlib.sha256(data).hexdigest()}\n".encode()


def dump(book):
    """The dump of a plain book."""
    entries = zip(book.keys, book.entries)
    return dump_of([(number, " ".join(key), canonical(it.command)) for number, (key, it) in enumerate(entries, 1)], book.place)


def main():
    """Prints the answer to standard input, as `restore` does: plain.py [--edited] [--keep-going] [OPTION VALUE ..]"""
    words = sys.argv[1:]
    flags = {word for word in words if word in ("--edited", "--keep-going")}
    values = iter(word for word in words if word not in flags)
    without = [Without(option[2:], value) for option, value in zip(values, values)]
    answer = restored(sys.stdin.buffer.read(), without, "--edited" in flags, "--keep-going" in flags)
    print("\n".join(answer.lines))
    sys.exit(answer.status)


if __name__ == "__main__":
    main()
