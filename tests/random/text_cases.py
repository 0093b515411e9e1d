"""Tries the second reader on what docs/FORMATS.md and docs/RULES.md say, on drawn ledgers, and with the plain judge on the texts
of tests/cases/ and examples/, whose stored answers it has to give.
"""

import pathlib

import compare
import draw
import spell
import tally
import text

ROOT = pathlib.Path(__file__).resolve().parents[2]

OPEN = b"2020-01-01 open Assets:A\n"
DEAL = b"2020-01-01 *\n  Assets:A "

# What a text reads as: the number of its commands, or its fault.
CASES = {
    "the empty text": (b"", 0),
    "a byte order mark alone": (b"\xef\xbb\xbf", 0),
    "a byte order mark twice": (b"\xef\xbb\xbf\xef\xbb\xbf" + OPEN, "line 1 X3 UnknownDirective"),
    "a byte order mark and a heading": (b"\xef\xbb\xbf* {\n" + OPEN, 1),
    "line ends of two bytes": (OPEN.replace(b"\n", b"\r\n") + b"\r\n; c\r\n* h\r\n", 1),
    "a carriage return at the end": (OPEN[:-1] + b"\r", 1),
    "two carriage returns at the end": (OPEN[:-1] + b"\r\r\n", "line 1 X2 Syntax"),
    "a carriage return in a comment": (OPEN[:-1] + b" ; \r x\n", 1),
    "a form feed": (OPEN + b"\x0c\n", "line 2 X2 Syntax"),
    "a date that takes two digits": (b"2020-01-011 open Assets:A\n", "line 1 X3 UnknownDirective"),
    "a month of three digits": (b"2020-012-01 open Assets:A\n", "line 1 X3 UnknownDirective"),
    "a date with a sign": (b"+2020-01-01 open Assets:A\n", "line 1 X3 UnknownDirective"),
    "a date of single digits and two separators": (b"2020/1-1 open Assets:A\n", 1),
    "a date alone": (b"2020-01-01\n", "line 1 X2 Syntax"),
    "a date and a comment": (b"2020-01-01 ; open\n", "line 1 X2 Syntax"),
    "a directive in quotes": (b'2020-01-01 "open" Assets:A\n', "line 1 X3 UnknownDirective"),
    "a day that isn't in the calendar": (b"2020-13-01 open Assets:A\n", "line 1 X6 BadDay"),
    "an unknown directive": (b"2020-01-01 balance Assets:A 0 USD\n", "line 1 X3 UnknownDirective"),
    "an option": (b'option "title" "x"\n', "line 1 X3 UnknownDirective"),
    "an account of one part": (b"2020-01-01 open Assets\n", "line 1 X5 BadName"),
    "an account and then a day, both bad": (b"2020-13-01 open Assets\n", "line 1 X6 BadDay"),
    "a rate below zero": (b"2020-01-01 price HOOL -1 USD\n", "line 1 X4 BadNumber"),
    "a posting first": (b"  Assets:A 1 USD\n", "line 1 X2 Syntax"),
    "a posting first with a bad number": (b"  Assets:A 1.000000001 USD\n", "line 1 X2 Syntax"),
    "a posting after an opening": (OPEN + b"  Assets:A 1 USD\n", "line 2 X2 Syntax"),
    "a posting after a heading, a comment and a blank line": (b"2020-01-01 *\n* h\n; c\n\n  Assets:A 1 USD\n", 1),
    "a posting that isn't indented": (b"2020-01-01 *\nAssets:A 1 USD\n", "line 2 X3 UnknownDirective"),
    "an indented heading": (b"2020-01-01 *\n * h\n", "line 2 X2 Syntax"),
    "an indented comment": (OPEN + b"  ; c\n", 1),
    "a note that isn't closed": (b'2020-01-01 * "a\n', "line 1 X2 Syntax"),
    "a note with quotes": (rb'2020-01-01 * "a\"b\\c"' + b"\n", 1),
    "a lone backslash": (rb'2020-01-01 * "a\b"' + b"\n", "line 1 X2 Syntax"),
    "a tab in a note": (b'2020-01-01 * "a\tb"\n', 1),
    "a control byte in a note": (b'2020-01-01 * "a\x01b"\n', "line 1 X2 Syntax"),
    "three notes": (b'2020-01-01 * "a""b""c"\n', "line 1 X2 Syntax"),
    "a note of 1,001 bytes": (b'2020-01-01 * "' + b"n" * 1001 + b'"\n', "line 1 X5 BadName"),
    "a byte that isn't UTF-8": (OPEN + b"\xff\n", "line 2 X1 NotUtf8"),
    "a comment that isn't UTF-8": (OPEN + b"; \xc3\n", "line 2 X1 NotUtf8"),
    "a heading that isn't UTF-8": (b"* \xc3\n", "line 1 X1 NotUtf8"),
    "a long line": (b";" * 4097 + b"\n", "line 1 X7 LineTooLong"),
    "a long heading": (b"*" * 4097, "line 1 X7 LineTooLong"),
    "a line of the greatest length": (b"\xef\xbb\xbf" + b";" * 4096 + b"\r\n", 0),
    "a long line that isn't UTF-8": (b";" * 4097 + b"\xff\n", "line 1 X1 NotUtf8"),
    "a line that can't be cut, of no directive": (b"x #\n", "line 1 X2 Syntax"),
    "64 currencies": (OPEN[:-1] + b" A" + b",A" * 63 + b"\n", 1),
    "65 currencies, one of them bad": (OPEN[:-1] + b" a" + b",A" * 64 + b"\n", "line 1 X2 Syntax"),
    "a method in small letters": (OPEN[:-1] + b' "fifo"\n', "line 1 X5 BadName"),
    "no blanks": (b'2020-01-01open Assets:A USD,EUR"FIFO";c\n', 1),
    "a comma in a number of a cost": (DEAL + b"1 HOOL {100,2020-01-01}\n", "line 2 X2 Syntax"),
    "a blank before the comma": (DEAL + b"1 HOOL {100 ,2020-01-01}\n", 1),
    "a point before the comma": (DEAL + b"1 HOOL {1.5,2020-01-01}\n", 1),
    "the parts in another order": (DEAL + b'1 HOOL {"x", 2020-01-01 ,5 USD}\n', 1),
    "a number and a currency as two parts": (DEAL + b"1 HOOL {5 , USD}\n", "line 2 X2 Syntax"),
    "two labels": (DEAL + b'1 HOOL {"x", "y"}\n', "line 2 X2 Syntax"),
    "a comma at the end of a cost": (DEAL + b"1 HOOL {5 USD,}\n", "line 2 X2 Syntax"),
    "an empty whole cost": (DEAL + b"1 HOOL {{}}\n", "line 2 X2 Syntax"),
    "a whole cost of a number": (DEAL + b"1 HOOL {{5}}\n", 1),
    "braces of two kinds": (DEAL + b"1 HOOL {{5 USD}\n", "line 2 X2 Syntax"),
    "three braces": (DEAL + b"1 HOOL {{{5 USD}}}\n", "line 2 X2 Syntax"),
    "a total below zero": (DEAL + b"1 HOOL @@ -1 USD\n", "line 2 X4 BadNumber"),
    "three signs of a price": (DEAL + b"1 HOOL @@@ 1 USD\n", "line 2 X2 Syntax"),
    "a cost after the price": (DEAL + b"1 HOOL @ 1 USD {}\n", "line 2 X2 Syntax"),
    "a label with a quote": (DEAL + rb'1 HOOL {"\""}' + b"\n", "line 2 X5 BadName"),
    "a bad number before a bad name": (DEAL + b"1.000000001 hool\n", "line 2 X4 BadNumber"),
    "a bad name before a bad number": (DEAL[:-2] + b" 1.000000001 hool\n", "line 2 X5 BadName"),
    "units at their limit": (DEAL + b"10000000000 USD\n", "line 2 X4 BadNumber"),
    "two faulty lines": (b"x\n2020-01-01 open Assets\n", "line 1 X3 UnknownDirective"),
    "a fault in a last line without an end": (OPEN + b"x", "line 2 X3 UnknownDirective"),
}
NUMBERS = {  # what a number text of units comes to, at scale 8, or none
    b"1,000.5": 100050000000, b"+1000.50": 100050000000, b"01000.500000000": 100050000000, b"5.": 500000000,
    b"-0": 0, b"0.123456780000": 12345678, b"0.123456789": None, b"10000000000": None, b"1,,0": None, b".5": None,
    b",1": None, b"1,": None, b"1.0,0": None, b"1,0": 1000000000,
}  # fmt: skip


def outcome(data):
    try:
        return len(text.read(data))
    except text.Fault as fault:
        return f"line {fault.line} {fault.code}"


def units_of(number):
    try:
        return text.read(DEAL + number + b" USD\n")[0].postings[0].amount.units
    except text.Fault:
        return None


def folders():
    """The folders with stored answers. A text of the guide or beside a profile has none: it goes on with a book that is there."""
    found = {path.parent for top in ("tests/cases", "examples") for path in (ROOT / top).rglob("*.ledger")}
    return sorted(found - {ROOT / "examples" / "guide", ROOT / "examples" / "profile"})


def other_answers(folder):
    """The names of the texts in a folder whose stored answer, or status, is another one than that of reader and judge."""
    statuses = folder / "status"  # of tests/cases/ alone: the examples have no such files
    wanted = int(statuses.read_text()) if statuses.exists() else 0
    is_example = ROOT / "examples" in (folder, *folder.parents)
    for path in sorted(folder.glob("*.ledger")):
        (answer, status), _ = compare.answer_to(path.read_bytes())
        if answer != path.with_suffix(".expected").read_bytes() or (status != wanted and not is_example):
            yield path.stem


def main():
    for name, (data, wanted) in CASES.items():
        got = outcome(data)
        tally.check("reader: " + name, "" if got == wanted else f"{got} instead of {wanted}")
    for number, wanted in NUMBERS.items():
        got = units_of(number)
        tally.check(f"reader: the number '{number.decode()}'", "" if got == wanted else f"{got} instead of {wanted}")
    wrong = []
    for seed in range(1, 201):
        drawing = draw.small(seed)
        commands = [it.command for it in drawing.judged]
        if text.read(spell.Speller(drawing.rng).ledger(commands)) != commands:
            wrong.append(seed)
    tally.check("reader: drawn ledgers read back", f"seeds {wrong[:10]}" if wrong else "")
    for folder in folders():
        wrong = list(other_answers(folder))
        tally.check(f"reader and judge: the answers of {folder.relative_to(ROOT)}", " ".join(wrong[:10]))


if __name__ == "__main__":
    main()
    tally.end()
