"""Reads ledger text, written from docs/FORMATS.md, 'Ledger text', alone: the commands of a text, or its first fault.

Called as a program, `text.py FILE ..` prints for each file its commands, or its fault as the program prints it.
"""

import datetime
import sys
from typing import NamedTuple

import model

MOST_CURRENCIES = 64
LONGEST_LINE = 4096
DIRECTIVES = ("open", "close", "commodity", "price", "*", "!", "txn")

DIGITS = b"0123456789"
LETTERS = b"ABCDEFGHIJKLMNOPQRSTUVWXYZabcdefghijklmnopqrstuvwxyz"
CAPITALS = LETTERS[:26]
OF_WORDS = frozenset((*LETTERS, *DIGITS, *b":-._'", *range(128, 256)))


class Fault(Exception):
    """A code with its name, and what it was found in; `line` is set once it is known."""

    def __init__(self, code, place=None):
        super().__init__(code)
        self.code = code
        self.place = place
        self.line = None


class CantBeCut(Exception):
    pass


class NoForm(Exception):
    pass


class Token(NamedTuple):
    kind: str  # DATE, NUMBER, WORD, TEXT, or the mark itself
    text: str  # as it stands; of a TEXT what it stands for


# Lines.


def lines_of(data):
    """The lines of a text, without their ends."""
    if data.startswith(b"\xef\xbb\xbf"):
        data = data[3:]
    lines = data.split(b"\n")
    if lines[-1] == b"":
        lines.pop()
    return [line[:-1] if line.endswith(b"\r") else line for line in lines]


# Tokens.


def run_of(line, at, allowed):
    """The place behind the longest run from `at` of these bytes."""
    while at < len(line) and line[at] in allowed:
        at += 1
    return at


def date_at(line, at):
    """The place behind a DATE that stands here, or none."""
    behind = run_of(line, at, DIGITS)
    if behind - at < 4:
        return None
    at += 4  # the year is four digits: a fifth is no separator
    for _ in range(2):
        if line[at : at + 1] not in (b"-", b"/"):
            return None
        at += 1
        behind = min(run_of(line, at, DIGITS), at + 2)
        if behind == at:
            return None
        at = behind
    return at


def number_behind(line, at):
    """The place behind a NUMBER that begins here."""
    if line[at] in b"+-":
        at += 1
    while True:
        at = run_of(line, at, DIGITS)
        if line[at : at + 1] == b"," and line[at + 1 : at + 2].isdigit():
            at += 1
        else:
            break
    if line[at : at + 1] == b".":
        at = run_of(line, at + 1, DIGITS)
    return at


def text_at(line, at):
    """What the TEXT that begins here stands for, and the place behind it."""
    content = bytearray()
    at += 1
    while at < len(line):
        byte = line[at]
        if byte == ord('"'):
            return bytes(content), at + 1
        if byte == ord("\\"):
            at += 1
            if line[at : at + 1] not in (b'"', b"\\"):
                raise CantBeCut
            byte = line[at]
        elif (byte < 32 and byte != 9) or byte == 127:
            raise CantBeCut
        content.append(byte)
        at += 1
    raise CantBeCut


def tokens_of(line):
    tokens = []
    at = 0
    while at < len(line):
        byte = line[at]
        two = line[at : at + 2]
        if byte in b" \t":
            at += 1
            continue
        if byte == ord(";"):
            break
        if byte == ord('"'):
            content, behind = text_at(line, at)
            tokens.append(Token("TEXT", content.decode()))
            at = behind
            continue
        if two in (b"{{", b"}}", b"@@"):
            kind, behind = two.decode(), at + 2
        elif byte in b"{}@,*!":
            kind, behind = chr(byte), at + 1
        elif byte in DIGITS and date_at(line, at):
            kind, behind = "DATE", date_at(line, at)
        elif byte in DIGITS or (byte in b"+-" and two[1:].isdigit()):
            kind, behind = "NUMBER", number_behind(line, at)
        elif byte in LETTERS or byte >= 128:
            kind, behind = "WORD", run_of(line, at, OF_WORDS)
        else:
            raise CantBeCut
        tokens.append(Token(kind, line[at:behind].decode()))
        at = behind
    return tokens


# Values: each raises its fault.


def read_number(token, limit, signed):
    sign = -1 if token.text[0] == "-" else 1
    whole, _, decimals = token.text.lstrip("+-").replace(",", "").partition(".")
    if decimals[8:].strip("0"):
        raise Fault("X4 BadNumber")
    mantissa = int(whole + decimals[:8].ljust(8, "0"))
    if mantissa >= limit or (sign < 0 and mantissa != 0 and not signed):
        raise Fault("X4 BadNumber")
    return sign * mantissa


def read_units(token):
    return read_number(token, model.UNITS_LIMIT, True)


def read_total(token):
    return read_number(token, model.UNITS_LIMIT, False)


def read_rate(token):
    return read_number(token, model.RATE_LIMIT, False)


def read_day(token):
    year, month, day = (int(part) for part in token.text.replace("/", "-").split("-"))
    try:
        datetime.date(year, month, day)
    except ValueError:
        raise Fault("X6 BadDay") from None
    return year, month, day


def require(good):
    if not good:
        raise Fault("X5 BadName")


def all_of(text, allowed):
    return all(byte in allowed for byte in text)


def read_account(token):
    text = token.text.encode()
    first, *others = text.split(b":")
    require(len(text) <= 128 and others)
    require(first in (b"Assets", b"Liabilities", b"Equity", b"Income", b"Expenses"))
    require(all(other and other[0] in CAPITALS + DIGITS and all_of(other, LETTERS + DIGITS + b"-") for other in others))
    return token.text


def read_commodity(token):
    text = token.text.encode()
    require(1 <= len(text) <= 24 and all_of(text, CAPITALS + DIGITS + b"'._-"))
    require(text[0] in CAPITALS and text[-1] in CAPITALS + DIGITS)
    return token.text


def read_method(token):
    require(token.text in model.METHODS)
    return token.text


def read_label(token):
    text = token.text.encode()
    require(1 <= len(text) <= 64 and all(byte >= 32 and byte not in b'\x7f"\\' for byte in text))
    return token.text


def read_note(token):
    text = token.text.encode()
    require(len(text) <= 1000 and all((byte >= 32 and byte != 127) or byte == 9 for byte in text))
    return token.text


# Forms. A form is found first, from the kinds of the tokens alone; only then the tokens are read, from left to right.


class Cursor:
    """Takes tokens from left to right, and notes how each is to be read."""

    def __init__(self, tokens):
        self.tokens = tokens
        self.at = 0
        self.readers = []

    def sees(self, *kinds):
        return tuple(token.kind for token in self.tokens[self.at : self.at + len(kinds)]) == kinds

    def take(self, kind, reader=None):
        """Takes a token of this kind. Returns its place among the values."""
        if not self.sees(kind):
            raise NoForm
        self.readers.append((self.tokens[self.at], reader))
        self.at += 1
        return len(self.readers) - 1

    def end(self):
        if self.at != len(self.tokens):
            raise NoForm

    def values(self):
        return [self.value(token, reader) if reader else None for token, reader in self.readers]

    def value(self, token, reader):
        try:
            return reader(token)
        except Fault as fault:
            fault.place = reader.__name__[len("read_") :]
            raise


def value(values, place):
    return None if place is None else values[place]


def directive(tokens):
    """The command of a line that isn't indented."""
    cursor = Cursor(tokens)
    day = cursor.take("DATE", read_day)
    if cursor.at == len(tokens):
        raise NoForm
    word = tokens[1].text
    cursor.take(tokens[1].kind)
    if word in ("*", "!", "txn"):
        notes = []
        while cursor.sees("TEXT") and len(notes) < 2:
            notes.append(cursor.take("TEXT", read_note))
        cursor.end()
        values = cursor.values()
        texts = [None, None] + [values[note] for note in notes]
        return model.Transaction(values[day], "!" if word == "!" else "*", *texts[-2:], ())
    if word == "open":
        account = cursor.take("WORD", read_account)
        currencies = []
        if cursor.sees("WORD"):
            currencies.append(cursor.take("WORD", read_commodity))
            while cursor.sees(","):
                cursor.take(",")
                currencies.append(cursor.take("WORD", read_commodity))
        method = cursor.take("TEXT", read_method) if cursor.sees("TEXT") else None
        cursor.end()
        if len(currencies) > MOST_CURRENCIES:
            raise NoForm
        values = cursor.values()
        allowed = tuple(values[place] for place in currencies)
        return model.Opening(values[day], values[account], allowed, value(values, method) or "STRICT")
    if word == "close":
        account = cursor.take("WORD", read_account)
        cursor.end()
        values = cursor.values()
        return model.Closing(values[day], values[account])
    if word == "commodity":
        commodity = cursor.take("WORD", read_commodity)
        cursor.end()
        values = cursor.values()
        return model.Declaring(values[day], values[commodity])
    base = cursor.take("WORD", read_commodity)
    rate = cursor.take("NUMBER", read_rate)
    quote = cursor.take("WORD", read_commodity)
    cursor.end()
    values = cursor.values()
    return model.Quoting(values[day], values[base], values[rate], values[quote])


def cost_places(cursor):
    """The places of the parts of a cost, by name, and whether it is a whole one."""
    whole = cursor.sees("{{")
    cursor.take("{{" if whole else "{")
    close = "}}" if whole else "}"
    places = {}

    def note(name, place):
        if name in places:
            raise NoForm
        places[name] = place

    while not cursor.sees(close):
        if places:
            cursor.take(",")
        if cursor.sees("NUMBER") or cursor.sees("WORD"):
            if "number" in places or "currency" in places:
                raise NoForm
            if cursor.sees("NUMBER"):
                note("number", cursor.take("NUMBER", read_total if whole else read_rate))
            if cursor.sees("WORD"):
                note("currency", cursor.take("WORD", read_commodity))
        elif cursor.sees("DATE"):
            note("day", cursor.take("DATE", read_day))
        else:
            note("label", cursor.take("TEXT", read_label))
    cursor.take(close)
    if whole and "number" not in places:
        raise NoForm
    return whole, places


def posting(tokens):
    cursor = Cursor(tokens)
    account = cursor.take("WORD", read_account)
    if cursor.at == len(tokens):
        return model.Posting(cursor.values()[account], None)
    units = cursor.take("NUMBER", read_units)
    commodity = cursor.take("WORD", read_commodity)
    cost = price = None
    if cursor.sees("{") or cursor.sees("{{"):
        cost = cost_places(cursor)
    if cursor.sees("@") or cursor.sees("@@"):
        each = cursor.sees("@")
        cursor.take("@" if each else "@@")
        price = not each, cursor.take("NUMBER", read_rate if each else read_total), cursor.take("WORD", read_commodity)
    cursor.end()
    values = cursor.values()
    if cost is not None:
        whole, places = cost
        cost = model.Cost(whole, *(value(values, places.get(part)) for part in ("number", "currency", "day", "label")))
    if price is not None:
        price = model.Price(price[0], values[price[1]], values[price[2]])
    return model.Posting(values[account], model.Amount(values[units], values[commodity], cost, price))


# The whole text.


def read_line(line, commands):
    """Adds what a line says to the commands. Raises its fault."""
    try:
        line.decode()
    except UnicodeDecodeError:
        raise Fault("X1 NotUtf8") from None
    if len(line) > LONGEST_LINE:
        raise Fault("X7 LineTooLong")
    if line[:1] == b"*":
        return
    try:
        tokens = tokens_of(line)
    except CantBeCut:
        raise Fault("X2 Syntax", "tokens") from None
    if not tokens:
        return
    indented = line[:1] in (b" ", b"\t")
    if not indented:
        second = tokens[1] if len(tokens) > 1 else None
        if tokens[0].kind != "DATE" or (second and (second.kind == "TEXT" or second.text not in DIRECTIVES)):
            raise Fault("X3 UnknownDirective")
    try:
        if not indented:
            commands.append(directive(tokens))
        else:
            # The last line that wasn't indented and had tokens is the last command: else it was a fault.
            if not commands or not isinstance(commands[-1], model.Transaction):
                raise Fault("X2 Syntax", "transaction")
            postings = (*commands[-1].postings, posting(tokens))
            commands[-1] = commands[-1]._replace(postings=postings)
    except NoForm:
        raise Fault("X2 Syntax", "form") from None


def read(data):
    """The commands of a text. Raises its first fault."""
    commands = []
    for number, line in enumerate(lines_of(data), 1):
        try:
            read_line(line, commands)
        except Fault as fault:
            fault.line = number
            raise
    return commands


def main():
    for path in sys.argv[1:]:
        with open(path, "rb") as file:
            data = file.read()
        try:
            for command in read(data):
                print(command)
        except Fault as fault:
            print(f"fault line {fault.line} {fault.code}")


if __name__ == "__main__":
    main()
