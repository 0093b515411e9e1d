"""Reads broker files, written from docs/FORMATS.md, 'Broker files', alone: the commands of their rows, or the first fault.

Records are cut by Python's own `csv`. With a rounding account the cash of a row has so many decimals as its call says.
"""

import csv
import datetime
import io
import re
from typing import NamedTuple, Optional

import model
import text

COLUMNS = "ref date action symbol units price currency fee lot".split()
VERSIONS = (COLUMNS[:8], COLUMNS)
MOST_ROWS = 100_000
NUL = "\u0100"
BYTE_ORDER_MARK = b"\xef\xbb\xbf"
NUMBER = re.compile(r"[+-]?[0-9](,?[0-9])*(\.[0-9]*)?")
DAY = re.compile(r"([0-9]{4})[-/]([0-9]{1,2})[-/]([0-9]{1,2})")

csv.field_size_limit(1 << 30)


class Fault(Exception):
    """The line that the program prints."""


class Bad(Exception):
    """A field is outside its rule."""


class Row(NamedTuple):
    ref: str
    date: model.Day
    action: str
    symbol: str
    units: int
    price: int
    currency: str
    fee: int
    lot: Optional[str]


class Accounts(NamedTuple):
    invest: str
    cash: str
    fees: str
    gains: str


# Records.


def records(data):
    """The records of a file: lists of fields, which are bytes."""
    if data.startswith(BYTE_ORDER_MARK):
        data = data[len(BYTE_ORDER_MARK) :]
    # Each byte is one letter of Latin-1, and lines end at CR, LF or both. An older `csv` refuses NUL, so another letter stands for it.
    lines = io.StringIO(data.decode("latin-1").replace("\0", NUL), newline="")
    return [[field.replace(NUL, "\0").encode("latin-1") for field in record] for record in csv.reader(lines) if record]


# Fields.


def named(reader, field):
    """A field as a reader of names or numbers of ledger text takes it."""
    try:
        return reader(text.Token("WORD", field.decode()))
    except (UnicodeDecodeError, text.Fault):
        raise Bad from None


def number(reader, field):
    if not NUMBER.fullmatch(field.decode("latin-1")):
        raise Bad
    return named(reader, field)


def day(field):
    parts = DAY.fullmatch(field.decode("latin-1"))
    if not parts:
        raise Bad
    year, month, of_month = map(int, parts.groups())
    try:
        datetime.date(year, month, of_month)
    except ValueError:
        raise Bad from None
    return year, month, of_month


def action(field):
    if field not in (b"BUY", b"SELL"):
        raise Bad
    return field.decode()


def fee(field):
    return number(text.read_rate, field) if field else 0


def lot(fields):
    """The label of the lot, or none."""
    field = fields[8]
    if not field:
        return None
    if fields[2] == b"BUY" and field != fields[0]:
        raise Bad
    return named(text.read_label, field)


READERS = {
    "Ref": lambda fields: named(text.read_label, fields[0]),
    "Date": lambda fields: day(fields[1]),
    "Action": lambda fields: action(fields[2]),
    "Symbol": lambda fields: named(text.read_commodity, fields[3]),
    "Units": lambda fields: number(text.read_total, fields[4]),
    "Price": lambda fields: number(text.read_rate, fields[5]),
    "Currency": lambda fields: named(text.read_commodity, fields[6]),
    "Fee": lambda fields: fee(fields[7]),
    "Lot": lambda fields: lot(fields) if len(fields) == 9 else None,
}


def row_of(place, fields, columns):
    """The row that a record says, which is the one of that place."""
    if len(fields) != columns:
        raise Fault(f"fault row {place} C2 BadRow Length")
    values = []
    for cause, reader in READERS.items():
        try:
            values.append(reader(fields))
        except Bad:
            raise Fault(f"fault row {place} C2 BadRow {cause}") from None
    return Row(*values)


def rows(data):
    """The rows of a file."""
    header, *others = records(data) or [None]
    if header is None or header not in [[column.encode() for column in version] for version in VERSIONS]:
        raise Fault("fault header C1 BadHeader")
    found = []
    for place, fields in enumerate(others, 1):
        if place > MOST_ROWS:
            raise Fault("fault C3 TooManyRows")
        found.append(row_of(place, fields, len(header)))
    return found


# Commands.


def exact_cash(row):
    """The cash that a row moves, at scale 16."""
    worth, paid = row.units * row.price, row.fee * model.ONE
    return -(worth + paid) if row.action == "BUY" else worth - paid


def cash_of(place, row, decimals):
    """The cash that a row moves, with so many decimals where a number is given."""
    moved = exact_cash(row)
    if decimals is not None:
        moved = model.rounded(moved, decimals)
    if moved % model.ONE or abs(moved) // model.ONE >= model.UNITS_LIMIT:
        raise Fault(f"fault row {place} C4 InexactAmount")
    return moved // model.ONE


def plain(account, units, commodity):
    return model.Posting(account, model.Amount(units, commodity, None, None))


def asked(place, row, accounts, decimals):
    """The transaction that a row stands for, with its cash."""
    if row.action == "BUY":
        cost = model.Cost(False, row.price, row.currency, None, row.lot)
        deal = model.Amount(row.units, row.symbol, cost, None)
    else:
        cost = model.Cost(False, None, None, None, row.lot)
        deal = model.Amount(-row.units, row.symbol, cost, model.Price(False, row.price, row.currency))
    postings = [model.Posting(accounts.invest, deal)]
    if row.fee:
        postings.append(plain(accounts.fees, row.fee, row.currency))
    postings.append(plain(accounts.cash, cash_of(place, row, decimals), row.currency))
    cash = model.Cash(len(postings), exact_cash(row))
    if row.action == "SELL":
        postings.append(model.Posting(accounts.gains, None))
    return model.Asked(model.Transaction(row.date, "*", None, row.ref, tuple(postings)), cash)


def commands(data, accounts, decimals=None):
    """The commands of the rows of a file, each with the row's reference. Raises the file's fault. Decimals are given with a rounding
    account alone."""
    return [(row.ref, asked(place, row, accounts, decimals)) for place, row in enumerate(rows(data), 1)]
