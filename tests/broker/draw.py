"""Draws broker files from seeds: a book to begin with, files whose rows partly come again, and files that are changed at random. Those of
`with_crumbs` are for calls with a rounding account."""

import random
from typing import NamedTuple

import model
import reader

ACCOUNTS = reader.Accounts("Assets:Broker", "Assets:Cash", "Expenses:Fees", "Income:Gains")
SYMBOLS = ("HOOL", "ABC")
CURRENCIES = ("USD", "USD", "EUR")
HEADERS = tuple(",".join(version).encode() for version in reader.VERSIONS)

# Fields that are within no rule, or at its edge, for each column.
ODD = {
    "ref": (b"", b"A\"1", b"A\\1", b"a b", b"A\x001", b"A\xff", b"\xc3\xa9", b"R" * 64, b"R" * 65, b"\xc3\xa9" * 32, b"A\n1", b"A,1"),
    "date": (b"", b"2020-02-30", b"2020-2-9", b"2020/02/09", b"20-02-09", b"2020-02-09 ", b"2020-2-009", b"0000-01-01", b"9999-12-31"),
    "action": (b"", b"buy", b"Sell", b"BUY ", b" SELL", b"HOLD"),
    "symbol": (b"", b"hool", b"HOOL-", b"V", b"H" * 24, b"H" * 25, b"HO\xd6L", b"HOOL "),
    "units": (b"", b"0", b"0", b"0", b"-0", b"-1", b"+2", b"1,000", b"1,,0", b"5.", b".5", b"0.123456789", b"0.00000001", b"9999999999.99999999", b"10000000000", b"1e3", b"1 ", b"0.100000000"),
    "price": (b"", b"0", b"-0", b"-1", b"0.1", b"1,250.50", b"99999999.99999999", b"100000000", b"x", b"0.00000001"),
    "currency": (b"", b"usd", b"USD ", b"US$", b"U.S"),
    "fee": (b"", b"0", b"-0", b"0.00", b"-1", b"0.00000001", b"1.5", b" ", b"99999999", b"x"),
    "lot": (b"", b"ZZ", b"A\"1", b"R" * 64, b"R" * 65, b" ", b"\xff"),
}


ROUNDING = "Equity:Rounding"
WITHIN = tuple(int(within * model.ONE) for within in (0.005, 0.005, 0.005, 0.005, 0.01, 0.002, 0.00000001, 0.05, 1))
DECIMALS = (2, 2, 2, 2, 2, 8, 8, 0, 1, 3, 4, 5, 6, 7)


class Drawing(NamedTuple):
    rng: random.Random
    openings: list
    files: list  # bytes
    roundings: list  # of each file, the rounding of its call, or none


def openings(rng):
    """The commands that open the accounts."""
    method = rng.choice(model.METHODS)
    allowed = () if rng.random() < 0.9 else ("USD",)
    return [
        model.Opening((2019, 1, 1), ACCOUNTS.invest, (), method),
        model.Opening((2019, 1, 1), ACCOUNTS.cash, allowed, "STRICT"),
        model.Opening((2019, 1, 1), ACCOUNTS.fees, (), "STRICT"),
        model.Opening((2020, 1, 15) if rng.random() < 0.1 else (2019, 1, 1), ACCOUNTS.gains, (), "STRICT"),
    ]


def drawn_row(rng, place, day):
    """The fields of a row that is within all rules."""
    ref = f"R{place}"
    action = rng.choice(("BUY", "BUY", "SELL"))
    label = rng.choice(("", "", ref if action == "BUY" else f"R{rng.randint(1, place)}"))
    return [
        ref,
        model.day_text((2020, 1 + day // 28, 1 + day % 28)),
        action,
        rng.choice(SYMBOLS),
        rng.choice(("1", "2", "10", "2.5", "0.25")),
        rng.choice(("100", "101.5", "0.04", "7")),
        rng.choice(CURRENCIES),
        rng.choice(("", "", "0", "-0", "0.00", "1.5", "0.99")),
        label,
    ]


def drawn_rows(rng, count):
    """Rows, mostly in the order of their days."""
    span = rng.choice((60, 60, 2))  # of a day or two, so that lots tie
    days = sorted(rng.randrange(span) for _ in range(count))
    if rng.random() < 0.2:
        rng.shuffle(days)
    return [[field.encode() for field in drawn_row(rng, place, day)] for place, day in enumerate(days, 1)]


def quoted(rng, field):
    """A field as it may stand in a file."""
    if rng.random() < 0.1 or any(byte in b'",\r\n' for byte in field):
        return b'"' + field.replace(b'"', b'""') + b'"'
    return field


def file_of(rng, version, rows):
    """A file of these rows, in one of its spellings."""
    end = rng.choice((b"\n", b"\n", b"\r\n", b"\r"))
    lines = [HEADERS[version]]
    lines += [b",".join(quoted(rng, field) for field in fields[: len(reader.VERSIONS[version])]) for fields in rows]
    spelled = reader.BYTE_ORDER_MARK if rng.random() < 0.1 else b""
    for line in lines:
        spelled += (end if rng.random() < 0.1 else b"") + line + end
    return spelled if rng.random() < 0.8 else spelled[: -len(end)]


def renamed(prefix, fields):
    """A row with another reference, which its lot bears, too, if it bore the old one."""
    ref, *others, lot = fields
    return [prefix + ref, *others, prefix + lot if lot == ref else lot]


def with_odd_field(rng, rows):
    """The rows with a field or two from the edges of the rules, some of them under new references."""
    prefix = rng.choice((b"", b"O", b"P"))
    rows = [renamed(prefix, fields) for fields in rows]
    for _ in range(rng.choice((1, 1, 2))):
        column = rng.randrange(len(reader.COLUMNS))
        if rows:
            rng.choice(rows)[column] = rng.choice(ODD[reader.COLUMNS[column]])
    return rows


def changed(rng, file):
    """A file that differs from this one by a few bytes, or ends early."""
    if rng.random() < 0.3:
        return file[: rng.randrange(len(file) + 1)]
    for _ in range(rng.randint(1, 3)):
        at = rng.randrange(len(file) + 1)
        byte = rng.choice((b'"', b",", b"\n", b"\r", b" ", b"\0", b"\xff", b"0", b"-"))
        file = file[:at] + byte + file[at + rng.randint(0, 1) :]
    return file


def again(rng, rows):
    """Some of the rows, of which one may be changed within its rules, and others behind them."""
    kept = [list(fields) for fields in rows if rng.random() < 0.7]
    if kept and rng.random() < 0.4:
        rng.choice(kept)[5] = b"99"
    return kept + [renamed(b"N", fields) for fields in drawn_rows(rng, rng.randint(0, 4))]


def small(seed):
    rng = random.Random(seed)
    rows = drawn_rows(rng, rng.randint(0, 8))
    first = file_of(rng, rng.randrange(2), rows)
    files = [first, file_of(rng, rng.randrange(2), again(rng, rows))]
    files += [file_of(rng, rng.randrange(2), with_odd_field(rng, rows)) for _ in range(3)]
    files += [changed(rng, first) for _ in range(3)]
    return Drawing(rng, openings(rng), files, [None] * len(files))


def decimal(rng, most, *decimals):
    """The text of a number above zero and up to this whole one, with some of these numbers of decimals."""
    count = rng.choice(decimals)
    return model.number_text(rng.randint(1, most * 10**count), count)


def crumbled(rng, fields):
    """The row with units of some decimals and a price of few, as brokers have them, or with cash that ends in half a cent."""
    ref, date, action, symbol, _, _, currency, fee, lot = fields
    units, price = decimal(rng, 20, 4, 6, 8, 8), decimal(rng, 200, 2, 2, 2, 4, 5, 8)
    if rng.random() < 0.1:
        units, price = rng.choice(("0.5", "1.5", "2.5")), rng.choice(("0.01", "0.03", "10.25"))
    if action == b"SELL" and rng.random() < 0.5:
        units = decimal(rng, 1, 2, 4, 8)
    if rng.random() < 0.03:
        units, price = "9999999999.99999999", rng.choice(("1", "0.1", "0.99999999"))
    return [ref, date, action, symbol, units.encode(), price.encode(), currency, rng.choice((b"", b"0.99", b"4.95", b"0.125", fee)), lot]


def with_crumbs(seed):
    rng = random.Random(seed)
    rows = [crumbled(rng, fields) for fields in drawn_rows(rng, rng.randint(2, 10))]
    more = [crumbled(rng, fields) if fields[0].startswith(b"N") else fields for fields in again(rng, rows)]
    files = [file_of(rng, rng.randrange(2), them) for them in (rows, more, rows, with_odd_field(rng, rows), rows)]
    account = ROUNDING if rng.random() < 0.9 else rng.choice(ACCOUNTS)
    first = model.Rounding(account, rng.choice(WITHIN), rng.choice(DECIMALS))
    other = model.Rounding(rng.choice((account, account, *ACCOUNTS)), rng.choice(WITHIN), rng.choice(DECIMALS))
    opened = openings(rng)
    if rng.random() < 0.95:
        opened.append(model.Opening((2019, 1, 1), ROUNDING, rng.choice(((), (), ("USD", "EUR"), ("EUR",))), "STRICT"))
    return Drawing(rng, opened, files, [first, rng.choice((first, first, other)), other, first, None])
