"""Reads a profile and the export of a broker, written from docs/FORMATS.md, 'Profiles', alone: what each row comes to, or the fault.

    reader.py PROFILE EXPORT

prints for each row, the oldest first, its number, its kind and its key, and the ledger text that it comes to; or `fault row N WHAT`,
or `fault profile KEY WHAT`. A split is a comment, since it is worked out on what is held. Numbers are fractions, never floats.
"""

import csv
import datetime
import hashlib
import io
import re
import sys
from fractions import Fraction
from typing import NamedTuple, Optional

try:
    import tomllib
except ImportError:  # below Python 3.11
    tomllib = None

WITHOUT_TOMLLIB = "profiles are read by Python's tomllib, which comes with Python 3.11: this Python is older"

csv.field_size_limit(1 << 30)

BLANKS = " \t"
MOST_ROWS = 100_000
ONE = 10**8
UNITS_LIMIT = 10**18
RATE_LIMIT = 10**16
CENT = Fraction(1, 100)
MONTHS = "jan feb mar apr may jun jul aug sep oct nov dec".split()

TEXT_ROLES = "account booked-currency currency fee-currency other-currency price-currency symbol tax-currency note ref".split()
NUMBER_ROLES = "amount booked cost fee other price rate tax units".split()
ROLES = set(TEXT_ROLES + NUMBER_ROLES + ["day", "time", "cost-day", "ratio"])
JOINED = {"note", "ref"}
TURNED = {"amount", "booked", "cost", "fee", "other", "price", "tax", "units"}
ROUNDED = {"amount", "fee", "price", "rate", "units"}
ACCOUNTS = "invest cash fees gains dividends interest rewards tax transfers rounding".split()
KINDS = (
    "buy sell cancel-buy cancel-sell dividend interest tax fee deposit withdrawal exchange reward transfer-in split price by-hand skip"
).split()
DEALS = ("buy", "sell", "cancel-buy", "cancel-sell")
CASH_KINDS = {"tax": "tax", "fee": "fees", "deposit": "transfers", "withdrawal": "transfers"}

ACCOUNT = re.compile(r"(Assets|Liabilities|Equity|Income|Expenses)(:[A-Z0-9][A-Za-z0-9-]*)+")
COMMODITY = re.compile(r"[A-Z]([A-Z0-9'._-]{0,22}[A-Z0-9])?")
DAY_PARTS = {"YYYY": "(?P<y>[0-9]{4})", "MM": "(?P<m>[0-9]{1,2})", "DD": "(?P<d>[0-9]{1,2})", "Mon": "(?P<n>[A-Za-z]{3})"}
NUMBER_PARTS = {"YYYY": DAY_PARTS["YYYY"], "MM": "(?P<m>[0-9]{2})", "DD": "(?P<d>[0-9]{2})"}
TIME = re.compile(r"([0-9]{1,2}):([0-9]{2})(?::([0-9]{2}))?(?:[ \t]*([AaPp])[Mm](?![A-Za-z]))?")


class ProfileFault(Exception):
    """An entry of the profile is missing, unknown or bad."""

    def __init__(self, key, what):
        super().__init__(f"fault profile {key} {what}")
        self.key, self.what = key, what


class Fault(Exception):
    """The first faulty row; row 0 is the file."""

    def __init__(self, row, what):
        super().__init__(f"fault row {row} {what}" if row else f"fault file {what}")
        self.row, self.what = row, what


# ---- what a profile says


class Source(NamedTuple):
    column: object  # an int from 1, a name, or None for a constant
    constant: Optional[str] = None
    until: Optional[str] = None


class Kind(NamedTuple):
    kind: str
    when: list  # (column, tests)
    columns: dict  # role: sources
    turn: Optional[set]
    accounts: dict


class Table(NamedTuple):
    header: object  # 0, a number or the beginning of a line
    rows: list
    order: str
    columns: dict
    turn: set
    kinds: list


class Profile(NamedTuple):
    name: str
    encoding: str
    delimiter: str
    decimal: str
    grouping: str
    signs: list
    nothing: list
    day: list
    optional: list
    tables: list
    accounts: dict
    cost: str
    within: Fraction
    rounded: dict
    rewards: str
    symbols: dict

    # Roles and accounts of a kind.

    def sources(self, table, kind, role):
        return kind.columns.get(role) or table.columns.get(role)

    def turns(self, table, kind):
        return table.turn if kind.turn is None else kind.turn

    def account(self, kind, role):
        return kind.accounts.get(role) or self.accounts.get(role)


class Section:
    """A table of TOML, of which each entry is taken once."""

    def __init__(self, value, key):
        if not isinstance(value, dict):
            raise ProfileFault(key, "is no table")
        self.value, self.key, self.left = value, key, set(value)

    def path(self, name):
        return f"{self.key}.{name}" if self.key else name

    def take(self, name, kinds, missing=ProfileFault):
        if name not in self.value:
            if missing is ProfileFault:
                raise ProfileFault(self.path(name), "is missing")
            return missing
        self.left.discard(name)
        value = self.value[name]
        if not isinstance(value, kinds) or isinstance(value, bool):
            raise ProfileFault(self.path(name), "has the wrong type")
        return value

    def word(self, name, words, missing=ProfileFault):
        value = self.take(name, str, missing)
        if value not in words:
            raise ProfileFault(self.path(name), f"is none of {', '.join(map(repr, words))}")
        return value

    def texts(self, name, missing):
        value = self.take(name, list, missing)
        if not all(isinstance(item, str) for item in value):
            raise ProfileFault(self.path(name), "has the wrong type")
        return value

    def end(self):
        if self.left:
            raise ProfileFault(self.path(sorted(self.left)[0]), "is unknown")


def column_of(value, key):
    if isinstance(value, bool) or not isinstance(value, (int, str)) or value == "" or (isinstance(value, int) and value < 1):
        raise ProfileFault(key, "is no column")
    return value


def source_of(value, key):
    if not isinstance(value, dict):
        return Source(column_of(value, key))
    section = Section(value, key)
    if "is" in value:
        source = Source(None, constant=section.take("is", str))
    else:
        source = Source(column_of(section.take("column", (int, str)), section.path("column")), until=section.take("until", str))
        if source.until == "":
            raise ProfileFault(section.path("until"), "is empty")
    section.end()
    return source


def columns_of(value, key):
    section = Section(value, key)
    columns = {}
    for role, given in value.items():
        path = section.path(role)
        if role not in ROLES:
            raise ProfileFault(path, "is unknown")
        given = given if isinstance(given, list) else [given]
        if not given or (len(given) > 1 and role not in NUMBER_ROLES and role not in JOINED):
            raise ProfileFault(path, "is one column")
        columns[role] = [source_of(item, path) for item in given]
    return columns


def test_of(value, key):
    if not isinstance(value, str):
        raise ProfileFault(key, "is no test")
    for word in ("begins", "has"):
        if value.startswith(word + ":"):
            text = value[len(word) + 1 :].lstrip(BLANKS)
            if not text:
                raise ProfileFault(key, "is no test")
            return (word, text)
    return (value, "") if value in ("> 0", "< 0", "nothing", "something") else ("is", value)


def conditions_of(value, key):
    conditions = []
    for name, tests in Section(value, key).value.items():
        path = f"{key}.{name}"
        column = int(name) if re.fullmatch("[0-9]+", name) else name
        tests = tests if isinstance(tests, list) else [tests]
        if not tests:
            raise ProfileFault(path, "is no test")
        conditions.append((column_of(column, path), [test_of(test, path) for test in tests]))
    return conditions


def accounts_of(value, key):
    section = Section(value, key)
    accounts = {}
    for role in value:
        if role not in ACCOUNTS:
            raise ProfileFault(section.path(role), "is unknown")
        name = section.take(role, str)
        if not ACCOUNT.fullmatch(re.sub(r"\{(account|currency|symbol)\}", "X", name)):
            raise ProfileFault(section.path(role), "is no account")
        accounts[role] = name
    return accounts


def turn_of(section, missing):
    roles = section.texts("turn", missing)
    if roles is None:
        return None
    for role in roles:
        if role not in TURNED:
            raise ProfileFault(section.path("turn"), f"{role!r} has no sign")
    return set(roles)


def kind_of(value, key):
    section = Section(value, key)
    kind = Kind(
        section.word("is", KINDS),
        conditions_of(section.take("when", dict), section.path("when")),
        columns_of(section.take("columns", dict, {}), section.path("columns")),
        turn_of(section, None) if "turn" in value else None,
        accounts_of(section.take("accounts", dict, {}), section.path("accounts")),
    )
    section.end()
    return kind


def kinds_of(section):
    kinds = section.take("kind", list)
    if not kinds:
        raise ProfileFault(section.path("kind"), "is missing")
    return [kind_of(kind, f"{section.path('kind')}.{place}") for place, kind in enumerate(kinds, 1)]


def table_of(form, section, kinds_section):
    """A table whose `header`, `order`, `turn` stand in `form`, and `columns`, `kind` in `section`."""
    header = form.take("header", (int, str))
    if header == "" or (isinstance(header, int) and header < 0):
        raise ProfileFault(form.path("header"), "is no header")
    return Table(
        header,
        conditions_of(section.take("rows", dict, {}), section.path("rows")) if form is section else [],
        form.word("order", ("oldest-first", "newest-first", "by-day", "by-day-newest-first")),
        columns_of(section.take("columns", dict, {} if form is section else ProfileFault), section.path("columns")),
        turn_of(form, []),
        kinds_of(kinds_section),
    )


def day_form(text, key):
    parts, left = [], text
    while left:
        for part in ("YYYY", "MM", "Mon", "DD"):
            if left.startswith(part):
                break
        else:
            part = left[0]
            if part.isalnum() or ord(part) > 126 or ord(part) < 32:
                raise ProfileFault(key, "is no form of days")
        parts.append(part)
        left = left[len(part) :]
    months = parts.count("MM") + parts.count("Mon")
    if parts.count("YYYY") != 1 or parts.count("DD") != 1 or months != 1:
        raise ProfileFault(key, "is no form of days")
    return parts


def basis_of(section):
    within = section.take("within", str, "0.005")
    if not re.fullmatch(r"[0-9]+(\.[0-9]{1,8})?", within) or Fraction(within) > 1:
        raise ProfileFault(section.path("within"), "is no amount up to 1")
    rounded = Section(section.take("rounded", dict, {}), section.path("rounded"))
    places = {}
    for role in rounded.value:
        if role not in ROUNDED:
            raise ProfileFault(rounded.path(role), "is unknown")
        places[role] = rounded.take(role, int)
        if not 0 <= places[role] <= 8:
            raise ProfileFault(rounded.path(role), "is not 0 to 8")
    cost, rewards = section.word("cost", ("amount", "price"), "amount"), section.word("rewards", ("value", "zero"), "value")
    section.end()
    return cost, Fraction(within), places, rewards


def symbols_of(section):
    for field in section.value:
        if not COMMODITY.fullmatch(section.take(field, str)):
            raise ProfileFault(section.path(field), "is no commodity")
    return dict(section.value)


def read_profile(data):
    """The profile of a text."""
    if tomllib is None:
        raise SystemExit(WITHOUT_TOMLLIB)
    try:
        value = tomllib.loads(data.decode("utf-8"))
    except (tomllib.TOMLDecodeError, UnicodeDecodeError) as error:
        raise ProfileFault("-", f"is no TOML: {error}") from None
    top = Section(value, "")
    name = top.take("name", str)
    form = Section(top.take("file", dict), "file")
    encoding = form.word("encoding", ("utf-8", "latin-1"), "utf-8")
    delimiter = form.word("delimiter", (",", ";", "\t"))
    decimal = form.word("decimal", (".", ","))
    grouping = form.take("grouping", str, "")
    if len(grouping) > 1 or grouping == decimal or grouping.isdigit() or grouping in tuple("+-()"):
        raise ProfileFault("file.grouping", "is no one character")
    signs = form.texts("currency-signs", [])
    if any(not sign or re.search(r"[0-9+\-()., \t]", sign) for sign in signs):
        raise ProfileFault("file.currency-signs", "is no sign of a currency")
    nothing = form.texts("nothing", [""])
    day = day_form(form.take("day", str), "file.day")
    optional = form.texts("optional", [])
    if "table" in value:
        tables = []
        given = top.take("table", list)
        if not given:
            raise ProfileFault("table", "is missing")
        for place, each in enumerate(given, 1):
            section = Section(each, f"table.{place}")
            tables.append(table_of(section, section, section))
            section.end()
    else:
        tables = [table_of(form, top, top)]
    form.end()
    accounts = accounts_of(top.take("accounts", dict), "accounts")
    basis = basis_of(Section(top.take("basis", dict, {}), "basis"))
    symbols = symbols_of(Section(top.take("symbols", dict, {}), "symbols"))
    top.end()
    nothing = [text.strip(BLANKS) for text in nothing]
    profile = Profile(name, encoding, delimiter, decimal, grouping, signs, nothing, day, optional, tables, accounts, *basis, symbols)
    for place, table in enumerate(tables, 1):
        check_table(profile, table, f"table.{place}." if "table" in value else "")
    return profile


def needed(profile, table, kind):
    """The roles that a kind has to have, and the accounts."""
    has = lambda role: profile.sources(table, kind, role) is not None
    word = kind.kind
    if word == "skip":
        return [], []
    if word == "by-hand":
        return ["day"], []
    if word in DEALS:
        roles = ["day", "symbol", "units", "currency"]
        if profile.cost == "price" or not has("amount"):
            roles.append("price")
        accounts = ["invest", "cash", "rounding"]
        if word in ("sell", "cancel-sell"):
            accounts.append("gains")
        if has("fee") and (profile.cost == "price" or has("fee-currency")):
            accounts.append("fees")
        return roles, accounts
    if word in CASH_KINDS:
        return ["day", "amount", "currency"], ["cash", CASH_KINDS[word]]
    if word in ("dividend", "interest"):
        roles = ["day", "amount", "currency"] + (["booked-currency"] if has("booked") else [])
        return roles, ["cash", "dividends" if word == "dividend" else "interest"] + (["tax"] if has("tax") else [])
    if word == "exchange":
        roles = ["day", "amount", "currency"] + (["other-currency"] if has("other") else [])
        return roles, ["cash", "transfers"] + (["fees"] if has("fee") else [])
    if word == "reward":
        roles = ["day", "symbol", "units", "currency"]
        if profile.rewards == "value" and not has("amount"):
            roles.append("price")
        return roles, ["invest", "rounding"] + (["rewards"] if profile.rewards == "value" else [])
    if word == "transfer-in":
        return ["day", "symbol", "units", "currency", "cost", "cost-day"], ["invest", "transfers", "rounding"]
    if word == "split":
        return ["day", "symbol"] + ([] if has("ratio") else ["units"]), ["invest", "rounding"]
    return ["day", "symbol", "price"] + ([] if has("price-currency") else ["currency"]), []


def check_table(profile, table, prefix):
    for place, kind in enumerate(table.kinds, 1):
        roles, accounts = needed(profile, table, kind)
        for role in roles:
            if profile.sources(table, kind, role) is None:
                raise ProfileFault(f"{prefix}columns.{role}", f"is missing, for kind {place}, {kind.kind}")
        for role in accounts:
            if profile.account(kind, role) is None:
                raise ProfileFault(f"accounts.{role}", f"is missing, for kind {place}, {kind.kind}")
    if table.header == 0:
        for column in named_columns(table):
            raise ProfileFault(f"{prefix}columns", f"{column!r} is a name, and there is no header")


def used_columns(table):
    """The columns that a table's rules use, by name or number, in their order."""

    def of_roles(columns):
        return [source.column for sources in columns.values() for source in sources]

    columns = of_roles(table.columns) + [column for column, _ in table.rows]
    for kind in table.kinds:
        columns += of_roles(kind.columns) + [column for column, _ in kind.when]
    return list(dict.fromkeys(column for column in columns if column is not None))


def named_columns(table):
    """Those that are named."""
    return [column for column in used_columns(table) if isinstance(column, str)]


# ---- numbers, days, tests of a field


def number_of(profile, text):
    """The number of a text, or None."""
    text = text.strip(BLANKS)
    negative = False
    if text.startswith("(") and text.endswith(")"):
        negative, text = True, text[1:-1].strip(BLANKS)
        if text[:1] in ("+", "-"):
            return None
    magnitude = re.compile(
        (r"(?P<whole>[0-9]*|[0-9]{1,3}(?:%s[0-9]{3})+)" % re.escape(profile.grouping) if profile.grouping else r"(?P<whole>[0-9]*)")
        + r"(?:%s(?P<part>[0-9]+))?" % re.escape(profile.decimal)
    )
    text, sign = unsigned(profile, text, negative)
    found = magnitude.fullmatch(text)
    if not found or not (found["whole"] or found["part"]):
        return None
    whole = found["whole"].replace(profile.grouping, "") if profile.grouping else found["whole"]
    value = Fraction(int(whole or "0")) + (Fraction(int(found["part"]), 10 ** len(found["part"])) if found["part"] else 0)
    return -value if negative or sign == "-" else value


def unsigned(profile, text, in_parentheses):
    """A text without its sign and without the longest sign of a currency at each end, and the sign."""

    def split(text):
        """The sign at the start of a text, and what is behind it."""
        return (text[0], text[1:].lstrip(BLANKS)) if text[:1] in ("+", "-") and not in_parentheses else ("", text)

    sign, text = split(text)
    before = [len(mark) for mark in profile.signs if text.startswith(mark)]
    text = text[max(before, default=0) :].lstrip(BLANKS)
    if not sign:
        sign, text = split(text)
    behind = [len(mark) for mark in profile.signs if text.endswith(mark)]
    return text[: len(text) - max(behind, default=0)].rstrip(BLANKS), sign


def rounded(value):
    """A number to eight decimals, half to even."""
    return Fraction(round(value * ONE), ONE)


def day_pattern(parts):
    """The pattern of days: two digits of month and day where a number stands right beside them."""
    numbers = [part in NUMBER_PARTS for part in parts]
    beside = [before or after for before, after in zip([False] + numbers, numbers[1:] + [False])]
    return "".join((NUMBER_PARTS if near else DAY_PARTS).get(part) or DAY_PARTS.get(part, re.escape(part)) for part, near in zip(parts, beside))


def day_of(profile, text):
    """The day of a field and its time, or None."""
    found = re.match(day_pattern(profile.day), text)
    if not found:
        return None
    parts = found.groupdict()
    if parts.get("n") and parts["n"].lower() not in MONTHS:
        return None
    month = MONTHS.index(parts["n"].lower()) + 1 if parts.get("n") else int(parts["m"])
    try:
        day = datetime.date(int(parts["y"]), month, int(parts["d"]))
    except ValueError:
        return None
    rest = text[found.end() :]
    if not rest:
        return day, None
    if rest[0] not in " \t,T":
        return None
    time = time_of(rest[1:].lstrip(BLANKS))
    return (day, time) if time else None


def time_of(text):
    found = TIME.match(text)
    if not found or int(found[1]) > 23 or int(found[2]) > 59 or int(found[3] or 0) > 59:
        return None
    hours = int(found[1])
    if found[4]:
        if not 1 <= hours <= 12:
            return None
        hours = hours % 12 + (12 if found[4] in "Pp" else 0)
    return (hours, int(found[2]), int(found[3] or 0))


def holds(profile, test, field):
    word, text = test
    if word == "is":
        return field == text
    if word == "begins":
        return field.startswith(text)
    if word == "has":
        return text in field
    if word in ("nothing", "something"):
        return (field in profile.nothing) == (word == "nothing")
    value = number_of(profile, field)
    return value is not None and (value > 0 if word == "> 0" else value < 0)


# ---- the rows of a file


class Row(NamedTuple):
    number: int
    table: Table
    fields: list
    names: dict  # of the header: name -> place
    absent: set

    def raw(self, column):
        """The field of a column, or None where the row has none."""
        place = column - 1 if isinstance(column, int) else self.names.get(column)
        return self.fields[place] if place is not None and place < len(self.fields) else None


def lines_of(profile, data):
    if data.startswith(b"\xef\xbb\xbf"):
        data = data[3:]
    try:
        text = data.decode(profile.encoding)
    except UnicodeDecodeError:
        raise Fault(0, "is not UTF-8") from None
    records = csv.reader(io.StringIO(text.replace("\0", "\u0100"), newline=""), delimiter=profile.delimiter)
    cut = ([field.replace("\u0100", "\0").strip(BLANKS) for field in record] for record in records)
    return [fields for fields in cut if any(fields)]


def is_header(profile, table, number, fields):
    if isinstance(table.header, int):
        return table.header == number
    return profile.delimiter.join(fields).startswith(table.header)


def names_of(profile, table, fields, number):
    """Where the named columns of a table stand, by its header."""
    places = {}
    for column in used_columns(table):
        numbered = isinstance(column, int)
        count = int(column <= len(fields)) if numbered else fields.count(column)
        if count > 1:
            raise Fault(number, f"column {column!r} stands twice in the header")
        if not count and str(column) not in profile.optional:
            raise Fault(number, f"column {column!r} is not in the header")
        if count and not numbered:
            places[column] = fields.index(column)
    # The key leaves optional columns out, named by a rule or not.
    places.update({name: fields.index(name) for name in profile.optional if name in fields})
    return places


def rows_of(profile, data):
    """The rows, in the order of the file."""
    heads = {place: ({}, None) for place, table in enumerate(profile.tables) if table.header == 0}
    begun, rows = bool(heads), []
    found = set(heads)
    for number, fields in enumerate(lines_of(profile, data), 1):
        headed = [place for place, table in enumerate(profile.tables) if table.header != 0 and is_header(profile, table, number, fields)]
        if headed:
            for place in headed:
                heads[place] = (names_of(profile, profile.tables[place], fields, len(rows) + 1), fields)
                found.add(place)
            begun = True
            continue
        if not begun:
            continue
        if len(rows) == MOST_ROWS:
            raise Fault(0, "has more than 100,000 rows")
        mine = []
        for place, (names, header) in heads.items():
            row = Row(len(rows) + 1, profile.tables[place], fields, names, set())
            if all(any(holds(profile, test, row.raw(column) or "") for test in tests) for column, tests in row.table.rows):
                mine.append((row, header))
        if len(mine) != 1:
            raise Fault(len(rows) + 1, "is of no table" if not mine else "is of two tables")
        row, header = mine[0]
        if header is not None and any(fields[len(header) :]):
            raise Fault(row.number, "is longer than its header")
        rows.append(row)
    if not found:
        raise Fault(0, "has no header")
    return rows


# ---- what a row says


class Deal:
    """A row, its kind, and what its fields say."""

    def __init__(self, profile, row):
        self.profile, self.row, self.table = profile, row, row.table
        kinds = [kind for kind in row.table.kinds if self.meets(kind)]
        if len(kinds) != 1:
            names = " and ".join(kind.kind for kind in kinds)
            raise self.fault(f"is of no kind: {' '.join(row.fields[:4])}" if not kinds else f"is of two kinds: {names}")
        self.rule, self.kind = kinds[0], kinds[0].kind
        self.rounded = 0
        self.buy = None
        self.key = self.day = self.time = None
        self.text_ = None
        if self.kind != "skip":
            self.read()
            self.text_ = self.ledger()

    def fault(self, what):
        return Fault(self.row.number, what)

    def meets(self, kind):
        return all(any(holds(self.profile, test, self.row.raw(column) or "") for test in tests) for column, tests in kind.when)

    # Fields.

    def parts(self, role):
        """The texts of a role's sources that mean a value."""
        texts = []
        for source in self.profile.sources(self.table, self.rule, role) or []:
            if source.column is None:
                texts.append(source.constant)
                continue
            field = self.row.raw(source.column)
            if field is not None and source.until is not None and source.until in field:
                field = field[: field.index(source.until)].strip(BLANKS)
            if field is not None and field not in self.profile.nothing:
                texts.append(field)
        return texts

    def text(self, role, wanted=False):
        parts = self.parts(role)
        if wanted and not parts:
            raise self.fault(f"{role} has no value")
        return " ".join(parts) if parts else None

    def number(self, role, wanted=False):
        parts = self.parts(role)
        if not parts:
            if wanted:
                raise self.fault(f"{role} has no value")
            return None
        total = Fraction(0)
        for part in parts:
            value = number_of(self.profile, part)
            if value is None:
                raise self.fault(f"{role} is no number: {part}")
            if (value * ONE).denominator != 1:
                if role == "units":
                    raise self.fault(f"units has more than eight decimals: {part}")
                value = rounded(value)
                self.rounded += role != "rate"
            if abs(value * ONE) >= UNITS_LIMIT:
                raise self.fault(f"{role} is out of range: {part}")
            total += value
        if abs(total * ONE) >= UNITS_LIMIT:
            raise self.fault(f"{role} is out of range")
        return -total if role in self.profile.turns(self.table, self.rule) else total

    def commodity(self, role, wanted=True, missing=None):
        text = self.text(role, wanted)
        if text is None:
            return missing
        if not COMMODITY.fullmatch(text):
            raise self.fault(f"{role} is no commodity: {text}")
        return text

    def symbol_text(self):
        text = self.text("symbol")
        return None if text is None else self.profile.symbols.get(text, text)

    def wanted_symbol(self):
        text = self.text("symbol", True)
        text = self.profile.symbols.get(text, text)
        if not COMMODITY.fullmatch(text):
            raise self.fault(f"symbol is no commodity: {text}")
        return text

    def account(self, role, currency):
        name = self.profile.account(self.rule, role)
        if name is None:
            raise self.fault(f"there is no account for {role}")
        for piece, value in (("account", self.text("account")), ("symbol", self.symbol_text()), ("currency", currency)):
            if "{" + piece + "}" in name:
                if value is None:
                    raise self.fault(f"{piece} has no value, and stands in the account for {role}")
                name = name.replace("{" + piece + "}", value)
        if not ACCOUNT.fullmatch(name) or len(name) > 128:
            raise self.fault(f"is no account: {name}")
        return name

    def read(self):
        self.read_day()
        word = self.kind
        if word == "by-hand":
            self.lines = None
        elif word in DEALS:
            self.read_deal()
        elif word in CASH_KINDS:
            self.read_cash()
        elif word in ("dividend", "interest"):
            self.read_income()
        elif word == "exchange":
            self.read_exchange()
        elif word == "reward":
            self.read_reward()
        elif word == "transfer-in":
            self.read_transfer()
        elif word == "split":
            self.read_split()
        else:
            self.read_price()

    def read_day(self):
        text = self.text("day", True)
        found = day_of(self.profile, text)
        if found is None:
            raise self.fault(f"day is no day: {text}")
        self.day, self.time = found
        beside = self.text("time")
        if beside is not None:
            self.time = time_of(beside)
            if self.time is None:
                raise self.fault(f"time is no time: {beside}")

    # Kinds.

    def read_deal(self):
        self.symbol = self.wanted_symbol()
        self.units = self.number("units", True)
        self.currency = self.commodity("currency")
        self.price = self.number("price", self.profile.cost == "price")
        self.price_currency = self.commodity("price-currency", False, self.currency)
        self.fee = self.number("fee") or Fraction(0)
        self.fee_currency = self.commodity("fee-currency", False, self.currency) if self.fee else self.currency
        # A fee in the currency of the cash, or in that of the price, is in the amount; one in a third was paid beside it.
        self.beside = self.fee_currency not in (self.currency, self.price_currency)
        has_amount = self.profile.sources(self.table, self.rule, "amount") is not None
        if has_amount:
            self.amount = self.number("amount", True)
        else:
            if self.price is None:
                raise self.fault("price has no value")
            if self.price_currency != self.currency:
                raise self.fault("amount has no value, and the price is in another currency")
            self.amount = rounded(-self.units * self.price - (0 if self.beside else self.fee))
            self.limited(self.amount, "amount")
        self.check_signs()
        if has_amount:
            self.compare()
        if self.profile.cost == "price" and self.price * ONE >= RATE_LIMIT:
            raise self.fault("price is out of range")

    def limited(self, value, role):
        if abs(value * ONE) >= UNITS_LIMIT:
            raise self.fault(f"{role} is out of range")

    def check_signs(self):
        if self.kind in ("buy", "cancel-sell"):
            good = self.units > 0 and self.amount < 0
        else:
            good = self.units < 0 and self.amount >= 0
        if not good or (self.price is not None and self.price < 0):
            raise self.fault(f"has the signs of no {self.kind}")

    def compare(self):
        """Units, price, fee and amount tell the same."""
        if self.price is None:
            return
        rate, rate_error = Fraction(1), Fraction(0)
        if self.price_currency != self.currency:
            rate = self.number("rate")
            if rate is None:
                return
            if rate <= 0:
                raise self.fault("rate is not above zero")
            rate_error = self.half("rate")
        cash, priced = self.amount, self.units * self.price
        fee_error = Fraction(0)
        if not self.beside and self.fee_currency == self.currency:
            cash, fee_error = cash + self.fee, self.half("fee")
        elif not self.beside:
            priced, fee_error = priced + self.fee, self.half("fee")
        units, price = abs(self.units), abs(self.price)
        allowed = (CENT + self.profile.within + self.half("amount") + fee_error) * (rate + rate_error) + abs(cash) * rate_error
        allowed += (units + self.half("units")) * (price + self.half("price")) - units * price
        if abs(cash * rate + priced) > allowed:
            raise self.fault("units, price, fee and amount disagree")

    def half(self, role):
        places = self.profile.rounded.get(role)
        return Fraction(0) if places is None else Fraction(1, 2 * 10**places)

    def deal_lines(self):
        # A cancelled purchase takes the lot of its own day; which that is is known when all rows are read.
        cost_day = (self.buy or self).day if self.kind == "cancel-buy" else None
        return self.by_amount(cost_day) if self.profile.cost == "amount" else self.by_price(cost_day)

    def by_amount(self, cost_day):
        lines = []
        invest = self.account("invest", self.currency)
        cash = self.account("cash", self.currency)
        if self.kind in ("sell", "cancel-sell"):
            lines.append(f"{invest} {show(self.units)} {self.symbol} {{}} @@ {show(self.amount)} {self.currency}")
        else:
            day = f", {cost_day}" if cost_day else ""
            cost = f"{show(abs(self.amount))} {self.currency}{day}"
            lines.append(f"{invest} {show(self.units)} {self.symbol} {{{{{cost}}}}}")
        if self.beside:
            lines += self.fee_beside()
        lines.append(f"{cash} {show(self.amount)} {self.currency}")
        if self.kind == "sell":
            lines.append(self.account("gains", self.currency))
        return lines

    def fee_beside(self):
        currency = self.fee_currency
        return [
            f"{self.account('fees', currency)} {show(self.fee)} {currency}",
            f"{self.account('cash', currency)} {show(-self.fee)} {currency}",
        ]

    def by_price(self, cost_day):
        lines = []
        priced_in = self.price_currency
        invest, cash = self.account("invest", priced_in), self.account("cash", self.currency)
        if self.kind == "sell":
            lines.append(f"{invest} {show(self.units)} {self.symbol} {{}} @ {show(self.price)} {priced_in}")
        else:
            day = f", {cost_day}" if cost_day else ""
            lines.append(f"{invest} {show(self.units)} {self.symbol} {{{show(self.price)} {priced_in}{day}}}")
        if priced_in == self.currency:
            if self.beside:
                lines += self.fee_beside()
            elif self.fee:
                lines.append(f"{self.account('fees', self.currency)} {show(self.fee)} {self.currency}")
            lines.append(f"{cash} {show(self.amount)} {self.currency}")
        else:
            rest, total = self.amount, -self.units * self.price
            if self.fee and self.fee_currency == priced_in:
                lines.append(f"{self.account('fees', priced_in)} {show(self.fee)} {priced_in}")
                total -= self.fee
            elif self.fee:
                lines += self.fee_beside()
                rest += Fraction(0) if self.beside else self.fee
            total = rounded(total)
            self.limited(total, "amount")
            if rest * total < 0 or (rest == 0) != (total == 0):
                raise self.fault("amount and price have different signs")
            lines.append(f"{cash} {show(rest)} {self.currency} @@ {show(abs(total))} {priced_in}")
        if self.kind == "sell":
            lines.append(self.account("gains", priced_in))
        return lines

    def read_cash(self):
        amount, currency = self.number("amount", True), self.commodity("currency")
        if (self.kind == "deposit" and amount <= 0) or (self.kind == "withdrawal" and amount >= 0):
            raise self.fault(f"has the sign of no {self.kind}")
        other = self.account(CASH_KINDS[self.kind], currency)
        self.lines = [f"{self.account('cash', currency)} {show(amount)} {currency}", f"{other} {show(-amount)} {currency}"]

    def read_income(self):
        amount, currency = self.number("amount", True), self.commodity("currency")
        tax = self.number("tax") or Fraction(0)
        tax_currency = self.commodity("tax-currency", False, currency) if tax else currency
        if amount * tax < 0:
            raise self.fault("tax has another sign than the amount")
        role = "dividends" if self.kind == "dividend" else "interest"
        self.lines = [self.received(amount, currency)]
        income = self.account(role, currency)
        if tax and tax_currency == currency:
            self.limited(amount + tax, "amount")
            self.lines += [f"{self.account('tax', currency)} {show(tax)} {currency}", f"{income} {show(-amount - tax)} {currency}"]
            return
        self.lines.append(f"{income} {show(-amount)} {currency}")
        if tax:
            self.lines += [
                f"{self.account('tax', tax_currency)} {show(tax)} {tax_currency}",
                f"{self.account(role, tax_currency)} {show(-tax)} {tax_currency}",
            ]

    def received(self, amount, currency):
        """The posting of the cash that came in, perhaps in another currency."""
        booked = self.number("booked")
        if booked is None:
            return f"{self.account('cash', currency)} {show(amount)} {currency}"
        got = self.commodity("booked-currency")
        if got == currency:
            if booked != amount:
                raise self.fault("booked is another amount of the same currency")
            return f"{self.account('cash', currency)} {show(amount)} {currency}"
        if booked * amount < 0 or (booked == 0) != (amount == 0):
            raise self.fault("booked has another sign than the amount")
        return f"{self.account('cash', got)} {show(booked)} {got} @@ {show(abs(amount))} {currency}"

    def read_exchange(self):
        amount, currency = self.number("amount", True), self.commodity("currency")
        other = self.number("other")
        fee = self.number("fee") or Fraction(0)
        fee_currency = self.commodity("fee-currency", False, currency) if fee else currency
        inside = fee if fee_currency == currency else Fraction(0)
        self.lines = [f"{self.account('cash', currency)} {show(amount)} {currency}"]
        if inside:
            self.lines.append(f"{self.account('fees', currency)} {show(fee)} {currency}")
        self.limited(amount + inside, "amount")
        self.lines.append(f"{self.account('transfers', currency)} {show(-amount - inside)} {currency}")
        if other is not None:
            second = self.commodity("other-currency")
            if amount * other >= 0:
                raise self.fault("has the signs of no exchange")
            if second == currency:
                raise self.fault("exchanges a currency for itself")
            self.lines.append(f"{self.account('cash', second)} {show(other)} {second}")
            self.lines.append(f"{self.account('transfers', second)} {show(-other)} {second}")
        elif amount == 0:
            raise self.fault("has the signs of no exchange")
        if fee and not inside:
            self.fee, self.fee_currency = fee, fee_currency
            self.lines += self.fee_beside()

    def read_reward(self):
        symbol, units, currency = self.wanted_symbol(), self.number("units", True), self.commodity("currency")
        if units <= 0:
            raise self.fault("has the signs of no reward")
        value = Fraction(0)
        if self.profile.rewards == "value":
            value = self.number("amount")
            if value is None:
                price = self.number("price", True)
                currency = self.commodity("price-currency", False, currency)
                value = rounded(units * price)
                self.limited(value, "amount")
            if value < 0:
                raise self.fault("has the signs of no reward")
        self.lines = [f"{self.account('invest', currency)} {show(units)} {symbol} {{{{{show(value)} {currency}}}}}"]
        if value:
            self.lines.append(f"{self.account('rewards', currency)} {show(-value)} {currency}")

    def read_transfer(self):
        symbol, units, currency = self.wanted_symbol(), self.number("units", True), self.commodity("currency")
        cost, text = self.number("cost", True), self.text("cost-day", True)
        found = day_of(self.profile, text)
        if found is None:
            raise self.fault(f"cost-day is no day: {text}")
        if units <= 0 or cost < 0:
            raise self.fault("has the signs of no transfer-in")
        if found[0] > self.day:
            raise self.fault("cost-day is behind the day")
        self.lines = [f"{self.account('invest', currency)} {show(units)} {symbol} {{{{{show(cost)} {currency}, {found[0]}}}}}"]
        if cost:
            self.lines.append(f"{self.account('transfers', currency)} {show(-cost)} {currency}")

    def read_split(self):
        symbol = self.wanted_symbol()
        currency = self.commodity("currency", False)
        ratio, added = self.text("ratio"), None
        if ratio is not None:
            found = re.fullmatch(r"([0-9]+) *: *([0-9]+)", ratio)
            if not found or not int(found[1]) or not int(found[2]):
                raise self.fault(f"ratio is no ratio: {ratio}")
            ratio = Fraction(int(found[1]), int(found[2]))
            if max(ratio.numerator, ratio.denominator) > 100:
                raise self.fault("ratio has a number above 100")
        else:
            added = self.number("units", True)
            if added == 0:
                raise self.fault("units of a split are zero")
        self.split = (self.account("invest", currency), symbol, ratio, added)
        self.lines = []

    def read_price(self):
        symbol, price = self.wanted_symbol(), self.number("price", True)
        currency = self.commodity("price-currency", False) or self.commodity("currency")
        if price < 0 or price * ONE >= RATE_LIMIT:
            raise self.fault("price is out of range")
        self.quote = f"{self.day} price {symbol} {show(price)} {currency}"
        self.lines = []

    # Key and text.

    def key_text(self):
        text = self.text("ref")
        if text is not None:
            return text
        left_out = {self.row.names[name] for name in self.profile.optional if name in self.row.names}
        optional = self.profile.optional
        fields = [field for place, field in enumerate(self.row.fields) if place not in left_out and str(place + 1) not in optional]
        return " ".join(field for field in fields if field and field not in self.profile.nothing)

    def narration(self):
        words = [self.kind, self.symbol_text(), self.text("note")]
        text = re.sub(r"[\x00-\x08\x0a-\x1f\x7f]", " ", " ".join(word for word in words if word))
        return text.encode()[:1000].decode(errors="ignore")

    def ledger(self):
        """The ledger text of the row, or None."""
        if self.kind in ("skip", "by-hand"):
            return None
        if self.kind == "price":
            return self.quote + "\n"
        if self.kind == "split":
            account, symbol, ratio, added = self.split
            what = f"{ratio.numerator}:{ratio.denominator}" if ratio is not None else f"{show(added)} added"
            return f"; {self.day} split {account} {symbol} {what}\n"
        lines = self.deal_lines() if self.kind in DEALS else self.lines
        note = self.narration().replace("\\", "\\\\").replace('"', '\\"')
        return f'{self.day} * "{note}"\n' + "".join(f"  {line}\n" for line in lines)


def show(number):
    """The shortest text of a number of at most eight decimals."""
    mantissa = number * ONE
    assert mantissa.denominator == 1, number
    whole, part = divmod(abs(mantissa.numerator), ONE)
    digits = f"{part:08}".rstrip("0")
    return ("-" if mantissa < 0 else "") + str(whole) + ("." + digits if digits else "")


# ---- the file: order, occurrences and keys, cancelled purchases


def in_order(deals):
    """The rows with a day, the oldest first; days against the order of their table are a fault."""
    tables = {}
    for deal in deals:
        tables.setdefault(id(deal.table), []).append(deal)
    against = []
    for mine in tables.values():
        dated = [deal for deal in mine if deal.day]
        for before, after in zip(dated, dated[1:]):
            order = after.table.order
            if (order == "oldest-first" and after.day < before.day) or (order == "newest-first" and after.day > before.day):
                against.append(after)
                break
    if against:
        first = min(against, key=lambda deal: deal.row.number)
        raise first.fault(f"day {first.day} is against the order")

    def place(deal):
        tables = [id(table) for table in deal.profile.tables]
        order, number = deal.table.order, deal.row.number
        time = (deal.time or (0, 0, 0)) if order in ("by-day", "by-day-newest-first") else (0, 0, 0)
        return deal.day, tables.index(id(deal.table)), time, -number if order in ("newest-first", "by-day-newest-first") else number

    return sorted((deal for deal in deals if deal.day), key=place)


def key_of(deal, occurrences):
    text = deal.key_text()
    number = occurrences[deal.day, text] = occurrences.get((deal.day, text), 0) + 1
    key = f"{deal.day} {number} {text}"
    if len(key.encode()) > 64 or re.search(r'["\\\x00-\x1f\x7f]', key):
        key = hashlib.sha256(key.encode()).hexdigest()[:32]
    return key


def pair(ordered, left_out):
    """Gives each cancelled purchase its own, also where one of the two is left out."""
    for place, deal in enumerate(ordered):
        if deal.kind == "cancel-sell" and deal.key not in left_out:
            raise deal.fault("is a cancelled sale: leave out it and its sale")
        if deal.kind != "cancel-buy":
            continue
        for earlier in reversed(ordered[:place]):
            if earlier.kind == "buy" and not earlier.buy and same_deal(earlier, deal):
                earlier.buy, deal.buy = deal, earlier
                break
        if deal.key not in left_out and (not deal.buy or deal.buy.key in left_out):
            raise deal.fault("its purchase is not in the file: export from an earlier day")


def same_deal(buy, cancel):
    cancelled = (cancel.symbol, -cancel.units, cancel.price, -cancel.amount, cancel.currency)
    return (buy.symbol, buy.units, buy.price, buy.amount, buy.currency) == cancelled


class Read(NamedTuple):
    deals: list  # in the order of booking
    skipped: int
    by_hand: list
    rounded: int


def read_export(profile, data, left_out=()):
    """What the rows of an export come to; keys in `left_out` as by --except."""
    every = [Deal(profile, row) for row in rows_of(profile, data)]
    ordered = in_order(every)
    occurrences = {}
    for deal in ordered:
        deal.key = key_of(deal, occurrences)
    pair(ordered, left_out)
    for deal in ordered:
        if deal.buy and deal.kind == "cancel-buy":
            deal.text_ = deal.ledger()
    return Read(
        [deal for deal in ordered if deal.key not in left_out and deal.kind != "by-hand"],
        sum(deal.kind == "skip" for deal in every),
        [deal for deal in ordered if deal.kind == "by-hand"],
        sum(deal.rounded for deal in every),
    )


def main(words):
    if len(words) != 2:
        raise SystemExit(__doc__)
    if tomllib is None:
        raise SystemExit(WITHOUT_TOMLLIB)
    try:
        with open(words[0], "rb") as file:
            profile = read_profile(file.read())
        with open(words[1], "rb") as file:
            read = read_export(profile, file.read())
    except (ProfileFault, Fault) as fault:
        print(fault)
        return 2 if isinstance(fault, ProfileFault) else 3
    for deal in read.deals:
        print(f"; row {deal.row.number} {deal.kind} key {deal.key}")
        print(deal.text_, end="")
    for deal in read.by_hand:
        print(f"; row {deal.row.number} by-hand key {deal.key}")
    print(f"; {read.skipped} skipped, {read.rounded} rounded")
    return 0


if __name__ == "__main__":
    sys.exit(main(sys.argv[1:]))
