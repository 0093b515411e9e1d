"""The rows of the tables of a plain book, written from docs/FORMATS.md (Tables) alone, and a file of edition 1 with them."""

import plain

import model
import tables


def day_number(day):
    return tables.number_of(model.day_text(day))


def key_cells(key):
    return day_number(key.day), key.currency, key.number, key.label or ""


def leg_cells(leg):
    """The columns of a row of `leg` behind its place, in their order there."""
    if leg.key is None:
        return leg.account, leg.commodity, leg.units, None, None, None, None
    day, currency, number, label = key_cells(leg.key)
    return leg.account, leg.commodity, leg.units, number, currency, day, label


def sale_cells(posting):
    """Kind, amount and currency of a sale."""
    price = posting.amount.price
    return (0, None, None) if price is None else (2 if price.whole else 1, price.amount, price.currency)


class Rows:
    """The rows of a book, by table. `rows` has them in the order in which they came."""

    def __init__(self, book):
        self.book, self.rows = book, {name: [] for name in tables.TABLES}
        self.closed, self.prices, self.heads = {}, {}, {}
        for number, (key, entry) in enumerate(zip(book.keys, book.entries), 1):
            self.rows["entry"].append((number, *key, plain.canonical(entry.command)))
            self.add(number, entry)
        held = model.Held(book.entries)
        self.rows["account"] = [(*row[:2], self.closed.get(row[0]), row[2]) for row in self.rows["account"]]
        self.rows["price"] = [(*at, rate) for at, rate in self.prices.items()]
        self.rows["head"] = [(*pair, day) for pair, day in self.heads.items()]
        self.rows["plain"] = [(*pair, units) for pair, units in held.plain.items()]
        for pair, lots in held.lots.items():
            for key, units in lots.items():
                self.rows["lot"].append((*pair, *key_cells(key), units))
                self.rows["opening"].append((*pair, *key_cells(key), held.openings[pair][key]))
        self.rows["book"], self.rows["migration"] = [("lot-book", 2)], [(book.place,)]

    def add(self, number, entry):
        command = entry.command
        if isinstance(command, model.Opening):
            self.rows["account"].append((command.account, day_number(command.day), command.method))
            self.rows["allowed"] += [(command.account, place, it) for place, it in enumerate(command.currencies)]
        elif isinstance(command, model.Closing):
            self.closed[command.account] = day_number(command.day)
        elif isinstance(command, model.Declaring):
            self.rows["commodity"].append((command.commodity, day_number(command.day)))
        elif isinstance(command, model.Quoting):
            self.prices[command.base, command.quote, day_number(command.day)] = command.rate
        else:
            self.add_transaction(number, entry)

    def add_transaction(self, number, entry):
        day = day_number(entry.command.day)
        for at, (posting, booked) in enumerate(zip(entry.command.postings, entry.booked), 1):
            self.rows["leg"] += [(number, at, place, *leg_cells(leg)) for place, leg in enumerate(booked.legs)]
            if posting.braces:
                self.heads[posting.pair] = day
            if booked.reduces:
                self.rows["sale"].append((number, at, day, *posting.pair, posting.amount.units, *sale_cells(posting)))

    def sorted(self):
        """As tables.contents gives them."""
        return {name: sorted(them, key=repr) for name, them in self.rows.items()}


def write(path, book):
    """Writes a book of edition 1, which has the rows of this one."""
    found = Rows(book).rows
    found["book"] = [("lot-book", 1)]
    with open(tables.OLDER, encoding="utf-8") as text, tables.connect(path) as db:
        db.execute("BEGIN")
        for line in text:
            if line.startswith("CREATE TABLE "):
                db.execute(line)
        for name in tables.OF_EDITION_1:
            if found[name]:
                db.executemany(f"INSERT INTO {name} VALUES ({', '.join('?' * len(found[name][0]))})", found[name])
        db.execute("COMMIT")
        db.execute("PRAGMA journal_mode = WAL")  # as the program has it
