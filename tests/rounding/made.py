"""Makes the year of each of two brokers, and a ledger of 205 transactions as one that is moved over from Beancount.

    made.py FOLDER [SEED]

Deals have units of four, six or eight decimals, cash in cents and two currencies; sales take parts of lots. Nothing is drawn that comes
to exactly half a cent. It writes into the folder:

    accounts.ledger    the openings for all three, that of the account for crumbs among them
    north.csv          a broker whose fees stand apart: a row for each deal
    south.ledger       a broker whose purchases have the fee in the cost, which a row can't say
    south.csv          the same broker's deals in the other currency
    moved.ledger       the ledger
    NAME.cash          what the broker, or the bank, says is in cash in the end: the lines of the holdings
    NAME.inexact       of a text the numbers of the commands that don't balance as they are written, each with the code of its refusal;
                       of a file the numbers of the rows whose cash isn't in cents, with C4 where it has more than eight decimals
"""

import datetime
import pathlib
import sys

ONE = 10**8


class Draw:
    """Numbers drawn from a seed, the same with every Python."""

    def __init__(self, seed):
        self.state = seed

    def below(self, count):
        self.state = (self.state * 6364136223846793005 + 1442695040888963407) % 2**64
        return (self.state >> 33) % count

    def of(self, items):
        return items[self.below(len(items))]

    def decimal(self, least, most, decimals):
        """A number at scale 8 between these two, with so many decimals."""
        step = 10**decimals
        return (least * step + self.below((most - least) * step) + 1) * 10 ** (8 - decimals)


def text(mantissa, scale=8):
    whole, rest = divmod(abs(mantissa), 10**scale)
    digits = str(rest).zfill(scale).rstrip("0")
    return ("-" if mantissa < 0 else "") + str(whole) + ("." + digits if digits else "")


def money(cents):
    return ("-" if cents < 0 else "") + f"{abs(cents) // 100}.{abs(cents) % 100:02}"


def in_cents(weight):
    """The nearest cents to a product, at scale 16, half away from zero as brokers round. None for exactly half a cent."""
    cents, rest = divmod(abs(weight), 10**14)
    if 2 * rest == 10**14:
        return None
    cents += 2 * rest > 10**14
    return -cents if weight < 0 else cents


def days(count):
    """So many days of 2024, in order."""
    first = datetime.date(2024, 1, 2)
    return [(first + datetime.timedelta(at * 360 // count)).isoformat() for at in range(count)]


class Holder:
    """An account at a broker: what it holds of each symbol, and its cash."""

    def __init__(self, draw, symbols):
        self.draw, self.symbols = draw, symbols  # of each its decimals and its lowest price
        self.held = {symbol: 0 for symbol in symbols}
        self.cash = 0

    def deal(self, price_decimals):
        """Whether it is a sale, the symbol, units, price and their product, which isn't exactly half a cent."""
        while True:
            symbol = self.draw.of(sorted(self.symbols))
            decimals, lowest = self.symbols[symbol]
            price = self.draw.decimal(lowest, lowest + lowest // 4 + 1, price_decimals)
            is_sale = self.held[symbol] > ONE and self.draw.below(3) == 0
            units = self.draw.decimal(0, 9, decimals)
            if is_sale:
                step = 10 ** (8 - decimals)
                units = self.held[symbol] * (1 + self.draw.below(8)) // 10 // step * step
            if units and in_cents(units * price) is not None:
                self.held[symbol] += -units if is_sale else units
                return is_sale, symbol, units, price, units * price


def rows(draw, prefix, holder, currency, count, inexact):
    """The rows of a broker file."""
    lines = ["ref,date,action,symbol,units,price,currency,fee"]
    for number, day in enumerate(days(count), 1):
        is_sale, symbol, units, price, product = holder.deal(draw.of((2, 2, 4)))
        fee = draw.of((0, 35, 99, 495))
        holder.cash += (in_cents(product) if is_sale else -in_cents(product)) - fee
        if product % 10**14:
            inexact.append(f"{number} C4" if product % ONE else f"{number} L")
        fields = (f"{prefix}{number}", day, "SELL" if is_sale else "BUY", symbol, text(units), text(price), currency, money(fee) if fee else "")
        lines.append(",".join(fields))
    return lines


def north(draw):
    holder, inexact = Holder(draw, {"HOOL": (4, 140), "VEA": (6, 47), "BTC": (8, 41000), "BOND": (4, 96)}), []
    return rows(draw, "N", holder, "USD", 100, inexact), holder.cash, inexact


def south(draw):
    """Purchases with the fee in the cost, and sales, of one currency."""
    holder, lines, inexact = Holder(draw, {"WIDG": (6, 31), "ETH": (8, 2100), "FUND": (4, 118), "GOLD": (8, 1800)}), [], []
    for number, day in enumerate(days(70), 1):
        is_sale, symbol, units, price, product = holder.deal(draw.of((2, 2, 4)))
        lines.append(f'{day} * "S{number}"')
        if is_sale:
            cents = in_cents(product)
            holder.cash += cents - 99
            how = f"@@ {money(cents)}" if draw.below(2) else f"@ {text(price)}"
            lines += [f"  Assets:South -{text(units)} {symbol} {{}} {how} EUR", "  Expenses:Fees 0.99 EUR"]
            lines += [f"  Assets:SouthCash {money(cents - 99)} EUR", "  Income:Gains"]
        else:
            cents = in_cents(product) + draw.of((150, 299, 590))
            holder.cash -= cents
            if cents * 10**14 % units:
                inexact.append(f"{number} B5")
            lines.append(f"  Assets:South {text(units)} {symbol} {{{{{money(cents)} EUR}}}}")
            lines.append("  Assets:SouthCash" if draw.below(4) == 0 else f"  Assets:SouthCash -{money(cents)} EUR")
    return lines, holder.cash, inexact


def moved(draw):
    """Transactions of a household, of which 16 don't balance by a cent, and 15 have a whole cost that can't be divided."""
    kinds = ["cent"] * 16 + ["whole"] * 15 + ["exact"] * 30 + ["sale"] * 14 + ["exchange"] * 10 + ["plain"] * 120
    for at in range(len(kinds) - 1, 0, -1):  # shuffled
        other = draw.below(at + 1)
        kinds[at], kinds[other] = kinds[other], kinds[at]
    first = kinds.index("exact")
    kinds.insert(0, kinds.pop(first))
    cash, held, lines, inexact = {"EUR": 0, "USD": 0}, 0, [], []
    for number, (kind, day) in enumerate(zip(kinds, days(len(kinds))), 1):
        currency = draw.of(("EUR", "EUR", "USD"))
        lines.append(f'{day} * "{kind} {number}"')
        if kind == "plain":
            cents = 100 + draw.below(20000)
            is_income = draw.below(4) == 0
            cash[currency] += 12 * cents if is_income else -cents
            lines.append(f"  Assets:Bank {money(12 * cents if is_income else -cents)} {currency}")
            lines.append("  Income:Salary" if is_income else "  Expenses:Living")
        elif kind == "exact":
            units, price = draw.decimal(1, 9, 2), draw.decimal(20, 30, 2) // ONE * ONE
            cents = in_cents(units * price)
            held += units
            cash["EUR"] -= cents
            lines += [f"  Assets:Depot {text(units)} EXACT {{{text(price)} EUR}}", f"  Assets:Bank -{money(cents)} EUR"]
        elif kind == "sale":
            units = min(held, ONE // 2)
            held -= units
            cents = in_cents(units * 28 * ONE)
            cash["EUR"] += cents
            lines += [f"  Assets:Depot -{text(units)} EXACT {{}} @ 28 EUR", f"  Assets:Bank {money(cents)} EUR", "  Income:Gains"]
        elif kind == "exchange":
            cents, rate = 100 * (1 + draw.below(500)), draw.decimal(0, 1, 2)
            got = in_cents(cents * 10**6 * rate)
            cash["USD"] -= cents
            cash["EUR"] += got
            lines += [f"  Assets:Bank -{money(cents)} USD @ {text(rate)} EUR", f"  Assets:Bank {money(got)} EUR"]
        elif kind == "cent":
            while True:
                units, price = draw.decimal(1, 9, 4), draw.decimal(50, 60, draw.of((2, 4)))
                if in_cents(units * price) is not None and units * price % 10**14:
                    break
            cents = in_cents(units * price)
            cash[currency] -= cents
            inexact.append(f"{number} L14")
            if draw.below(3):
                lines += [f"  Assets:Depot {text(units)} FUND {{{text(price)} {currency}}}", f"  Assets:Bank -{money(cents)} {currency}"]
            else:
                lines += [f"  Assets:Bank {text(units)} POINT @ {text(price)} {currency}", f"  Assets:Bank -{money(cents)} {currency}"]
        else:
            while True:
                units, cents = draw.decimal(1, 9, draw.of((4, 6, 8))), 1000 + draw.below(90000)
                if cents * 10**14 % units:
                    break
            cash[currency] -= cents
            inexact.append(f"{number} B5")
            lines += [f"  Assets:Depot {text(units)} WHOLE {{{{{money(cents)} {currency}}}}}", f"  Assets:Bank -{money(cents)} {currency}"]
    return lines, cash, inexact


def main():
    folder, draw = pathlib.Path(sys.argv[1]), Draw(int(sys.argv[2]) if sys.argv[2:] else 59)

    def write(name, lines):
        (folder / name).write_text("".join(line + "\n" for line in lines), encoding="utf-8")

    accounts = ["Assets:North", "Assets:South", "Assets:Depot"]
    plain = "Assets:NorthCash Assets:SouthCash Assets:Bank Expenses:Fees Expenses:Living Income:Gains Income:Salary".split()
    opened = [f'2023-12-01 open {account} "FIFO"' for account in accounts] + [f"2023-12-01 open {account}" for account in plain]
    write("accounts.ledger", [*opened, "2023-12-01 open Equity:Rounding EUR,USD"])
    lines, cash, inexact = north(draw)
    write("north.csv", lines)
    write("north.cash", [f"Assets:NorthCash {money(cash)} USD"])
    write("north.inexact", inexact)
    lines, cash, inexact = south(draw)
    write("south.ledger", lines)
    write("south.inexact", inexact)
    others, of_files = Holder(draw, {"MSFT": (4, 370), "SOL": (8, 90)}), []
    write("south.csv", rows(draw, "C", others, "USD", 40, of_files))
    write("south-csv.inexact", of_files)
    write("south.cash", [f"Assets:SouthCash {money(cash)} EUR", f"Assets:SouthCash {money(others.cash)} USD"])
    lines, cash, inexact = moved(draw)
    write("moved.ledger", lines)
    write("moved.cash", [f"Assets:Bank {money(cash[currency])} {currency}" for currency in sorted(cash)])
    write("moved.inexact", inexact)


if __name__ == "__main__":
    main()
