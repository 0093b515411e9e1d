"""A plain book of its own, for the ledger text of reader.py: lots by FIFO, whole costs by the rules of the rounding account.

It reads the few forms that a profile's rows come to, checks that each transaction balances but for a crumb, and sums what is compared
with the truth of a made year.
"""

import datetime
import re
from fractions import Fraction

ONE = 10**8
POSTING = re.compile(r"  (\S+)(?: (-?[0-9.]+) (\S+?)(?: (\{.*?\}+))?(?: (@@?) ([0-9.]+) (\S+))?)?")


class Refused(Exception):
    """A transaction that the book doesn't take."""


def nearest(value):
    return Fraction(round(value * ONE), ONE)


class Book:
    def __init__(self, within):
        self.within, self.lots, self.plain, self.gains, self.crumbs, self.opened = within, [], {}, {}, Fraction(0), 0

    def held(self, account, symbol):
        return sorted((lot for lot in self.lots if lot.key[:2] == (account, symbol)), key=lambda lot: (lot.key[2], lot.opened))

    def add(self, account, symbol, day, currency, number, units):
        key = (account, symbol, day, currency, number)
        for lot in self.lots:
            if lot.key == key:
                lot.units += units
                return
        self.opened += 1
        self.lots.append(Lot(key, units, self.opened))

    def take(self, lot, units):
        if lot.units < units:
            raise Refused("B3")
        lot.units -= units
        if not lot.units:
            self.lots.remove(lot)

    def book(self, text):
        """One transaction of ledger text."""
        head, *postings = text.rstrip("\n").split("\n")
        day = datetime.date.fromisoformat(head[:10])
        if " price " in head[:17]:
            return
        residuals, elided = {}, None
        for line in postings:
            found = POSTING.fullmatch(line)
            if not found:
                raise Refused(f"form: {line}")
            account, units, commodity, braces, at, total, currency = found.groups()
            if units is None:
                elided = account
                continue
            for weighed, weight in self.post(day, account, Fraction(units), commodity, braces, at, total and Fraction(total), currency):
                residuals[weighed] = residuals.get(weighed, 0) + weight
        for currency, residual in residuals.items():
            if elided:
                fill = -nearest(residual)
                self.plain[elided, currency] = self.plain.get((elided, currency), 0) + fill
                residual += fill
            if abs(residual) > self.within:
                raise Refused(f"L14: {residual} {currency} in {text}")
            self.crumbs += abs(residual)

    def post(self, day, account, units, commodity, braces, at, total, currency):
        if braces is None:
            self.plain[account, commodity] = self.plain.get((account, commodity), 0) + units
            if at is None:
                return [(commodity, units)]
            return [(currency, total if units > 0 else -total if units else Fraction(0))] if at == "@@" else [(currency, units * total)]
        if units == 0:
            raise Refused("B6")
        if braces == "{}":
            return self.sell(day, account, -units, commodity, at, total, currency)
        found = re.fullmatch(r"(\{\{?)([0-9.]+) (\S+?)(?:, ([0-9-]+))?\}+", braces)
        number, lot_day = Fraction(found[2]), datetime.date.fromisoformat(found[4]) if found[4] else day
        whole = found[1] == "{{"
        if whole:
            number, stated = nearest(number / abs(units)), number
        if units > 0:
            self.add(account, commodity, lot_day, found[3], number, units)
        else:
            lots = [lot for lot in self.held(account, commodity) if lot.key[2:] == (lot_day, found[3], number)]
            if not lots:
                raise Refused("B1")
            self.take(lots[0], -units)
        # What the transaction states counts; the rounding account has the rest.
        if whole:
            self.crumbs += abs(abs(units) * number - stated)
            if abs(abs(units) * number - stated) > self.within:
                raise Refused("a crumb is too large")
            return [(found[3], stated if units > 0 else -stated)]
        return [(found[3], units * number)]

    def sell(self, day, account, units, commodity, at, total, currency):
        left, weights, cost, currencies = units, [], Fraction(0), set()
        for lot in self.held(account, commodity):
            part = min(left, lot.units)
            if part:
                self.take(lot, part)
                weights.append((lot.key[3], -part * lot.key[4]))
                cost += part * lot.key[4]
                currencies.add(lot.key[3])
                left -= part
        if left:
            raise Refused(f"B3 {commodity}")
        if at and currencies == {currency}:
            proceeds = total if at == "@@" else units * total
            self.gains[day.year, currency] = self.gains.get((day.year, currency), 0) + proceeds - cost
        return weights

    def split(self, account, symbol, ratio, added):
        """All lots of a symbol are opened again, or the split is refused."""
        lots = self.held(account, symbol)
        units = sum(lot.units for lot in lots)
        if not lots or len(lots) > 60:
            raise Refused("split: no lot, or more than 60")
        if ratio is None:
            if units + added <= 0:
                raise Refused("split: nothing would be left")
            ratio = (units + added) / units
        if max(ratio.numerator, ratio.denominator) > 100:
            raise Refused(f"split: {ratio}: something isn't posted yet")
        if any((lot.units * ratio * ONE).denominator != 1 for lot in lots):
            raise Refused("split: units don't divide")
        for lot in sorted(lots, key=lambda lot: lot.opened):
            self.lots.remove(lot)
            account, symbol, day, currency, number = lot.key
            self.add(account, symbol, day, currency, nearest(number / ratio), lot.units * ratio)

    def sums(self, sign, *beginnings):
        """The plain units of all accounts that begin so, by currency."""
        sums = {}
        for (account, currency), units in self.plain.items():
            if account.startswith(beginnings):
                sums[currency] = sums.get(currency, 0) + sign * units
        return {currency: units for currency, units in sums.items() if units}


class Lot:
    def __init__(self, key, units, opened):
        self.key, self.units, self.opened = key, units, opened
