"""What happened in a made year, kept by itself: lots by FIFO, cash, gains, dividends, taxes and fees, in fractions.

It knows neither profiles nor ledger text: tests/profile/make.py tells it each event, and prints the same event as a broker would.
"""

import datetime
import random
from fractions import Fraction

START = datetime.date(2024, 1, 2)
ONE = 10**8


def cents(value):
    """To cents, half to even."""
    return Fraction(round(value * 100), 100)


def places(value, count):
    return Fraction(round(value * 10**count), 10**count)


class Event:
    """One thing that happened: what it moves, and what a broker prints of it."""

    def __init__(self, kind, day, time, **printed):
        self.kind, self.day, self.time, self.printed = kind, day, time, printed
        self.cash, self.sums, self.lots = [], [], []

    def __getattr__(self, name):
        try:
            return self.__dict__["printed"][name]
        except KeyError:
            raise AttributeError(name) from None

    def got(self, account, currency, amount):
        self.cash.append((account, currency, Fraction(amount)))
        return self

    def counts(self, what, currency, amount):
        self.sums.append((what, currency, Fraction(amount)))
        return self


class World:
    def __init__(self):
        self.cash, self.sums, self.gains, self.lots = {}, {}, {}, []

    def apply(self, event):
        for account, currency, amount in event.cash:
            self.cash[account, currency] = self.cash.get((account, currency), 0) + amount
        for what, currency, amount in event.sums:
            self.sums[what, currency] = self.sums.get((what, currency), 0) + amount
        for change in event.lots:
            getattr(self, change[0])(event, *change[1:])

    def opens(self, event, account, symbol, units, cost, currency, day):
        for lot in self.lots:
            if lot["key"] == (account, symbol, day, currency) and lot["cost"] * units == cost * lot["units"]:
                lot["units"] += units
                lot["cost"] += cost
                lot["by"].append(event)
                return
        self.lots.append({"key": (account, symbol, day, currency), "units": units, "cost": cost, "by": [event]})

    def held(self, account, symbol):
        found = [lot for lot in self.lots if lot["key"][:2] == (account, symbol)]
        return sorted(found, key=lambda lot: lot["key"][2])

    def takes(self, event, account, symbol, units, proceeds, currency):
        left, cost = units, Fraction(0)
        for lot in self.held(account, symbol):
            part = min(left, lot["units"])
            share = lot["cost"] * part / lot["units"]
            lot["units"] -= part
            lot["cost"] -= share
            cost, left = cost + share, left - part
            assert lot["key"][3] == currency or not part
            if not left:
                break
        assert not left, (event.day, symbol)
        self.lots = [lot for lot in self.lots if lot["units"]]
        self.gains[event.day.year, currency] = self.gains.get((event.day.year, currency), 0) + proceeds - cost

    def takes_back(self, event, bought):
        (_, account, symbol, units, cost, currency, day), = bought.lots
        for lot in self.lots:
            if bought in lot["by"] and lot["key"] == (account, symbol, day, currency):
                lot["units"] -= units
                lot["cost"] -= cost
        self.lots = [lot for lot in self.lots if lot["units"]]

    def splits(self, event, account, symbol, ratio):
        for lot in self.held(account, symbol):
            lot["units"] *= ratio

    def truth(self):
        lines = []
        for lot in sorted(self.lots, key=lambda lot: lot["key"][:3]):
            account, symbol, day, currency = lot["key"]
            lines.append(f"lot {account} {symbol} {day} {text(lot['units'])} {text(places(lot['cost'], 8))} {currency}")
        for (year, currency), gain in sorted(self.gains.items()):
            lines.append(f"gain {year} {currency} {text(places(gain, 8))}")
        for (what, currency), amount in sorted(self.sums.items()):
            if amount:
                lines.append(f"{what} {currency} {text(amount)}")
        for (account, currency), amount in sorted(self.cash.items()):
            if amount:
                lines.append(f"cash {account} {currency} {text(amount)}")
        return lines


def text(value):
    assert (value * ONE).denominator == 1, value
    whole, part = divmod(abs(int(value * ONE)), ONE)
    digits = f"{part:08}".rstrip("0")
    return ("-" if value < 0 else "") + str(whole) + ("." + digits if digits else "")


class Plan:
    """A year that is drawn from a fixed seed. Days rise; each event has a later time than those before it on its day."""

    def __init__(self, seed, name, invest=None, basis="amount"):
        self.random, self.basis = random.Random(seed), basis
        self.invest = invest or f"Assets:{name}"
        self.cash_account = f"Assets:{name}:Cash"
        self.events, self.day, self.minute = [], START, 9 * 60
        self.prices, self.world = {}, World()

    # The clock.

    def later(self, least=1, most=9):
        self.day += datetime.timedelta(days=self.random.randint(least, most))
        self.minute = 9 * 60 + self.random.randint(0, 20)
        return self

    def at(self, month, day, year=2024):
        wanted = datetime.date(year, month, day)
        assert wanted >= self.day, (wanted, self.day)
        if wanted > self.day:
            self.day, self.minute = wanted, 9 * 60 + 5
        return self

    def now(self):
        self.minute += self.random.randint(1, 25)
        return datetime.time(self.minute // 60, self.minute % 60, self.random.randint(0, 59))

    def add(self, event):
        self.events.append(event)
        self.world.apply(event)
        return event

    # What happens.

    def price(self, symbol, decimals=2, start=None):
        now = self.prices.get(symbol) or Fraction(start or self.random.randint(20, 400))
        now = places(now * Fraction(self.random.randint(930, 1080), 1000), decimals)
        self.prices[symbol] = now
        return now

    def units_held(self, symbol):
        return sum(lot["units"] for lot in self.world.held(self.invest, symbol))

    def buy(self, symbol, units, price, fee=0, currency="EUR", account=None, amount=None, rate=None, price_currency=None, fee_currency=None, **more):
        """A purchase; `amount` is what was paid, else units times price over the rate, and the fee."""
        return self.deal("buy", symbol, Fraction(units), Fraction(price), Fraction(fee), currency, account, amount, rate, price_currency, fee_currency, more)

    def sell(self, symbol, units, price, fee=0, currency="EUR", account=None, amount=None, rate=None, price_currency=None, fee_currency=None, **more):
        return self.deal("sell", symbol, -Fraction(units), Fraction(price), Fraction(fee), currency, account, amount, rate, price_currency, fee_currency, more)

    def deal(self, kind, symbol, units, price, fee, currency, account, amount, rate, price_currency, fee_currency, more):
        account, price_currency = account or self.cash_account, price_currency or currency
        fee_currency = fee_currency or currency
        beside = fee if fee_currency != currency else Fraction(0)
        gross = cents(units * price / (rate or 1))
        amount = -gross - (fee - beside) if amount is None else Fraction(amount)
        event = Event(
            kind, self.day, self.now(), symbol=symbol, units=units, price=price, fee=fee, currency=currency, account=account, amount=amount,
            gross=gross, rate=rate, price_currency=price_currency, fee_currency=fee_currency, **more,
        )
        event.got(account, currency, amount)
        if beside:
            event.got(account, fee_currency, -beside).counts("fees", fee_currency, beside)
        elif fee and self.basis == "price":
            event.counts("fees", fee_currency, fee)
        worth, held_in = (abs(amount), currency) if self.basis == "amount" else (abs(units * price), price_currency)
        if kind == "buy":
            event.lots.append(("opens", self.invest, symbol, units, worth, held_in, self.day))
        else:
            event.lots.append(("takes", self.invest, symbol, -units, worth, held_in))
        return self.add(event)

    def cancel(self, bought):
        """A purchase is cancelled: the broker takes its own lot back."""
        event = Event("cancel", self.day, self.now(), **{**bought.printed, "units": -bought.units, "amount": -bought.amount, "fee": -bought.fee})
        event.got(bought.account, bought.currency, -bought.amount)
        if bought.fee and self.basis == "price":
            event.counts("fees", bought.fee_currency, -bought.fee)
        event.lots.append(("takes_back", bought))
        return self.add(event)

    def cash(self, kind, amount, currency="EUR", account=None, counts=None, **more):
        """Cash alone: a deposit, interest, a fee, a tax, a dividend. `counts` is the sum that it goes to, and its sign there."""
        event = Event(kind, self.day, self.now(), amount=Fraction(amount), currency=currency, account=account or self.cash_account, **more)
        event.got(event.account, currency, event.amount)
        if counts:
            event.counts(counts[0], currency, counts[1] * event.amount)
        return self.add(event)

    def dividend(self, symbol, net, tax=0, currency="EUR", account=None, tax_currency=None, booked=None, booked_currency=None, **more):
        net, tax = Fraction(net), Fraction(tax)
        tax_currency = tax_currency or currency
        event = Event(
            "dividend", self.day, self.now(), symbol=symbol, amount=net, tax=tax, currency=currency, account=account or self.cash_account,
            tax_currency=tax_currency, booked=booked, booked_currency=booked_currency, **more,
        )
        if booked is None:
            event.got(event.account, currency, net)
        else:
            event.got(event.account, booked_currency, booked)
        event.counts("dividends", currency, net)
        if tax:
            event.counts("dividends", tax_currency, tax).counts("taxes", tax_currency, tax)
        return self.add(event)

    def exchange(self, amount, currency, other, other_currency, fee=0, fee_currency=None, account=None, other_account=None, **more):
        """`amount` and `other` are what the two cash accounts got; a fee in the first's currency is in its amount."""
        amount, other, fee = Fraction(amount), Fraction(other), Fraction(fee)
        event = Event(
            "exchange", self.day, self.now(), amount=amount, currency=currency, other=other, other_currency=other_currency, fee=fee,
            fee_currency=fee_currency or currency, account=account or self.cash_account, other_account=other_account or account or self.cash_account, **more,
        )
        event.got(event.account, currency, amount).got(event.other_account, other_currency, other)
        if fee:
            event.counts("fees", event.fee_currency, fee)
            if event.fee_currency != currency:
                event.got(event.account, event.fee_currency, -fee)
        return self.add(event)

    def reward(self, symbol, units, value, currency="EUR", **more):
        units, value = Fraction(units), Fraction(value)
        event = Event("reward", self.day, self.now(), symbol=symbol, units=units, amount=value, currency=currency, account=self.cash_account, **more)
        event.counts("rewards", currency, value)
        event.lots.append(("opens", self.invest, symbol, units, value, currency, self.day))
        return self.add(event)

    def transfer(self, symbol, units, cost, currency, day, **more):
        units, cost = Fraction(units), Fraction(cost)
        event = Event("transfer", self.day, self.now(), symbol=symbol, units=units, cost=cost, currency=currency, cost_day=day, account=self.cash_account, **more)
        event.lots.append(("opens", self.invest, symbol, units, cost, currency, day))
        return self.add(event)

    def split(self, symbol, new, old=1, **more):
        ratio = Fraction(new, old)
        held = self.units_held(symbol)
        event = Event("split", self.day, self.now(), symbol=symbol, new=new, old=old, added=held * (ratio - 1), account=self.cash_account, **more)
        event.lots.append(("splits", self.invest, symbol, ratio))
        if symbol in self.prices:
            self.prices[symbol] = places(self.prices[symbol] / ratio, 2)
        return self.add(event)

    def says(self, kind, **more):
        """A row that moves nothing."""
        event = Event(kind, self.day, self.now(), account=self.cash_account, **more)
        return self.add(event)

    def truth_until(self, day):
        world = World()
        for event in self.events:
            if event.day <= day:
                world.apply(event)
        return world.truth()
