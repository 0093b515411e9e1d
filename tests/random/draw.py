"""Draws small ledgers from a seed: few accounts and commodities, so that commands meet each other often.

The drawing follows the book by the plain judge: a sale can then be drawn to take exactly what is held, and postings to
balance. `small` draws what any call takes; `with_crumbs` draws ledgers for a call with a rounding account, whose amounts have
few decimals.
"""

import datetime
import random

import model
from model import Amount, Booked, Cost, Leg, LotKey, Posting, Price

ACCOUNTS = ("Assets:Broker", "Assets:Broker:B", "Assets:Cash", "Income:Gains", "Equity:Start", "Liabilities:2nd-Loan")
NAMES = ("HOOL", "ABC", "V", "X'Y_Z-1", "HOOL.B", "USD", "EUR", "CHF")
LABELS = (None, None, None, "a", "b", "é", "a lot; {}", "L" * 64)
TIED_LABELS = (None, "a", "b", "B", "ab", "é")
PLAIN_NOTES = ("", "Buy", "Zürich", "{1 USD} ; * @ 5", "a\tb", "N" * 1000)
NOTES_WITH_ESCAPES = ('say "x"', "a\\b", '"' * 1000, "\\" * 1000)
STARTS = ("2020-02-25", "2020-02-25", "2020-02-25", "0001-01-01", "9999-12-20", "1999-12-28", "2100-02-26")

UNITS = tuple(
    int(units * model.ONE) for units in (1, 1, 1, 2, 2, 3, 4, 5, 6, 10, 12, 20, 100, 0.5, 0.25, 1.5)
)
RATES = tuple(int(rate * model.ONE) for rate in (0, 1, 1, 2, 2, 3, 4, 10, 100, 120, 0.5, 0.25))
FINE = (1, 1, 10, model.ONE + 1)
GREAT_UNITS = tuple(model.UNITS_LIMIT - less for less in (1, 1, model.ONE, 2 * model.ONE)) + (model.UNITS_LIMIT // 2,)
GREAT_RATES = (model.RATE_LIMIT - 1, model.RATE_LIMIT - model.ONE, model.RATE_LIMIT // 10)


EVERY = Cost(False, None, None, None, None)  # the specification that every lot fits


def whole_key(key):
    """The specification that has all parts of this key."""
    return Cost(False, key.number, key.currency, key.day, key.label)


class Drawing:
    def __init__(self, seed):
        self.rng = random.Random(seed)
        self.rounding = None
        self.book = []
        self.judged = []
        self.day = datetime.date.fromisoformat(self.rng.choice(STARTS))
        self.names = self.rng.sample(NAMES, 4)
        self.accounts = self.rng.sample(ACCOUNTS, self.rng.randint(2, 4))
        self.great = self.rng.choice((0.005, 0.005, 0.005, 0.25))  # how often a number is near the limit of its kind
        self.fine = self.rng.choice((0.005, 0.005, 0.3))  # how often it has the last decimal
        self.back = self.rng.choice((0, 0.05, 0.2))
        self.tidy = self.rng.choice((0.5, 0.9, 0.98, 0.98))  # how often a command is drawn to be accepted
        self.side = self.rng.choice((1, 1, -1))  # whether lots are mostly bought or sold short
        self.sales = 0.2  # how often a posting with braces is drawn to take lots
        self.tied = self.rng.choice((0, 0, 0.8))  # how often a new lot has a day and a number of these few
        self.tied_days = [self.today(), (2019, 12, 31)]
        self.tied_rates = [self.rng.choice(RATES), self.rng.choice(RATES)]

    def chance(self, p):
        return self.rng.random() < p

    def pick(self, items):
        return self.rng.choice(items)

    def judge(self, command):
        """Adds a command to the list, and to the book where it is accepted."""
        try:
            self.book.append(model.judge_with(self.book, command, self.rounding))
            self.judged.append(model.Judged(command, self.book[-1], None))
        except model.Refused as refused:
            self.judged.append(model.Judged(command, None, refused))

    # Parts of commands.

    def today(self):
        return self.day.year, self.day.month, self.day.day

    def next_day(self):
        """Mostly today or soon after it, now and then before it."""
        day = self.day
        try:
            if self.chance(self.back):
                day -= datetime.timedelta(self.pick((1, 1, 2, 5, 40)))
            else:
                self.day += datetime.timedelta(self.pick((0, 0, 1, 1, 2, 3)))
                day = self.day
        except OverflowError:
            pass
        return day.year, day.month, day.day

    def account(self):
        if self.chance((1 - self.tidy) / 6):
            return self.pick(ACCOUNTS)
        return self.pick(self.accounts[:1] * 3 + self.accounts)

    def number(self, great, usual):
        return self.pick(great if self.chance(self.great) else FINE if self.chance(self.fine) else usual)

    def rate(self):
        return self.number(GREAT_RATES, RATES)

    def units(self):
        if self.chance((1 - self.tidy) / 5):
            return 0
        units = self.number(GREAT_UNITS, UNITS)
        return self.side * (units if self.chance(0.85) else -units)

    def price(self, currency):
        if self.chance(0.5):
            return None
        currency = currency if currency and self.chance(0.8) else self.pick(self.names)
        if self.chance(0.6):
            return Price(False, self.rate(), currency)
        return Price(True, self.pick((0, 1, 100 * model.ONE, self.rate(), model.UNITS_LIMIT - 1)), currency)

    # Postings.

    def opening_cost(self, units):
        """A cost as for a new lot, mostly complete."""
        number, currency = self.rate(), self.pick(self.names[1:3])
        day = self.next_day() if self.chance(0.2) else None
        label = self.pick(LABELS)
        if self.chance(self.tied):
            day, number, label = self.pick(self.tied_days), self.pick(self.tied_rates), self.pick(TIED_LABELS)
        if self.chance((1 - self.tidy) / 3):
            number, currency = self.pick(((None, currency), (number, None), (None, None)))
        if number is None or self.chance(0.75):
            return Cost(False, number, currency, day, label)
        total = number * abs(units) // model.ONE
        if not 0 < total < model.UNITS_LIMIT or self.chance((1 - self.tidy) / 2):
            total = self.pick((0, model.ONE, 100 * model.ONE, 1, model.UNITS_LIMIT - 1))
        return Cost(True, total, currency, day, label)

    def part_of(self, key):
        """A specification that this key fits, of some of its parts."""
        if self.chance(0.6):
            return EVERY
        parts = [part if self.chance(0.4) else None for part in (key.number, key.currency, key.day, key.label)]
        return Cost(False, *parts)

    def reduction(self, account, commodity, lots):
        """A posting that is drawn to take some of these lots, which have one sign."""
        key = self.pick(sorted(lots, key=model.key_order))
        cost = self.part_of(key)
        fitting = [units for other, units in lots.items() if model.fits(cost, cost.number, other)]
        some = sum(self.rng.sample(fitting, self.rng.randint(1, len(fitting))))
        units = self.pick((sum(fitting), sum(fitting), some, some, lots[key], lots[key] // 2, self.units(), 2 * sum(fitting)))
        if abs(units) >= model.UNITS_LIMIT:
            units = lots[key]
        if self.chance(0.2):
            total = key.number * abs(units) // model.ONE
            if total < model.UNITS_LIMIT:
                cost = cost._replace(whole=True, number=total)
        return Posting(account, Amount(-units, commodity, cost, self.price(key.currency)))

    def at_cost(self, earlier):
        if earlier and self.chance(0.2):  # the other way round, or the same once more
            account, (units, commodity, cost, price) = self.pick(earlier)
            if cost is not None:
                return Posting(account, Amount(self.pick((-units, -units, units, self.units())), commodity, cost, price))
        held = model.Held(self.book)
        pairs = [pair for pair in held.pairs() if held.lots_of(pair)]
        if self.chance(self.tied / 4) and (leg := self.earlier_leg()):  # to a lot that is there, or was
            return Posting(leg.account, Amount(self.units(), leg.commodity, whole_key(leg.key), None))
        if pairs and self.chance(self.sales):
            pair = self.pick(pairs)
            lots = held.lots_of(pair)
            sign = self.pick(sorted(lots.values())) > 0  # under NONE there may be both
            return self.reduction(*pair, {key: units for key, units in lots.items() if (units > 0) == sign})
        units = self.units()
        commodity = self.names[0] if self.chance(0.8) else self.names[1]
        cost = self.opening_cost(units)
        return Posting(self.account(), Amount(units, commodity, cost, self.price(cost.currency)))

    def earlier_leg(self):
        """A leg at a lot, of any accepted transaction, or none."""
        legs = [leg for entry in self.book for booked in entry.booked for leg in booked.legs if leg.key is not None]
        return self.pick(legs) if legs else None

    def emptied_and_opened(self):
        """Postings that empty a lot and open it again, once or twice, and perhaps take something between, or none."""
        held = model.Held(self.book)
        lots = [(pair, key) for pair, lots in sorted(held.lots.items()) for key in sorted(lots, key=model.key_order) if key.label]
        if not lots:
            return []
        (account, commodity), key = self.pick(lots)
        units = held.lots_of((account, commodity))[key]
        postings = []
        for _ in range(self.pick((1, 1, 2))):
            again = self.pick((units, self.units()))
            postings.append(Posting(account, Amount(-units, commodity, whole_key(key), None)))
            if self.chance(0.3):
                postings.append(Posting(account, Amount(-self.units(), commodity, EVERY, None)))
            postings.append(Posting(account, Amount(again, commodity, whole_key(key), None)))
            units = again
        return postings

    def plain(self):
        units, commodity = self.units(), self.pick(self.names)
        return Posting(self.account(), Amount(units, commodity, None, self.price(None)))

    def brimful(self):
        """Postings near the limit of units, in two currencies."""
        return [Posting(self.account(), Amount(self.pick(GREAT_UNITS), name, None, None)) for name in self.names[1:3]]

    def weightless(self):
        """A posting whose weight is zero, so that a currency appears before it counts."""
        units = self.pick((0, 0, model.ONE))
        price = Price(self.chance(0.5), 0, self.pick(self.names)) if units else self.price(None)
        return Posting(self.account(), Amount(units, self.pick(self.names), None, price))

    def scattered(self):
        """Small postings in two or three currencies, some of which appear with a weight of zero."""
        names = self.rng.sample(self.names, self.pick((2, 2, 3)))
        postings = []
        for _ in range(self.rng.randint(2, 6)):
            price = Price(False, self.pick((0, model.ONE)), self.pick(names)) if self.chance(0.3) else None
            units = self.pick((-1, 0, 0, 1)) * model.ONE
            postings.append(Posting(self.accounts[0], Amount(units, self.pick(names), None, price)))
        return postings

    # Commands.

    def opening(self, account):
        currencies = ()
        if self.chance(0.2):
            currencies = tuple(self.pick(self.names) for _ in range(self.pick((1, 2, 3, 3, 64))))
        day = self.next_day()
        if self.chance(0.06) and day < (9999, 12, 1):  # some days from now
            later = datetime.date(*day) + datetime.timedelta(self.pick((1, 2, 3, 5, 10)))
            day = later.year, later.month, later.day
        return model.Opening(day, account, currencies, self.pick(model.METHODS))

    def transaction(self):
        postings = []
        for _ in range(self.pick((0, 1, 1, 1, 2, 2, 3, 4))):
            earlier = [posting for posting in postings if posting.amount is not None]
            postings.append(self.at_cost(earlier) if self.chance(0.75) else self.plain())
        if self.chance(self.tied / 4):
            postings = self.emptied_and_opened() + self.pick(([], postings[:1]))
        if self.chance(self.great / 2):
            postings += self.brimful()
        if self.chance(0.1):
            postings.insert(0, self.weightless())
        if self.chance(0.01):
            postings += [self.weightless()] * (self.pick((63, 64, 64, 65, 66)) - len(postings))
        day = self.next_day()
        payee, narration = None, None
        if self.chance(0.3):
            narration = self.pick(PLAIN_NOTES)
        flag = self.pick("*!")
        if narration is not None and self.chance(0.4):
            narration = self.pick(NOTES_WITH_ESCAPES)
        if narration is not None and self.chance(0.3):
            payee = self.pick(PLAIN_NOTES + NOTES_WITH_ESCAPES)

        def of(postings):
            return model.Transaction(day, flag, payee, narration, tuple(postings))

        ending = self.rng.random()
        if self.chance(0.03):
            postings, ending = self.scattered(), 0.85 + ending / 4
        if ending < 0.92:
            account = self.account()
            place = self.rng.randint(0, len(postings)) if self.chance(0.3) else len(postings)
            elided = postings[:place] + [Posting(account, None)] + postings[place:]
            if ending > 0.45 and (fill := self.fill(of(elided), place)) is not None:
                if fill and self.chance(1 - self.tidy):  # not quite what balances
                    leg = fill.pop()
                    fill.append(leg._replace(units=leg.units + (1 if leg.units < 0 else -1)))
                plain = [Posting(account, Amount(leg.units, leg.commodity, None, None)) for leg in fill]
                return of(postings[:place] + plain + postings[place:])
            postings = elided
        if self.chance((1 - self.tidy) / 4):
            postings.append(Posting(self.account(), None))
        return of(postings)

    def fill(self, command, place):
        """The legs that the elided posting at this place takes, or none where the command is refused."""
        try:
            return list(model.judge(self.book, command).booked[place].legs)
        except model.Refused:
            return None

    def command(self):
        kind = self.rng.random()
        if kind < 0.04:
            return self.opening(self.account())
        if kind > 0.18:
            return self.transaction()
        if kind < 0.06:
            return model.Closing(self.next_day(), self.account())
        if kind < 0.13:
            return model.Declaring(self.next_day(), self.pick(self.names))
        return model.Quoting(self.next_day(), self.pick(self.names), self.rate(), self.pick(self.names))

    def ties(self):
        """Opens several lots that tie in any order, in one transaction or in some, opens some of them again, then takes from them."""
        rng, account, commodity = self.rng, self.accounts[0], self.names[0]
        count = self.pick((2, 2, 3, 3, 3, 3, 20))
        of_one_number = model.opening_of(self.book, account).method == "HIFO"
        days, rates = (self.tied_days, self.tied_rates[:1]) if of_one_number else (self.tied_days[:1], RATES)
        labels = TIED_LABELS if count < 20 else [*TIED_LABELS, *(f"{number:02}" for number in range(20))]
        keys = {LotKey(self.pick(days), self.pick(self.names[1:3]), self.pick(rates), self.pick(labels)) for _ in range(9 * count)}
        keys = rng.sample(sorted(keys, key=model.key_order), count)
        postings = [Posting(account, Amount(self.side * self.pick(UNITS), commodity, whole_key(key), None)) for key in keys]
        self.in_some_transactions(postings)
        if self.chance(0.5):
            self.in_some_transactions(self.emptied_and_opened())
        for _ in range(rng.randint(1, 3)):
            lots = model.Held(self.book).lots_of((account, commodity))
            if lots:
                units = sum(rng.sample(sorted(lots.values()), rng.randint(1, len(lots)))) - self.pick((0, 0, self.side))
                units = max(1 - model.UNITS_LIMIT, min(units, model.UNITS_LIMIT - 1))
                self.in_some_transactions([Posting(account, Amount(-units, commodity, EVERY, self.price(self.names[1])))])

    def in_some_transactions(self, postings):
        """Judges these postings in their order, in one transaction of today or in some, each with an elided posting."""
        while postings:
            count = self.pick((1, 1, 2, len(postings)))
            some, postings = postings[:count], postings[count:]
            some.insert(self.rng.randint(0, len(some)), Posting(self.pick(self.accounts), None))
            self.judge(model.Transaction(self.today(), "*", None, None, tuple(some)))

    def small(self):
        has_ties = self.tied and self.chance(0.8)
        if has_ties:
            self.judge(model.Opening(self.today(), self.accounts[0], (), self.pick(("FIFO", "LIFO", "HIFO"))))
        for account in self.accounts[has_ties:]:
            if self.chance(0.98):
                self.judge(self.opening(account))
        if has_ties:
            self.ties()
        purchases, sales = self.rng.randint(1, 9), self.rng.randint(0, 8)
        for turn in range(purchases + sales):
            self.sales = 0.2 if turn < purchases else 0.8
            self.judge(self.command())

    def crowded(self, method):
        """An account that is filled nearly to the greatest number of lots, then postings about that limit.

        The purchases that fill it are plain, so their entries are made here, without the judge.
        """
        day = (2020, 1, 1)
        broker, other = ACCOUNTS[:2]
        self.judge(model.Opening(day, broker, (), method))
        self.judge(model.Opening(day, other, (), "NONE"))

        def lot(account, number, units):
            return Posting(account, Amount(units * model.ONE, "HOOL", Cost(False, number, "USD", None, None), None))

        def paid(postings):
            return model.Transaction(day, "*", None, None, (*postings, Posting(other, None)))

        filled = model.MOST_LOTS - self.rng.randint(1, 20)
        for number in self.rng.sample(range(filled), filled):  # they are of one day, and are opened in any order
            leg = Leg(broker, "HOOL", LotKey(day, "USD", number, None), 2 * model.ONE)
            fill = (Leg(other, "USD", None, -2 * number),) if number else ()
            command = paid([lot(broker, number, 2)])
            self.book.append(model.Entry(command, (Booked(False, (leg,)), Booked(False, fill))))
            self.judged.append(model.Judged(command, self.book[-1], None))
        for turn in range(20):
            new = range(filled + 20 * turn, filled + 20 * turn + self.rng.randint(0, 20))
            postings = [lot(self.pick((broker, broker, other)), number, 1) for number in new]
            for _ in range(self.rng.randint(0, 5)):
                postings.append(lot(broker, self.rng.randint(0, 200), -2))
            if method != "NONE" and self.chance(0.5):
                postings.append(Posting(broker, Amount(-self.rng.randint(1, 9) * model.ONE, "HOOL", EVERY, None)))
            self.rng.shuffle(postings)
            self.judge(paid(postings))


ROUNDING = "Equity:Rounding"
WITHIN = tuple(int(within * model.ONE) for within in (0.005, 0.005, 0.005, 0.01, 0.05, 1, 0.00000001)) + (0,)
DECIMALS = (8, 8, 8, 2, 2, 2, 0, 1, 3, 4, 5, 6, 7)


class CrumbDrawing(Drawing):
    """Deals as brokers and other books have them: units of some decimals, prices and cash of few, and whole costs."""

    def __init__(self, seed):
        super().__init__(seed)
        account = ROUNDING if self.chance(0.9) else self.pick(self.accounts)
        self.rounding = model.Rounding(account, self.pick(WITHIN), self.pick(DECIMALS))
        self.tied = 0
        self.general = self.pick((0, 0.1, 0.1, 0.5))  # how often a transaction is drawn as for any call

    def decimals(self, most, *decimals):
        """A number above zero and up to this whole one, with some of these numbers of decimals."""
        count = self.pick(decimals)
        return self.rng.randint(1, most * 10**count) * 10 ** (8 - count)

    def cents(self, weight, decimals=2):
        """The nearest units with so many decimals, of a weight."""
        units = model.rounded(weight, decimals) // model.ONE
        return units if abs(units) < model.UNITS_LIMIT else 0

    def currency(self):
        return self.pick(self.names[1:3])

    def priced(self, units, price):
        """A price at this rate, of each unit or as a total in cents."""
        if self.chance(0.7):
            return Price(False, price, self.currency())
        return Price(True, self.cents(abs(units) * price, self.pick((2, 2, 4))), self.currency())

    def bought(self):
        units, price = self.decimals(20, 4, 6, 8, 8, 2, 0), self.decimals(200, 2, 2, 4, 6, 8)
        day = self.today() if self.chance(0.1) else None
        label, whole, currency = self.pick(LABELS), self.chance(0.6), self.currency()
        number = price
        if whole:
            number = self.cents(units * price) + self.pick((0, 0, 99, 495)) * model.ONE // 100
            if self.chance(0.04):
                units, number = self.pick((
                    (1, model.UNITS_LIMIT - 1), (1, model.ONE), (2 * model.ONE + 1, (2 * model.ONE + 1) * model.ONE - 1),
                    (units, 0), (0, number), (self.pick(GREAT_UNITS), number),
                ))  # fmt: skip
            if self.chance(0.05):
                currency = None
        return Posting(self.account(), Amount(self.side * units, self.names[0], Cost(whole, number, currency, day, label), None))

    def sold(self):
        held = model.Held(self.book)
        pairs = [pair for pair in held.pairs() if held.lots_of(pair)]
        if not pairs:
            return self.bought()
        account, commodity = pair = self.pick(pairs)
        lots = held.lots_of(pair)
        key = self.pick(sorted(lots, key=model.key_order))
        cost = self.pick((EVERY, EVERY, whole_key(key)._replace(label=None), Cost(False, None, key.currency, None, None)))
        units = lots[key]
        if self.chance(0.7):
            part = 10 ** self.pick((0, 2, 4, 8))
            units = units * self.rng.randint(1, 9) // 10 // part * part or units
        if self.chance(0.2):
            cost = Cost(True, self.cents(abs(units) * key.number, self.pick((2, 8, 8))), key.currency, None, None)
        price = self.priced(units, min(max(1, key.number * self.rng.randint(8, 12) // 10), model.RATE_LIMIT - 1)) if self.chance(0.8) else None
        return Posting(account, Amount(-units, commodity, cost, price))

    def changed_money(self):
        units, rate = self.decimals(500, 2, 2, 4, 8), self.decimals(3, 4, 5, 6, 8)
        return Posting(self.account(), Amount(self.pick((units, -units)), self.currency(), None, self.priced(units, rate)))

    def fee(self):
        return Posting(self.pick(self.accounts), Amount(self.decimals(5, 2), self.currency(), None, None))

    def crowd(self, postings):
        """Postings of nothing, so that there are about as many as there may be."""
        nothing = Posting(self.accounts[0], Amount(0, self.names[1], None, None))
        return [nothing] * (self.pick((60, 61, 62, 62, 63, 63, 64)) - len(postings)) + postings

    def cash(self, command):
        """Postings that balance it but for crumbs, or a little more, as its totals say."""
        changed = model.with_rates(command)
        try:
            found = model.balance(self.book, changed or command)
        except (model.Refused, AttributeError):
            return [self.fee()]
        said = model.stated(command, changed or command, found.residuals)
        decimals = self.pick((2, 2, 2, 2, 0, 3, 4, 8))
        if self.chance(0.15):  # as what the rates come to
            said, decimals = found.residuals, 8
        postings = []
        for currency, weight in said.items():
            units = -self.cents(weight, decimals) + self.pick((0,) * 12 + (-1, 1, 10**6, -(10**6), 10**5))
            postings.append(Posting(self.account(), Amount(units, currency, None, None)))
        return postings

    def transaction(self):
        if self.chance(self.general):
            return super().transaction()
        draws = [self.pick((self.bought, self.bought, self.sold, self.sold, self.changed_money)) for _ in range(self.pick((1, 1, 1, 2, 2, 3)))]
        postings = [draw() for draw in draws]
        if self.chance(0.3):
            postings.append(self.fee())
        command = model.Transaction(self.next_day(), self.pick("*!"), None, self.pick((None, "Deal", "é")), tuple(postings))
        elided = Posting(self.account(), None)
        ending = self.pick(("cash", "cash", "elided", "cash and elided", "nothing", "two") if self.chance(0.1) else ("cash", "elided", "cash and elided"))
        if ending.startswith("cash"):
            postings += self.cash(command)
        if ending == "cash and elided" and self.chance(0.5):
            postings.pop()
        if self.chance(0.03):
            postings = self.crowd(postings)
        if ending in ("elided", "cash and elided", "two"):
            postings.insert(self.rng.randint(0, len(postings)) if self.chance(0.3) else len(postings), elided)
        if ending == "two":
            postings.append(elided)
        command = command._replace(postings=tuple(postings))
        if self.chance(0.05):
            command = self.at_the_bound(command)
        return command

    def at_the_bound(self, command):
        """The transaction with a bound for its call that its crumb just meets, or just doesn't."""
        try:
            found = model.completion(self.book, command, self.rounding)
        except AttributeError:  # an account isn't open
            return command
        if found and found.crumbs and not any(it.refused or it.entry.command != it.command for it in self.judged):
            greatest = max(map(abs, found.crumbs.values()))
            within = -(-greatest // model.ONE) - self.pick((0, 0, 1))
            if within <= model.ONE:
                self.rounding = self.rounding._replace(within=within)
        return command

    def small(self):
        if self.rounding.account == ROUNDING and self.chance(0.95):
            currencies = () if self.chance(0.7) else tuple(self.names[1:3]) if self.chance(0.7) else (self.names[1],)
            self.judge(self.opening(ROUNDING)._replace(currencies=currencies))
        for account in self.accounts:
            opening = self.opening(account)
            self.judge(opening if self.chance(0.3) else opening._replace(currencies=()))
        if self.chance(0.05):
            self.judge(model.Closing(self.next_day(), self.rounding.account))
        for turn in range(self.rng.randint(4, 16)):
            self.sales = 0.2 if turn < 6 else 0.8
            self.judge(self.command())

    # What is sent again.

    def near(self):
        """A transaction, and one with postings behind it that look like those for a crumb, and may be so or not."""
        currency, others = self.names[1], self.accounts[0]
        cost = self.pick((EVERY, Cost(False, model.ONE, currency, None, None), Cost(True, 5 * model.ONE, currency, None, None), None))
        price = Price(False, 3 * model.ONE, currency) if cost is None else None
        units = -model.ONE if cost == EVERY else 3 * model.ONE if cost and cost.whole else model.ONE
        postings = (Posting(others, Amount(units, self.names[0], cost, price)), Posting(self.pick(self.accounts), None))
        command = model.Transaction(self.today(), "*", None, "near", postings)
        return command, command._replace(postings=(*postings, *self.near_tail(currency)))

    def near_tail(self, currency):
        one, speck = model.ONE, 1
        at = self.rounding.account
        sign = self.pick((1, -1))

        def plain(units, currency=currency):
            return Posting(at, Amount(sign * units, currency, None, None))

        def at_rate(units, rate, account=at, whole=False, of=currency):
            return Posting(account, Amount(sign * units, currency, None, Price(whole, rate, of)))

        other = self.pick([name for name in self.names if name != currency])
        return self.pick((
            [plain(one)], [plain(one), at_rate(speck, 1)], [plain(one - 1), at_rate(speck, one - 1)], [plain(one + 1)], [plain(5)],
            [at_rate(speck, one // 2)], [plain(7), at_rate(speck, one // 3)], [at_rate(speck, one)], [at_rate(speck, 0)],
            [at_rate(2, one // 2)], [at_rate(speck, one, whole=True)], [at_rate(speck, one, of=other)], [plain(7, other)], [plain(0)],
            [plain(7), at_rate(speck, one // 2, account=self.pick(self.accounts))], [plain(3), plain(4, other)],
        ))  # fmt: skip

    def sent_again(self, asked, stored):
        """What is sent under the key of a command that stands, or was refused: that again, mostly, or something near it."""
        if stored is None or not isinstance(asked, model.Transaction) or self.chance(0.5):
            return asked
        kind = self.rng.random()
        if kind < 0.3:
            return stored
        if kind < 0.5 and stored.postings:
            return stored._replace(postings=stored.postings[:-1])
        if kind < 0.6:
            return asked._replace(flag="!" if asked.flag == "*" else "*")
        if kind < 0.7:
            return asked._replace(narration="another")
        postings = list(asked.postings)
        places = [place for place, posting in enumerate(postings) if posting.amount]
        if not places:
            return asked
        place = self.pick(places)
        account, amount = postings[place]
        units = amount.units + self.pick((1, -1, 10**6))
        cost = amount.cost
        if cost and cost.number is not None and self.chance(0.7):
            most = (model.UNITS_LIMIT if cost.whole else model.RATE_LIMIT) - 1
            number = min(max(0, cost.number + self.pick((1, -1, 2, 10**6))), most)
            cost, units = cost._replace(number=number), amount.units
        if abs(units) < model.UNITS_LIMIT:
            postings[place] = Posting(account, amount._replace(units=units, cost=cost))
        return asked._replace(postings=tuple(postings))


def small(seed):
    """The drawing of this seed: its `judged` commands and its `book`."""
    drawing = Drawing(seed)
    drawing.small()
    return drawing


def crowded(seed, method):
    """Likewise, of an account of this method that holds some 10,000 lots."""
    drawing = Drawing(seed)
    drawing.crowded(method)
    return drawing


def with_crumbs(seed):
    """Likewise, for a call with the `rounding` of the drawing."""
    drawing = CrumbDrawing(seed)
    drawing.small()
    return drawing
