"""A plain judge of commands, written from docs/RULES.md alone.

A book is the list of its entries, and an entry is a command with its legs. What is held is summed anew for each command,
over all legs of the book; each condition of a refusal looks over all entries. Numbers are mantissas: of units, totals and
rates at scale 8, of weights at scale 16. Days are triples (year, month, day). Entries and postings count from 1.

With a rounding account a command that doesn't balance by a crumb is judged once more, as its completion.
"""

from typing import NamedTuple, Optional, Tuple, Union

ONE = 10**8
UNITS_LIMIT = 10**18
RATE_LIMIT = 10**16
MOST_POSTINGS = 64
MOST_LOTS = 10_000
METHODS = ("STRICT", "FIFO", "LIFO", "HIFO", "NONE")

Day = Tuple[int, int, int]


class Opening(NamedTuple):
    day: Day
    account: str
    currencies: Tuple[str, ...]
    method: str


class Closing(NamedTuple):
    day: Day
    account: str


class Declaring(NamedTuple):
    day: Day
    commodity: str


class Quoting(NamedTuple):
    day: Day
    base: str
    rate: int
    quote: str


class Cost(NamedTuple):
    """A cost specification, or with `whole` a whole cost: `number` is then the total."""

    whole: bool
    number: Optional[int]
    currency: Optional[str]
    day: Optional[Day]
    label: Optional[str]


class Price(NamedTuple):
    whole: bool
    amount: int
    currency: str


class Amount(NamedTuple):
    units: int
    commodity: str
    cost: Optional[Cost]
    price: Optional[Price]


class Posting(NamedTuple):
    account: str
    amount: Optional[Amount]  # none: the posting is elided

    @property
    def braces(self):
        return self.amount is not None and self.amount.cost is not None

    @property
    def pair(self):
        return self.account, self.amount.commodity


class Transaction(NamedTuple):
    day: Day
    flag: str
    payee: Optional[str]
    narration: Optional[str]
    postings: Tuple[Posting, ...]


Command = Union[Opening, Closing, Declaring, Quoting, Transaction]


class Rounding(NamedTuple):
    account: str  # which takes the crumbs
    within: int  # the most that one may be, at scale 8
    decimals: int  # of the fill, and of the cash of a row


class Cash(NamedTuple):
    """The cash of a row: the place of its posting, and how much it is exactly, at scale 16."""

    place: int
    exact: int


class Asked(NamedTuple):
    """A command as it is handed in."""

    command: Command
    cash: Optional[Cash] = None  # none: it isn't of a row


class LotKey(NamedTuple):
    day: Day
    currency: str
    number: int
    label: Optional[str]


class Leg(NamedTuple):
    account: str
    commodity: str
    key: Optional[LotKey]  # none: the leg is plain
    units: int


class Booked(NamedTuple):
    """What a posting came to."""

    reduces: bool
    legs: Tuple[Leg, ...]


class Entry(NamedTuple):
    command: Command
    booked: Tuple[Booked, ...]  # for each posting, in the order written

    def legs(self):
        return [leg for booked in self.booked for leg in booked.legs]


class Refused(Exception):
    """A refusal: its code with its name, and its argument or an empty text."""

    def __init__(self, code, argument=""):
        super().__init__(code, argument)
        self.code = code
        self.argument = argument


def at(place):
    return f"posting {place}"


# What a book says.


def opening_of(book, account):
    for entry in book:
        if isinstance(entry.command, Opening) and entry.command.account == account:
            return entry.command
    return None


def closing_of(book, account):
    for entry in book:
        if isinstance(entry.command, Closing) and entry.command.account == account:
            return entry.command
    return None


def latest_at_cost(book, pair):
    """The latest day of a transaction that posted with braces to this account and commodity, or none."""
    days = [
        entry.command.day
        for entry in book
        if isinstance(entry.command, Transaction)
        for posting in entry.command.postings
        if posting.braces and posting.pair == pair
    ]
    return max(days, default=None)


def opening_number(entry, place):
    """That of a lot whose sum was zero before a leg of the posting at this place of an entry, and not zero since."""
    return MOST_POSTINGS * (entry - 1) + place


class Held:
    """The sums of units over all legs of a book that aren't zero: plain, and by lot key, of pairs of account and commodity.

    Each lot has its opening number beside its sum.
    """

    def __init__(self, book):
        self.plain = {}
        self.lots = {}
        self.openings = {}
        for number, entry in enumerate(book, 1):
            for place, booked in enumerate(entry.booked, 1):
                for leg in booked.legs:
                    self.add(leg, opening_number(number, place))

    def add(self, leg, opening):
        """Adds a leg, and returns what is then held at its place. A lot that was empty before it has this opening number."""
        pair = leg.account, leg.commodity
        sums, key = (self.plain, pair) if leg.key is None else (self.lots.setdefault(pair, {}), leg.key)
        if leg.key is not None and key not in sums:
            self.openings.setdefault(pair, {})[key] = opening
        units = sums.pop(key, 0) + leg.units
        if units != 0:
            sums[key] = units
        elif leg.key is not None:
            del self.openings[pair][key]
        return units

    def lots_of(self, pair):
        return self.lots.get(pair, {})

    def openings_of(self, pair):
        return self.openings.get(pair, {})

    def pairs(self):
        return sorted({*self.plain, *(pair for pair, lots in self.lots.items() if lots)})


# Booking one posting.


def label_order(label):
    return (0, b"") if label is None else (1, label.encode())


def key_order(key):
    return key.day, key.currency, key.number, label_order(key.label)


# In which order a method takes lots: each order is of a lot key and an opening number, of which no two lots of a book share one.


def by_key(key, _):
    return key_order(key)


def oldest_first(key, opening):
    return key.day, opening


def newest_first(key, opening):
    return tuple(-part for part in key.day), opening


def highest_first(key, opening):
    return -key.number, opening


METHOD_ORDER = {"STRICT": by_key, "FIFO": oldest_first, "LIFO": newest_first, "HIFO": highest_first}


def rate_of(total, units):
    """The rate of which so many units come to the total, or none."""
    number, rest = divmod(total * ONE, abs(units))
    return number if rest == 0 and number < RATE_LIMIT else None


def fits(cost, number, key):
    return (
        number in (None, key.number)
        and cost.currency in (None, key.currency)
        and cost.day in (None, key.day)
        and cost.label in (None, key.label)
    )


def lots_of_other_sign(lots, units):
    if units > 0:
        return {key: there for key, there in lots.items() if there < 0}
    return {key: there for key, there in lots.items() if there > 0}


def book_at_cost(method, day, posting, lots, opened, place):
    """What a posting with braces comes to, where its account holds these lots of its commodity, with these opening numbers."""
    units, commodity, cost, _ = posting.amount
    if units == 0:
        raise Refused("B6 ZeroUnits", at(place))
    number = cost.number
    if cost.whole:
        number = rate_of(cost.number, units)
        if number is None:
            raise Refused("B5 InexactCost", at(place))
    others = lots_of_other_sign(lots, units) if method != "NONE" else {}
    if not others:
        if number is None or cost.currency is None:
            raise Refused("B4 IncompleteCost", at(place))
        key = LotKey(cost.day or day, cost.currency, number, cost.label)
        return Booked(False, (Leg(posting.account, commodity, key, units),))
    fitting = {key: there for key, there in others.items() if fits(cost, number, key)}
    left = abs(units)
    there_are = sum(abs(there) for there in fitting.values())
    if not fitting:
        raise Refused("B1 NoMatch", at(place))
    if method == "STRICT" and len(fitting) > 1 and left != there_are:
        raise Refused("B2 Ambiguous", at(place))
    if there_are < left:
        raise Refused("B3 NotEnough", at(place))
    sign = 1 if units > 0 else -1
    legs = []
    for key in sorted(fitting, key=lambda key: METHOD_ORDER[method](key, opened[key])):
        taken = min(left, abs(fitting[key]))
        left -= taken
        if taken:
            legs.append(Leg(posting.account, commodity, key, sign * taken))
    return Booked(True, tuple(legs))


def weights(posting, booked):
    """The weights of a posting with an amount, each with its currency, in order of appearance."""
    units, commodity, cost, price = posting.amount
    if cost is not None:
        return [(leg.key.currency, leg.units * leg.key.number) for leg in booked.legs]
    if price is None:
        return [(commodity, units * ONE)]
    if price.whole:
        sign = (units > 0) - (units < 0)
        return [(price.currency, sign * price.amount * ONE)]
    return [(price.currency, units * price.amount)]


# Judging one command.


def judge(book, command):
    """The entry of an accepted command. Raises its refusal."""
    if isinstance(command, Opening):
        if opening_of(book, command.account):
            raise Refused("L2 AlreadyOpen")
        return Entry(command, ())
    if isinstance(command, Closing):
        opening = opening_of(book, command.account)
        if opening is None:
            raise Refused("L3 UnknownAccount")
        if command.day < opening.day:
            raise Refused("L4 NotOpenYet")
        if closing_of(book, command.account):
            raise Refused("L5 Closed")
        return Entry(command, ())
    if isinstance(command, Declaring):
        if any(isinstance(e.command, Declaring) and e.command.commodity == command.commodity for e in book):
            raise Refused("L6 AlreadyDeclared")
        return Entry(command, ())
    if isinstance(command, Quoting):
        return Entry(command, ())
    return judge_transaction(book, command)


def allowed(opening, commodity):
    return not opening.currencies or commodity in opening.currencies


class Balance(NamedTuple):
    """What the postings with amounts of a transaction come to."""

    held: Held
    booked: dict  # by place
    residuals: dict  # by currency, in the order in which these appear

    def keep(self, book, legs, place):
        for leg in legs:
            if abs(self.held.add(leg, opening_number(len(book) + 1, place))) >= UNITS_LIMIT:
                raise Refused("L11 Range", at(place))


def balance(book, command):
    """Books the postings with amounts, one after another, on what the book holds. Raises the refusal of the first that can't be booked."""
    found = Balance(Held(book), {}, {})
    for place, posting in enumerate(command.postings, 1):
        if posting.amount is None:
            continue
        if posting.braces:
            method = opening_of(book, posting.account).method
            lots, opened = found.held.lots_of(posting.pair), found.held.openings_of(posting.pair)
            booked = book_at_cost(method, command.day, posting, lots, opened, place)
        else:
            booked = Booked(False, (Leg(*posting.pair, None, posting.amount.units),))
        found.booked[place] = booked
        found.keep(book, booked.legs, place)
        for currency, weight in weights(posting, booked):
            found.residuals[currency] = found.residuals.get(currency, 0) + weight
    return found


def judge_transaction(book, command):
    day = command.day
    places = list(enumerate(command.postings, 1))
    for place, posting in places:
        if opening_of(book, posting.account) is None:
            raise Refused("L3 UnknownAccount", at(place))
    openings = {posting.account: opening_of(book, posting.account) for posting in command.postings}
    for place, posting in places:
        if day < openings[posting.account].day:
            raise Refused("L4 NotOpenYet", at(place))
    for place, posting in places:
        closing = closing_of(book, posting.account)
        if closing is not None and day > closing.day:
            raise Refused("L5 Closed", at(place))

    for place, posting in places:
        if posting.amount is not None and not allowed(openings[posting.account], posting.amount.commodity):
            raise Refused("L7 CurrencyNotAllowed", at(place))
    if len(places) > MOST_POSTINGS:
        raise Refused("L8 TooManyPostings")
    elided = [(place, posting) for place, posting in places if posting.amount is None]
    if len(elided) > 1:
        raise Refused("L9 TwoElided")
    latest = {pair: latest_at_cost(book, pair) for pair in {posting.pair for _, posting in places if posting.braces}}
    for place, posting in places:
        if posting.braces and latest[posting.pair] is not None and day < latest[posting.pair]:
            raise Refused("L10 BackDated", at(place))

    found = balance(book, command)
    held, booked, residuals = found
    if elided:
        place, posting = elided[0]
        for currency, residual in residuals.items():
            if residual % ONE != 0 or abs(residual) // ONE >= UNITS_LIMIT:
                raise Refused("L12 InexactFill", currency)
        fill = [(currency, -residual // ONE) for currency, residual in residuals.items() if residual != 0]
        for currency, _ in fill:
            if not allowed(openings[posting.account], currency):
                raise Refused("L13 FillNotAllowed", currency)
        booked[place] = Booked(False, tuple(Leg(posting.account, currency, None, units) for currency, units in fill))
        found.keep(book, booked[place].legs, place)
    else:
        for currency, residual in residuals.items():
            if residual != 0:
                raise Refused("L14 NotBalanced", currency)
    for place, posting in places:
        if posting.braces and len(held.lots_of(posting.pair)) > MOST_LOTS:
            raise Refused("L15 TooManyLots", at(place))
    return Entry(command, tuple(booked[place] for place, _ in places))


# The rounding account.

COMPLETED = ("B5 InexactCost", "L12 InexactFill", "L14 NotBalanced")  # refusals for which the completion is judged
MOST_OF_A_REPEAT = ONE * ONE  # a crumb of a completion by form is at most 1


def nearest(dividend, divisor):
    """The nearest whole number to a quotient, of two that are equally near the even one."""
    quotient, rest = divmod(dividend, divisor)
    return quotient + (2 * rest > divisor or (2 * rest == divisor and quotient % 2 == 1))


def rounded(weight, decimals):
    """The nearest weight with so many decimals."""
    step = 10 ** (16 - decimals)
    return nearest(weight, step) * step


def with_rates(command):
    """The transaction with a rate in the place of each whole cost that has no exact one, or none where one has no such rate."""
    postings = []
    for posting in command.postings:
        if posting.braces and posting.amount.cost.whole:
            units, cost = posting.amount.units, posting.amount.cost
            if units == 0 or rate_of(cost.number, units) is None:
                number = nearest(cost.number * ONE, abs(units)) if units else RATE_LIMIT
                if number >= RATE_LIMIT or cost.currency is None:
                    return None
                posting = posting._replace(amount=posting.amount._replace(cost=cost._replace(whole=False, number=number)))
        postings.append(posting)
    return command._replace(postings=tuple(postings))


def currencies_of_products(command, booked):
    """The currencies in which a leg at cost, or a posting with a price, weighs."""
    found = set()
    for place, posting in enumerate(command.postings, 1):
        if posting.braces:
            found |= {leg.key.currency for leg in booked[place].legs}
        elif posting.amount is not None and posting.amount.price is not None:
            found.add(posting.amount.price.currency)
    return found


def stated(command, changed, residuals):
    """The residuals with each total in the place of what its units cost at the rate."""
    found = dict(residuals)
    for written, posting in zip(command.postings, changed.postings):
        if written != posting:
            units, cost = written.amount.units, written.amount.cost
            total = cost.number if units > 0 else -cost.number
            found[cost.currency] += total * ONE - units * posting.amount.cost.number
    return found


def crumb_postings(account, currency, crumb):
    """The postings that make up for a crumb, at scale 16."""
    sign = 1 if crumb > 0 else -1
    whole, rest = divmod(abs(crumb), ONE)
    postings = []
    if whole:
        postings.append(Posting(account, Amount(sign * whole, currency, None, None)))
    if rest:
        postings.append(Posting(account, Amount(sign, currency, None, Price(False, rest, currency))))
    return postings


class Completion(NamedTuple):
    command: Transaction
    crumbs: dict  # by currency, at scale 16, each not zero


def completion(book, command, rounding):
    """The completion of a transaction on what the book says, or none. Its accounts are open, and at most one posting is elided."""
    changed = with_rates(command)
    if changed is None:
        return None
    try:
        _, booked, residuals = balance(book, changed)
    except Refused:
        return None
    said = stated(command, changed, residuals)
    is_elided = any(posting.amount is None for posting in command.postings)
    crumbs = {}
    for currency in residuals:
        if currency in currencies_of_products(changed, booked):
            wanted = rounded(said[currency], rounding.decimals) if is_elided else 0
            if wanted != residuals[currency]:
                crumbs[currency] = wanted - residuals[currency]
    if any(abs(crumb) // ONE >= UNITS_LIMIT for crumb in crumbs.values()):
        return None
    behind = [posting for currency, crumb in crumbs.items() for posting in crumb_postings(rounding.account, currency, crumb)]
    return Completion(changed._replace(postings=(*changed.postings, *behind)), crumbs)


def judge_completion(book, command, rounding):
    """The entry of the completion, or none where there is none, or it isn't accepted."""
    found = completion(book, command, rounding)
    if found is None or any(abs(crumb) > rounding.within * ONE for crumb in found.crumbs.values()):
        return None
    try:
        return judge(book, found.command)
    except Refused:
        return None


def has_long_fill(entry, decimals):
    """Whether the fill in a currency of products has more decimals."""
    if not isinstance(entry.command, Transaction):
        return False
    currencies = currencies_of_products(entry.command, dict(enumerate(entry.booked, 1)))
    return any(
        leg.commodity in currencies and leg.units % 10 ** (8 - decimals) != 0
        for posting, booked in zip(entry.command.postings, entry.booked)
        if posting.amount is None
        for leg in booked.legs
    )


def judge_with(book, command, rounding):
    """The entry of an accepted command, which may be its completion where there is a rounding account. Raises its refusal."""
    try:
        entry = judge(book, command)
    except Refused as refused:
        if rounding is not None and refused.code in COMPLETED:
            completed = judge_completion(book, command, rounding)
            if completed is not None:
                return completed
        raise
    if rounding is not None and has_long_fill(entry, rounding.decimals):
        return judge_completion(book, command, rounding) or entry
    return entry


# Keys and repeats.


def writings(asked):
    """The command, with the cash of its row rounded to each number of decimals."""
    if asked.cash is None:
        yield asked.command
        return
    at_place = asked.cash.place - 1
    for decimals in range(9):
        units = rounded(asked.cash.exact, decimals) // ONE
        if abs(units) < UNITS_LIMIT:
            postings = list(asked.command.postings)
            postings[at_place] = postings[at_place]._replace(amount=postings[at_place].amount._replace(units=units))
            yield asked.command._replace(postings=tuple(postings))


def is_of_products_by_form(command, currency):
    """Whether a price of a posting without braces names the currency, or braces do, or there are braces that name none."""
    for posting in command.postings:
        if posting.braces:
            if posting.amount.cost.currency in (None, currency):
                return True
        elif posting.amount is not None and posting.amount.price is not None and posting.amount.price.currency == currency:
            return True
    return False


def crumbs_by_form(postings):
    """The crumbs, at scale 16, of which these are the postings of one account, by currency. None where they aren't such."""
    found, left = {}, list(postings)
    while left:
        account, amount = left[0]
        if account != postings[0].account or amount is None or amount.cost is not None or amount.units == 0:
            return None
        sign = 1 if amount.units > 0 else -1
        crumb = 0
        if amount.price is None:
            crumb = amount.units * ONE
            left.pop(0)
        speck = left[0].amount if left and left[0].account == account else None
        if speck and (speck.units, speck.commodity, speck.cost) == (sign, amount.commodity, None) and speck.price:
            if speck.price.whole or speck.price.currency != amount.commodity or not 0 < speck.price.amount < ONE:
                return None
            crumb += sign * speck.price.amount
            left.pop(0)
        if crumb == 0 or amount.commodity in found:
            return None
        found[amount.commodity] = crumb
    return found


def is_completion_by_form(asked, stored):
    """Whether a command that stands is, by its form, the completion of one that is asked for."""
    if not isinstance(asked.command, Transaction) or not isinstance(stored, Transaction):
        return False
    for written in writings(asked):
        changed = with_rates(written)
        count = len(written.postings)
        if changed is None or changed != stored._replace(postings=stored.postings[:count]):
            continue
        crumbs = crumbs_by_form(stored.postings[count:])
        if crumbs is not None and all(
            abs(crumb) <= MOST_OF_A_REPEAT and is_of_products_by_form(written, currency) for currency, crumb in crumbs.items()
        ):
            return True
    return False


class Kept:
    """A book whose entries have keys."""

    def __init__(self, book=()):
        self.book = list(book)
        self.keys = {}

    def take(self, key, asked, rounding=None):
        """Takes a command under a key. Returns its entry, or none where it is a repeat. Raises its refusal."""
        stored = self.keys.get(key)
        if stored is not None:
            if stored == asked.command or (rounding is not None and is_completion_by_form(asked, stored)):
                return None
            raise Refused("L1 KeyReused")
        entry = judge_with(self.book, asked.command, rounding)
        self.book.append(entry)
        self.keys[key] = entry.command
        return entry

    def reply(self, key, asked, rounding=None):
        """What becomes of it, as the line of its reply says behind the number."""
        try:
            return "repeat" if self.take(key, asked, rounding) is None else "accepted"
        except Refused as refused:
            return refusal(refused)


# Printing.


def number_text(mantissa, scale=8, decimals=0):
    """The text of a number, with at least so many decimals."""
    whole, rest = divmod(abs(mantissa), 10**scale)
    digits = str(rest).zfill(scale).rstrip("0").ljust(decimals, "0")
    return ("-" if mantissa < 0 else "") + str(whole) + ("." + digits if digits else "")


def money_text(mantissa, scale=8):
    return number_text(mantissa, scale, 2)


def day_text(day):
    return "%04d-%02d-%02d" % day


def refusal(refused):
    return " ".join(filter(None, ("refused", refused.code, refused.argument)))


def reply(number, refused):
    """The line of a command's reply, without its end."""
    return f"{number} accepted" if refused is None else f"{number} {refusal(refused)}"


def holdings(book):
    """The lines of the holdings."""
    lines = []
    costs = {}
    held = Held(book)
    for pair in held.pairs():
        account, commodity = pair
        if pair in held.plain:
            lines.append(f"{account} {money_text(held.plain[pair])} {commodity}")
        lots = held.lots_of(pair)
        for key in sorted(lots, key=key_order):
            label = "" if key.label is None else f', "{key.label}"'
            cost = f"{{{number_text(key.number)} {key.currency}, {day_text(key.day)}{label}}}"
            lines.append(f"{account} {number_text(lots[key])} {commodity} {cost}")
            costs[key.currency] = costs.get(key.currency, 0) + lots[key] * key.number
    for currency in sorted(costs):
        lines.append(f"total cost {money_text(costs[currency], 16)} {currency}")
    return lines or ["nothing held"]


class Judged(NamedTuple):
    command: Command
    entry: Optional[Entry]  # none: it was refused
    refused: Optional[Refused]


def run(commands, rounding=None):
    """The book after these commands, and what became of each."""
    book = []
    judged = []
    for command in commands:
        try:
            book.append(judge_with(book, command, rounding))
            judged.append(Judged(command, book[-1], None))
        except Refused as refused:
            judged.append(Judged(command, None, refused))
    return book, judged


def answer(book, judged):
    """What the program prints, as bytes, and its status."""
    lines = [reply(number, it.refused) for number, it in enumerate(judged, 1)] + holdings(book)
    status = 1 if any(it.refused for it in judged) else 0
    return "".join(line + "\n" for line in lines).encode(), status
