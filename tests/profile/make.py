"""Makes the exports of eight made brokers, each a year and an overlapping second file, and the truth of each: made/NAME.csv,
made/NAME-2.csv, made/NAME.truth. The truth comes from tests/profile/world.py, which knows what happened. The seeds are fixed.

    make.py [--check]    writes the files, or says which differ
"""

import csv
import datetime
import io
import os
import sys
from fractions import Fraction

from world import Plan, cents, places

HERE = os.path.join(os.path.dirname(os.path.abspath(__file__)), "made")
FIRST_END = datetime.date(2024, 12, 31)
SECOND_BEGIN = datetime.date(2024, 10, 1)
END = datetime.date(2025, 2, 20)


def number(value, decimals=2, mark=".", group="", least=0):
    """A number as a broker prints it, with so many decimals, or with as many as it has and at least so many."""
    sign, value = "-" if value < 0 else "", abs(Fraction(value))
    scale = 10**decimals
    assert (value * scale).denominator == 1, value
    whole, part = divmod(int(value * scale), scale)
    digits = str(part).rjust(decimals, "0") if decimals else ""
    if least < decimals and least:
        digits = digits.rstrip("0").ljust(least, "0")
    elif least < 0:
        digits = digits.rstrip("0")
    text = str(whole)
    if group:
        text = f"{whole:,}".replace(",", group)
    return sign + text + (mark + digits if digits else "")


def short(value, mark=".", group=""):
    return number(value, 8, mark, group, least=-1)


def table(rows, delimiter=",", end="\n", quoting=csv.QUOTE_MINIMAL):
    out = io.StringIO()
    csv.writer(out, delimiter=delimiter, lineterminator=end, quoting=quoting).writerows(rows)
    return out.getvalue()


def days(plan, most=9):
    while True:
        plan.later(1, most)
        if plan.day > END:
            return
        yield


def draw(plan, symbols, chance=0.42):
    """A symbol, and the units of a sale of some of it, or None for a purchase."""
    symbol = plan.random.choice(symbols)
    held = plan.units_held(symbol)
    if held >= 2 and plan.random.random() < chance:
        return symbol, Fraction(plan.random.randint(1, int(held)))
    return symbol, None


# ---- alder: the newest first, decimal commas, a rate, order ids that come twice, columns without a name


ISINS = {"IWDA": "IE00B4L5Y983", "AAPL": "US0378331005", "ASML": "NL0010273215"}


def alder():
    plan = Plan(11, "Alder")
    rng = plan.random
    for count, _ in enumerate(days(plan, 7)):
        symbol, sold = draw(plan, list(ISINS))
        dollars = symbol == "AAPL"
        rate = Fraction(rng.randint(10500, 11200), 10000) if dollars else None
        order = f"{rng.getrandbits(32):08x}-{rng.getrandbits(16):04x}-{rng.getrandbits(48):012x}"
        price = plan.price(symbol, 4 if dollars else 3)
        more = dict(rate=rate, price_currency="USD" if dollars else "EUR", order=order)
        units = sold or rng.randint(1, 2400)
        make = plan.sell if sold else plan.buy
        make(symbol, units, price, fee=rng.choice([1, Fraction("2.5"), Fraction("4.9")]), **more)
        if not sold and count % 6 == 0:  # the rest of the order, without a fee
            make(symbol, rng.randint(1, 30), price, fee=0, **more)
    return plan


def alder_file(events):
    header = "Date,Time,Product,ISIN,Reference exchange,Venue,Quantity,Price,,Local value,,Value,,Exchange rate,Transaction and/or third party fees,,Total,,Order ID"
    comma = lambda value, decimals: number(value, decimals, ",", ".")
    rows = [header.split(",")]
    for event in reversed(events):
        sign = -1 if event.units > 0 else 1
        local = cents(abs(event.units * event.price)) * sign
        rows.append([
            event.day.strftime("%d-%m-%Y"), event.time.strftime("%H:%M"), f"{event.symbol} SHARES", ISINS[event.symbol], "XET", "XETA",
            comma(event.units, 0), comma(event.price, 4), event.price_currency, comma(local, 2), event.price_currency,
            comma(event.gross * (1 if event.units > 0 else 1) * -1, 2), "EUR", comma(event.rate, 4) if event.rate else "",
            comma(-event.fee, 2) if event.fee else "", "EUR" if event.fee else "", comma(event.amount, 2), "EUR", event.order,
        ])
    return table(rows).encode()


# ---- birch: a statement of several tables, by symbol, totals between, exchanges in one row


BIRCH = {"ABC": "USD", "XYZ": "USD", "QRS": "GBP"}


def birch():
    plan = Plan(12, "Birch")
    rng = plan.random
    plan.cash("deposit", 90000, "USD", note="Electronic Fund Transfer")
    plan.exchange(Fraction("20000"), "GBP", -25000, "USD", 2, "USD", pair="USD.GBP")
    split = False
    for count, _ in enumerate(days(plan, 8)):
        if plan.day >= datetime.date(2024, 7, 10) and not split:
            split = True
            plan.buy("ABC", 20, plan.price("ABC"), 1, "USD")
            plan.split("ABC", 4)
            continue
        if count % 11 == 4:
            symbol = rng.choice([symbol for symbol in BIRCH if plan.units_held(symbol)])
            gross = cents(plan.units_held(symbol) * Fraction(rng.randint(10, 90), 100))
            tax = cents(gross * Fraction(15, 100))
            currency = BIRCH[symbol]
            paid = lambda sign: (
                plan.dividend(symbol, sign * gross, 0, currency),
                plan.cash("tax", -sign * tax, currency, counts=("taxes", -1), symbol=symbol),
            )
            paid(1)
            if count % 22 == 4:  # both are reversed, and paid again
                paid(-1), paid(1)
        elif count % 11 == 7:
            plan.cash("interest", rng.choice([1, -1]) * Fraction(rng.randint(50, 900), 100), "USD", counts=("interest", 1))
        elif count % 11 == 9:
            plan.cash("fee", Fraction(-10), "USD", counts=("fees", -1), note="Market data")
        elif count % 11 == 10:
            euros = Fraction(rng.randint(100, 900))
            plan.exchange(cents(euros * Fraction(108, 100)) - 2, "USD", -euros, "EUR", 2, "USD", pair="EUR.USD")
            plan.exchange(cents(euros * Fraction(86, 100)), "GBP", -euros, "EUR", 2, "USD", pair="EUR.GBP")
        elif count % 11 == 2:
            plan.cash("withdrawal", -Fraction(rng.randint(100, 999)), "USD", note="Disbursement")
        else:
            symbol, sold = draw(plan, list(BIRCH))
            units = sold or rng.randint(2, 1400)
            (plan.sell if sold else plan.buy)(symbol, units, plan.price(symbol, 4), fee=Fraction(rng.randint(35, 420), 100), currency=BIRCH[symbol])
    return plan


def birch_file(events):
    of = lambda *kinds: [event for event in events if event.kind in kinds]
    at = lambda event: f"{event.day}, {event.time:%H:%M:%S}"
    comma = lambda value, decimals=2: number(value, decimals, ".", ",")
    rows = [
        ["Statement", "Header", "Field Name", "Field Value"],
        ["Statement", "Data", "BrokerName", "Birch"],
        ["Statement", "Data", "Title", "Activity Statement"],
        ["Account Information", "Header", "Field Name", "Field Value"],
        ["Account Information", "Data", "Account", "U1234567"],
        [],
    ]
    head = ["Trades", "Header", "DataDiscriminator", "Asset Category", "Currency", "Symbol", "Date/Time", "Quantity", "T. Price", "Proceeds"]
    rows.append(head + ["Comm/Fee", "Code"])
    for symbol in sorted(BIRCH):
        mine = [event for event in of("buy", "sell") if event.symbol == symbol]
        for event in mine:
            rows.append(["Trades", "Data", "Order", "Stocks", event.currency, symbol, at(event), comma(event.units, 0), comma(event.price, 4),
                         comma(event.amount + event.fee), comma(-event.fee), "O" if event.units > 0 else "C"])
        rows.append(["Trades", "SubTotal", "", "Stocks", BIRCH[symbol], symbol, "", comma(sum((e.units for e in mine), Fraction(0)), 0), "", "", "", ""])
    rows.append(["Trades", "Total", "", "Stocks", "USD", "", "", "", "", "1.00", "", ""])
    rows.append(head + ["Comm in USD", "Code"])
    for event in of("exchange"):
        inside = event.fee if event.fee_currency == event.currency else 0
        rows.append(["Trades", "Data", "Order", "Forex", event.currency, event.pair, at(event), comma(event.other), "1.08", comma(event.amount + inside), comma(-event.fee), ""])
    rows.append(["Corporate Actions", "Header", "Asset Category", "Currency", "Report Date", "Date/Time", "Description", "Quantity", "Proceeds", "Code"])
    for event in of("split"):
        rows.append(["Corporate Actions", "Data", "Stocks", "USD", str(event.day), at(event), f"{event.symbol}(US0000000001) Split {event.new} for {event.old} ({event.symbol}, ABC INC, US0000000001)", comma(event.added, 0), "0", ""])
    rows.append(["Corporate Actions", "Data", "Total", "", "", "", "", "", "0", ""])
    rows.append(["Dividends", "Header", "Currency", "Date", "Description", "Amount"])
    for event in of("dividend"):
        rows.append(["Dividends", "Data", event.currency, str(event.day), f"{event.symbol}(US0000000001) Cash Dividend{' - Reversal' if event.amount < 0 else ''}", comma(event.amount)])
    rows += [["Dividends", "Data", "Total", "", "", "12.00"], ["Dividends", "Data", "Total in USD", "", "", "12.00"]]
    rows.append(["Withholding Tax", "Header", "Currency", "Date", "Description", "Amount", "Code"])
    for event in of("tax"):
        rows.append(["Withholding Tax", "Data", event.currency, str(event.day), f"{event.symbol}(US0000000001) Cash Dividend - US Tax", comma(event.amount), ""])
    rows.append(["Deposits & Withdrawals", "Header", "Currency", "Settle Date", "Description", "Amount"])
    for event in of("deposit", "withdrawal"):
        rows.append(["Deposits & Withdrawals", "Data", event.currency, str(event.day), event.note, comma(event.amount)])
    rows.append(["Interest", "Header", "Currency", "Date", "Description", "Amount"])
    for event in of("interest"):
        rows.append(["Interest", "Data", event.currency, str(event.day), "USD Interest", comma(event.amount)])
    rows.append(["Fees", "Header", "Subtitle", "Currency", "Date", "Description", "Amount"])
    for event in of("fee"):
        rows.append(["Fees", "Data", "Other Fees", event.currency, str(event.day), event.note, comma(event.amount)])
    rows += [["Fees", "Data", "Total", "", "", "", "-10.00"], ["Codes", "Header", "Code", "Meaning"], ["Codes", "Data", "O", "Opening Trade"]]
    return table(rows).encode()


# ---- cedar: signs of dollars, lines before and behind, no ids, equal rows, reinvestments, cancelled purchases, units added by a split


def cedar():
    plan = Plan(13, "Cedar")
    rng = plan.random
    plan.cash("deposit", 60000, "USD")
    symbols = ["VTI", "BRK.B", "KO"]
    split = False
    for count, _ in enumerate(days(plan, 8)):
        if plan.day >= datetime.date(2024, 11, 5) and not split and plan.units_held("KO"):
            split = True
            plan.split("KO", 3, 2) if not plan.units_held("KO") % 2 else plan.split("KO", 2)
            continue
        if count % 9 == 3:
            symbol = rng.choice([symbol for symbol in symbols if plan.units_held(symbol)] or ["VTI"])
            if not plan.units_held(symbol):
                plan.buy(symbol, 10, plan.price(symbol), 0, "USD")
                continue
            gross = cents(plan.units_held(symbol) * Fraction(rng.randint(20, 70), 100))
            plan.dividend(symbol, gross, 0, "USD", reinvested=symbol == "VTI")
            if symbol == "VTI":  # the whole dividend buys units, to four decimals
                price = plan.price(symbol, 4)
                plan.buy(symbol, places(gross / price, 4), price, 0, "USD", amount=-gross, reinvested=True)
            else:
                plan.cash("tax", -cents(gross * Fraction(3, 10)), "USD", counts=("taxes", -1), symbol=symbol)
        elif count % 9 == 5:
            plan.cash("interest", Fraction(rng.randint(5, 200), 100), "USD", counts=("interest", 1))
        elif count % 9 == 7:
            symbol = rng.choice(symbols)
            price, units = plan.price(symbol), rng.randint(3, 40)
            wrong = plan.buy(symbol, units, price, Fraction("4.95"), "USD")
            if count % 18 == 7:
                plan.later(1, 2)
            plan.cancel(wrong)
            plan.buy(symbol, units, price + 1, Fraction("4.95"), "USD")
        elif count % 9 == 8:
            plan.cash(*(("withdrawal", -Fraction(rng.randint(500, 2500))) if count % 2 else ("deposit", Fraction(rng.randint(500, 2500)))), "USD")
            plan.cash("fee", Fraction("-5.20"), "USD", counts=("fees", -1))
        elif count == 10:
            plan.says("journal", symbol="GLD", units=Fraction(7), currency="USD")
        else:
            symbol, sold = draw(plan, symbols)
            units = sold or rng.randint(2, 120)
            price = plan.price(symbol)
            (plan.sell if sold else plan.buy)(symbol, units, price, Fraction("4.95") if count % 2 else 0, "USD")
            if not sold and count % 4 == 0:  # the same again: two deals that are equal in every column
                plan.buy(symbol, units, price, Fraction("4.95") if count % 2 else 0, "USD")
    return plan


def dollars(value):
    return "" if value is None else ("-" if value < 0 else "") + "$" + number(abs(value), 2, ".", ",")


def cedar_file(events):
    words = {"buy": "Buy", "sell": "Sell", "cancel": "Cancel Buy", "dividend": "Cash Dividend", "tax": "NRA Tax Adj", "interest": "Bank Interest",
             "fee": "Service Fee", "deposit": "MoneyLink Transfer", "withdrawal": "MoneyLink Transfer", "split": "Stock Split", "journal": "Journaled Shares"}
    rows = [["Date", "Action", "Symbol", "Description", "Quantity", "Price", "Fees & Comm", "Amount"]]
    total = Fraction(0)
    for event in reversed(events):
        printed = event.printed
        word = words[event.kind]
        if printed.get("reinvested"):
            word = "Reinvest Dividend" if event.kind == "dividend" else "Reinvest Shares"
        units = printed.get("added", printed.get("units"))
        if event.kind in ("sell", "cancel"):
            units = -units
        day = f"{event.day:%m/%d/%Y}"
        if event.kind == "interest":
            day += f" as of {event.day - datetime.timedelta(days=1):%m/%d/%Y}"
        price = printed.get("price")
        total += printed.get("amount") or 0
        rows.append([
            day, word, printed.get("symbol", "").replace(".", "/"), "" if event.kind == "fee" else f"{word}, {printed.get('symbol', 'cash')}",
            "--" if units is None else number(units, 4, ".", ",", least=-1), "" if price is None else "$" + number(price, 4, ".", ",", least=2),
            dollars(printed["fee"]) if printed.get("fee") else "", dollars(printed.get("amount")),
        ])
    rows.append(["Transactions Total", "", "", "", "", "", "", dollars(total)])
    front = '"Transactions  for account XXXX-1234 as of 03/01/2025 09:00:00 ET"\r\n\r\n'
    return (front + table(rows, end="\r\n", quoting=csv.QUOTE_ALL)).encode()


# ---- dogwood: Latin-1, semicolons at the ends, net dividends, a column that is a fee or a tax, the price as cost


DOGWOOD = {"SIE": "DE0007236101", "BMW": "DE0005190003"}


def dogwood():
    plan = Plan(14, "Dogwood", basis="price")
    rng = plan.random
    plan.cash("deposit", 40000, order="1")
    for count, _ in enumerate(days(plan, 8)):
        order = f"{700000 + count}"
        if count % 9 == 3:
            symbol = rng.choice([symbol for symbol in DOGWOOD if plan.units_held(symbol)] or ["SIE"])
            gross = cents(max(plan.units_held(symbol), Fraction(1)) * Fraction(rng.randint(50, 300), 100))
            tax = cents(gross * Fraction("0.26375"))
            plan.dividend(symbol, gross - tax, tax, order=order)
            if count == 12:  # it is taken back, and paid again
                plan.dividend(symbol, tax - gross, -tax, order=order + "S")
                plan.dividend(symbol, gross - tax, tax, order=order + "N")
        elif count % 9 == 5:
            plan.cash("interest", Fraction(rng.randint(5, 900), 100), counts=("interest", 1), order=order)
        elif count % 9 == 6:
            plan.cash("fee", -Fraction(rng.randint(100, 990), 100), counts=("fees", -1), order=order)
        elif count % 9 == 7:
            plan.cash("withdrawal", -Fraction(rng.randint(100, 2000)), order=order)
        elif count == 17:
            wrong = plan.buy("BMW", 50, plan.price("BMW", 4), Fraction("9.90"), order=order)
            plan.later(1, 3)
            plan.cancel(wrong)
        else:
            symbol, sold = draw(plan, list(DOGWOOD))
            units = sold or rng.randint(1, 300)
            price = plan.price(symbol, 4)
            (plan.sell if sold else plan.buy)(symbol, units, price, Fraction(rng.choice(["9.90", "4.90", "12.35"])), order=order)
            if not sold and count % 4 == 1:
                plan.buy(symbol, rng.randint(1, 20), price, 0, order=order)
    return plan


def dogwood_file(events):
    comma = lambda value, decimals=2: number(value, decimals, ",", ".")
    lines = ["Umsätze für Herrn Müller;", "Zeitraum;01.01.2024;28.02.2025;", "Nr.;Buchungstag;Buchungstext;ISIN;Stück;Kurs;Entgelt/Steuer;Betrag;Währung;"]
    names = {"SIE": "SIEMENS AG", "BMW": "BMW ST", None: ""}
    for event in events:
        printed = event.printed
        symbol = printed.get("symbol")
        phrase = {"buy": "Kauf {}", "sell": "Verkauf {}", "cancel": "Storno Kauf {}", "dividend": "Erträgnis {}", "interest": "Zinsen 0,5 %",
                  "fee": "Depotgebühr", "deposit": "Überweisung", "withdrawal": "Überweisung"}[event.kind].format(names[symbol])
        extra = printed.get("fee") or printed.get("tax")
        price, units = printed.get("price"), printed.get("units")
        lines.append(";".join([
            printed.get("order", ""), f"{event.day:%d.%m.%Y}", phrase, DOGWOOD.get(symbol, "n/a"), "n/a" if units is None else comma(units, 0),
            "n/a" if price is None else comma(price, 4), comma(extra) if extra else "", comma(event.amount), "EUR",
        ]) + ";")
    lines += ["", "Saldo;;;;;;;1.234,56;EUR;"]
    return ("\r\n".join(lines) + "\r\n").encode("latin-1")


# ---- elm: tabs, no header, a mark, apostrophes, cash accounts by a column, exchanges in two rows, a fee in another currency


ELM = {"NESN": "CHF", "MSFT": "USD"}


def elm():
    plan = Plan(15, "Elm")
    rng = plan.random
    main, reserve = "Assets:Elm:Main", "Assets:Elm:Reserve"
    plan.cash("deposit", 80000, "CHF", main, id="1")
    plan.exchange(-30000, "CHF", Fraction("33915.25"), "USD", account=main, id="2")
    for count, _ in enumerate(days(plan, 8)):
        mark = str(1000 + count)
        if count % 10 == 3:
            symbol = rng.choice([symbol for symbol in ELM if plan.units_held(symbol)] or ["NESN"])
            gross = cents(max(plan.units_held(symbol), Fraction(1)) * Fraction(rng.randint(30, 200), 100))
            tax = cents(gross * Fraction(35, 100))
            for sign in (1, -1, 1) if count == 13 else (1,):
                plan.dividend(symbol, sign * gross, 0, ELM[symbol], main, id=mark)
                plan.cash("tax", -sign * tax, ELM[symbol], main, counts=("taxes", -1), symbol=symbol, id=mark)
        elif count % 10 == 5:
            plan.cash("interest", rng.choice([-1, 1]) * Fraction(rng.randint(5, 300), 100), "CHF", rng.choice([main, reserve]), counts=("interest", 1), id=mark)
        elif count % 10 == 6:
            plan.cash("deposit", Fraction(rng.randint(100, 3000)), "CHF", reserve, id=mark)
        elif count % 10 == 7:
            plan.exchange(-Fraction(rng.randint(1000, 3000)), "CHF", Fraction(rng.randint(110000, 330000), 100), "USD", account=main, id=mark)
        elif count % 10 == 8:
            plan.cash("withdrawal", -Fraction(rng.randint(100, 900)), "CHF", main, id=mark)
            plan.cash("fee", Fraction("-12.35"), "CHF", reserve, counts=("fees", -1), id=mark)
        else:
            symbol, sold = draw(plan, list(ELM))
            units = sold or rng.randint(1, 500)
            currency = ELM[symbol]
            make = plan.sell if sold else plan.buy
            make(symbol, units, plan.price(symbol, 2), Fraction(rng.choice(["9", "17.50"])), currency, main, fee_currency="CHF", id=mark)
    return plan


def elm_file(events):
    apostrophe = lambda value, decimals=2: number(value, decimals, ".", "'")
    rows = []
    words = {"buy": "Buy", "sell": "Sell", "dividend": "Dividend", "tax": "Withholding tax", "interest": "Interest", "fee": "Custody fee", "deposit": "Payment", "withdrawal": "Payment"}
    for event in events:
        day, clock = f"{event.day:%d-%b-%Y}", f"{event.time.hour}:{event.time:%M}"
        account = event.account.rsplit(":", 1)[1]
        printed = event.printed
        if event.kind == "exchange":
            rows.append([day, clock, event.id, account, "Forex debit", "", "", "", apostrophe(event.amount), event.currency, "", ""])
            rows.append([day, clock, event.id, account, "Forex credit", "", "", "", apostrophe(event.other), event.other_currency, "", ""])
            continue
        units, fee = printed.get("units"), printed.get("fee")
        rows.append([
            day, clock, event.id, account, words[event.kind], printed.get("symbol", ""), "" if units is None else apostrophe(abs(units), 0),
            "" if units is None else apostrophe(event.price), apostrophe(event.amount), event.currency, apostrophe(fee) if fee else "", event.fee_currency if fee else "",
        ])
    rows.append(["Total", "", "", "", "", "", "", "", "123.45", "", "", ""])
    return ("\ufeff" + table(rows, delimiter="\t", end="\r\n")).encode()


# ---- fir: rewards, amounts of more than eight decimals, parentheses, a price in another currency and no rate, a transfer with its cost


def fir():
    plan = Plan(16, "Fir", basis="price")
    rng = plan.random
    long = lambda low, high: Fraction(rng.randint(low * 10**10, high * 10**10), 10**10)
    plan.cash("deposit", 50000, id="F1", long=Fraction(50000))
    plan.transfer("BTC", Fraction("0.75"), Fraction("18000.5"), "USD", datetime.date(2022, 5, 17), id="F2")
    symbols = ["BTC", "ETH"]
    prices = {"BTC": 40000, "ETH": 2300}
    for count, _ in enumerate(days(plan, 7)):
        mark = f"F{100 + count}"
        symbol = rng.choice(symbols)
        price = plan.price(symbol, 2, prices[symbol])
        if count % 7 == 2:
            units = Fraction(rng.randint(10000, 900000), 10**8)
            plan.reward(symbol, units, places(units * price, 8), "USD", price=price, id=mark)
        elif count % 7 == 5:
            amount = long(10, 90)
            plan.cash("fee", -places(amount, 8), counts=("fees", -1), id=mark, long=-amount)
        elif count % 7 == 6:
            amount, other = long(100, 900), Fraction(rng.randint(10000, 90000), 100)
            plan.exchange(-places(amount, 8), "EUR", other, "USD", id=mark, long=-amount)
        else:
            held = plan.units_held(symbol)
            sold = held > Fraction(1, 100) and rng.random() < 0.45
            units = Fraction(rng.randint(1, int(held * 10**8)) if sold else rng.randint(10**5, 10**8), 10**8)
            fee, rate = Fraction(rng.randint(0, 300), 100), Fraction(rng.randint(10500, 11200), 10000)
            worth = places(units * price / rate, 10)
            if sold and worth <= fee:
                continue
            amount = worth - fee if sold else -worth - fee
            (plan.sell if sold else plan.buy)(symbol, units, price, fee, "EUR", amount=places(amount, 8), price_currency="USD", id=mark, long=amount)
    return plan


def fir_file(events):
    def parentheses(value, decimals):
        text = number(abs(value), decimals, ".", ",", least=2)
        return f"({text})" if value < 0 else text

    words = {"buy": "Buy", "sell": "Sell", "reward": "Staking reward", "fee": "Network fee", "deposit": "Deposit", "exchange": "Convert", "transfer": "Receive"}
    rows = [["Timestamp", "ID", "Kind", "Asset", "Amount of asset", "Spot price", "Spot currency", "Cash", "Cash currency", "Fee", "Other", "Other currency", "Cost", "Acquired"]]
    for symbol in ("ETH", "BTC", None):
        for event in reversed(events):
            printed = event.printed
            if printed.get("symbol") != symbol:
                continue
            price, units, fee = printed.get("price"), printed.get("units"), printed.get("fee")
            cash = printed.get("long") if event.kind not in ("reward", "transfer") else None
            rows.append([
                f"{event.day}T{event.time}Z", event.id, words[event.kind], symbol or "", "" if units is None else parentheses(units, 8),
                "" if price is None else number(price, 2, ".", ","), "" if event.kind not in ("buy", "sell", "reward") else "USD",
                "" if cash is None else parentheses(cash, 10), "EUR" if cash is not None else "USD", number(fee, 2) if fee else "",
                parentheses(event.other, 2) if event.kind == "exchange" else "", "USD" if event.kind == "exchange" else "",
                number(event.cost, 2, ".", ",") if event.kind == "transfer" else "", f"{event.cost_day}" if event.kind == "transfer" else "",
            ])
    return table(rows).encode()


# ---- ginkgo: groups behind a blank, blanks at the start of fields, kinds by two columns, a header that has names twice, more columns later


def ginkgo():
    plan = Plan(17, "Ginkgo")
    rng = plan.random
    plan.cash("deposit", 30000, order="1")
    symbols = ["OR", "TTE"]
    split = False
    for count, _ in enumerate(days(plan, 8)):
        order = str(50 + count)
        if plan.day >= datetime.date(2024, 10, 20) and not split and plan.units_held("OR"):
            split = True
            plan.split("OR", 3, order=order)
            continue
        if count % 9 == 2:
            plan.says("price", symbol="TTE", price=plan.price("TTE", 3), currency="EUR", order=order)
        elif count % 9 == 3:
            plan.dividend("TTE", Fraction(rng.randint(500, 9000), 100), 0, order=order)
        elif count % 9 == 5:
            plan.cash(*(("deposit", Fraction(rng.randint(100, 3000))) if count % 2 else ("withdrawal", -Fraction(rng.randint(100, 3000)))), order=order)
        elif count % 9 == 6:
            plan.cash("fee", -Fraction(rng.randint(100, 700), 100), counts=("fees", -1), order=order)
        elif count % 9 == 7:
            plan.reward("TTE", rng.randint(1, 5), Fraction(rng.randint(2000, 20000), 100), order=order)
        elif count == 8:
            plan.says("moved", symbol="AIR", units=Fraction(12), currency="EUR", order=order)
        else:
            symbol, sold = draw(plan, symbols)
            units = sold or rng.randint(10, 3000)
            price, fee = plan.price(symbol, 3), Fraction(rng.choice(["2", "4.5"]))
            parts = [units]
            if not sold and count % 2:
                parts = [units - units // 3, units // 3]
            for part, each in enumerate(parts, 1):
                (plan.sell if sold else plan.buy)(symbol, each, price, fee if part == 1 else 0, order=order, part=part)
    return plan


def ginkgo_file(events, later):
    blank = lambda value, decimals=2: " " + number(value, decimals, ",", " ")
    header = ["Date", "Type", "Side", "Symbol", "Units", "Price", "Currency", "Fee", "Amount", "Currency", "Order", "Part", "Ratio"] + (["Venue", "Market maker"] if later else [])
    words = {"buy": ("Trade", "B"), "sell": ("Trade", "S"), "dividend": ("Cash", "Coupon"), "deposit": ("Cash", "Transfer"), "withdrawal": ("Cash", "Transfer"),
             "fee": ("Cash", "Charge"), "reward": ("Units", "Bonus"), "price": ("Info", "Quote"), "split": ("Units", "Split"), "moved": ("Units", "In")}
    rows = [header]
    for symbol in ("TTE", "OR", "AIR", None):
        for event in events:
            printed = event.printed
            if printed.get("symbol") != symbol:
                continue
            price, units, fee, amount = (printed.get(name) for name in ("price", "units", "fee", "amount"))
            rows.append([
                f"{event.day:%d/%m/%Y}", *words[event.kind], symbol or "", "" if units is None else blank(abs(units), 0), "" if price is None else blank(price, 3),
                "" if price is None else "EUR", blank(fee) if fee else "", "" if amount is None else blank(amount), "" if amount is None else "EUR",
                event.order, str(printed.get("part", "")), f"{event.new}:{event.old}" if event.kind == "split" else "",
            ] + (["PAR", "MM1"] if later else []))
        rows.append([f"Sum of {symbol}" if symbol else "Sum"] + [""] * (len(header) - 1))
    return table(rows, delimiter=";").encode()


# ---- hazel: rounded units, dividends booked in another currency, a tax in a third, cash as a symbol


HAZEL = {"GOOG": "USD", "SHEL": "GBP", "AIR": "EUR"}


def hazel():
    plan = Plan(18, "Hazel")
    rng = plan.random
    plan.cash("deposit", 25000, id="H1")
    rates = {"USD": Fraction(109, 100), "GBP": Fraction(86, 100), "EUR": Fraction(1)}
    for count, _ in enumerate(days(plan, 7)):
        mark = f"EOF{90000 + count}"
        rate = places(rates[rng.choice(list(rates))] * 1, 4)
        if count % 8 == 3:
            symbol = rng.choice(list(HAZEL))
            currency = HAZEL[symbol]
            net, tax = Fraction(rng.randint(100, 9000), 100), Fraction(rng.randint(10, 900), 100)
            if currency == "USD":
                plan.dividend(symbol, net, tax, "USD", booked=cents(net / rates["USD"]), booked_currency="EUR", id=mark)
            elif currency == "GBP":  # what came in is told in euros alone, the tax in pounds
                plan.dividend(symbol, net, tax, "EUR", tax_currency="GBP", id=mark)
            else:
                plan.dividend(symbol, net, 0, "EUR", id=mark)
        elif count % 8 == 5:
            plan.cash("interest", Fraction(rng.randint(1, 500), 100), counts=("interest", 1), id=mark)
        elif count % 8 == 6:
            plan.cash(*(("deposit", Fraction(rng.randint(100, 900))) if count % 2 == 0 else ("withdrawal", -Fraction(rng.randint(100, 900)))), id=mark)
        else:
            symbol, currency = rng.choice(list(HAZEL.items()))
            rate = places(rates[currency] * Fraction(rng.randint(980, 1020), 1000), 6) if currency != "EUR" else None
            held = plan.units_held(symbol)
            sold = held > 1 and rng.random() < 0.4
            units = Fraction(rng.randint(1, int(held * 1000)) if sold else rng.randint(200, 30000), 1000)
            price = plan.price(symbol, 2)
            duty, charge = (cents(units * price / 500), Fraction("0.15")) if currency == "GBP" and not sold else (Fraction(0), Fraction(rng.randint(0, 40), 100))
            # The true units have more places than are printed, and the amount goes by them.
            true = units + Fraction(rng.randint(-4, 4), 10000)
            worth = cents(true * price / (rate or 1))
            if worth <= duty + charge:
                continue
            amount = worth - duty - charge if sold else -worth - duty - charge
            (plan.sell if sold else plan.buy)(symbol, units, price, duty + charge, "EUR", amount=amount, rate=rate, price_currency=currency, id=mark, duty=duty, charge=charge)
    return plan


def hazel_file(events):
    header = "Action,Time,Ticker,No. of shares,Price / share,Currency (Price / share),Exchange rate,Total,Currency (Total),Net,Currency (Net),Withholding tax,Currency (Withholding tax),Stamp duty,Conversion fee,ID"
    rows = [header.split(",")]
    for count, event in enumerate(events):
        printed = event.printed
        row = dict.fromkeys(header.split(","), "")
        row["Time"], row["ID"] = f"{event.day} {event.time}.{int(event.id[-1]) * 111:03}", event.id
        row["Ticker"] = printed.get("symbol", "EUR")
        if event.kind in ("buy", "sell"):
            row["Action"] = ("Limit " if int(event.id[-1]) % 2 else "Market ") + event.kind
            row["No. of shares"], row["Price / share"] = number(abs(event.units), 3), number(event.price, 2)
            row["Currency (Price / share)"] = event.price_currency
            row["Exchange rate"] = number(event.rate, 6) if event.rate else "Not available"
            row["Total"], row["Currency (Total)"] = number(abs(event.amount), 2), "EUR"
            row["Stamp duty"], row["Conversion fee"] = number(event.duty) if event.duty else "", number(event.charge) if event.charge else ""
        elif event.kind == "dividend":
            row["Action"] = "Dividend (Ordinary)"
            if event.booked is not None:
                row["Total"], row["Currency (Total)"] = number(event.booked), "EUR"
            row["Net"], row["Currency (Net)"] = number(event.amount), event.currency
            if event.tax:
                row["Withholding tax"], row["Currency (Withholding tax)"] = number(event.tax), event.tax_currency
        else:
            row["Action"] = {"deposit": "Deposit", "withdrawal": "Withdrawal", "interest": "Interest on cash"}[event.kind]
            row["Total"] = number(event.amount)
        rows.append(list(row.values()))
    return table(rows).encode()


FORMATS = {name: globals()[name] for name in "alder birch cedar dogwood elm fir ginkgo hazel".split()}


def files():
    """The name and the bytes of each file."""
    for name, make in FORMATS.items():
        plan = make()
        printer = globals()[name + "_file"]
        first = [event for event in plan.events if event.day <= FIRST_END]
        # A cancelled purchase has to be in the file of its purchase: that of cedar begins earlier.
        begin = SECOND_BEGIN - datetime.timedelta(days=12 if name == "cedar" else 0)
        second = [event for event in plan.events if event.day >= begin]
        more = (False, True) if name == "ginkgo" else ()
        yield f"{name}.csv", printer(first, *more[:1])
        yield f"{name}-2.csv", printer(second, *more[1:])
        lines = [f"after {name}.csv"] + plan.truth_until(FIRST_END) + [f"after {name}-2.csv"] + plan.truth_until(END)
        yield f"{name}.truth", ("\n".join(lines) + "\n").encode()


def main(words):
    os.makedirs(HERE, exist_ok=True)
    differ = 0
    for name, data in files():
        path = os.path.join(HERE, name)
        old = open(path, "rb").read() if os.path.exists(path) else None
        if words == ["--check"]:
            if old != data:
                print(f"{name} differs")
                differ = 1
        elif old != data:
            with open(path, "wb") as file:
                file.write(data)
    return differ


if __name__ == "__main__":
    sys.exit(main(sys.argv[1:]))
