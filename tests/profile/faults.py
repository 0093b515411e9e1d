"""Small cases: a profile and a few rows, and the fault that is wanted, or what they come to.

Each case has a name, changes of the profile (old text, new text), the lines behind the header, and what is wanted: `row N WORDS` or
`file WORDS` of a fault, `profile KEY` of a fault of the profile, or texts that have to stand in what reader.py prints, in this order.
"""

import reader

PROFILE = """
name = "Cases"

[file]
delimiter = ";"
decimal = "."
grouping = ","
currency-signs = ["$"]
nothing = ["", "--"]
day = "YYYY-MM-DD"
header = "Day;Kind"
order = "oldest-first"

[columns]
day = "Day"
symbol = "Symbol"
units = "Units"
price = "Price"
amount = "Amount"
currency = "Currency"
fee = "Fee"
ref = "Id"

[accounts]
invest = "Assets:Broker"
cash = "Assets:Cash"
fees = "Expenses:Fees"
gains = "Income:Gains"
dividends = "Income:Dividends"
tax = "Expenses:Tax"
transfers = "Equity:Transfers"
rounding = "Equity:Rounding"

[[kind]]
is = "buy"
when = { Kind = "Buy" }

[[kind]]
is = "sell"
when = { Kind = "Sell" }

[[kind]]
is = "cancel-buy"
when = { Kind = "Cancel" }

[[kind]]
is = "dividend"
when = { Kind = "Dividend" }

[[kind]]
is = "deposit"
when = { Kind = "Cash", Amount = "> 0" }

[[kind]]
is = "withdrawal"
when = { Kind = "Cash", Amount = "< 0" }

[[kind]]
is = "skip"
when = { Kind = "begins: Note" }
"""

HEADER = "Day;Kind;Symbol;Units;Price;Amount;Currency;Fee;Id"
BUY = "2024-03-01;Buy;HOOL;10;100.50;-1,009.95;USD;4.95;D1"
SELL = "2024-03-04;Sell;HOOL;-4;110;435.05;USD;4.95;D2"
DIVIDEND = "2024-03-05;Dividend;HOOL;;;8.50;USD;;D3"
CASH = "2024-03-06;Cash;;;;500;USD;;D4"
KINDS = '[[kind]]\nis = "deposit"'


def kind_more(text):
    """Another kind, or another part, before the kinds."""
    return ('[[kind]]\nis = "buy"', f'{text}\n\n[[kind]]\nis = "buy"')


EXCHANGE = kind_more('[[kind]]\nis = "exchange"\nwhen = { Kind = "Swap" }\ncolumns = { other = "Units", other-currency = "Symbol" }')
REWARD = ('rounding = "Equity:Rounding"\n', 'rounding = "Equity:Rounding"\nrewards = "Income:Rewards"\n\n[[kind]]\nis = "reward"\nwhen = { Kind = "Gift" }\n')
BY_PRICE = kind_more('[basis]\ncost = "price"')
SPLIT = kind_more('[[kind]]\nis = "split"\nwhen = { Kind = "Split" }\ncolumns = { ratio = "Price" }')

# Name, changes of the profile, lines (or the bytes of a whole file), what is wanted.
CASES = [
    ("all is well", [], [BUY, SELL, DIVIDEND, CASH], [
        "; row 1 buy key 2024-03-01 1 D1", "  Assets:Broker 10 HOOL {{1009.95 USD}}", "  Assets:Cash -1009.95 USD",
        "  Assets:Broker -4 HOOL {} @@ 435.05 USD", "  Assets:Cash 435.05 USD", "  Income:Gains", "  Income:Dividends -8.5 USD", "; 0 skipped, 0 rounded",
    ]),
    # Kinds.
    ("a kind is left out", [('[[kind]]\nis = "dividend"\nwhen = { Kind = "Dividend" }\n', "")], [BUY, DIVIDEND], "row 2 is of no kind"),
    ("a row of no kind", [], [BUY, "2024-03-02;Gift;HOOL;1;;;USD;;D9"], "row 2 is of no kind"),
    ("a row of two kinds", [('when = { Kind = "Dividend" }', 'when = { Kind = ["Dividend", "Buy"] }')], [BUY], "row 1 is of two kinds"),
    ("a cash row of zero", [], ["2024-03-06;Cash;;;;0;USD;;D4"], "row 1 is of no kind"),
    ("above zero of what is no number", [], ["2024-03-06;Cash;;;;5 00;USD;;D4"], "row 1 is of no kind"),
    ("a phrase begins so", [], ["2024-03-06;Notebook;;;;;;;"], ["; 1 skipped"]),
    ("a total behind the last row", [], [BUY, "Total;;;;;1009.95;;;"], "row 2 is of no kind"),
    # Columns.
    ("two columns are swapped: price and units", [('units = "Units"\nprice = "Price"', 'units = "Price"\nprice = "Units"')], [BUY], ["  Assets:Broker 100.5 HOOL"]),
    ("two columns are swapped: price and amount", [('price = "Price"\namount = "Amount"', 'price = "Amount"\namount = "Price"')], [BUY], "row 1 has the signs of no buy"),
    ("two columns are swapped: fee and price", [('price = "Price"', 'price = "Fee"'), ('fee = "Fee"', 'fee = "Price"')], [BUY], "row 1 units, price, fee and amount disagree"),
    ("two columns are swapped: symbol and currency", [('symbol = "Symbol"', 'symbol = "Kind"')], [BUY], "row 1 symbol is no commodity"),
    ("a column that the header lacks", [('fee = "Fee"', 'fee = "Charge"')], [BUY], "row 1 column 'Charge' is not in the header"),
    ("a column that the header lacks, and may", [('fee = "Fee"', 'fee = ["Fee", "Charge"]'), ("order =", 'optional = ["Charge"]\norder =')], [BUY], ["{{1009.95 USD}}"]),
    ("a row longer than its header", [], [BUY + ";x"], "row 1 is longer than its header"),
    ("a row with blank fields behind", [], [BUY + "; ;"], ["{{1009.95 USD}}"]),
    ("a row shorter than its header", [], ["2024-03-05;Dividend;HOOL;;;8.50;USD"], ["; row 1 dividend key 2024-03-05 1 2024-03-05 Dividend HOOL 8.50 USD"]),
    ("an amount without a value", [], ["2024-03-05;Dividend;HOOL;;;--;USD;;D3"], "row 1 amount has no value"),
    ("a currency without a value", [], ["2024-03-05;Dividend;HOOL;;;8.50;;;D3"], "row 1 currency has no value"),
    ("no header", [('header = "Day;Kind"', 'header = "Date;"')], [BUY], "file has no header"),
    # Numbers.
    ("a decimal comma", [], [BUY.replace("100.50", "100,50")], "row 1 price is no number: 100,50"),
    ("a group of two digits", [], [BUY.replace("-1,009.95", "-10,09.95")], "row 1 amount is no number"),
    ("digits before a group", [], [BUY.replace("-1,009.95", "-1009,000.95")], "row 1 amount is no number"),
    ("a point for groups", [('decimal = "."\ngrouping = ","', 'decimal = ","\ngrouping = "."')], [BUY], "row 1 price is no number: 100.50"),
    ("a sign of another currency", [], [BUY.replace("100.50", "€100.50")], "row 1 price is no number"),
    ("no decimals behind the point", [], [BUY.replace("100.50", "100.")], "row 1 price is no number"),
    ("a sign behind", [], [BUY.replace("-1,009.95", "1,009.95-")], "row 1 amount is no number"),
    ("forms of one number", [], [
        BUY.replace("-1,009.95", text) for text in ("-$1,009.95", "$-1,009.95", "($1,009.95)", "-1009.95", "-1,009.950", "(1009.95)", "-1,009.95 $")
    ], ["  Assets:Cash -1009.95 USD"] * 7),
    ("the longest sign of a currency", [('["$"]', '["$", "US$", "$US"]')], [
        BUY.replace("-1,009.95", text) for text in ("-1,009.95 US$", "US$ -1,009.95", "-$US1,009.95", "(US$1,009.95)", "- $ 1,009.95 $US")
    ], ["  Assets:Cash -1009.95 USD"] * 5),
    ("no digit before the point", [], ["2024-03-05;Dividend;HOOL;;;.5;USD;;D3"], ["  Assets:Cash 0.5 USD"]),
    ("a ninth decimal of units", [], [BUY.replace(";10;", ";10.000000001;")], "row 1 units has more than eight decimals"),
    ("a ninth decimal that is zero", [], [BUY.replace(";10;", ";10.000000000;")], ["10 HOOL"]),
    ("amounts of nine decimals", [], [DIVIDEND.replace("8.50", "8.500000005"), DIVIDEND.replace("8.50", "8.500000015")], ["Cash 8.5 USD", "Cash 8.50000002 USD", "2 rounded"]),
    ("a number out of range", [], [DIVIDEND.replace("8.50", "10000000000")], "row 1 amount is out of range"),
    # Days.
    ("a day against the order", [], [SELL.replace("03-04", "02-28").replace("Sell;HOOL;-4;110;435.05;USD;4.95", "Dividend;X;;;1;USD;"), BUY, DIVIDEND, CASH.replace("03-06", "03-04")], "row 4 day 2024-03-04 is against the order"),
    ("the newest first", [('"oldest-first"', '"newest-first"')], [CASH, DIVIDEND, SELL, BUY], ["; row 4 buy", "; row 3 sell", "; row 2 dividend", "; row 1 deposit"]),
    ("the newest first, of an older file", [('"oldest-first"', '"newest-first"')], [BUY, SELL], "row 2 day 2024-03-04 is against the order"),
    ("by day", [('"oldest-first"', '"by-day"')], [SELL, BUY, DIVIDEND], ["; row 2 buy", "; row 1 sell", "; row 3 dividend"]),
    ("another form of days", [], [BUY.replace("2024-03-01", "01.03.2024")], "row 1 day is no day"),
    ("a day that isn't in the calendar", [], [BUY.replace("2024-03-01", "2024-02-30")], "row 1 day is no day"),
    ("a day with a time", [], [BUY.replace("2024-03-01", each) for each in ("2024-03-01 9:05", "2024-03-01, 09:06:30 EST", "2024-03-01T10:07:00.123Z", "2024-3-1")], ["2024-03-01 * "] * 4),
    ("a day with something else behind", [], [BUY.replace("2024-03-01", "2024-03-01 as of 2024-02-29")], "row 1 day is no day"),
    ("a time in the morning and one in the afternoon", [('"oldest-first"', '"by-day"')], [
        DIVIDEND.replace("2024-03-05", f"2024-03-05 {each}") for each in ("1:30 PM", "12:05:59pm.", "9:05", "12:05 am", "11:00AM", "12:01 AMT")
    ], ["; row 4 ", "; row 3 ", "; row 5 ", "; row 6 ", "; row 2 ", "; row 1 "]),
    ("the hour 13 in the afternoon", [], [DIVIDEND.replace("2024-03-05", "2024-03-05 13:30 PM")], "row 1 day is no day"),
    ("the hour 0 in the morning", [('ref = "Id"', 'ref = "Id"\ntime = "Price"')], [DIVIDEND.replace("HOOL;;;", "HOOL;;0:30 AM;")], "row 1 time is no time"),
    ("a day without signs between", [('"YYYY-MM-DD"', '"YYYYMMDD"')], [BUY.replace("2024-03-01", "20240301T09:05")], ["2024-03-01 * "]),
    ("a day without signs, of one digit", [('"YYYY-MM-DD"', '"YYYYMMDD"')], [BUY.replace("2024-03-01", "2024112")], "row 1 day is no day"),
    ("a month without a sign, of one digit", [('"YYYY-MM-DD"', '"DD-MMYYYY"')], [BUY.replace("2024-03-01", "1-32024")], "row 1 day is no day"),
    ("a day of one digit beside a sign", [('"YYYY-MM-DD"', '"DD-YYYYMM"')], [BUY.replace("2024-03-01", "1-202403")], ["2024-03-01 * "]),
    ("a day of one digit beside a name", [('"YYYY-MM-DD"', '"DDMonYYYY"')], [BUY.replace("2024-03-01", "1Mar2024")], ["2024-03-01 * "]),
    ("a month by its name", [('"YYYY-MM-DD"', '"DD-Mon-YYYY"')], [BUY.replace("2024-03-01", "01-MAR-2024")], ["2024-03-01 * "]),
    # Signs, and what disagrees.
    ("a purchase with a sign that is wrong", [], [BUY.replace("-1,009.95", "1,009.95")], "row 1 has the signs of no buy"),
    ("units with a sign that is wrong", [], [SELL.replace("-4", "4")], "row 1 has the signs of no sell"),
    ("a sign that is turned twice", [('order = "oldest-first"', 'order = "oldest-first"\nturn = ["amount"]')], [BUY], "row 1 has the signs of no buy"),
    ("a fee with a sign that is wrong", [], [BUY.replace(";4.95", ";-4.95")], "row 1 units, price, fee and amount disagree"),
    ("a misread digit of the price", [], [BUY.replace("100.50", "100.60")], "row 1 units, price, fee and amount disagree"),
    ("a price with a comma for a point", [], [BUY.replace("100.50", "100,500")], "row 1 units, price, fee and amount disagree"),
    ("a cent and the bound", [], [BUY.replace("-1,009.95", "-1,009.965")], ["{{1009.965 USD}}"]),
    ("more than a cent and the bound", [], [BUY.replace("-1,009.95", "-1,009.96500001")], "row 1 units, price, fee and amount disagree"),
    ("what is rounded", [kind_more("[basis]\nrounded = { price = 2 }")], [BUY.replace("-1,009.95", "-1,010.015")], ["{{1010.015 USD}}"]),
    ("a deposit below zero", [('when = { Kind = "Cash", Amount = "> 0" }', 'when = { Kind = "Cash", Amount = "< 0" }'), ('is = "withdrawal"\nwhen = { Kind = "Cash", Amount = "< 0" }', 'is = "withdrawal"\nwhen = { Kind = "Cash", Amount = "> 0" }')], [CASH], "row 1 has the sign of no withdrawal"),
    ("a tax with a sign that is wrong", [('is = "dividend"\n', 'is = "dividend"\ncolumns = { tax = "Fee" }\n')], [DIVIDEND.replace("USD;;", "USD;-1.50;")], "row 1 tax has another sign"),
    ("a net dividend", [('is = "dividend"\n', 'is = "dividend"\ncolumns = { tax = "Fee" }\n')], [DIVIDEND.replace("USD;;", "USD;1.50;")], ["Cash 8.5 USD", "Tax 1.5 USD", "Dividends -10 USD"]),
    # Cancelled purchases.
    ("a cancelled purchase without its purchase", [], ["2024-03-02;Cancel;HOOL;-10;100.50;1,009.95;USD;-4.95;D5"], "row 1 its purchase is not in the file"),
    ("a cancelled purchase with another amount", [], [BUY, "2024-03-02;Cancel;HOOL;-10;100.50;1,009.94;USD;-4.94;D5"], "row 2 its purchase is not in the file"),
    ("a cancelled purchase takes its own lot", [], [BUY.replace("03-01", "02-01"), BUY, "2024-03-02;Cancel;HOOL;-10;100.50;1,009.95;USD;-4.95;D5"], ["Broker -10 HOOL {{1009.95 USD, 2024-03-01}}", "Cash 1009.95 USD"]),
    ("two cancelled purchases", [], [BUY.replace("03-01", "02-01"), BUY] + ["2024-03-02;Cancel;HOOL;-10;100.50;1,009.95;USD;-4.95;D5"] * 2, ["USD, 2024-03-01}}", "USD, 2024-02-01}}"]),
    ("a purchase is cancelled once", [], [BUY] + ["2024-03-02;Cancel;HOOL;-10;100.50;1,009.95;USD;-4.95;D5"] * 2, "row 3 its purchase is not in the file"),
    # Keys.
    ("equal rows are two deals", [], [BUY, BUY], ["key 2024-03-01 1 D1", "key 2024-03-01 2 D1"]),
    ("occurrences are counted from the oldest", [('"oldest-first"', '"newest-first"')], [BUY.replace("10;", "20;").replace("-1,009.95", "-2,014.95"), BUY], ["; row 2 buy key 2024-03-01 1 D1", "; row 1 buy key 2024-03-01 2 D1"]),
    ("a long key", [], [DIVIDEND.replace("D3", "x" * 60)], ["; row 1 dividend key 82fb0a90ca0c50e8bfe4eca74738ac78\n"]),
    ("a quote in a key", [], [DIVIDEND.replace("D3", 'D"3')], ["; row 1 dividend key 6769dc57bf143b8754caa1db8454663b\n"]),
    # Profiles.
    ("an entry that is missing", [('delimiter = ";"\n', "")], [BUY], "profile file.delimiter"),
    ("an entry that is unknown", [('delimiter = ";"\n', 'delimiter = ";"\nheadline = 1\n')], [BUY], "profile file.headline"),
    ("a role that is unknown", [('fee = "Fee"', 'fees = "Fee"')], [BUY], "profile columns.fees"),
    ("a role that a kind needs", [('units = "Units"\n', "")], [BUY], "profile columns.units"),
    ("an account that a kind needs", [('gains = "Income:Gains"\n', "")], [BUY], "profile accounts.gains"),
    ("a name that is no account", [('"Income:Gains"', '"Gains"')], [BUY], "profile accounts.gains"),
    ("a kind that is unknown", [('is = "skip"', 'is = "ignore"')], [BUY], "profile kind.7.is"),
    ("a form of days without a year", [('"YYYY-MM-DD"', '"MM-DD"')], [BUY], "profile file.day"),
    ("one sign for groups and decimals", [('grouping = ","', 'grouping = "."')], [BUY], "profile file.grouping"),
    ("a commodity that is none", [kind_more('[symbols]\nX = "brk/b"')], [BUY], "profile symbols.X"),
    ("a text where a list is wanted", [('nothing = ["", "--"]', 'nothing = "--"')], [BUY], "profile file.nothing"),
    ("no TOML", [("[file]", "[file")], [BUY], "profile -"),
    # Columns of all kinds.
    ("the beginning of a field", [('symbol = "Symbol"', 'symbol = { column = "Symbol", until = "(" }')], [BUY.replace("HOOL", "HOOL (US1)"), SELL], ["10 HOOL {{", "-4 HOOL {}"]),
    ("a beginning that is nothing", [('symbol = "Symbol"', 'symbol = { column = "Symbol", until = "(" }')], [BUY.replace("HOOL", "(US1)")], "row 1 symbol has no value"),
    ("a constant", [('currency = "Currency"', 'currency = { is = "EUR" }')], [BUY], ["{{1009.95 EUR}}"]),
    ("numbers of columns", [('currency = "Currency"', "currency = 7"), ('amount = "Amount"', "amount = 6"), ('when = { Kind = "Buy" }', 'when = { 2 = "Buy" }')], [BUY], ["{{1009.95 USD}}"]),
    ("a column beyond the header", [('ref = "Id"', "ref = 12")], [DIVIDEND], "row 1 column 12 is not in the header"),
    ("a tax beyond the header", [('is = "dividend"\n', 'is = "dividend"\ncolumns = { tax = 10 }\n')], [DIVIDEND], "row 1 column 10 is not in the header"),
    ("a condition beyond the header", [('when = { Kind = "Dividend" }', 'when = { Kind = "Dividend", 10 = "nothing" }')], [DIVIDEND], "row 1 column 10 is not in the header"),
    ("the last column of the header", [('ref = "Id"', "ref = 9")], [DIVIDEND], ["key 2024-03-05 1 D3\n"]),
    ("a column beyond the header, and may", [('ref = "Id"', "ref = 12"), ("order =", 'optional = ["12"]\norder =')], [DIVIDEND], ["key 2024-03-05 1 2024-03-05 Dividend HOOL 8.50 USD D3\n"]),
    ("a column beyond the row", [('ref = "Id"', "ref = 9")], [DIVIDEND.replace(";;D3", "")], ["key 2024-03-05 1 2024-03-05 Dividend HOOL 8.50 USD\n"]),
    ("a column beyond the row, without a header", [
        ('header = "Day;Kind"', "header = 0"), ('[columns]\nday = "Day"\nsymbol = "Symbol"\nunits = "Units"\nprice = "Price"\namount = "Amount"\ncurrency = "Currency"\nfee = "Fee"\nref = "Id"', "[columns]\nday = 1\nsymbol = 3\nunits = 4\nprice = 5\namount = 6\ncurrency = 7\nfee = 8\nref = 12"),
        ("Kind =", "2 ="), ("Kind =", "2 ="), ("Kind =", "2 ="), ("Kind =", "2 ="), ("Kind = \"Cash\", Amount", "2 = \"Cash\", 6"), ("Kind = \"Cash\", Amount", "2 = \"Cash\", 6"), ("Kind =", "2 ="),
    ], f"{DIVIDEND}\n".encode(), ["key 2024-03-05 1 2024-03-05 Dividend HOOL 8.50 USD D3\n"]),
    ("a named column without a header", [('header = "Day;Kind"', "header = 0")], [DIVIDEND], "profile columns"),
    ("an optional column by its number in no key", [('ref = "Id"\n', ""), ("order =", 'optional = ["9"]\norder =')], [DIVIDEND], ["key 2024-03-05 1 2024-03-05 Dividend HOOL 8.50 USD\n"]),
    ("columns that are added", [('amount = "Amount"', 'amount = ["Amount", "Fee"]')], [BUY.replace("-1,009.95", "-1,014.90")], ["{{1009.95 USD}}"]),
    ("a symbol that has another name", [kind_more('[symbols]\n"BRK/B" = "BRK.B"')], [BUY.replace("HOOL", "BRK/B")], ["10 BRK.B {{"]),
    ("a symbol that is no commodity", [], [BUY.replace("HOOL", "BRK/B")], "row 1 symbol is no commodity: BRK/B"),
    ("a symbol in small letters", [], [BUY.replace("HOOL", "Hool")], "row 1 symbol is no commodity: Hool"),
    ("a currency in small letters", [], [DIVIDEND.replace("USD", "usd")], "row 1 currency is no commodity: usd"),
    ("an account by the currency", [('"Assets:Cash"', '"Assets:{currency}:{symbol}"')], [DIVIDEND], ["  Assets:USD:HOOL 8.5 USD"]),
    ("an account that a field spoils", [('"Assets:Cash"', '"Assets:{symbol}"')], [DIVIDEND.replace("HOOL", "BRK.B")], "row 1 is no account: Assets:BRK.B"),
    ("an account without its field", [('"Assets:Cash"', '"Assets:{symbol}"')], [CASH], "row 1 symbol has no value"),
    ("an optional column in no key", [('ref = "Id"\n', ""), ("order =", 'optional = ["Id"]\norder =')], [DIVIDEND], ["key 2024-03-05 1 2024-03-05 Dividend HOOL 8.50 USD\n"]),
    ("a named optional column in no key", [('ref = "Id"\n', ""), ("order =", 'optional = ["Id"]\norder ='), ('when = { Kind = "Dividend" }', 'when = { Kind = "Dividend", Id = ["nothing", "something"] }')], [DIVIDEND], ["key 2024-03-05 1 2024-03-05 Dividend HOOL 8.50 USD\n"]),
    # Fees and prices in other currencies.
    ("a fee in a third currency is paid beside", [('fee = "Fee"', 'fee = "Fee"\nfee-currency = { is = "CHF" }')], [BUY.replace("-1,009.95", "-1,005")], ["{{1005 USD}}", "Expenses:Fees 4.95 CHF", "Assets:Cash -4.95 CHF", "Assets:Cash -1005 USD"]),
    ("a fee in a third currency isn't in the amount", [('fee = "Fee"', 'fee = "Fee"\nfee-currency = { is = "CHF" }')], [BUY], "row 1 units, price, fee and amount disagree"),
    ("a rate ties two currencies", [('price = "Price"', 'price = "Price"\nprice-currency = { is = "EUR" }\nrate = { is = "0.5" }')], [BUY.replace("-1,009.95", "-2,014.95")], ["{{2014.95 USD}}"]),
    ("a rate that is turned round", [('price = "Price"', 'price = "Price"\nprice-currency = { is = "EUR" }\nrate = { is = "2" }')], [BUY.replace("-1,009.95", "-2,014.95")], "row 1 units, price, fee and amount disagree"),
    ("a rate of zero", [('price = "Price"', 'price = "Price"\nprice-currency = { is = "EUR" }\nrate = { is = "0" }')], [BUY], "row 1 rate is not above zero"),
    ("no rate beside two currencies", [('price = "Price"', 'price = "Price"\nprice-currency = { is = "EUR" }')], [BUY], ["{{1009.95 USD}}"]),
    ("no price", [('price = "Price"\n', "")], [BUY], ["{{1009.95 USD}}"]),
    ("no amount", [('amount = "Amount"\n', ""), ('[[kind]]\nis = "dividend"\nwhen = { Kind = "Dividend" }\n\n[[kind]]\nis = "deposit"\nwhen = { Kind = "Cash", Amount = "> 0" }\n\n[[kind]]\nis = "withdrawal"\nwhen = { Kind = "Cash", Amount = "< 0" }\n', "")], [BUY, SELL], ["{{1009.95 USD}}", "@@ 435.05 USD"]),
    ("the price as cost", [BY_PRICE], [BUY, SELL], ["10 HOOL {100.5 USD}", "Expenses:Fees 4.95 USD", "Cash -1009.95 USD", "-4 HOOL {} @ 110 USD", "Fees 4.95 USD", "Cash 435.05 USD", "  Income:Gains\n"]),
    ("the price as cost, in another currency", [BY_PRICE, ('price = "Price"', 'price = "Price"\nprice-currency = { is = "EUR" }')], [BUY, SELL], ["10 HOOL {100.5 EUR}", "Fees 4.95 USD", "Cash -4.95 USD", "Cash -1005 USD @@ 1005 EUR", "-4 HOOL {} @ 110 EUR", "Cash 440 USD @@ 440 EUR"]),
    # Other kinds.
    ("an exchange in one row", [EXCHANGE], ["2024-03-07;Swap;EUR;-100;;108;USD;;D5"], ["Cash 108 USD", "Transfers -108 USD", "Cash -100 EUR", "Transfers 100 EUR"]),
    ("an exchange with equal signs", [EXCHANGE], ["2024-03-07;Swap;EUR;100;;108;USD;;D5"], "row 1 has the signs of no exchange"),
    ("an exchange of a currency for itself", [EXCHANGE], ["2024-03-07;Swap;USD;-100;;108;USD;;D5"], "row 1 exchanges a currency for itself"),
    ("an exchange with a fee", [EXCHANGE], ["2024-03-07;Swap;EUR;-100;;106;USD;2;D5"], ["Cash 106 USD", "Fees 2 USD", "Transfers -108 USD"]),
    ("a dividend that is booked in another currency", [('is = "dividend"\n', 'is = "dividend"\ncolumns = { booked = "Price", booked-currency = { is = "EUR" }, tax = "Fee" }\n')], [DIVIDEND.replace(";;8.50", ";7.70;8.50").replace("USD;;", "USD;1.50;")], ["Cash 7.7 EUR @@ 8.5 USD", "Tax 1.5 USD", "Dividends -10 USD"]),
    ("a dividend that is booked with another sign", [('is = "dividend"\n', 'is = "dividend"\ncolumns = { booked = "Price", booked-currency = { is = "EUR" } }\n')], [DIVIDEND.replace(";;8.50", ";-7.70;8.50")], "row 1 booked has another sign"),
    ("a tax in another currency", [('is = "dividend"\n', 'is = "dividend"\ncolumns = { tax = "Fee", tax-currency = { is = "GBP" } }\n')], [DIVIDEND.replace("USD;;", "USD;1.50;")], ["Cash 8.5 USD", "Dividends -8.5 USD", "Tax 1.5 GBP", "Dividends -1.5 GBP"]),
    ("a dividend that is taken back", [('is = "dividend"\n', 'is = "dividend"\ncolumns = { tax = "Fee" }\n')], [DIVIDEND.replace("8.50", "-8.50").replace("USD;;", "USD;-1.50;")], ["Cash -8.5 USD", "Tax -1.5 USD", "Dividends 10 USD"]),
    ("a reward", [REWARD], ["2024-03-07;Gift;HOOL;0.5;;52;USD;;D5"], ["Broker 0.5 HOOL {{52 USD}}", "Rewards -52 USD"]),
    ("a reward's price of ten decimals", [REWARD], ["2024-03-07;Gift;HOOL;3;0.5000000001;;USD;;D5"], ["Broker 3 HOOL {{1.5 USD}}", "1 rounded"]),
    ("a reward's price beside its amount isn't used", [REWARD], ["2024-03-07;Gift;HOOL;3;0.5000000001;1.5;USD;;D5"], ["{{1.5 USD}}", "0 rounded"]),
    ("a reward by its price", [REWARD], ["2024-03-07;Gift;HOOL;0.00000003;0.5;;USD;;D5"], ["Broker 0.00000003 HOOL {{0.00000002 USD}}", "Rewards -0.00000002 USD"]),
    ("a reward that counts as nothing", [REWARD, kind_more('[basis]\nrewards = "zero"')], ["2024-03-07;Gift;HOOL;0.5;;52;USD;;D5"], ["Broker 0.5 HOOL {{0 USD}}\n;"]),
    ("a reward below zero", [REWARD], ["2024-03-07;Gift;HOOL;0.5;;-52;USD;;D5"], "row 1 has the signs of no reward"),
    ("a transfer in without its columns", [('is = "dividend"', 'is = "transfer-in"')], [BUY], "profile columns.cost"),
    ("a split by a ratio in lowest terms", [SPLIT], [BUY, "2024-03-07;Split;HOOL;;30:10;;;;D5"], ["split Assets:Broker HOOL 3:1"]),
    ("a split with a number above 100", [SPLIT], [BUY, "2024-03-07;Split;HOOL;;101:1;;;;D5"], "row 2 ratio has a number above 100"),
    ("a split that is no ratio", [SPLIT], [BUY, "2024-03-07;Split;HOOL;;3 for 1;;;;D5"], "row 2 ratio is no ratio"),
    ("a price", [('is = "dividend"', 'is = "price"')], ["2024-03-05;Dividend;HOOL;;8.50;;USD;;D3"], ["2024-03-05 price HOOL 8.5 USD\n"]),
    ("a row by hand", [('is = "dividend"', 'is = "by-hand"')], [BUY, DIVIDEND], ["; row 1 buy", "; 0 skipped"]),
    ("a cancelled sale", [('is = "cancel-buy"', 'is = "cancel-sell"')], [SELL, "2024-03-05;Cancel;HOOL;4;110;-435.05;USD;-4.95;D5"], "row 2 is a cancelled sale"),
    # Files.
    ("lines of blanks and lines before the header", [], (f"Cases;of 2024\n\n ; ;\n{HEADER}\n;;\n{BUY}\n").encode(), ["; row 1 buy"]),
    ("a header that comes again", [], (f"{HEADER}\n{BUY}\nDay;Kind;Symbol;Price;Units;Amount;Currency;Fee;Id\n2024-03-01;Buy;HOOL;100.50;10;-1,009.95;USD;4.95;D1\n").encode(), ["; row 1 buy", "; row 2 buy key 2024-03-01 2 D1"]),
    ("a column that stands twice", [], (f"{HEADER};Fee\n{BUY};\n").encode(), "row 1 column 'Fee' stands twice"),
    ("a header's number", [('header = "Day;Kind"', "header = 2")], (f"Cases\n\n{HEADER}\n{BUY}\n").encode(), ["; row 1 buy"]),
    ("a header in quotes", [], (HEADER.replace("Kind", '"Kind"') + f"\n{BUY}\n").encode(), ["; row 1 buy"]),
    ("a mark, and lines that end otherwise", [], ("\ufeff" + f"{HEADER}\r\n{BUY}\r\n").encode(), ["; row 1 buy"]),
    ("a byte that is not UTF-8", [], f"{HEADER}\n{BUY}\xfc\n".encode("latin-1"), "file is not UTF-8"),
    ("a byte of Latin-1", [('delimiter = ";"', 'encoding = "latin-1"\ndelimiter = ";"')], f"{HEADER}\n{BUY}\xfc\n".encode("latin-1"), ["key 2024-03-01 1 D1\u00fc"]),
    ("blanks around fields", [], f"{HEADER}\n{BUY}\n".replace(";", " ;\t").encode(), ["; row 1 buy key 2024-03-01 1 D1"]),
    ("a field with a line end in a key", [], (f'{HEADER}\n{DIVIDEND[:-2]}"D\n3"\n').encode(), ["; row 1 dividend key b3e9e7f4dd279d7f4a0cebd67dfec959\n"]),
    ("a file without a row", [], f"{HEADER}\n".encode(), ["; 0 skipped"]),
    ("an empty file", [], b"", "file has no header"),
]


def file_of(lines):
    """The bytes of a case's file."""
    return lines if isinstance(lines, bytes) else ("\n".join([HEADER] + lines) + "\n").encode()


def printed(changes, lines):
    """What comes of a case: the lines of reader.py, or its fault."""
    text = PROFILE
    for old, new in changes:
        if old not in text:
            return f"the profile has no {old!r}"
        text = text.replace(old, new, 1)
    try:
        profile = reader.read_profile(text.encode())
        read = reader.read_export(profile, file_of(lines))
    except reader.ProfileFault as fault:
        return f"fault profile {fault.key} {fault.what}"
    except reader.Fault as fault:
        return str(fault)
    out = "".join(f"; row {deal.row.number} {deal.kind} key {deal.key}\n{deal.text_}" for deal in read.deals)
    return out + f"; {read.skipped} skipped, {read.rounded} rounded\n"


def cases():
    """The name of each case, and what is wrong with it."""
    for name, changes, lines, wanted in CASES:
        got = printed(changes, lines)
        if isinstance(wanted, str):
            good = got.startswith(f"fault {wanted}")
            yield f"case: {name}", "" if good else f"{got.splitlines()[0]}, wanted {wanted}"
            continue
        at, missing = 0, ""
        for text in wanted:
            found = got.find(text, at)
            if found < 0:
                missing = missing or f"no {text!r} in {got!r}"
            at = max(at, found + len(text))
        yield f"case: {name}", missing
