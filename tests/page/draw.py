"""Draws a ledger of two currencies: draw.py COUNT. Prices have gaps, entries go back in time, and one sale has no price."""

import datetime
import random
import sys


def main():
    draw = random.Random(66)
    prices = {"ACME": ("EUR", 4000), "BOLT": ("EUR", 12000), "CRUX": ("USD", 1500), "DELTA": ("USD", 30000)}
    accounts = ["Assets:Broker", "Assets:Other"]
    held = {}
    print('2015-01-01 open Assets:Broker "FIFO"\n2015-01-01 open Assets:Other "LIFO"\n2015-01-01 open Assets:Margin "FIFO"')
    print("2015-01-01 open Assets:Cash\n2015-01-01 open Income:Gains")
    print('2015-01-05 * "Sold short"\n  Assets:Margin -3 SHORT {50 USD}\n  Assets:Cash')
    day = datetime.date(2015, 1, 10)
    for number in range(int(sys.argv[1])):
        base = draw.choice(list(prices))
        currency, cents = prices[base]
        cents = max(100, cents * draw.randint(94, 107) // 100)
        prices[base] = (currency, cents)
        price = f"{cents // 100}.{cents % 100:02d}"
        if draw.random() < 0.8:
            print(f"{day} price {base} {price} {currency}")
        account = draw.choice(accounts)
        lots = held.get((account, base), 0)
        if lots > 6 and draw.random() < 0.45:
            units = draw.randint(1, lots)
            held[account, base] = lots - units
            if number == 200:
                print(f'{day} * "Moved out of {base}"\n  {account} -{units} {base} {{}}\n  Assets:Cash')
            else:
                print(f'{day} * "Sale of {base}"\n  {account} -{units} {base} {{}} @ {price} {currency}\n  Assets:Cash {units * cents / 100:.2f} {currency}\n  Income:Gains')
        else:
            units = draw.randint(2, 25)
            held[account, base] = lots + units
            print(f'{day} * "Purchase of {base}"\n  {account} {units} {base} {{{price} {currency}}}\n  Assets:Cash')
        if number % 40 == 39:
            print(f'{day - datetime.timedelta(days=50)} * "Found later"\n  Assets:Cash 5 EUR\n  Income:Gains')
        day += datetime.timedelta(days=draw.randint(3, 18))


main()
