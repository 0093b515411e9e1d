#!/usr/bin/env python3
"""Makes the page of a book from its other reports alone.

    model.py PROGRAM BOOK [--first DAY] [--last DAY] [--day DAY] [--digest]

It is written from docs/FORMATS.md, 'Page'. What it takes from the program is its other reports, and how a page looks: the lines of
crates/lot_page_report/src/style.rt.
"""
import base64
import csv
import datetime
import hashlib
import io
import os
import re
import subprocess
import sys

SCALE = 10 ** 16
LAST_DAY = "9999-12-31"
MOST_MONTHS = 600
HERE = os.path.dirname(os.path.abspath(__file__))


def escaped(text):
    for byte, name in (("&", "&amp;"), ("<", "&lt;"), (">", "&gt;"), ('"', "&quot;"), ("\r", "&#13;")):
        text = text.replace(byte, name)
    return text


def name(text):
    return "<bdi>" + escaped(text) + "</bdi>"


def grouped(text):
    """A number text for the eye: commas between thousands, a minus sign."""
    sign, digits = ("−", text[1:]) if text.startswith("-") else ("", text)
    whole, point, decimals = digits.partition(".")
    out = ""
    while len(whole) > 3:
        whole, out = whole[:-3], "," + whole[-3:] + out
    return sign + whole + out + point + decimals


def mantissa(text):
    """The whole number of a number text at scale 16."""
    sign, digits = (-1, text[1:]) if text.startswith("-") else (1, text)
    whole, _, decimals = digits.partition(".")
    return sign * int(whole + decimals.ljust(16, "0"))


def money(value):
    """The text of a whole number at scale 16, with two decimals at least."""
    whole, decimals = divmod(abs(value), SCALE)
    decimals = f"{decimals:016d}".rstrip("0").ljust(2, "0")
    return ("-" if value < 0 else "") + f"{whole}.{decimals}"


def data(text):
    return f'<data value="{text}">{grouped(text)}</data>'


def number(text):
    return f'<td class="n">{data(text)}</td>' if text else '<td class="n"></td>'


def gain(text):
    """A number that is marked where it is below zero."""
    kind = "n loss" if text.startswith("-") else "n"
    return f'<td class="{kind}">{data(text)}</td>' if text else '<td class="n"></td>'


def head(columns):
    return "<thead>\n<tr>" + "".join(
        f'<th class="n" scope="col">{text}</th>' if right else f'<th scope="col">{text}</th>'
        for text, right in columns) + "</tr>\n</thead>\n"


def wide(label, table):
    return f'<div class="wide" role="region" tabindex="0" aria-label="{label}">\n{table}</div>\n'


# ---- plots: whole numbers of thousandths, rounded down

def step_of(span):
    """The least step of which a span has at most a thousand."""
    return max((span + 999) // 1000, 1)


def height(value, low, high):
    """How far below the upper edge a value is drawn, in thousandths of the height."""
    return 1000 - (value - low) // step_of(high - low)


def percent(thousandths):
    return f"{thousandths // 10}.{thousandths % 10}%"


def nice(span):
    """The least of 1, 2 and 5 times a power of ten of which at most four fit into the span."""
    unit = 1
    while True:
        for factor in (1, 2, 5):
            if span // (factor * unit) <= 4:
                return factor * unit
        unit *= 10


def tick_text(value, unit):
    return grouped(str(value // SCALE)) if unit >= SCALE else grouped(money(value))


def grid(low, high):
    unit = nice(high - low)
    value = -(-low // unit) * unit
    out = ""
    while value <= high:
        y = percent(height(value, low, high))
        kind = ' class="zero"' if value == 0 else ""
        out += f'<line{kind} x1="0" x2="100%" y1="{y}" y2="{y}"/>\n<text x="0" y="{y}" dy="-4">{tick_text(value, unit)}</text>\n'
        value += unit
    return out


def below(x, text):
    return f'<text x="{percent(x)}" y="202" text-anchor="middle">{text}</text>\n'


def plot(label, inner, below_it):
    return (f'<svg class="plot" height="208" role="img" aria-label="{label}">\n<svg y="18" width="100%" height="164">\n'
            f"{inner}</svg>\n{below_it}</svg>\n")


def bars(currency, gains):
    """Bars of the gains of years: a list of pairs of a year and a whole number."""
    values = [value for _, value in gains]
    low, high = min(0, *values), max(0, *values)
    first, last = gains[0][0], gains[-1][0]
    count = last - first + 1
    width = max(min(860 * 7 // (10 * count), 90), 1)
    inner = grid(low, high)
    for year, value in gains:
        centre = 140 + 860 * (2 * (year - first) + 1) // (2 * count)
        top, bottom = height(max(value, 0), low, high), height(min(value, 0), low, high)
        kind = ' class="below"' if value < 0 else ""
        inner += (f'<rect{kind} x="{percent(centre - width // 2)}" y="{percent(top)}" width="{percent(width)}" '
                  f'height="{percent(bottom - top)}"/>\n')
    every = (count + 5) // 6
    labels = "".join(below(140 + 860 * (2 * at + 1) // (2 * count), f"{first + at:04d}") for at in range(0, count, every))
    label = (f"Gains in {escaped(currency)} by year, {first:04d} to {last:04d}: the least is {grouped(money(min(values)))}, "
             f"the greatest {grouped(money(max(values)))}")
    return plot(label, inner, labels)


def path(kind, points):
    """A line through the points that there are."""
    out, pen = "", "M"
    for x, y in points:
        if y is None:
            pen = "M"
            continue
        if pen == "M":
            out += f"M{x} {y}"
        out += f"L{x} {y}"
        pen = "L"
    return f'<path class="{kind}" d="{out}"/>\n' if out else ""


def lines(currency, months, rows):
    values = [value for row in rows for value in row if value is not None]
    low, high = min(0, *values), max(0, *values)
    count = len(rows)

    def x(at):
        return at * 1000 // (count - 1) if count > 1 else 500

    def y(value):
        return None if value is None else height(value, low, high)

    inner = grid(low, high) + '<svg x="14%" width="80%" viewBox="0 0 1000 1000" preserveAspectRatio="none">\n'
    inner += path("cost", [(x(at), y(cost)) for at, (_, cost) in enumerate(rows)])
    inner += path("worth", [(x(at), y(worth)) for at, (worth, _) in enumerate(rows)])
    inner += "</svg>\n"
    labels = ""
    if count <= 24:
        every = (count + 4) // 5
        for at in range(0, count, every):
            labels += below(140 + x(at) * 80 // 100, months[at])
    else:
        years = int(months[-1][:4]) - int(months[0][:4]) + 1
        every = (years + 5) // 6
        for at in range(count):
            year, month = int(months[at][:4]), months[at][5:]
            if month == "01" and year % every == 0:
                labels += below(140 + x(at) * 80 // 100, months[at][:4])
    gaps = sum(worth is None for worth, _ in rows)
    last_worth = "not known" if rows[-1][0] is None else grouped(money(rows[-1][0]))
    label = (f"Worth and cost of lots in {escaped(currency)} at the end of each month, {months[0]} to {months[-1]}: at the last "
             f"the worth is {last_worth}, the cost {grouped(money(rows[-1][1]))}")
    if gaps:
        label += f"; at {gaps} the worth isn't known"
    return plot(label, inner, labels)


# ---- the reports

class Book:
    def __init__(self, program, book, first, last, day, digest):
        self.program, self.book = program, book
        self.first, self.last, self.digest = first, last, digest
        self.on = last or LAST_DAY
        self.day = day or self.on
        self.prices = day or last

    def run(self, word, *words):
        done = subprocess.run([self.program, word, "--book", self.book, "--quiet", *words], capture_output=True)
        if done.returncode:
            raise SystemExit(f"model: {word} ends with {done.returncode}: {done.stdout.decode()[-200:]}")
        return done.stdout.decode()

    def table(self, word, *words):
        return list(csv.DictReader(io.StringIO(self.run(word, "--format", "csv", *words), newline="")))

    def range(self):
        words = []
        if self.first:
            words += ["--first", self.first]
        if self.last:
            words += ["--last", self.last]
        return words

    def entries(self):
        """The entries of the journal: each with its number, its day and its text."""
        out = []
        for line in self.run("journal").splitlines(keepends=True):
            if line.startswith("; entry "):
                out.append([int(line.split()[2]), None, line])
            else:
                if out[-1][1] is None:
                    out[-1][1] = line[:10]
                out[-1][2] += line
        return out


def quoted(body):
    """A command for the page: what stands in quotes is a name."""
    out, inside, at = "", False, 0
    while at < len(body):
        if body[at] == '"':
            out += "</bdi>&quot;" if inside else "&quot;<bdi>"
            inside = not inside
        elif inside and body[at] == "\\":
            out += escaped(body[at:at + 2])
            at += 1
        else:
            out += escaped(body[at])
        at += 1
    return out + ("</bdi>" if inside else "")


def month_ends(first, last):
    """The months from a day to another, each with the last day of it that counts."""
    year, month = int(first[:4]), int(first[5:7])
    out = []
    while f"{year:04d}-{month:02d}" <= last[:7]:
        after = (year + 1, 1) if month == 12 else (year, month + 1)
        if after[0] > 9999:
            end = LAST_DAY
        else:
            end = (datetime.date(after[0], after[1], 1) - datetime.timedelta(days=1)).isoformat()
        out.append((f"{year:04d}-{month:02d}", min(end, last)))
        year, month = after
    return out


def in_range(book, day):
    return (not book.first or book.first <= day) and (not book.last or day <= book.last)


def runs_of(book, entries):
    """Runs of entries of one month: each with its month, its target and its entries."""
    out, seen = [], {}
    for number_, day, text in entries:
        if not in_range(book, day):
            continue
        month = day[:7]
        if not out or out[-1][0] != month:
            seen[month] = seen.get(month, 0) + 1
            target = f"m{month}" if seen[month] == 1 else None
            out.append([month, target, []])
        out[-1][2].append((number_, text))
    return out


# ---- the parts of the page

def header(book, title, entries, covered):
    out = f"<header>\n<h1>{name(title)}</h1>\n"
    if covered is None:
        out += "<p>No entries</p>\n"
    else:
        within = sum(in_range(book, day) for _, day, _ in entries)
        count = grouped(str(len(entries)))
        of = count if within == len(entries) else f"{grouped(str(within))} of {count}"
        out += f"<p>{covered[0]} to {covered[1]}, {of} entries</p>\n"
    if book.digest:
        line = book.run("verify", "--digest").splitlines()[1].split()
        out += f"<p>{line[1]} <code>{line[2]}</code></p>\n"
    out += "<nav>\n<ul>\n"
    for target, text in (("years", "Gains by year"), ("commodities", "Gains by commodity"), ("holdings", "Holdings"),
                         ("months", "Worth by month"), ("sales", "Sales"), ("journal", "Journal")):
        out += f'<li><a href="#{target}">{text}</a></li>\n'
    return out + "</ul>\n</nav>\n</header>\n"


def gain_cells(row):
    if row["gain"]:
        return number(row["lots"]) + number(row["proceeds"]) + number(row["cost"]) + gain(row["gain"])
    return number(row["lots"]) + number("") + number(row["cost"]) + '<td class="n">unpriced</td>'


def by_year(book):
    rows = book.table("gains", "--by", "year", *book.range())
    out = '<section id="years">\n<h2>Gains by year</h2>\n'
    if not rows:
        return out + "<p>No sales</p>\n</section>\n"
    for currency in sorted({row["currency"] for row in rows}):
        own = [row for row in rows if row["currency"] == currency]
        gains = [(int(row["year"]), mantissa(row["gain"])) for row in own if row["gain"]]
        out += '<div class="pair">\n'
        if gains:
            out += f"<figure>\n<figcaption>Gains in {name(currency)} by year</figcaption>\n{bars(currency, gains)}</figure>\n"
        table = f"<table>\n<caption>Sales in {name(currency)} by year</caption>\n"
        table += head((("Year", False), ("Lots", True), ("Proceeds", True), ("Cost", True), ("Gain", True))) + "<tbody>\n"
        for row in own:
            table += f'<tr><th scope="row">{row["year"]}</th>{gain_cells(row)}</tr>\n'
        out += wide(f"Sales in {escaped(currency)} by year", table + "</tbody>\n</table>\n") + "</div>\n"
    return out + "</section>\n"


def by_commodity(book):
    rows = book.table("gains", "--by", "commodity", *book.range())
    out = '<section id="commodities">\n<h2>Gains by commodity</h2>\n'
    if not rows:
        return out + "<p>No sales</p>\n</section>\n"
    table = "<table>\n<caption>What the sales gained, by commodity</caption>\n"
    table += head((("Commodity", False), ("Currency", False), ("Lots", True), ("Proceeds", True), ("Cost", True), ("Gain", True)))
    table += "<tbody>\n"
    totals = {}
    for row in rows:
        table += f'<tr><th scope="row">{name(row["commodity"])}</th><td>{name(row["currency"])}</td>{gain_cells(row)}</tr>\n'
        if row["gain"]:
            totals[row["currency"]] = totals.get(row["currency"], 0) + mantissa(row["gain"])
    table += "</tbody>\n"
    if totals:
        table += "<tfoot>\n"
        for currency, total in sorted(totals.items()):
            table += (f'<tr><th scope="row">Total</th><td>{name(currency)}</td><td></td><td></td><td></td>'
                      f"{gain(money(total))}</tr>\n")
        table += "</tfoot>\n"
    return out + wide("Gains by commodity", table + "</table>\n") + "</section>\n"


def share(value, all_values):
    """The share of a lot in all values, whatever their signs, in thousandths."""
    return percent(min(value * 1000 // all_values, 1000) if all_values else 0)


def holdings(book):
    rows = book.table("holdings", "--as-of", book.on, "--day", book.day)
    when = f"At the end of {book.last}" if book.last else "At the end"
    prices = f"at the prices of {book.prices}" if book.prices else "at the last prices"
    out = f'<section id="holdings">\n<h2>Holdings</h2>\n<p class="note">{when}, {prices}</p>\n'
    if not rows:
        return out + "<p>Nothing held</p>\n</section>\n"
    costs, values, gains, sizes, missing = {}, {}, {}, {}, 0
    for row in rows:
        if not row["acquired"]:
            continue
        currency = row["currency"]
        costs[currency] = costs.get(currency, 0) + mantissa(row["cost"])
        if not row["value"]:
            missing += 1
            continue
        value = mantissa(row["value"])
        values[currency] = values.get(currency, 0) + value
        gains[currency] = gains.get(currency, 0) + value - mantissa(row["cost"])
        sizes[currency] = sizes.get(currency, 0) + abs(value)
    table = "<table>\n<caption>What accounts hold, lot by lot</caption>\n"
    table += head((("Commodity", False), ("Units", True), ("Acquired", False), ("Label", False), ("Unit cost", True), ("Cost", True),
                   ("Price", True), ("Value", True), ("Unrealised gain", True), ("Currency", False), ("Share", True)))
    account = None
    for row in rows:
        if row["account"] != account:
            table += "</tbody>\n" if account is not None else ""
            account = row["account"]
            table += f'<tbody>\n<tr class="by"><th colspan="11" scope="rowgroup">{name(account)}</th></tr>\n'
        if not row["acquired"]:
            units = money(mantissa(row["units"]))
            table += f'<tr><td>{name(row["commodity"])}</td>{number(units)}<td colspan="9"></td></tr>\n'
            continue
        currency = row["currency"]
        table += f'<tr><td>{name(row["commodity"])}</td>{number(row["units"])}<td>{row["acquired"]}</td>'
        table += f'<td>{name(row["label"])}</td>' if row["label"] else "<td></td>"
        table += number(row["unit_cost"]) + number(row["cost"])
        if not row["value"]:
            table += f'<td class="n" colspan="3">no price</td><td>{name(currency)}</td><td></td></tr>\n'
            continue
        value = mantissa(row["value"])
        part = share(abs(value), sizes[currency])
        table += number(row["price"]) + number(row["value"]) + gain(money(value - mantissa(row["cost"])))
        table += (f'<td>{name(currency)}</td><td class="n"><data value="{part[:-1]}">{part}</data>'
                  f'<svg class="share" aria-hidden="true"><rect width="{part}" height="100%"></rect></svg></td></tr>\n')
    table += "</tbody>\n"
    if costs:
        table += "<tfoot>\n"
        for currency in sorted(costs):
            table += f'<tr><th colspan="5" scope="row">Total</th>{number(money(costs[currency]))}<td></td>'
            if currency in values:
                table += number(money(values[currency])) + gain(money(gains[currency]))
            else:
                table += "<td></td><td></td>"
            table += f"<td>{name(currency)}</td><td></td></tr>\n"
        table += "</tfoot>\n"
    out += wide("Holdings", table + "</table>\n")
    if missing:
        out += f'<p class="note">Lots without a price: {grouped(str(missing))}. They count in the total cost, not in the total value and gain.</p>\n'
    if values:
        out += ('<p class="note">A share is of the values of all lots in the currency, whatever their signs, '
                "rounded down to a tenth of a percent.</p>\n")
    return out + "</section>\n"


def by_month(book, covered):
    out = '<section id="months">\n<h2>Worth by month</h2>\n'
    every = month_ends(*covered) if covered is not None and covered[0] <= covered[1] else []
    ends = every[-MOST_MONTHS:]
    series, named = [], set()
    for _, end in ends:
        worth, cost, pairs, priced = {}, {}, {}, set()
        for row in book.table("holdings", "--as-of", end, "--day", end):
            if not row["acquired"]:
                continue
            currency = row["currency"]
            cost[currency] = cost.get(currency, 0) + mantissa(row["cost"])
            pair = (row["commodity"], currency)
            units, own = pairs.get(pair, (0, 0))
            pairs[pair] = (units + mantissa(row["units"]), own + mantissa(row["cost"]))
            if row["value"]:
                priced.add(pair)
                worth[currency] = worth.get(currency, 0) + mantissa(row["value"])
        named |= {pair[1] for pair, sums in pairs.items() if sums != (0, 0)}
        lacking = {pair[1] for pair, (units, _) in pairs.items() if units and pair not in priced}
        series.append((worth, cost, lacking))
    if not named:
        return out + "<p>No lots</p>\n</section>\n"
    if len(every) > MOST_MONTHS:
        out += f'<p class="note">The last {MOST_MONTHS} of {grouped(str(len(every)))} months</p>\n'
    months = [month for month, _ in ends]
    for currency in sorted(named):
        rows = [(None if currency in lacking else worth.get(currency, 0), cost.get(currency, 0)) for worth, cost, lacking in series]
        out += (f'<figure>\n<figcaption>Worth and cost of lots in {name(currency)} at the end of each month'
                '<span class="key">worth</span><span class="key">cost</span></figcaption>\n'
                f"{lines(currency, months, rows)}<details>\n<summary>The numbers</summary>\n")
        table = f"<table>\n<caption>Worth and cost of lots in {name(currency)}</caption>\n"
        table += head((("End of", False), ("Worth", True), ("Cost", True), ("Unrealised gain", True))) + "<tbody>\n"
        for month, (worth, cost) in zip(months, rows):
            table += f'<tr><th scope="row">{month}</th>'
            if worth is None:
                table += f'<td class="n">no price</td>{number(money(cost))}<td class="n"></td></tr>\n'
            else:
                table += f"{number(money(worth))}{number(money(cost))}{gain(money(worth - cost))}</tr>\n"
        out += wide(f"Worth and cost of lots in {escaped(currency)}", table + "</tbody>\n</table>\n") + "</details>\n</figure>\n"
    out += ('<p class="note">The last month ends on the last day of the page. A line is broken where some units have no price. Heights are rounded down to a thousandth of the plot.</p>\n')
    return out + "</section>\n"


def sales(book, runs):
    rows = book.table("gains", *book.range())
    out = '<section id="sales">\n<h2>Sales</h2>\n'
    if not rows:
        return out + "<p>No sales</p>\n</section>\n"
    targets = {number_: target for _, target, entries in runs for number_, _ in entries}
    table = "<table>\n<caption>What was sold, lot by lot</caption>\n"
    table += head((("Sold", False), ("Account", False), ("Commodity", False), ("Units", True), ("Acquired", False), ("Days", True),
                   ("Term", False), ("Label", False), ("Unit cost", True), ("Proceeds", True), ("Cost", True), ("Gain", True),
                   ("Currency", False)))
    before = None
    for row in rows:
        place = (row["entry"], row["posting"])
        if place != before:
            table += "</tbody>\n" if before is not None else ""
            table += "<tbody>\n"
            before = place
        target = "m" + row["sold"][:7]
        table += f'<tr><td><a href="#{target}">{row["sold"]}</a></td><td>{name(row["account"])}</td><td>{name(row["commodity"])}</td>'
        table += f'{number(row["units"])}<td>{row["acquired"]}</td>{number(row["days_held"])}<td>{row["term"]}</td>'
        table += f'<td>{name(row["label"])}</td>' if row["label"] else "<td></td>"
        table += number(row["unit_cost"])
        if row["gain"]:
            table += number(row["proceeds"]) + number(row["cost"]) + gain(row["gain"])
        else:
            table += number("") + number(row["cost"]) + '<td class="n">unpriced</td>'
        table += f'<td>{name(row["currency"])}</td></tr>\n'
    return out + wide("Sales", table + "</tbody>\n</table>\n") + "</section>\n"


def journal(book, runs):
    out = '<section id="journal">\n<h2>Journal</h2>\n'
    if not runs:
        return out + "<p>No entries</p>\n</section>\n"
    for month, target, entries in runs:
        summary = f'<summary id="{target}">' if target else "<summary>"
        out += f'<details>\n{summary}{month}</summary>\n<pre>'
        for number_, text in entries:
            line, _, body = text.partition("\n")
            _, _, _, _, source, key = line.split(" ", 5)
            out += f"<i>; entry {number_} key {escaped(source)} {name(key)}</i>\n{quoted(body)}"
        out += "</pre>\n</details>\n"
    return out + "</section>\n"


def style_of():
    """The lines of the style, as the source has them."""
    with open(os.path.join(HERE, "..", "..", "crates", "lot_page_report", "src", "style.rt"), encoding="utf-8") as file:
        lines = re.findall(r'^    "(.*)",$', file.read(), flags=re.M)
    return "".join(line.removesuffix("\\n").replace('\\"', '"').replace("\\\\", "\\") + "\n" for line in lines)


def page(book):
    title = os.path.basename(book.book)
    entries = book.entries()
    days = [day for _, day, _ in entries]
    covered = (book.first or min(days), book.last or max(days)) if days else None
    runs = runs_of(book, entries)
    style = style_of()
    digest = base64.b64encode(hashlib.sha256(style.encode()).digest()).decode()
    out = (f'<!DOCTYPE html>\n<html lang="en">\n<head>\n<meta charset="utf-8"/>\n'
           f"<meta http-equiv=\"Content-Security-Policy\" content=\"default-src 'none'; style-src 'sha256-{digest}'\"/>\n"
           '<meta name="viewport" content="width=device-width, initial-scale=1"/>\n'
           f"<title>{escaped(title)}</title>\n<style>{style}</style>\n</head>\n<body>\n")
    out += header(book, title, entries, covered)
    out += "<main>\n"
    out += by_year(book) + by_commodity(book) + holdings(book) + by_month(book, covered) + sales(book, runs) + journal(book, runs)
    return out + "</main>\n</body>\n</html>\n"


def main():
    program, book, *words = sys.argv[1:]
    asked = {"first": None, "last": None, "day": None, "digest": False}
    while words:
        word = words.pop(0)[2:]
        asked[word] = True if word == "digest" else words.pop(0)
    sys.stdout.buffer.write(page(Book(program, book, asked["first"], asked["last"], asked["day"], asked["digest"])).encode())


if __name__ == "__main__":
    main()
