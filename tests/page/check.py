"""Reads a page as a browser would, and compares what it says with the other reports.

    check.py PROGRAM BOOK PAGE [--first DAY] [--last DAY] [--day DAY] [--digest]

Each element is closed where it has to be, targets are there once, links lead to them, nothing is fetched and no style stands beside
the one block whose digest the policy names. Each number stands beside itself; those of the tables are those of the reports as CSV,
and the text of the journal is that of `journal`, byte for byte. A difference goes to standard output, and ends it with status 1.
"""

import base64
import csv
import hashlib
import html.parser
import io
import os
import re
import subprocess
import sys
from decimal import Decimal

SAFE = {"html", "head", "meta", "title", "style", "body", "header", "h1", "h2", "bdi", "p", "code", "nav", "ul", "li", "a", "main",
        "section", "div", "figure", "figcaption", "svg", "line", "text", "rect", "path", "table", "caption", "thead", "tbody", "tfoot",
        "tr", "th", "td", "data", "span", "details", "summary", "pre", "i"}
faults = []


def wanted(is_so, what):
    if not is_so:
        faults.append(what)


class Page(html.parser.HTMLParser):
    def __init__(self, text):
        super().__init__(convert_charrefs=True)
        self.open, self.ids, self.links, self.tables, self.journal, self.style = [], [], [], {}, "", ""
        self.title, self.section, self.row, self.cell, self.data, self.csp, self.names = "", None, None, None, None, None, []
        self.feed(text)
        self.close()
        wanted(not self.open, f"left open: {self.open}")

    def handle_starttag(self, tag, attrs):
        values = dict(attrs)
        wanted(tag in SAFE, f"an element {tag}")
        wanted(len(values) == len(attrs), f"an attribute twice: {tag}")
        wanted(not {"style", "src", "onload", "onclick"} & set(values), f"attributes of {tag}: {values}")
        if "id" in values:
            self.ids.append(values["id"])
        if tag == "a":
            wanted(values["href"].startswith("#"), f"a link {values['href']}")
            self.links.append(values["href"][1:])
        if tag == "meta" and values.get("http-equiv"):
            self.csp = values["content"]
        if tag == "section":
            self.section = values["id"]
            self.tables[self.section] = []
        if tag == "tr":
            self.row = []
        if tag in ("td", "th"):
            self.cell = ["", None]
        if tag == "data":
            self.data = [values["value"], ""]
        if tag == "bdi":
            self.names.append("")
        self.open.append(tag)

    def handle_startendtag(self, tag, attrs):
        self.handle_starttag(tag, attrs)
        self.open.pop()

    def handle_endtag(self, tag):
        wanted(bool(self.open) and self.open[-1] == tag, f"</{tag}> in {self.open}")
        if self.open:
            self.open.pop()
        if tag == "data":
            value, shown = self.data
            plain = shown.replace(",", "").replace("−", "-").rstrip("%")
            wanted(plain == value, f"{value} is shown as {shown}")
            if self.cell is not None:
                self.cell[1] = value
            self.data = None
        if tag in ("td", "th"):
            self.row.append(self.cell[1] if self.cell[1] is not None else self.cell[0])
            self.cell = None
        if tag == "tr" and "thead" not in self.open and self.section:
            self.tables[self.section].append(self.row)

    def handle_data(self, text):
        if self.data is not None:
            self.data[1] += text
        if self.cell is not None:
            self.cell[0] += text
        if "pre" in self.open:
            self.journal += text
        if "title" in self.open:
            self.title += text
        if "style" in self.open:
            self.style += text
        if self.open and self.open[-1] == "bdi":
            self.names[-1] += text


def main():
    program, book, file, *words = sys.argv[1:]
    with open(file, encoding="utf-8", newline="") as page:
        text = page.read()
    first, last, day = (words[words.index(it) + 1] if it in words else None for it in ("--first", "--last", "--day"))
    days = [word for name, value in (("--first", first), ("--last", last)) if value for word in (name, value)]

    def run(word, *others):
        return subprocess.run([program, word, "--book", book, "--quiet", *others], capture_output=True, check=True).stdout.decode()

    def table(word, *others):
        return list(csv.DictReader(io.StringIO(run(word, "--format", "csv", *others), newline="")))

    def numbers(row, *names):
        return [Decimal(row[name]) if row[name] else None for name in names]

    def decimals(cells):
        return [Decimal(cell) if re.fullmatch(r"-?[0-9]+(\.[0-9]+)?", cell or "") else None for cell in cells]

    page = Page(text)
    wanted(text.startswith("<!DOCTYPE html>\n<html"), "no doctype")
    wanted(page.title == os.path.basename(book), f"the title {page.title!r}")
    wanted(page.names[:1] == [os.path.basename(book)], f"the name {page.names[:1]}")
    wanted(len(set(page.ids)) == len(page.ids), "a target twice")
    wanted(set(page.links) <= set(page.ids), f"links that lead nowhere: {set(page.links) - set(page.ids)}")
    digest = base64.b64encode(hashlib.sha256(page.style.encode()).digest()).decode()
    wanted(page.csp == f"default-src 'none'; style-src 'sha256-{digest}'", f"the policy {page.csp}")
    wanted(text.count("<style>") == 1 and "url(" not in page.style and "@import" not in page.style, "the style")

    # the journal: the entries on those days, byte for byte
    entries = re.split(r"^(?=; entry )", run("journal"), flags=re.M)[1:]
    within = [entry for entry in entries if (first or "") <= entry.split("\n")[1][:10] <= (last or "9999-12-31")]
    wanted(page.journal == "".join(within), "the journal is another one")

    # sales: a row for each record
    records = [numbers(row, "units", "days_held", "unit_cost", "proceeds", "cost", "gain") for row in table("gains", *days)]
    rows = [decimals([row[3], row[5], row[8], row[9], row[10], row[11]]) for row in page.tables["sales"]]
    wanted(rows == records, f"sales: {rows[:2]} {records[:2]}")

    # gains by year, of each currency together, and by commodity
    records = sorted((row["currency"], row["year"], numbers(row, "lots", "proceeds", "cost", "gain")) for row in table("gains", "--by", "year", *days))
    rows = [decimals(row[1:5]) for row in page.tables["years"]]
    wanted(rows == [record[2] for record in records], f"by year: {rows[:2]} {records[:2]}")
    records = [numbers(row, "lots", "proceeds", "cost", "gain") for row in table("gains", "--by", "commodity", *days)]
    rows = [decimals(row[2:6]) for row in page.tables["commodities"] if row[0] != "Total"]
    wanted(rows == records, f"by commodity: {rows[:2]} {records[:2]}")

    # holdings
    end = last or "9999-12-31"
    records = table("holdings", "--as-of", end, "--day", day or end)
    rows = [row for row in page.tables["holdings"] if len(row) > 1 and row[0] != "Total"]
    wanted(len(rows) == len(records), f"holdings: {len(rows)} rows for {len(records)}")
    for row, record in zip(rows, records):
        wanted(decimals(row[1:2]) == numbers(record, "units") and row[0] == record["commodity"], f"holdings: {row}")
        if record["acquired"]:
            wanted(row[2] == record["acquired"] and row[3] == record["label"], f"holdings: {row}")
            wanted(decimals(row[4:6]) == numbers(record, "unit_cost", "cost"), f"holdings: {row}")
            if record["value"]:
                price, value, cost = numbers(record, "price", "value", "cost")
                wanted(decimals(row[6:9]) == [price, value, value - cost], f"holdings: {row}")

    for fault in faults[:20]:
        print(fault)
    sys.exit(1 if faults else 0)


main()
