"""Which lines and forms of docs/FORMATS.md, 'Ledger text', stand in a text without faults."""

import itertools

import text

DIRECTIVES = (
    [f"open with {count}{method}"
     for count in ("no currency", "one currency", "several currencies", "64 currencies") for method in ("", " and a method")]
    + ["close", "commodity", "price"]
    + [f"{flag} with {notes} texts" for flag in ("*", "!", "txn") for notes in (0, 1, 2)]
)  # fmt: skip
LINES = ("a byte order mark", "a CR before an LF", "a last line without LF", "a heading", "a comment alone",
         "a comment behind tokens", "a line without bytes", "a line of blanks", "a posting that isn't directly behind its "
         "transaction or a posting")  # fmt: skip
MONEY = {"{": ("", "N C", "N", "C"), "{{": ("N C", "N")}  # what a cost may hold of a number and a currency


def costs():
    """Each way to write a cost: what stands in it, in each order."""
    for braces, moneys in MONEY.items():
        for money, day, label in itertools.product(moneys, ("", "DATE"), ("", "TEXT")):
            for parts in itertools.permutations(filter(None, (money, day, label))):
                yield shape(braces, ", ".join(parts))


def shape(braces, parts):
    return braces + parts + braces.replace("{", "}")


COSTS = tuple(costs())
AMOUNTS = ("elided",) + tuple(
    f"{cost}, {price}" for cost in ("no cost", "{", "{{") for price in ("no price", "@", "@@"))  # fmt: skip
ALL = (*LINES, *DIRECTIVES, *AMOUNTS, *COSTS)


def directive_form(tokens):
    word = tokens[1].text
    if word == "open":
        count = sum(token.kind == "WORD" for token in tokens[3:])
        count = {0: "no currency", 1: "one currency", 64: "64 currencies"}.get(count, "several currencies")
        return f"open with {count}" + (" and a method" if tokens[-1].kind == "TEXT" else "")
    if word in ("*", "!", "txn"):
        return f"{word} with {len(tokens) - 2} texts"
    return word


def posting_forms(tokens):
    kinds = [{"NUMBER": "N", "WORD": "C"}.get(token.kind, token.kind) for token in tokens]
    if len(kinds) == 1:
        yield "elided"
        return
    braces = kinds[3] if len(kinds) > 3 and kinds[3] in MONEY else None
    price = next((kind for kind in kinds if kind in ("@", "@@")), "no price")
    yield f"{braces or 'no cost'}, {price}"
    if braces:
        within = kinds[4 : kinds.index(shape(braces, "")[len(braces) :])]
        yield shape(braces, " ".join(within).replace(" ,", ","))


def of(data):
    """What stands in this text, each time that it does."""
    if data.startswith(b"\xef\xbb\xbf"):
        yield "a byte order mark"
    if b"\r\n" in data:
        yield "a CR before an LF"
    if data and not data.endswith(b"\n"):
        yield "a last line without LF"
    skipped = False
    for line in text.lines_of(data):
        tokens = [] if line[:1] == b"*" else text.tokens_of(line)
        if not tokens:
            skipped = True
            if line[:1] == b"*":
                yield "a heading"
            elif b";" in line:
                yield "a comment alone"
            else:
                yield "a line of blanks" if line else "a line without bytes"
            continue
        if line.count(b";") > sum(token.text.count(";") for token in tokens):
            yield "a comment behind tokens"
        if line[:1] in (b" ", b"\t"):
            if skipped:
                yield LINES[-1]
            yield from posting_forms(tokens)
        else:
            yield directive_form(tokens)
        skipped = False
