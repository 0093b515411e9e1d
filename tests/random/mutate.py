"""Changes a text at random, so that some of the results are faulty, in each way that docs/FORMATS.md names."""

import re

SNIPPETS = (
    b" ", b"\t", b"\n", b"\r\n", b"\r", b",", b'"', b"\\", b"{", b"}", b"{{", b"}}", b"@", b"*", b"!", b";", b"-", b"+",
    b".", b"/", b"0", b"9", b"#", b"\x0c", b"\x00", b"\xff", b"\xc3\xa9", b"\xc3", b"\xef\xbb\xbf", b"open", b"txn", b" USD",
    b"Assets:", b" -1", b"2020-1/5", b"\n* a heading\n", b"\n; a comment\n", b"\n  Assets:A 1 USD", b'"a" "b"',
    b"\n2020-01-01 balance Assets:A 0 USD\n", b"; " + b"c" * 4096,
)

# What a date, a number, a word or a text may be changed to.
CHANGES = (
    (re.compile(rb"[0-9]{4}[-/][0-9]{1,2}[-/][0-9]{1,2}"),
     (b"2021-02-29", b"0000-01-01", b"2020-13-1", b"9999/12/32", b"2020-01-011", b"+2020-01-01", b"0001/1-1", b"open")),
    (re.compile(rb"(?<=[ {@])[+-]?[0-9][0-9,]*\.?[0-9]*(?= )"),
     (b"1.000000001", b"10000000000", b"-1", b"1,0", b"-0", b"100000000", b"1.5,2", b"1,,0", b"0.123456780", b"2020-01-01")),
    (re.compile(rb"\b[A-Z][A-Za-z0-9:.'_-]+"),
     (b"hool", b"HOOL-", b"Assets", b"A" * 24, b"A" * 25, b"Assets:x", b"Assets:" + b"A" * 122, b"Equity:0", b"txn", b"5")),
    (re.compile(rb'"[^"\n]*"'),
     (b'"fifo"', b'"STRICT"', b'"' + b"n" * 1001 + b'"', b'"' + b"l" * 65 + b'"', b'""', rb'"\""', rb'"\a"', b'"\x7f"')),
)  # fmt: skip


def changed_token(rng, text):
    """The text with one token changed, or as it is where it has none of the chosen kind."""
    pattern, others = rng.choice(CHANGES)
    places = [match.span() for match in pattern.finditer(text)]
    if not places:
        return text
    begin, end = rng.choice(places)
    return text[:begin] + rng.choice(others) + text[end:]


def mutated(rng, text):
    """The text with one to three changes: of a token, of bytes put in, taken out or replaced, or of a line's place."""
    for _ in range(rng.choice((1, 1, 2, 3))):
        at = rng.randint(0, len(text))
        kind = rng.random()
        if kind < 0.5:
            text = changed_token(rng, text)
        elif kind < 0.7:
            text = text[:at] + rng.choice(SNIPPETS) + text[at:]
        elif kind < 0.8:
            text = text[:at] + text[at + rng.choice((1, 1, 2, 5)) :]
        elif kind < 0.9:
            text = text[:at] + rng.choice(SNIPPETS) + text[at + 1 :]
        else:
            lines = text.split(b"\n")
            line = lines.pop(rng.randrange(len(lines)))
            lines.insert(rng.randint(0, len(lines)), line)
            text = b"\n".join(lines)
    return text
