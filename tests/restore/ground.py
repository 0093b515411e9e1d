"""What the scripts of this folder share: calls of the program, files, and what is left in them."""

import os
import subprocess
import sys

HERE = os.path.dirname(os.path.abspath(__file__))
for folder in ("restore", "random", "book", "lib", "migrate"):
    sys.path.append(os.path.join(HERE, "..", folder))

import notes  # noqa: E402  (the folders are named above)
import tables  # noqa: E402

RESTORED = "book restored"
WORDS = ("holdings", "gains", "register", "activity", "reconcile", "journal", "page", "dump", "verify", "migrate", "post", "import")
ACCOUNTS = "--invest Assets:Broker --cash Assets:Cash --fees Expenses:Fees --gains Income:Gains".split()
BELOW = ["--account", "Assets:"]
NEEDED = {"post": ["--batch", "x"], "import": ["--batch", "x", *ACCOUNTS], "register": BELOW, "reconcile": BELOW}
HEADER = b"ref,date,action,symbol,units,price,currency,fee\n"
GIVEN = {"import": HEADER, "reconcile": b"commodity,units\n"}


def call(program, words, text=b"", **others):
    """Output, status and messages of a call."""
    done = subprocess.run([program, *words], input=text, capture_output=True, timeout=600, **others)
    return done.stdout, done.returncode, done.stderr


def sure(program, words, text=b""):
    """The output of a call, which has to end with status 0 or 1, as one with refusals does."""
    output, status, messages = call(program, words, text)
    if status not in (0, 1):
        raise RuntimeError(f"{words[0]}: status {status}, {output[-100:]}, {messages[-200:]}")
    return output


def made(program, path, text, batch="a", options=()):
    """A new book to which a text is posted; what it refuses isn't looked at."""
    sure(program, ["init", "--book", tables.removed(path)])
    sure(program, ["post", "--quiet", "--book", path, "--batch", batch, *options], text)
    return path


def ledger(entries):
    """A ledger of so many commands: three openings, then two purchases and a sale in turn, thirty of a commodity, with now and then a price."""
    lines = ['2020-01-01 open Assets:Broker "FIFO"', "2020-01-01 open Assets:Cash", "2020-01-01 open Income:Gains"]
    for at in range(entries - len(lines)):
        day, commodity = f"20{at // 5000 % 80 + 20}-0{at // 30 % 9 + 1}-15", f"C{at // 30}"
        if at % 30 == 29:
            lines.append(f"{day} price {commodity} {100 + at % 50} USD")
        elif at % 3 < 2:
            lines.append(f'{day} * "Buy {at}"\n  Assets:Broker 2 {commodity} {{{100 + at % 30} USD}}\n  Assets:Cash')
        else:
            lines.append(f'{day} * "Sell"\n  Assets:Broker -3 {commodity} {{}} @ 130 USD\n  Assets:Cash 390 USD\n  Income:Gains')
    return "".join(line + "\n" for line in lines).encode()


def dump(program, path):
    return sure(program, ["dump", "--book", path])


def digest(program, path):
    """The line with the digest of a book, which has to be verified."""
    output = sure(program, ["verify", "--book", path, "--digest"]).decode()
    first, _, rest = output.partition("\n")
    if first != "book verified":
        raise RuntimeError(f"verify: {output!r}")
    return rest


def restore(program, path, text, *options):
    """Lines, status and messages of restoring a text."""
    output, status, messages = call(program, ["restore", "--book", path, *options], text)
    return output.decode().split("\n")[:-1], status, messages


def schema(path):
    """What stands in the schema of a copy of a file, in its order, and the names in the order of their pages."""

    def read(copy):
        with tables.connect(copy) as db:
            found = list(db.execute("SELECT type, name, tbl_name, sql FROM sqlite_schema ORDER BY rowid"))
            return found, [name for (name,) in db.execute("SELECT name FROM sqlite_schema ORDER BY rootpage, rowid")]

    return tables.of_copy(path, read)


def contents(path):
    return tables.of_copy(path, tables.contents)


def is_empty(path):
    """Whether there is no file, or one without tables, by SQLite's own library."""
    if not os.path.exists(path) or os.path.getsize(path) <= 1 and not os.path.exists(path + "-wal"):
        return True
    return schema(path)[0] == []


def difference(one, other):
    """How the tables of two books differ, row by row, or nothing."""
    ours, theirs = contents(one), contents(other)
    for name in tables.TABLES:
        if ours[name] != theirs[name]:
            wrong = [row for row in ours[name] if row not in theirs[name]], [row for row in theirs[name] if row not in ours[name]]
            return f"table {name}: {wrong[0][:2]} and {wrong[1][:2]}"
    return "" if schema(one) == schema(other) else "another schema"


def fault_of_unfinished(program, path):
    """What is wrong where the file at this path has to be none that another word takes, or nothing. Each word is tried on a copy."""
    for word in WORDS:
        copy = tables.copied(path, path + ".asked", tables.ENDS)
        output, status, messages = call(program, [word, "--book", copy, *NEEDED.get(word, [])], GIVEN.get(word, b""))
        tables.removed(copy)
        if (output, status) != (b"fault S1 NotABook\n", 4) or notes.without(messages):
            return f"{word}: status {status}, {output[-80:]}, {messages[-80:]}"
    return ""
