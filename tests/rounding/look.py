"""What journals say of crumbs, read by the readers of tests/random/ and tests/broker/.

    look.py crumbs JOURNAL MOST      prints each crumb with its key, and fails where one is larger
    look.py again JOURNAL BATCH FILE prints the replies to the same text or broker file once more, without the options
    look.py pasted MESSAGES CODE     prints the transaction of standard input with the postings that the line of this refusal names
"""

import pathlib
import re
import sys

HERE = pathlib.Path(__file__).resolve().parent
sys.path[:0] = [str(HERE.parent / "broker"), str(HERE.parent / "random")]

import model  # noqa: E402  (the folders are named above)
import reader  # noqa: E402
import text  # noqa: E402

ACCOUNT = "Equity:Rounding"
KEY = re.compile(r"^; entry [0-9]+ key (\S+) (.*)$", re.MULTILINE)


def entries(path):
    """The commands of a journal by their keys."""
    with open(path, encoding="utf-8") as journal:
        said = journal.read()
    return dict(zip(KEY.findall(said), text.read(said.encode())))


def crumbs(path, most):
    """Prints the crumbs, and fails where a transaction has a larger one in a currency."""
    for (source, name), command in entries(path).items():
        if not isinstance(command, model.Transaction):
            continue
        sums = {}
        for account, amount in command.postings:
            if account == ACCOUNT:
                weight = amount.units * (amount.price.amount if amount.price else model.ONE)
                sums[amount.commodity] = sums.get(amount.commodity, 0) + weight
        for currency, crumb in sums.items():
            print(source, name, model.number_text(crumb, 16), currency)
            if abs(crumb) > model.ONE**2 * float(most):
                sys.exit(1)


def again(path, batch, file):
    """Prints the replies: the text stands under the key, or another one does."""
    with open(file, "rb") as data:
        data = data.read()
    if file.endswith(".csv"):
        accounts = reader.Accounts(*("Assets:North Assets:NorthCash" if "north" in file else "Assets:South Assets:SouthCash").split(),
                                   "Expenses:Fees", "Income:Gains")
        sent = [(("import:" + batch, ref), asked.command) for ref, asked in reader.commands(data, accounts)]
    else:
        sent = [(("post:" + batch, str(number)), command) for number, command in enumerate(text.read(data), 1)]
    stands = entries(path)
    for number, (key, command) in enumerate(sent, 1):
        print(number, "repeat" if stands[key] == command else "refused L1 KeyReused")


def pasted(messages, code):
    """Prints the transaction with the postings that a line names: one in the place of another has its account, the others stand behind."""
    with open(messages, encoding="utf-8") as lines:
        line = next(line for line in lines if code in line)
    lines = sys.stdin.read().splitlines()
    said = line.partition("it would balance with")[2]
    given = re.findall(r"`([^`]*)`( in its place)?", said)
    at = 0
    for posting, in_place in given:
        posting = "  " + posting.replace("ACCOUNT ", ACCOUNT + " ")
        if in_place:
            at = next(at for at, it in enumerate(lines) if "{{" in it and it.split()[0] == posting.split()[0])
            lines[at] = posting
        else:
            lines.append(posting)
    if not given:
        sys.exit(1)
    print("\n".join(lines))


def main():
    {"crumbs": crumbs, "again": again, "pasted": pasted}[sys.argv[1]](*sys.argv[2:])


if __name__ == "__main__":
    main()
