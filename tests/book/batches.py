"""Posts the stored cases to books in files, each in one batch, in several, and all or none.

    batches.py PROGRAM FOLDER SCRATCH [--whole]

Several are up to four, or with --whole one for each command. The replies are those of the stored answer, with the numbers of their
batch, and the tables hold what the stored answer prints, with the opening number that the legs give each lot, and no migrated entry.
All or none, a text in which a command is refused has the same replies, and changes nothing; what of it is accepted is kept. A faulty
text, each third one or with --whole each, has its fault, and changes nothing.
"""

import concurrent.futures
import os
import shutil
import subprocess
import sys

sys.path.append(os.path.join(os.path.dirname(os.path.abspath(__file__)), "..", "lib"))

import notes
import tables
import tally

SEVERAL = 4
THIRD = 3


def commands_of(text):
    """The commands of a ledger text: each begins at a line that isn't indented, and goes on with the indented ones."""
    parts = []
    for line in text.removeprefix("\ufeff").split("\n"):
        if line[:1].isdigit():
            parts.append(line + "\n")
        elif line[:1] in (" ", "\t") and parts:
            parts[-1] += line + "\n"
    return parts


def in_parts(text, most):
    """The text in parts of some commands each, up to so many, or of one each."""
    commands = commands_of(text)
    each = max(1, -(-len(commands) // most)) if most else 1
    return ["".join(commands[at : at + each]) for at in range(0, len(commands), each)]


def call(program, words, text=b""):
    done = subprocess.run([program, *words], input=text, capture_output=True, timeout=600)
    return done.stdout.decode(), notes.without(done.stderr).decode(), done.returncode


def post(program, book, batch, text, *options):
    return call(program, ["post", "--book", book, "--batch", batch, *options], text)


def make(program, book):
    """What is wrong with making a book, or nothing."""
    made = call(program, ["init", "--book", book])
    return "" if made == ("book ready\n", "", 0) else f"init: {made}"


def fault_of(program, empty, book, answer, batches):
    """What is wrong with a case on a copy of an empty book, or nothing."""
    replies = [line for line in answer if line[:1].isdigit()]
    shutil.copyfile(empty, book)
    told = []
    for number, batch in enumerate(batches, 1):
        output, errors, status = post(program, book, f"b{number}", batch.encode())
        lines = output.splitlines()
        wanted = int(any(" refused " in line for line in lines))
        if errors or status != wanted:
            return f"batch {number}: status {status}, messages '{errors[:60]}'"
        told += lines
    if len(told) != len(replies):
        return f"{len(told)} replies instead of {len(replies)}"
    for reply, wanted in zip(told, replies):
        if reply.split(" ", 1)[1] != wanted.split(" ", 1)[1]:
            return f"'{reply}' instead of '{wanted}'"
    return other_tables(book, answer[len(replies):])


def fault_of_all_or_none(program, empty, book, answer, text):
    """What is wrong with a case that is posted all or none to a copy of an empty book, or nothing."""
    replies = [line for line in answer if line[:1].isdigit()]
    shutil.copyfile(empty, book)
    if any(" refused " in line for line in replies):
        told = post(program, book, "a", text.encode(), "--all-or-none")
        if told != ("".join(line + "\n" for line in replies), "", 1):
            return f"all of it: {told}"
        if tables.contents(book) != tables.contents(empty):
            return "the book isn't as it was"
        shutil.copyfile(empty, book)
        text = "".join(command for command, reply in zip(commands_of(text), replies, strict=True) if reply.endswith(" accepted"))
        replies = [f"{number} accepted" for number in range(1, len(commands_of(text)) + 1)]
    told = post(program, book, "a", text.encode(), "--all-or-none")
    if told != ("".join(line + "\n" for line in replies), "", 0):
        return f"what is accepted: {told}"
    return other_tables(book, [line for line in answer if not line[:1].isdigit()])


def other_tables(book, wanted):
    """What is wrong with the tables of a book that holds these lines, or nothing."""
    held = tables.holdings(book)
    if held != wanted:
        return f"the tables hold {held[:3]}"
    wrong = set(tables.openings(book)) ^ set(tables.openings_of_legs(book))
    if wrong:
        return f"other opening numbers: {sorted(wrong)[:3]}"
    migrations = tables.contents(book)["migration"]
    return "" if migrations == [(0,)] else f"rows of migration: {migrations}"


def cases(folder):
    """The path, the text and the stored answer of each case."""
    for root, _, names in sorted(os.walk(folder)):
        for name in sorted(name for name in names if name.endswith(".ledger")):
            path = os.path.join(root, name)
            with open(path, "rb") as ledger:
                text = ledger.read()
            with open(path[: -len("ledger")] + "expected", encoding="utf-8") as expected:
                yield path, text, expected.read().splitlines()


def faulty(program, empty, book, texts):
    """What is wrong with faulty texts that are posted to a copy of an empty book, or nothing."""
    shutil.copyfile(empty, book)
    before = tables.contents(book)
    for path, text, answer in texts:
        told = post(program, book, "a", text)
        if told != ("".join(line + "\n" for line in answer), "", 3):
            return f"{path}: {told}"
    return "" if tables.contents(book) == before else "the book isn't as it was"


def main():
    program, folder, scratch, *whole = sys.argv[1:]
    empty = os.path.join(scratch, "empty.book")
    if fault := make(program, empty):
        sys.exit(f"no book could be made: {fault}")
    stored = list(cases(folder))
    texts = [case for case in stored if case[2][:1] and case[2][0].startswith("fault ")]
    judged = [case for case in stored if case not in texts]
    if not whole:
        texts = texts[::THIRD]
    with concurrent.futures.ThreadPoolExecutor(os.cpu_count()) as pool:
        jobs = []
        for path, text, answer in judged:
            for way, batches in (("in one batch", [text.decode()]), ("in several", in_parts(text.decode(), None if whole else SEVERAL))):
                case = f"{os.path.relpath(path, folder)[: -len('.ledger')]}, {way}"
                book = os.path.join(scratch, f"case-{case.replace('/', '-').replace(' ', '-')}.book")
                jobs.append((case, pool.submit(fault_of, program, empty, book, answer, batches)))
            case = f"{os.path.relpath(path, folder)[: -len('.ledger')]}, all or none"
            book = os.path.join(scratch, f"case-{case.replace('/', '-').replace(' ', '-')}.book")
            jobs.append((case, pool.submit(fault_of_all_or_none, program, empty, book, answer, text.decode())))
        jobs.append((f"{len(texts)} faulty texts", pool.submit(faulty, program, empty, os.path.join(scratch, "faulty.book"), texts)))
        for case, job in jobs:
            tally.check(case, job.result())


if __name__ == "__main__":
    main()
    tally.end()
