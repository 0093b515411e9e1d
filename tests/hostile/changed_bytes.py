"""A small book of which one byte was changed, in its file or in its log, and logs that end early; each subcommand is run on it.

    changed_bytes.py PROGRAM SCRATCH [--whole] [--changes N] [--seed SEED]

The answer is that of the sound book, or names a fault, or, where the change made another row that a book can have, it is the answer of
that row: what SQLite's own library reads there, printed by plain functions. `verify` finds each change of a row, but of an entry that says
another book, and of the place of migration. A log with a changed byte holds the commits before it.
Each answer is counted. Without --whole it is a sample, drawn from a fixed seed.
"""

import os
import random
import shutil
from typing import NamedTuple

import sweep

import changed
import stops
import tables
import tally
from small_book import COUNT, REPORTS, UNREADABLE, WORDS, WRITERS, ask, read, small_book, with_log

CHANGES = 20_000  # of the file, and a tenth of them of the log
CHANGES_IN_THE_GATE = 40
MADE = "made where no table is left"
LOG_HEADER, FRAME_HEADER = 32, 24


def is_sound(path):
    """Whether SQLite's own library finds nothing wrong with the file."""
    try:
        with tables.connect(path) as db:
            return list(db.execute("PRAGMA integrity_check")) == [("ok",)]
    except UNREADABLE:
        return False


# Bytes of the file.


def used_places(data):
    """The places that hold something: headers of pages, pointers to cells, and cells. What lies between them is free."""
    for start in range(0, len(data), tables.PAGE):
        at = start + (100 if start == 0 else 0)
        cells, content = (int.from_bytes(data[at + place : at + place + 2], "big") for place in (3, 5))
        # The pages of a small book are leaves.
        yield from range(start, at + 8 + 2 * cells)
        yield from range(start + content, start + tables.PAGE)


def expected(printed, path):
    """The report of what SQLite's own library reads in the file, or none where it can't be told."""
    try:
        return sweep.lines(*printed(path))
    except (*UNREADABLE, ValueError, TypeError, OverflowError):
        return None


def outcome_of_report(word, got, book, path):
    """What the answer of a report is, and what is wrong with it, or nothing."""
    sound = book.answers[word]
    if got == sound:
        return "right", ""
    if fault := got.fault():
        lines = got.output.splitlines()[:-1]
        if changed.is_within(lines, sound.output.splitlines()) or read(path) != book.held:
            return fault, ""
        return fault, "lines before the fault that the book doesn't have"
    if got.status == 0 and got.output == expected(REPORTS[word][1], path):
        return "of another row", ""
    return "another", "neither the answer of the book nor that of what SQLite reads there"


def outcome_of_writer(word, got, book, path):
    """The same of a post or an import. `path` is the changed file as it was before the call."""
    sound = book.answers[word]
    if got == sound:
        return "right", ""
    lines = got.output.splitlines()
    fault = got.fault()
    if sound.output.splitlines()[: len(lines) - 1] == lines[:-1] and fault:
        return fault, ""
    if read(path) != book.held or not is_sound(path):
        return (fault or "of another row"), ""
    return "another", "an answer that neither the book has nor a changed row explains"


def outcome_of_init(got, path):
    if got.fault() in ("S1 NotABook", "open"):
        return got.fault(), ""
    if got.output == b"book ready\n" and not read(path)["sqlite_schema"]:
        return MADE, ""
    return "another", "a book where tables stand"


def outcome_of_migrate(got, book):
    """On a book of this edition nothing is migrated: what isn't one any more is a fault, also where it says 1, since the tables are there."""
    if got == book.answers["migrate"]:
        return "right", ""
    return (got.fault(), "") if got.fault() not in ("", "S3 OlderEdition") else ("another", "no fault, and another answer than of the book")


def outcome_of_verify(got, book, path):
    """What is verified has the rows of the book, where SQLite finds nothing wrong with the file. Another text of an entry, or another
    place of migration, may be that of another book."""
    if got.fault():
        return got.fault(), ""
    if got != book.answers["verify"]:
        return "another", "neither a fault nor the answer of the book"
    held = read(path)
    others = [table for table in tables.TABLES if table not in ("entry", "migration") and held[table] != book.held[table]]
    return "right", f"verified, with other rows in {others}" if others and is_sound(path) else ""


def count_of_entries(path):
    with tables.connect(path) as db:
        return db.execute("SELECT count(*) FROM entry NOT INDEXED").fetchone()[0]


def miscounted(got, before, path):
    """What is wrong with the number of entries after a post: what was accepted stands, and nothing else."""
    if got.fault() == "open":
        return ""
    try:
        accepted = sum(line.endswith(b" accepted") for line in got.output.splitlines())
        there_were, there_are = count_of_entries(before), count_of_entries(path)
    except UNREADABLE:
        return ""
    return "" if there_are == there_were + accepted else f"{there_were} entries, {accepted} accepted, then {there_are}"


def outcome_of(word, got, book, path, asked):
    """What the answer of a word is, and what is wrong with it, or nothing. It was asked of a copy of the changed file."""
    if wrong := sweep.strange(got):
        return "strange", wrong
    sqlite_reads = tables.copied(path, path + ".read")  # it may change the files that it looks into
    if word in WRITERS:
        outcome, wrong = outcome_of_writer(word, got, book, sqlite_reads)
        return outcome, wrong or miscounted(got, sqlite_reads, tables.copied(asked, path + ".after"))
    is_kept = tables.bytes_of(asked) == tables.bytes_of(path)
    if word == "init":
        outcome, wrong = outcome_of_init(got, sqlite_reads)
        is_kept = is_kept or outcome == MADE
    elif word == "migrate":
        outcome, wrong = outcome_of_migrate(got, book)
    elif word == "verify":
        outcome, wrong = outcome_of_verify(got, book, sqlite_reads)
    else:
        outcome, wrong = outcome_of_report(word, got, book, sqlite_reads)
    return outcome, wrong or ("" if is_kept else "the file changed")


def with_byte(data, at, byte):
    return data[:at] + bytes([byte]) + data[at + 1 :]


def file_changes(words):
    """A sweep over changes of one byte of the book's file."""
    program, book, scratch, cases = words
    done = sweep.Sweep()
    folder = os.path.join(scratch, f"file-{os.getpid()}")
    os.makedirs(folder, exist_ok=True)
    path, asked = os.path.join(folder, "changed.book"), os.path.join(folder, "asked.book")
    for at, byte in cases:
        tables.removed(path)
        with open(path, "wb") as file:
            file.write(with_byte(book.data, at, byte))
        for word in WORDS:
            got = ask(program, tables.copied(path, asked), word)
            outcome, wrong = outcome_of(word, got, book, path, asked)
            done.saw(f"{word} {outcome}", wrong and f"{word}, byte {at} from {book.data[at]} to {byte}: {wrong}\n{got}")
    shutil.rmtree(folder)
    return done


# Bytes of the log.


def commits_of(log):
    """The places in a log at which its commits end: frames that name the size of the database."""
    for at in range(LOG_HEADER, len(log) - FRAME_HEADER - tables.PAGE + 1, FRAME_HEADER + tables.PAGE):
        if int.from_bytes(log[at + 4 : at + 8], "big"):
            yield at + FRAME_HEADER + tables.PAGE


def entries_in(path):
    """How many entries SQLite's own library finds, or none."""
    try:
        return stops.entries(path)
    except UNREADABLE:
        return None


class Logged(NamedTuple):
    """A book with commits in its log, its answers, and what stands once all its commands do."""

    path: str
    file: bytes
    log: bytes
    journals: list  # after each number of entries
    held: dict


def logged_book(program, path):
    with_log(program, path)
    (_, file), (_, log) = tables.bytes_of(path)
    asked = tables.copied(path, path + ".asked")
    journal = ask(program, asked, "journal").output
    entries = [b"; entry" + entry for entry in journal.split(b"; entry")[1:]]
    return Logged(path, file, log, [b"".join(entries[:count]) for count in range(len(entries) + 1)], tables.contents(asked))


def log_cases(words):
    """A sweep over logs with another byte at a place, or that end there, where there is none.

    The journal is that of the commits before it, and the rest is accepted when it is sent again.
    """
    program, book, scratch, cases = words
    done = sweep.Sweep()
    folder = os.path.join(scratch, f"log-{os.getpid()}")
    os.makedirs(folder, exist_ok=True)
    path = os.path.join(folder, "changed.book")
    for at, byte in cases:
        name = "cut" if byte is None else "a changed byte"
        tables.removed(path)
        log = book.log[:at] if byte is None else with_byte(book.log, at, byte)
        for end, data in (("", book.file), ("-wal", log)):
            with open(path + end, "wb") as file:
                file.write(data)
        count = entries_in(path)
        got = ask(program, path, "journal")
        wrong = sweep.strange(got)
        if not wrong and (count is None or got != (book.journals[count], 0, b"")):
            wrong = f"not the journal of the {count} entries that SQLite finds"
        done.saw(f"{name}, {count} entries", wrong and f"{name} {at}: {wrong}\n{got}")
        again = sweep.call(program, ["post", "--book", path, "--batch", "a"], changed.LEDGER.encode())
        replies = [f"{number} {'repeat' if number <= (count or 0) else 'accepted'}" for number in range(1, COUNT + 1)]
        done.compare(f"{name} {at}, sent again", "sent again", (sweep.lines(*replies), 0), again)
        done.also("" if tables.contents(path) == book.held else f"{name} {at}, sent again: the book holds something else")
    shutil.rmtree(folder)
    return done


def changed_logs(book, rng, count):
    """Places of a log with another byte for each, of headers of frames more often than of pages."""
    frame = FRAME_HEADER + tables.PAGE
    for _ in range(count):
        at = rng.randrange(len(book.log))
        if rng.random() < 0.5:
            at = rng.choice((0, LOG_HEADER + at // frame * frame)) + rng.randrange(FRAME_HEADER)
        at = min(at, len(book.log) - 1)
        byte = rng.choice([byte for byte in range(256) if byte != book.log[at]])
        yield at, byte


def cut_logs(book, rng, whole):
    """Places at which a log ends: each page, and some others."""
    places = range(LOG_HEADER, len(book.log) + 1, FRAME_HEADER + tables.PAGE)
    places = [*places] if whole else sorted({*commits_of(book.log), *rng.sample(places, 12)})
    places += [0, 1, LOG_HEADER - 1, *(place - 1 for place in places), *rng.sample(range(len(book.log)), 200 if whole else 10)]
    for at in places:
        yield at, None


def main():
    words = sweep.words_of_a_sweep()
    words.add_argument("--changes", type=int, help="of the file")
    words.add_argument("--seed", type=int, default=1)
    words = words.parse_args()
    rng = random.Random(words.seed)
    book = small_book(words.program, os.path.join(words.scratch, "sound.book"))
    logged = logged_book(words.program, os.path.join(words.scratch, "logged.book"))
    used = sorted(set(used_places(book.data)))
    count = words.changes or (CHANGES if words.whole else CHANGES_IN_THE_GATE)
    # Each used byte in turn, and of each eight changes one of a byte that holds nothing.
    rng.shuffle(used)
    places = [used[at % len(used)] for at in range(count - count // 8)]
    places += rng.sample(range(len(book.data)), count // 8)
    changes = [(at, rng.choice([byte for byte in range(256) if byte != book.data[at]])) for at in places]
    rng.shuffle(changes)
    with sweep.pool() as pool:
        sweep.swept(pool, file_changes, (words.program, book, words.scratch), changes).tell("a book with one byte changed", count)
        changes = list(changed_logs(logged, rng, count // 10 if words.whole else count // 2))
        sweep.swept(pool, log_cases, (words.program, logged, words.scratch), changes).tell("a log with one byte changed")
        cuts = list(cut_logs(logged, rng, words.whole))
        sweep.swept(pool, log_cases, (words.program, logged, words.scratch), cuts).tell("a log that ends early")


if __name__ == "__main__":
    main()
    tally.end()
