"""Files that are no book, and books of another form: files of every kind, other files beside them, and other tables than those of a book.

    databases.py PROGRAM SCRATCH [--whole]

Each word is run on each, without --whole every other one: it answers what it does on the sound book, or names the fault, and then
nothing changed. Values in rows that no book has are those of tests/tables.sh, which asks the one call that has to meet each. Without
--whole they and the forms are a sample.
"""

import os
import shutil
import stat
from typing import NamedTuple

import sweep

import changed
import tables
import tally
from small_book import READERS, WORDS, WRITERS, ask, small_book, with_log

IN_THE_GATE = 80  # calls on tables of another form, and on values that no book has, of some two thousand each
NAMES = [name for name in changed.PROBES if name != "page"]  # the lines of a page are no lines of a report
NOBODY = 65534
RIGHT, OPEN, NOT_A_BOOK, NEWER, OLDER, DAMAGED = "right", "open", "S1 NotABook", "S2 NewerEdition", "S3 OlderEdition", "S7 Damaged"
DOUBLED = "right, and a row stands twice"
MIGRATED = "migrated"


# Files of every kind.


def filled(data):
    """A file with these bytes."""

    def make(path, _):
        with open(path, "wb") as file:
            file.write(data)

    return make


def linked(target):
    return lambda path, _: os.symlink(target, path)


def rewritten(*statements):
    """The book, written anew by SQLite's own library after these statements."""

    def make(path, sound):
        with tables.connect(tables.copied(sound.path, path)) as db:
            for statement in ("PRAGMA journal_mode = DELETE", *statements, "VACUUM"):
                db.execute(statement)

    return make


def encoded(encoding):
    """The book in a database of another encoding."""

    def make(path, sound):
        with tables.connect(sound.path) as db, tables.connect(path) as other:
            other.execute(f"PRAGMA encoding = '{encoding}'")
            other.executescript("\n".join(db.iterdump()))

    return make


def another_program(path, _):
    with tables.connect(path) as db:
        tables.foreign(db, "notes")


def beside(end, make):
    """The book, and something beside it."""

    def both(path, sound):
        tables.copied(sound.path, path)
        if os.path.exists(path + end):
            os.remove(path + end)
        make(path + end, sound)

    return both


def with_mode(mode, of_folder=0o777, log=None):
    """The book with this mode of its file and of its folder, and a log or none."""

    def make(path, sound):
        shutil.copyfile(sound.path, path)
        if log is not None:
            filled(b"")(path + "-wal", sound)
            os.chmod(path + "-wal", log)
        os.chmod(path, mode)
        os.chmod(os.path.dirname(path), of_folder)

    return make


GARBAGE = bytes((at * at * 7919 >> 5 & 255) or 1 for at in range(3 * 4096 + 5))
# A file of one zero byte isn't among them: an `init` that was stopped may leave it, so it counts as an empty one.
KINDS = {
    "a folder": (lambda path, _: os.mkdir(path), OPEN),
    "a pipe": (lambda path, _: os.mkfifo(path), OPEN),
    "a link to itself": (linked("family.book"), OPEN),
    "a link to a device": (linked("/dev/null"), OPEN),
    "a link to an endless device": (linked("/dev/zero"), OPEN),
    "a link to a folder": (linked("."), OPEN),
    "512 zeros": (filled(bytes(512)), OPEN),
    "4,096 zeros": (filled(bytes(4096)), OPEN),
    "98,304 zeros": (filled(bytes(98304)), OPEN),
    "the first line of a database": (filled(b"SQLite format 3\0"), OPEN),
    "garbage": (filled(GARBAGE), OPEN),
    **{f"one byte, {byte}": (filled(bytes([byte])), OPEN) for byte in (1, 10, 83, 255)},
    "a database of another program": (another_program, NOT_A_BOOK),
    "a book of edition 1": (lambda path, _: tables.older(path), OLDER),
    "a book that says that it is of edition 1": (rewritten("UPDATE book SET edition = 1"), OLDER),
    "a book that says that it is of edition 3": (rewritten("UPDATE book SET edition = 3"), NEWER),
    "UTF-16, little-endian": (encoded("UTF-16le"), OPEN),
    "UTF-16, big-endian": (encoded("UTF-16be"), OPEN),
    "UTF-8, written anew": (encoded("UTF-8"), RIGHT),
    "automatic vacuum": (rewritten("PRAGMA auto_vacuum = 1"), OPEN),
    "a journal instead of a log": (rewritten(), RIGHT),
    **{f"pages of {size} bytes": (rewritten(f"PRAGMA page_size = {size}"), RIGHT) for size in (512, 1024, 8192, 65536)},
}
for what, make in {
    "folder": lambda path, _: os.mkdir(path),
    "pipe": lambda path, _: os.mkfifo(path),
    "link to itself": linked("family.book-wal"),
    "link to a device": linked("/dev/null"),
    "file without bytes": filled(b""),
    "file of zeros": filled(bytes(10000)),
    "file of garbage": filled(GARBAGE),
}.items():
    is_file = what.startswith("file")
    KINDS[f"a {what} as log"] = beside("-wal", make), RIGHT if is_file else OPEN
    # A journal that begins with zeros holds nothing.
    KINDS[f"a {what} as journal"] = beside("-journal", make), RIGHT if is_file and what != "file of garbage" else OPEN
    KINDS[f"a {what} as index of the log"] = beside("-shm", make), RIGHT

# What `migrate` says of them where that is something else: of the second one, that it would make tables that are there.
OF_MIGRATE = {"a book of edition 1": MIGRATED, "a book that says that it is of edition 1": NOT_A_BOOK}

# By a user who isn't root, who may do all.
MODES = {
    "a book that can't be written": (with_mode(0o444, log=0o666), OPEN),
    "a book that can't be read": (with_mode(0o222, log=0o666), OPEN),
    "a log that can't be written": (with_mode(0o666, log=0o444), OPEN),
    "a folder that takes no log": (with_mode(0o666, of_folder=0o555), OPEN),
}


def lying_in(folder):
    """What lies in a folder: bytes of files, targets of links, and other kinds. A log shorter than a page holds no commit."""
    held = {}
    for name in os.listdir(folder):
        path = os.path.join(folder, name)
        mode = os.lstat(path).st_mode
        if stat.S_ISLNK(mode):
            held[name] = os.readlink(path)
        elif not stat.S_ISREG(mode):
            held[name] = stat.S_IFMT(mode)
        elif not name.endswith("-wal") or os.path.getsize(path) >= 4096:
            with open(path, "rb") as file:
                held[name] = file.read()
    return held


def emptied(folder):
    if os.path.isdir(folder):
        os.chmod(folder, 0o777)
    shutil.rmtree(folder, ignore_errors=True)
    os.makedirs(folder)
    os.chmod(folder, 0o777)


def kind_fault(program, sound, folder, make, wanted, word, **streams):
    """What is wrong with the answer of a word on a file of some kind, or nothing."""
    emptied(folder)
    path = os.path.join(folder, "family.book")
    make(path, sound)
    before = lying_in(folder)
    if word == "init" and wanted in (NEWER, OLDER):  # there are tables
        wanted = NOT_A_BOOK
    got = ask(program, path, word, **streams)
    if wrong := sweep.strange(got):
        return f"{wrong}\n{got}"
    if wanted in (RIGHT, MIGRATED):
        if got != sound.answers[word]:
            return f"another answer than of the book\n{got}"
    if wanted == MIGRATED:
        there = tables.contents(tables.copied(path, folder + ".read"))
        return "" if (there["book"], there["migration"]) == ([("lot-book", 2)], [(7,)]) else "it isn't migrated"
    if wanted == RIGHT:
        there = tables.contents(tables.copied(path, folder + ".read"))  # SQLite's own library wouldn't open it beside a folder
        stands = sound.then[word] if word in WRITERS else {table: sound.held[table] for table in tables.TABLES}
        return "" if there == stands else "the book holds something else"
    if (got.output, got.status) != (sweep.lines(f"fault {wanted}"), 4) or (wanted == OPEN and not got.errors):
        return f"instead of 'fault {wanted}'\n{got}"
    return "" if lying_in(folder) == before else "something changed"


def some_words(place, whole):
    """The words for the kind of that place: each, or without --whole every other one, of which one writes."""
    return WORDS if whole else WORDS[place % 2 :: 2]


def kinds(program, sound, scratch, whole):
    done = sweep.Sweep()
    folder = os.path.join(scratch, "kind")
    for place, (name, (make, wanted)) in enumerate(KINDS.items()):
        for word in some_words(place, whole):
            told = OF_MIGRATE.get(name, wanted) if word == "migrate" else wanted
            wrong = kind_fault(program, sound, folder, make, told, word)
            done.saw(told, wrong and f"{word} on {name}: {wrong}")
    return done


def modes(program, sound, scratch):
    done = sweep.Sweep()
    folder = os.path.join(scratch, "mode")
    allowed = os.path.join(scratch, "lotbook")
    shutil.copy(program, allowed)
    os.chmod(scratch, 0o755)

    def as_nobody():
        if os.getuid() == 0:
            os.setgroups([])
            os.setgid(NOBODY)
            os.setuid(NOBODY)

    for name, (make, wanted_of_others) in MODES.items():
        for word in WORDS:
            # A report needs the right to read alone, and so does `verify`.
            wanted = RIGHT if word in READERS and name != "a book that can't be read" else wanted_of_others
            wrong = kind_fault(allowed, sound, folder, make, wanted, word, preexec_fn=as_nobody)
            done.saw(wanted, wrong and f"{word} on {name}: {wrong}")
    emptied(folder)
    return done


def other_logs(program, sound, scratch):
    """The log of another book beside a book: what is told is told of one of the two, or a fault, and nothing is undefined."""
    done = sweep.Sweep()
    other = os.path.join(scratch, "other.book")
    with_log(program, other)
    path = os.path.join(scratch, "exchanged.book")
    for what, make in {
        "an empty book": lambda: sweep.made(program, path),
        "the same book": lambda: tables.copied(sound.path, path),
        "a longer book": lambda: sweep.made(program, path, b"".join(b"2020-01-01 open Assets:A%d\n" % number for number in range(200))),
        "no book": lambda: filled(b"")(path, sound),
        "a database of another program": lambda: another_program(path, sound),
    }.items():
        for word in WORDS:
            tables.removed(path)
            make()
            shutil.copyfile(other + "-wal", path + "-wal")
            got = ask(program, path, word)
            wrong = sweep.strange(got)
            done.saw(f"on {what} {got.fault() or 'answered'}", wrong and f"{word} on {what}: {wrong}\n{got}")
    return done


# Tables of another form.


def parts_of(sql):
    """The columns and the rules of a table, from the statement that made it."""
    parts, depth = [""], 0
    for letter in sql[sql.index("(") + 1 : sql.rindex(")")]:
        depth += (letter == "(") - (letter == ")")
        if letter == "," and depth == 0:
            parts.append("")
        else:
            parts[-1] += letter
    parts = [part.strip() for part in parts]
    return [part for part in parts if not part.startswith("UNIQUE")], [part for part in parts if part.startswith("UNIQUE")]


def made_anew(table, columns, rules, options, kept=None):
    """The statements that put the rows of a table into one of another form, with the columns that are kept."""
    names = ", ".join(column.split()[0] for column in kept or columns)
    return [
        f"ALTER TABLE {table} RENAME TO moved",
        f"CREATE TABLE {table} ({', '.join([*columns, *rules])}) {options}",
        f"INSERT INTO {table} ({names}) SELECT {names} FROM moved",
        "DROP TABLE moved",
    ]


def forms(table, sql):
    """Each other form of a table: its name, the statements, and what may be answered."""
    columns, rules = parts_of(sql)
    names = [column.split()[0] for column in columns]
    key = "PRIMARY KEY" + rules[-1][len("UNIQUE") :]
    yield "a column more", [f"ALTER TABLE {table} ADD COLUMN more TEXT"], (RIGHT,)
    yield "a column more with a value", [f"ALTER TABLE {table} ADD COLUMN more INTEGER NOT NULL DEFAULT 7"], (OPEN,)
    yield "a column that is worked out", [f"ALTER TABLE {table} ADD COLUMN more INTEGER AS (1)"], (RIGHT, DAMAGED, NOT_A_BOOK)
    if len(columns) > 1:
        yield "a column less", made_anew(table, columns[:-1], [], "STRICT"), (RIGHT, DAMAGED, NOT_A_BOOK)
    yield "its columns in another order", made_anew(table, columns[::-1], rules, "STRICT"), (RIGHT,)
    yield "columns of any type", made_anew(table, columns, rules, ""), (RIGHT,)
    # A row is put where it stands already: no single row shows it.
    yield "no keys", made_anew(table, columns, [], "STRICT"), (RIGHT, DOUBLED, DAMAGED)
    yield "no rows by number", made_anew(table, columns, [*rules[:-1], key], "STRICT, WITHOUT ROWID"), (RIGHT, DAMAGED, NOT_A_BOOK)
    yield "an index beside it", [f"CREATE INDEX beside ON {table} ({names[-1]})"], (RIGHT,)
    some = f"CREATE INDEX beside ON {table} ({names[-1]}) WHERE {names[0]} IS NOT NULL"
    yield "an index of some rows", [some], (RIGHT, DAMAGED, NOT_A_BOOK)
    yield "an index of a value", [f"CREATE INDEX beside ON {table} (length({names[-1]}))"], (RIGHT, DAMAGED, NOT_A_BOOK)
    trigger = f"CREATE TRIGGER beside AFTER INSERT ON {table} BEGIN DELETE FROM entry; END"
    yield "a trigger", [trigger], (RIGHT, DAMAGED, NOT_A_BOOK)
    ignoring = f"CREATE TRIGGER beside BEFORE INSERT ON {table} BEGIN SELECT RAISE(IGNORE); END"
    yield "a trigger that keeps rows out", [ignoring], (RIGHT, DAMAGED, NOT_A_BOOK)
    yield "a view of it", [f"CREATE VIEW beside AS SELECT * FROM {table}"], (RIGHT,)
    viewed = [f"ALTER TABLE {table} RENAME TO moved", f"CREATE VIEW {table} AS SELECT * FROM moved"]
    yield "a view in its place", viewed, (RIGHT, DAMAGED, NOT_A_BOOK)
    yield "a table of another name", ["CREATE TABLE notes (content)", "INSERT INTO notes VALUES ('kept')"], (RIGHT,)
    referring = f"CREATE TABLE notes (content REFERENCES {table} ({names[0]}) ON DELETE CASCADE)"
    yield "a table that refers to it", [referring], (RIGHT, DAMAGED)


class Sound(NamedTuple):
    """The small book as the probes of tests/tables.sh find it: its columns, their answers, and what it holds after each."""

    path: str
    columns: dict
    answers: dict
    then: dict


def probed(program, path, name):
    output, errors, status = changed.probe(program, path, name)
    return sweep.Answer(output.encode(), status, errors.encode())


def rows_of(path, columns):
    """The rows of the columns that a book has, of each table that has them all."""
    held = {}
    with tables.connect(path) as db:
        for table, names in columns.items():
            if {*names} <= {row[1] for row in db.execute(f"PRAGMA table_info({table})")}:
                held[table] = sorted(db.execute(f"SELECT {', '.join(names)} FROM {table}"), key=repr)
    return held


def probed_book(program, path):
    with tables.connect(path) as db:
        columns = {table: [row[1] for row in db.execute(f"PRAGMA table_info({table})")] for table in tables.TABLES}
    answers, then = {}, {}
    for name in NAMES:
        copy = tables.copied(path, path + ".probed")
        answers[name], then[name] = probed(program, copy, name), rows_of(copy, columns)
    return Sound(path, columns, answers, then)


def outcome_of_form(program, sound, path, statements, allowed, name):
    """The outcome of a probe on a book with a table of another form, and what is wrong with it, or nothing."""
    tables.copied(sound.path, path)
    held = changed.changed(path, statements)
    got = probed(program, path, name)
    outcome = RIGHT if got == sound.answers[name] else got.fault() or "another"
    if wrong := sweep.strange(got):
        return outcome, f"{wrong}\n{got}"
    there, then = rows_of(path, sound.columns), sound.then[name]
    if outcome == RIGHT and any({*rows} >= {*then[table]} and len(rows) > len(then[table]) for table, rows in there.items()):
        outcome = DOUBLED
    if outcome not in allowed:
        return outcome, f"instead of {' or '.join(allowed)}\n{got}"
    if outcome == DOUBLED:
        return outcome, ""
    if outcome == RIGHT:
        return outcome, "" if there.items() <= then.items() else "the book holds something else"
    with tables.connect(path) as db:
        return outcome, "" if changed.dump(db) == held else "the file holds something else"


def form_cases(words):
    program, sound, scratch, cases = words
    done = sweep.Sweep()
    path = os.path.join(scratch, f"form-{os.getpid()}.book")
    for form, table, statements, allowed, name in cases:
        outcome, wrong = outcome_of_form(program, sound, path, statements, allowed, name)
        done.saw(outcome, wrong and f"{name} with {form}, {table}: {wrong}")
    tables.removed(path)
    return done


# Values that no book has.


def value_cases(words):
    """A sweep over the values of tests/tables.sh, by each call: it meets the damage, or answers as ever, or as if there were no such row.

    The last is so where the value is part of the key by which the row is found.
    """
    program, sound, scratch, cases = words
    done = sweep.Sweep()
    path, missing = (os.path.join(scratch, f"{name}-{os.getpid()}.book") for name in ("value", "missing"))
    for table, row, column, value, name in cases:
        held = changed.changed(tables.copied(sound.path, path), [f"UPDATE {table} SET {column} = {value} WHERE {row}"])
        got = probed(program, path, name)
        wrong = sweep.strange(got)
        outcome = RIGHT if got == sound.answers[name] else got.fault() or "as without the row"
        if outcome == "as without the row":
            changed.changed(tables.copied(sound.path, missing), [f"DELETE FROM {table} WHERE {row}"])
            wrong = wrong or ("" if got == probed(program, missing, name) else "another answer")
        elif outcome != RIGHT:
            with tables.connect(path) as db:
                is_kept = changed.dump(db) == held
            wrong = wrong or ("" if outcome == DAMAGED and is_kept else "another fault, or the file holds something else")
        done.saw(outcome, wrong and f"{name} with {table}.{column} = {value}: {wrong}\n{got}")
    tables.removed(path)
    tables.removed(missing)
    return done


def all_values():
    for table, row, column, values, _ in changed.ROWS:
        for value in values:
            for name in NAMES:
                yield table, row, column, value, name


def all_forms(sound):
    with tables.connect(sound.path) as db:
        made = dict(db.execute("SELECT name, sql FROM sqlite_schema WHERE type = 'table'"))
    for table in tables.TABLES:
        for form, statements, allowed in forms(table, made[table]):
            for name in NAMES:
                yield form, table, statements, allowed, name


def main():
    words = sweep.words_of_a_sweep().parse_args()
    sound = small_book(words.program, os.path.join(words.scratch, "sound.book"))
    kinds(words.program, sound, words.scratch, words.whole).tell("files of every kind as a book, or beside it")
    modes(words.program, sound, words.scratch).tell("a book that can't be read or written")
    other_logs(words.program, sound, words.scratch).tell("the log of another book beside a book")
    asked = probed_book(words.program, sound.path)
    sweeps = {
        "a book with a table of another form": (form_cases, list(all_forms(asked))),
        "values that no book has, by each call": (value_cases, list(all_values())),
    }
    with sweep.pool() as pool:
        for name, (work, cases) in sweeps.items():
            if not words.whole:
                cases = sweep.sample(1, cases, IN_THE_GATE)
            sweep.swept(pool, work, (words.program, asked, words.scratch), cases).tell(name)


if __name__ == "__main__":
    main()
    tally.end()
