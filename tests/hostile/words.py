"""Arguments that can't be used, and paths of every kind.

    words.py PROGRAM SCRATCH [--whole]

Each option of each word comes twice, without its value, empty, longer than any value, and with bytes that aren't UTF-8: the message goes
to standard error, and nothing is read or made. Each byte is tried as a batch. A book is made at paths of every kind, and found there.
"""

import os
import re
import shutil

import sweep

import tally

LONGEST_WORD = 131_071  # bytes that the system takes in one word
A_MEBIBYTE = 1 << 20
LONGEST_NAME, LONGEST_PATH = 255, 4095  # of files
LONGEST_BOOK = LONGEST_NAME - len("-journal")  # the name of a book's file
LONGEST_BATCH = 32
OF_BATCHES = b"ABCDEFGHIJKLMNOPQRSTUVWXYZabcdefghijklmnopqrstuvwxyz0123456789._-"

OPTIONS = {
    "init": {"--book": "f"},
    "post": {"--book": "f", "--batch": "a", "--from": "1"},
    "import": {
        "--book": "f", "--batch": "a", "--invest": "Assets:A", "--cash": "Assets:B", "--fees": "Expenses:F", "--gains": "Income:G",
        "--from": "1",
    },
    "holdings": {"--book": "f", "--as-of": "2020-01-01", "--day": "2020-01-01", "--format": "csv"},
    "gains": {"--book": "f", "--first": "2020-01-01", "--last": "2020-01-01", "--by": "year,term", "--format": "text"},
    "register": {
        "--book": "f", "--account": "Assets:", "--commodity": "USD", "--first": "2020-01-01", "--last": "2020-01-01", "--format": "csv",
    },
    "activity": {
        "--book": "f", "--account": "Income:", "--first": "2020-01-01", "--last": "2020-01-01", "--by": "month", "--format": "csv",
    },
    "reconcile": {"--book": "f", "--account": "Assets:Cash", "--as-of": "2020-01-01", "--format": "csv"},
    "journal": {"--book": "f"},
    "page": {"--book": "f", "--first": "2020-01-01", "--last": "2020-01-01", "--day": "2020-01-01"},
    "dump": {"--book": "f"},
    "restore": {"--book": "f"},
    "migrate": {"--book": "f"},
    "verify": {"--book": "f"},
}  # fmt: skip
GIVEN = {"import": b"ref,date,action,symbol,units,price,currency,fee\n", "reconcile": b"commodity,units\n"}  # inputs without a fault
REQUIRED = ("--book", "--batch", "--invest", "--cash", "--fees", "--gains")
# Values outside each option's rule, of which the program itself says which option it is: `clap` reads the value of --from.
BAD = {"--batch": "/", "--invest": "A", "--cash": "A", "--fees": "A", "--gains": "A", "--account": "A", "--commodity": "a", "--day": "x", "--as-of": "x", "--first": "x", "--last": "x", "--by": "x", "--format": "x"}


def words_of_books(program):
    """The subcommands, by the program's help, that take a book."""
    listed = sweep.call(program, ["help"]).output.decode().partition("Commands:\n")[2].partition("\n\n")[0]
    helps = {word: sweep.call(program, [word, "-h"]).output.decode() for word in re.findall("^  ([a-z]+) ", listed, re.MULTILINE)}
    return {word for word, told in helps.items() if re.search("^ +--book ", told, re.MULTILINE)}


def words_of(word, options):
    return [word, *(part for pair in options.items() for part in pair)]


def refuse(done, program, folder, words, outcome, said=""):
    """The words are refused: status 2, a message with this in it, nothing on standard output, and no file."""
    got = sweep.call(program, words, sweep.first_purchase(), cwd=folder)
    wrong = ""
    if got.status != 2 or got.output or said.encode() not in got.errors or not got.errors:
        wrong = f"{[str(word)[:80] for word in words]} {said}\n{got.status} {got.output[:200]} {got.errors[:400]}"
    elif os.listdir(folder):
        wrong = f"{[str(word)[:80] for word in words]} leave {os.listdir(folder)}"
    done.saw(outcome, wrong)


def unusable(program, scratch):
    """Each option of each word: twice, without its value, absent, and with values that it can't have."""
    done = sweep.Sweep()
    folder = os.path.join(scratch, "nothing")
    os.mkdir(folder)
    for word, options in OPTIONS.items():
        given = words_of(word, options)
        refuse(done, program, folder, [*given, "more"], "a word more")
        refuse(done, program, folder, [*given, "--more"], "an option more")
        refuse(done, program, folder, [*given, *["x" * LONGEST_WORD] * (A_MEBIBYTE // LONGEST_WORD)], "a mebibyte more")
        for option, value in options.items():
            others = {name: it for name, it in options.items() if name != option}
            for again in (value, "g"):
                refuse(done, program, folder, [*given, option, again], "twice", option)
                refuse(done, program, folder, [*given, f"{option}={again}"], "twice", option)
            refuse(done, program, folder, [*words_of(word, others), option], "without a value", option)
            if option in REQUIRED:
                refuse(done, program, folder, words_of(word, others), "absent", option)
            refuse(done, program, folder, [*words_of(word, others), f"{option}=".encode() + b"\xff"], "not UTF-8", "UTF-8")
            if option == "--book":
                continue
            # An empty value of --from isn't a number; of all other options it is outside their rule.
            says = "fault U2 BadValue " * (option != "--from") + option
            refuse(done, program, folder, [*words_of(word, others), option, ""], "empty", says)
            refuse(done, program, folder, [*words_of(word, others), f"{option}="], "empty", says)
            longest = ("1" if option == "--from" else "A") * (LONGEST_WORD - len(option) - 1)
            refuse(done, program, folder, [*words_of(word, others), f"{option}={longest}"], "long", says)
            for other, bad in BAD.items():
                # Of several bad values the first option of the word is named, whatever the order in which they come.
                if option in BAD and other in options and other != option:
                    names = list(options)
                    first = min(option, other, key=names.index)
                    both = {other: bad, **{name: it for name, it in others.items() if name != other}, option: BAD[option]}
                    refuse(done, program, folder, words_of(word, both), "two bad values", f"fault U2 BadValue {first}\n")
    for words in ([""], ["post "], ["Post"], ["-"], ["--book"], ["x" * LONGEST_WORD], [b"\xff"], ["init", "post", "--book", "f"]):
        refuse(done, program, folder, words, "no word")
    return done


def batches(program, scratch):
    """Each byte as a batch, alone and behind others, and batches of each length."""
    done = sweep.Sweep()
    folder = os.path.join(scratch, "batches")
    os.mkdir(folder)
    book = sweep.made(program, os.path.join(scratch, "batches.book"))
    for batch in [bytes([byte]) for byte in range(1, 256)] + [bytes([97, byte]) for byte in range(1, 256)]:
        words = ["post", "--book", book, b"--batch=" + batch]
        if batch[-1] in OF_BATCHES:
            done.compare(batch, "taken", (b"", 0), sweep.call(program, words))
        else:
            refuse(done, program, folder, words, "refused", "UTF-8" if batch[-1] >= 128 else "fault U2 BadValue --batch\n")
    for length in range(1, LONGEST_BATCH + 3):
        words = ["post", "--book", book, "--batch", "a" * length]
        if length <= LONGEST_BATCH:
            line = f"2020-01-01 open Assets:A{length}\n".encode()
            done.compare(words, "taken", (b"1 accepted\n", 0), sweep.call(program, words, line))
            done.compare(words, "taken again", (b"1 repeat\n", 0), sweep.call(program, words, line))
        else:
            refuse(done, program, folder, words, "refused", "fault U2 BadValue --batch\n")
    return done


PATHS = (
    "family", "a book", " ", "  two  ", "a\nbook", "\n", "\t", "tab\tand\rreturn", "a'b", 'a"b', "a\\b", "$HOME", "*", "?", "%41", "a%00b",
    "a?mode=ro", "a#b", "a&b", "é", "😀", "-x", "--book", "--help", ".hidden", "...", "a:b", "x.book-wal", "x.book-journal",
    "x" * LONGEST_BOOK, "in/a/" + "x" * LONGEST_BOOK, "in/a/folder", "./here", "in/../back", "./:memory:", "in//two",
    # No file to the kit's own library, but for `:memory` and `a:memory:`.
    ":memory:", ":memory", "a:memory:", "file:", "file:f", "file:a?mode=memory",
    "./" * (LONGEST_PATH // 2) + "f",
)  # fmt: skip


def paths(program, scratch):
    """Paths at which a book is made: it lies just there, and each word finds it."""
    done = sweep.Sweep()
    folder = os.path.join(scratch, "paths")
    for path in PATHS:
        shutil.rmtree(folder, ignore_errors=True)
        os.makedirs(os.path.join(folder, "in/a"))
        calls = [(["init"], b"", b"book ready\n"), (["post", "--batch", "a"], b"2020-01-01 open Assets:A\n", b"1 accepted\n")]
        calls += [(["post", "--batch", "a"], b"2020-01-01 open Assets:A\n", b"1 repeat\n"), (["holdings"], b"", b"nothing held\n")]
        for words, text, output in calls:
            got = sweep.call(program, [*words, f"--book={path}"], text, cwd=folder)
            done.compare(f"{words} {path!r}", "found", (output, 0), got)
        there = {os.path.relpath(os.path.join(at, name), folder) for at, _, names in os.walk(folder) for name in names}
        wanted = os.path.normpath(path)
        done.also("" if there == {wanted, wanted + "-wal"} else f"{path!r}: {sorted(there)}")
    return done


def no_paths(program, scratch):
    """Paths at which there can't be a book: the file can't be opened, or there is none, and none is left."""
    done = sweep.Sweep()
    folder = os.path.join(scratch, "nowhere")
    deep = "d/" * (LONGEST_PATH // 2)
    opened, missing = "fault open", "fault S1 NotABook"
    cases = {path: opened for path in ("", ".", "..", "./", "none/f", "x" * LONGEST_PATH, deep, deep + "xx", "file:none/f")}
    cases.update((path, missing) for path in ("f/", "f/."))
    # There is no name for a log or a journal.
    too_long = ["x" * length for length in range(LONGEST_BOOK + 1, LONGEST_NAME + 2)]
    cases.update((path, opened) for path in too_long)
    for path, others in cases.items():
        for word, options in OPTIONS.items():
            shutil.rmtree(folder, ignore_errors=True)
            os.mkdir(folder)
            said = opened if word in ("init", "restore") else others  # these make a file
            text = GIVEN.get(word, b"")
            for form in ([f"--book={path}"], ["--book", path]):
                without = {name: value for name, value in options.items() if name != "--book"}
                got = sweep.call(program, [*words_of(word, without), *form], text, cwd=folder)
                is_said = (got.output, got.status, bool(got.errors)) == (sweep.lines(said), 4, True)
                is_said = is_said and (path not in too_long or b"more than 247 bytes" in got.errors)
                wrong = sweep.strange(got) or ("" if is_said else f"not '{said}'\n{got}")
                there = {name: os.path.getsize(os.path.join(folder, name)) for name in os.listdir(folder)}
                if there:
                    wrong = wrong or f"{there} is left"
                done.saw(said, wrong and f"{word} {path[:60]!r}, {len(path)} bytes: {wrong}")
    return done


def main():
    words = sweep.words_of_a_sweep().parse_args()
    missed = words_of_books(words.program) ^ OPTIONS.keys()
    tally.check("each subcommand that takes a book is tried, and no other", " ".join(sorted(missed)))
    unusable(words.program, words.scratch).tell("words that can't be used")
    batches(words.program, words.scratch).tell("each byte as a batch, and batches of each length")
    paths(words.program, words.scratch).tell("books at paths of every kind")
    no_paths(words.program, words.scratch).tell("paths at which there can't be a book")


if __name__ == "__main__":
    main()
    tally.end()
