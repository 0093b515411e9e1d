"""Inputs that come in pieces, fail or grow, outputs that end, and descriptors that are closed; with books in files.

    streams.py PROGRAM SCRATCH [--whole]

The input fails, or comes to an end, behind each of its bytes; the output takes each number of bytes and no more. What a book then
holds is read by SQLite's own library, on every table. Without --whole only some numbers are taken.
"""

import array
import fcntl
import os
import pty
import termios
import threading
import time
import tty

import sweep

import compare
import stopping
import tables
import tally

IN_THE_GATE = 12  # places of a sweep
MOST_LINES = 50_000  # of a file that grows: with the comments less than an input may have
ROOM = 1 << 22  # bytes that a file may have where an output is limited: more than a book and its log

ACCOUNTS = "".join(f"2020-01-01 open {it}\n" for it in ("Assets:Broker", "Assets:Cash", "Expenses:Fees", "Income:Gains")).encode()
IMPORT = "--batch x --invest Assets:Broker --cash Assets:Cash --fees Expenses:Fees --gains Income:Gains".split()
ROWS = b"""ref,date,action,symbol,units,price,currency,fee
A1,2020-01-02,BUY,HOOL,10,100,USD,
A2,2020-01-03,SELL,HOOL,11,120,USD,1
A3,2020-01-03,SELL,HOOL,4,120,USD,1
A1,2020-01-02,BUY,HOOL,10,100,USD,
"""
DEALS = b"""2020-01-02 * "Buy"
  Assets:Broker 10 HOOL {100 USD}
  Assets:Cash
2020-01-02 open Assets:Cash
2020-01-03 * "Sell"
  Assets:Broker -4 HOOL {} @ 120 USD
  Assets:Cash 480 USD
  Income:Gains
2020-01-03 commodity HOOL
"""
POST = ["--batch", "x"]


class Ground:
    """A program, a folder for its files, and the book that each call finds there a copy of."""

    def __init__(self, program, scratch, first):
        self.program = program
        self.scratch = scratch
        self.first = first
        self.book = os.path.join(scratch, "streams.book")
        self.limited = os.path.join(scratch, "limited")
        if os.path.exists(first):
            self.held = tables.contents(tables.copied(first, self.book))

    def on(self, name):
        """The same with another book, which has still to be made."""
        return Ground(self.program, self.scratch, os.path.join(self.scratch, name))

    def changed(self, name, change):
        """The same on a copy of the book, which is changed."""
        change(tables.copied(self.first, os.path.join(self.scratch, name)))
        return self.on(name)

    def ways(self):
        """What reads an input: its name, its words, and the input."""
        yield "without words", [], sweep.first_purchase()
        yield "post", ["post", "--book", self.book, *POST], DEALS
        yield "import", ["import", "--book", self.book, *IMPORT], ROWS

    def call(self, words, text=b"", **streams):
        """A call on a fresh copy of the book."""
        tables.copied(self.first, self.book)
        return sweep.call(self.program, words, text, **streams)

    def applied_nothing(self):
        return "" if tables.contents(self.book) == self.held else "\nand something was applied"


def some(places, whole):
    """Each of the places, or about as many as the gate takes, the first and the last among them."""
    step = 1 if whole else 1 + len(places) // IN_THE_GATE
    return [*places[:-1:step], places[-1]]


# Inputs.


def unread(descriptor):
    """How many bytes wait to be read there."""
    count = array.array("i", [0])
    fcntl.ioctl(descriptor, termios.FIONREAD, count)
    return count[0]


def taken(descriptor):
    """Waits until all bytes were read there."""
    until = time.monotonic() + sweep.PATIENCE
    while unread(descriptor) and time.monotonic() < until:
        time.sleep(0)


def warns(words):
    """Whether a warning is due: of the broker file, in which a name comes twice."""
    return words[:1] == ["import"]


def in_pieces(ground, words, pieces):
    """The answer to an input that comes in pieces: each is there only once the one before it was read."""
    reading, writing = os.pipe()

    def write():
        for piece in pieces:
            os.write(writing, piece)
            taken(reading)
        os.close(writing)

    writer = threading.Thread(target=write)
    writer.start()
    answer = ground.call(words, stdin=reading)
    writer.join()
    os.close(reading)
    return answer


def pieces(ground, whole):
    """Inputs that come in pieces are answered as whole ones. A year comes in thousands: no bound on the calls may be near them."""
    done = sweep.Sweep()
    year = [stored(name) for name in ("year.ledger", "year.expected")]
    done.compare("a year", "a year by the byte", (year[1], 0), in_pieces(ground, [], [bytes([byte]) for byte in year[0]]), may_warn=True)
    for name, words, text in ground.ways():
        got = ground.call(words, text)
        wanted = got.output, got.status
        got = in_pieces(ground, words, [text[at : at + 1] for at in range(len(text))])
        done.compare(name, "one byte a call", wanted, got, warns(words))
        for at in some(range(1, len(text)), whole):
            done.compare(f"{name}, {at}", "in two pieces", wanted, in_pieces(ground, words, [text[:at], text[at:]]), warns(words))
    return done


def stored(name):
    with open(os.path.join(sweep.ROOT, "examples", name), "rb") as file:
        return file.read()


def gone_terminal(text):
    """A descriptor that gives this text, and then an error: that of a terminal which nobody has open any more."""
    reading, writing = pty.openpty()
    tty.setraw(writing)
    sweep.write_all(writing, text)
    os.close(writing)
    return [reading]


def empty_pipe(text):
    """A descriptor that gives this text, and then an error: that of a pipe which isn't waited for."""
    reading, writing = os.pipe()
    os.set_blocking(reading, False)
    sweep.write_all(writing, text)
    return [reading, writing]


def failing_reads(ground, whole):
    """A read that fails behind each byte of the input: nothing is applied."""
    done = sweep.Sweep()
    wanted = sweep.lines("fault K1 Read"), 3
    for name, words, text in ground.ways():
        for kind in (gone_terminal, empty_pipe):
            for at in some(range(len(text) + 1), whole):
                descriptors = kind(text[:at])
                got = ground.call(words, stdin=descriptors[0])
                for descriptor in descriptors:
                    os.close(descriptor)
                # The last row is whole without its line end, too.
                done.compare(f"{name}, {kind.__name__}, {at}", name, wanted, got, at >= len(text) - 1 and warns(words))
                done.also(ground.applied_nothing())
    return done


def hung_up(ground):
    """A terminal that hangs up while the program waits for more of its input."""
    done = sweep.Sweep()
    for name, words, text in ground.ways():
        for at in (0, len(text) // 2, len(text)):
            ours, theirs = pty.openpty()
            tty.setraw(theirs)
            sweep.write_all(ours, text[:at])
            until = time.monotonic() + sweep.PATIENCE
            while unread(theirs) < at and time.monotonic() < until:
                time.sleep(0)  # the system hands it on

            def hang_up():
                taken(theirs)
                time.sleep(0.1)  # the next read has begun, if the machine isn't busy
                os.close(ours)

            typing = threading.Thread(target=hang_up)
            typing.start()
            got = ground.call(words, stdin=theirs)
            typing.join()
            os.close(theirs)
            # A read that waits fails; where none has begun, the system says that the input is at its end.
            if got.output == b"fault K1 Read\n":
                done.compare(f"{name}, {at}", "reads that failed", (got.output, 3), got, at == len(text) and warns(words))
                done.also(ground.applied_nothing())
            else:
                done.compare(f"{name}, {at}", "inputs that ended", ground.call(words, text[:at])[:2], got, warns(words))
    return done


def odd_inputs(ground):
    """Inputs that can't be read, and the book's own file as input."""
    done = sweep.Sweep()
    unreadable = {"a folder": (ground.scratch, os.O_RDONLY), "a file opened for writing alone": (ground.limited, os.O_WRONLY | os.O_CREAT)}
    for name, words, _ in ground.ways():
        for what, (path, flags) in unreadable.items():
            descriptor = os.open(path, flags)
            got = ground.call(words, stdin=descriptor)
            os.close(descriptor)
            done.compare(f"{name}, {what}", what, (sweep.lines("fault K1 Read"), 3), got)
            done.also(ground.applied_nothing())
    for name, words, _ in ground.ways():
        with open(tables.copied(ground.first, ground.book), "rb") as file:
            data = file.read()
            file.seek(0)
            got = sweep.call(ground.program, words, stdin=file)
        wanted = (sweep.lines("fault header C1 BadHeader"), 3) if name == "import" else compare.answer_to(data)[0]
        done.compare(f"{name}, the book's file", "the book's own file", wanted, got)
        done.also(ground.applied_nothing())
    return done


def growing(ground, times):
    """A file that grows while it is read: as many of its commands are answered as it had at some moment."""
    done = sweep.Sweep()
    line = "2020-01-01 open Assets:A%07d\n"
    for turn in range(times):
        with open(ground.limited, "wb") as file:
            # Comments, so that reading takes its time, and some commands.
            file.write(b"; a comment that says nothing\n" * 100_000)
            for number in range(10):
                file.write((line % number).encode())
        ended, count = threading.Event(), 10

        def grow():
            nonlocal count
            with open(ground.limited, "ab", buffering=0) as file:
                while not ended.is_set() and count < MOST_LINES:
                    file.write((line % count).encode())
                    count += 1

        growth = threading.Thread(target=grow)
        growth.start()
        with open(ground.limited, "rb") as file:
            got = sweep.call(ground.program, [], stdin=file)
        ended.set()
        growth.join()
        accepted = got.output.count(b" accepted\n")
        wanted = sweep.lines(*(f"{number} accepted" for number in range(1, accepted + 1)), "nothing held"), 0
        done.compare(f"turn {turn}, {count} lines in the end", "all commands of some moment", wanted, got)
        done.also("" if 10 <= accepted <= count else f"{accepted} of {count}")
    return done


# Outputs.


def limited(ground, words, text, count):
    """The answer where the output takes so many bytes and no more: a file that may not become longer."""
    with open(ground.limited, "wb") as file:
        file.truncate(ROOM - count)

    output = os.open(ground.limited, os.O_RDWR)
    os.lseek(output, 0, os.SEEK_END)
    answer = ground.call(words, text, stdout=output, preexec_fn=stopping.limited(ROOM))
    written = os.pread(output, count + 1, ROOM - count)
    os.close(output)
    return sweep.Answer(written, answer.status, answer.errors)


def begun(output, count):
    """The lines of an output of which so many bytes can be written, the one that can't be written whole among them."""
    return output[: output.index(b"\n", count) + 1] if count < len(output) else output


def untold(got):
    """What is wrong where the output can't be written and standard error doesn't say so, or the other way round."""
    is_told = b"lotbook: standard output: " in got.errors
    return "" if is_told == (got.status == 4) else f"status {got.status}, messages {got.errors[-200:]}"


def stands_after(ground, words, text):
    """What the book holds after each number of lines that could be written whole: no command behind the next one was begun."""
    held = []
    lines = ground.call(words, text).output.splitlines(keepends=True)
    for count in range(1, len(lines) + 1):
        ground.call(words, commands_of(text, count, words[0]))
        held.append(tables.contents(ground.book))
    return lines, held


def commands_of(text, count, word):
    """The text with its first commands, or the broker file with its first rows."""
    lines = text.splitlines(keepends=True)
    if word == "import":
        return b"".join(lines[: 1 + count])
    begins = [at for at, line in enumerate(lines) if not line.startswith(b" ")]
    return b"".join(lines[: [*begins, len(lines)][count]])


def limited_replies(ground, all_of_them):
    """Replies of which so many bytes can be written: what was replied to stands, and the command of the line that can't be written."""
    done = sweep.Sweep()
    for name, words, text in list(ground.ways())[1:]:
        lines, held = stands_after(ground, words, text)
        whole = b"".join(lines)
        for count in some(range(len(whole) + 1), all_of_them):
            got = limited(ground, words, text, count)
            wanted = whole[:count], 4 if count < len(whole) else 1
            done.compare(f"{name}, {count} bytes", f"{name} to so many bytes", wanted, got, warns(words), begun(whole, count))
            done.also(untold(got))
            written = whole[:count].count(b"\n")
            stands = held[min(written, len(held) - 1)]
            done.also("" if tables.contents(ground.book) == stands else f"{name}, {count} bytes: the book holds something else")
        full = os.open("/dev/full", os.O_WRONLY)
        got = ground.call(words, text, stdout=full)
        os.close(full)
        done.compare(f"{name} to a full disk", "to a full disk", (b"", 4), got, warns(words))
        done.also("" if tables.contents(ground.book) == held[0] else f"{name} to a full disk: the book holds something else")
    return done


def limited_faults(ground, all_of_them):
    """A fault whose line can't be written: of the input, which applies nothing, and of a damaged row, of whose command nothing stands."""
    done = sweep.Sweep()
    for name, words, text in list(ground.ways())[1:]:
        faulty = text + b"x\n"
        whole = ground.call(words, faulty).output
        for count in some(range(len(whole) + 1), all_of_them):
            got = limited(ground, words, faulty, count)
            wanted = whole[:count], 4 if count < len(whole) else 3
            done.compare(f"{name}, {count} bytes", f"{name} of a faulty input", wanted, got, said=begun(whole, count))
            done.also(untold(got))
            done.also(ground.applied_nothing())
    ground = ground.changed("damaged.book", damage)
    damaged = ground.held
    whole = sweep.lines("1 accepted", "2 fault S7 Damaged")
    text = b"2020-01-01 open Assets:Other\n2020-01-02 *\n  Assets:Cash 1 USD\n  Assets:Other\n2020-01-01 open Assets:Third\n"
    words = ["post", "--book", ground.book, *POST]
    for count in some(range(len(whole) + 1), all_of_them):
        got = limited(ground, words, text, count)
        done.compare(f"damage, {count} bytes", "post on a damaged row", (whole[:count], 4), got, said=begun(whole, count))
        held = tables.contents(ground.book)
        entries = [row[2] for row in held["entry"] if row[1] == "post:x"]
        others = {**held, "account": damaged["account"], "entry": damaged["entry"]}
        done.also("" if entries == ["1"] and others == damaged else f"damage, {count} bytes: the book holds {entries}")
    return done


def damage(book):
    with tables.connect(book) as db:
        db.execute("UPDATE account SET method = 'x' WHERE name = 'Assets:Cash'")


def limited_reports(ground, whole):
    """Reports of which so many bytes can be written, the book that is made, and the call without words."""
    done = sweep.Sweep()
    full = ground.changed("full.book", lambda book: sweep.call(ground.program, ["post", "--book", book, *POST], DEALS))
    held = tables.bytes_of(full.first)
    calls = [([], sweep.first_purchase())]
    for word, *more in (
        ["holdings"], ["holdings", "--day", "2020-12-31"], ["holdings", "--as-of", "2020-01-02"], ["gains"], ["gains", "--by", "year,term"],
        ["register", "--account", "Assets:"], ["register", "--account", "Assets:", "--format", "csv"], ["activity", "--by", "month"],
        ["reconcile", "--account", "Assets:"], ["journal"], ["page"], ["dump"],
    ):  # fmt: skip
        calls.append(([word, "--book", full.book, *more], b"commodity,units\nHOOL,5\nUSD,0\n" if word == "reconcile" else b""))
    for words, text in calls:
        report, ends = full.call(words, text)[:2]
        for count in some(range(len(report) + 1), whole):
            got = limited(full, words, text, count)
            status = 4 if count < len(report) else ends
            done.compare(f"{words}, {count} bytes", words[0] if words else "without words", (report[:count], status), got, status == 0 and ("--day" in words or "--as-of" in words))
            done.also(untold(got))
            done.also("" if tables.bytes_of(full.book) == held else f"{words}, {count} bytes: the book changed")
    held = tables.contents(sweep.made(ground.program, os.path.join(ground.scratch, "empty.book")))
    ready, none = b"book ready\n", ground.on("none.book")
    for count in range(len(ready) + 1):
        got = limited(none, ["init", "--book", none.book], b"", count)
        done.compare(f"init, {count} bytes", "init", (ready[:count], 4 if count < len(ready) else 0), got)
        done.also("" if tables.contents(none.book) == held else f"init, {count} bytes: no empty book")
    migrated, older = b"book migrated\n", ground.on("older.book")
    tables.older(older.first)
    for count in range(len(migrated) + 1):
        got = limited(older, ["migrate", "--book", older.book], b"", count)
        done.compare(f"migrate, {count} bytes", "migrate", (migrated[:count], 4 if count < len(migrated) else 0), got)
        there = tables.contents(older.book)
        done.also("" if (there["book"], there["migration"]) == ([("lot-book", 2)], [(7,)]) else f"migrate, {count} bytes: it isn't migrated")
    return done


def gone_readers(ground):
    """Outputs that nobody reads: a terminal that is gone, a pipe that is full and isn't waited for, a file opened for reading alone."""
    done = sweep.Sweep()
    _, held = stands_after(ground, ["post", "--book", ground.book, *POST], DEALS)

    def gone():
        ours, theirs = pty.openpty()
        os.close(ours)
        return theirs

    def filled():
        reading, writing = os.pipe()
        os.set_blocking(writing, False)
        try:
            while True:
                os.write(writing, b"x" * 4096)
        except BlockingIOError:
            kept.append(reading)
            return writing

    kept = []
    outputs = {"a terminal that is gone": gone, "a full pipe": filled, "a file for reading": lambda: os.open("/dev/null", os.O_RDONLY)}
    for what, opened in outputs.items():
        descriptor = opened()
        got = ground.call(["post", "--book", ground.book, *POST], DEALS, stdout=descriptor)
        done.compare(what, what, (b"", 4), got)
        done.also("" if tables.contents(ground.book) == held[0] else f"{what}: the book holds something else")
        got = ground.call(["journal", "--book", ground.book], stdout=descriptor)
        done.compare(f"journal to {what}", what, (b"", 4), got)
        os.close(descriptor)
    for descriptor in kept:
        os.close(descriptor)
    return done


def closed(ground):
    """Each choice of closed streams. No file that is opened takes their place: the book holds no reply, and isn't the input."""
    done = sweep.Sweep()
    for word, words, text in list(ground.ways())[1:] + [("holdings", ["holdings", "--book", ground.book], b"")]:
        whole = ground.call(words, text)
        _, held = stands_after(ground, words, text) if text else (None, [ground.held])
        for choice in range(1, 8):
            streams = [at for at in range(3) if choice >> at & 1]

            def close():
                for stream in streams:
                    os.close(stream)

            got = ground.call(words, text, preexec_fn=close)
            unreadable = text and 0 in streams
            said = b"" if 2 in streams else None
            if 1 in streams:
                wanted, stands = (b"", 4), ground.held if unreadable or not text else held[0]
                if 2 not in streams:
                    said = sweep.lines("fault K1 Read") if unreadable else begun(whole.output, 0)
            elif unreadable:
                wanted, stands = (sweep.lines("fault K1 Read"), 3), ground.held
            else:
                wanted, stands = (whole.output, whole.status), held[-1]
            done.compare(f"{word} without {streams}", word, wanted, got, warns(words), said)
            done.also(f"{word} without {streams}: messages {got.errors}" if 2 in streams and got.errors else "")
            with tables.connect(ground.book) as db:
                is_sound = db.execute("PRAGMA integrity_check").fetchone() == ("ok",)
            kept = is_sound and tables.contents(ground.book) == stands
            done.also("" if kept else f"{word} without {streams}: the book holds something else")
    return done


def main():
    words = sweep.words_of_a_sweep().parse_args()
    ground = Ground(words.program, words.scratch, sweep.made(words.program, os.path.join(words.scratch, "first.book"), ACCOUNTS))
    pieces(ground, words.whole).tell("inputs in pieces, down to a byte a call")
    failing_reads(ground, words.whole).tell("a read that fails behind each byte")
    hung_up(ground).tell("a terminal that hangs up")
    odd_inputs(ground).tell("inputs that can't be read, and the book itself as input")
    growing(ground, 20 if words.whole else 3).tell("a file that grows while it is read")
    limited_replies(ground, words.whole).tell("replies to an output that takes so many bytes")
    limited_faults(ground, words.whole).tell("faults to an output that takes so many bytes")
    limited_reports(ground, words.whole).tell("reports to an output that takes so many bytes")
    gone_readers(ground).tell("outputs that nobody reads")
    closed(ground).tell("each choice of closed streams")


if __name__ == "__main__":
    main()
    tally.end()
