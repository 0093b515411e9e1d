"""Refuses the program each growth of memory in turn, and looks at what it answers and leaves.

    sweep.py PROGRAM LIBRARY COUNTS [--whole] [--only TEXT]

LIBRARY is refuse.c, compiled: at a growth it makes two copies of the process, one that is refused this growth, and one that is refused
this one and each that follows. Of each copy:

- it answers what the call answers with ample memory, or the fault of memory behind some of the first lines of that, with status 4;
  standard error has some of the first lines that it has with ample memory, or all, and a line of memory in the place of what was stopped
- the tables, read by SQLite's own library in a copy of the files, are those of the commands that were replied to. One command more
  may stand where the log held its commit already when the growth was refused: that commit is in doubt, and counted. Of a call that
  keeps all commands or none, all stand once all were replied to, and else none, or all by such a commit
- a report, and words that can't be used, leave the tables as they were, and no file where there was none
- the same input sent again with ample memory, from its start or from the first command without a reply, is answered as a list that was
  stopped there, and comes to the tables of one run without a stop

After each copy the files are set back, since the process that it was taken from goes on with them. That process is the run that is
refused nothing. Of the short calls each growth is refused, and with --whole of all; else of the others each STEPth. --only takes the
calls whose names have that text in them. A case is a call. The counts of all go to the file COUNTS.
"""

import concurrent.futures
import dataclasses
import hashlib
import os
import socket
import sqlite3
import struct
import subprocess
import sys
import tempfile

HERE = os.path.dirname(os.path.abspath(__file__))
EXAMPLES = os.path.join(HERE, "..", "..", "examples")
for folder in ("book", "lib"):
    sys.path.insert(0, os.path.join(HERE, "..", folder))

import batches  # noqa: E402  (the folders are named above)
import notes  # noqa: E402
import tables  # noqa: E402
import tally  # noqa: E402

# What refuse.c says.
MESSAGE = struct.Struct("=iiiiqqqqq")
ASKED, ENDED, OVER = range(3)
ONE, ALL = range(2)
REFUSED = ("this one", "this one and all that follow")
WHOSE = ("of the program's own code", "of the C library", "before main, which aren't refused")

STEP = 11
LONGER_STEP = 47  # of the calls that do more
MEMORY = "fault Memory"
OF_A_COPY = ("fault S4 Device", "fault S5 InDoubt")  # to the database a copy for which memory ends is a disk that fails
MAKERS = (["init"], ["restore"])  # of a new file
KEEPS_NOTHING = {"--dry-run", "--all-or-none"}  # no prefix of the commands: the second all of them or none
BOOK = "BOOK"  # stands in words for the path of the book
PATIENCE = 300  # seconds without a message


@dataclasses.dataclass(frozen=True)
class Call:
    """Words with an input, on a file that holds some bytes or that other calls have made."""

    name: str
    words: list
    text: bytes = b""
    before: list = dataclasses.field(default_factory=list)
    file: bytes = None

    def beginnings(self):
        """The text of no command, of the first one, of the first two, and so on."""
        if self.words[0] == "import":
            head, *parts = self.text.splitlines(keepends=True)
        else:
            head, parts = b"", [part.encode() for part in batches.commands_of(self.text.decode())]
        return [head + b"".join(parts[:count]) for count in range(len(parts) + 1)]


@dataclasses.dataclass
class Found:
    """What was found in the copies of one call, or of all."""

    runs: int = 0
    refused: int = 0
    in_doubt: int = 0
    growths: list = dataclasses.field(default_factory=lambda: [0] * len(WHOSE))
    faults: list = dataclasses.field(default_factory=list)

    def add(self, other):
        self.runs += other.runs
        self.refused += other.refused
        self.in_doubt += other.in_doubt
        self.growths = [sum(pair) for pair in zip(self.growths, other.growths)]
        self.faults += other.faults


@dataclasses.dataclass(frozen=True)
class File:
    """A file as it was read: its number on the disk, its bytes and a digest of these."""

    inode: int
    content: bytes
    digest: bytes


class Different(Exception):
    """An answer or a state that isn't right, in words."""


def run(program, words, book, text=b""):
    """Status, output and messages of a call with ample memory."""
    words = [book if word == BOOK else word for word in words]
    done = subprocess.run([program, *words], input=text, capture_output=True, timeout=600)
    return done.returncode, done.stdout, done.stderr


def held(book):
    """The tables of the database at that path, of either edition; None where there is no file, and its bytes where it is no book."""
    if not os.path.exists(book):
        return None
    try:
        with tables.connect(book) as db:
            names = {name for (name,) in db.execute("SELECT name FROM sqlite_master")}
        if not names:
            return {}
        return tables.contents(book, tables.TABLES if names & {*tables.ADDED} else tables.OF_EDITION_1)
    except sqlite3.DatabaseError:
        with open(book, "rb") as file:
            return file.read()


class Sweep:
    """A call, and the copies of it."""

    def __init__(self, program, library, folder, call):
        self.program, self.library, self.call = program, library, call
        self.folder = os.path.join(folder, "files")
        os.makedirs(self.folder)
        self.book = os.path.join(self.folder, "book")
        self.other = os.path.join(folder, "book")  # of the same name: a page says it
        self.input = os.path.join(folder, "input")
        self.found = Found()
        self.last = {}  # each file as it was read last
        self.known = {}  # what was found of the book in some state

    # ---- files

    def state(self):
        """The files, by name."""
        for entry in os.scandir(self.folder):
            with open(entry.path, "rb") as file:
                content = file.read()
            last = self.last.get(entry.name)
            if last is None or last.content != content or last.inode != entry.inode():
                self.last[entry.name] = File(entry.inode(), content, hashlib.sha1(content).digest())
        names = os.listdir(self.folder)
        return {name: self.last[name] for name in names}

    def set_back(self, wanted, now):
        """Makes the files what they were. The process that goes on has them open, so each has to be the same one."""
        for name in now.keys() - wanted.keys():
            os.remove(os.path.join(self.folder, name))
        for name, was in wanted.items():
            if name not in now or now[name].inode != was.inode:
                raise RuntimeError(f"the file {name} was removed")
            if now[name].digest != was.digest:
                with open(os.path.join(self.folder, name), "r+b") as file:
                    file.write(was.content)
                    file.truncate()

    def place(self, state):
        """Puts the book of a state at another path."""
        for end in ("", "-wal"):
            if os.path.exists(self.other + end):
                os.remove(self.other + end)
            if "book" + end in state:
                with open(self.other + end, "wb") as file:
                    file.write(state["book" + end].content)

    def once(self, what, state, find):
        """What `find` finds of the book of a state. Of the same bytes the same is found, so it is looked for once."""
        key = what, *(state[name].digest if name in state else None for name in ("book", "book-wal"))
        if key not in self.known:
            self.place(state)
            self.known[key] = find()
        return self.known[key]

    def tables_of(self, state):
        """The tables of the book of a state."""
        return self.once("tables", state, lambda: held(self.other))

    # ---- ample memory

    def prepare(self):
        """Makes the file, and finds out what the call answers and leaves, and each of its beginnings."""
        if self.call.file is not None:
            with open(self.book, "wb") as file:
                file.write(self.call.file)
        for words, text in self.call.before:
            run(self.program, words, self.book, text)
        self.start = self.state()
        self.ample = self.answer(self.call.text)
        self.lines = self.ample[1].decode().splitlines()
        after = held(self.other)
        self.stages = [self.tables_of(self.start)]
        word = next((word for word in self.call.words[:1] if not word.startswith("--")), "check")
        self.replies = sum(line.split(" ")[0].isdigit() for line in self.lines) if word in ("check", "post", "import") else 0
        self.is_run = word != "check" and self.replies > 0 and not KEEPS_NOTHING & {*self.call.words}
        self.is_batch = "--all-or-none" in self.call.words
        if self.is_run:
            self.stages += [self.left(text) for text in self.call.beginnings()[1:]]
        elif after != self.stages[0]:
            self.stages.append(after)

    def answer(self, text):
        """The answer of the call, with this input, on the file as it was made."""
        self.place(self.start)
        status, output, messages = run(self.program, self.call.words, self.other, text)
        return status, output, messages.replace(self.other.encode(), self.book.encode())

    def left(self, text):
        """The tables that the call leaves, with this input, where the file was as it was made."""
        self.answer(text)
        return held(self.other)

    # ---- a copy

    def is_stopped(self, answer):
        """Whether a copy says that memory stopped it. Raises where it answers otherwise than it may."""
        status, output, messages = answer
        messages = notes.before_the_end(messages, self.ample[2])
        if self.is_batch:
            messages = notes.before_the_withdrawal(messages)
        if (status, output) == self.ample[:2]:
            ample = notes.before_the_end(self.ample[2], self.ample[2])
            first = self.ample[2].startswith(messages) or notes.are_first_but_for_crumbs(messages, ample)
            first = first or self.is_batch and notes.are_first_but_for_facts(messages, ample)
            if not first or messages[-1:] not in (b"", b"\n"):
                raise Different(f"messages {messages[-200:]}")
            return False
        *before, last = output.decode(errors="replace").split("\n")[:-1] or [""]
        count = len(before)
        rights = set()
        if count == 0 or self.replies <= count < len(self.lines) + self.may_fail_behind_its_lines():
            rights.add(MEMORY)
        if count < self.replies:
            rights.add(f"{self.lines[count].split(' ')[0]} {MEMORY}")
        of_copy = {f"{self.lines[count].split(' ')[0]} {fault}" if count < self.replies else fault for fault in OF_A_COPY}
        if self.call.words[:1] == ["--rounding"]:  # the book of a check is made in memory
            of_copy |= {*OF_A_COPY} if count == 0 else set()
        elif "--dry-run" not in self.call.words:
            of_copy = set()
        if status != 4 or last not in rights | of_copy or before != self.lines[:count] or not output.endswith(b"\n"):
            raise Different(f"status {status}, output {output[-200:]}, messages {messages[-200:]}")
        if last in of_copy:
            if messages and (wrong := notes.wrong(messages, status, output)):  # memory may be gone for them, too
                raise Different(wrong)
        elif wrong := notes.wrong_where_memory_ended(messages, notes.before_the_end(self.ample[2], self.ample[2]), output):
            raise Different(wrong)
        return True

    def may_fail_behind_its_lines(self):
        """Whether memory may lack once all lines are written: a journal, a register and a table have no line of their own at the end, and then
        look for more rows."""
        return self.call.words[:1] in (["journal"], ["register"]) or "csv" in self.call.words

    def judge(self, copy, status, state):
        """Raises where a copy answered or left what it may not."""
        output = state["out"].content
        is_stopped = self.is_stopped((os.waitstatus_to_exitcode(status), output, state["err"].content))
        replied = output.count(b"\n") - 1 if is_stopped else len(self.lines)
        stage = min(replied, self.replies) if self.is_run else 0 if is_stopped else len(self.stages) - 1
        stands = self.tables_of(state)
        if not self.is_stage(stage, stands):
            # A commit in doubt is one that the log held already when the growth was refused.
            if not is_stopped or not self.is_stage(stage + 1, stands) or self.tables_of(self.here) != stands:
                raise Different(f"the tables aren't those of {stage} commands; the last line is {output[-60:]}")
            stage += 1
            self.found.in_doubt += 1
        if self.is_batch and stage and state["err"].content.endswith(notes.NOTHING_KEPT):
            raise Different("it says that nothing is kept, and all is")
        first = replied + 1 if copy == ALL and is_stopped else 1
        if fault := self.once(("again", first), state, lambda: self.fault_again(first, stage)):
            raise Different(fault)

    def is_stage(self, stage, stands):
        """Whether these are the tables after so many commands. A new file that isn't a book yet may be there, without tables."""
        if self.call.words[:1] in MAKERS and stage == 0 and self.stages[0] is None and stands == {}:
            return True
        return stage < len(self.stages) and stands == self.stages[stage]

    def fault_again(self, first, stage):
        """What is wrong with sending the same again from that command on, to the tables after so many commands; or nothing."""
        words, wanted = self.call.words, self.ample
        if self.is_run:
            words = [*words, "--from", str(first)]
            # What stands is a repeat. What was refused is so again: the inputs are such.
            lines = [line.replace(" accepted", " repeat") if at < stage else line for at, line in enumerate(self.lines)][first - 1 :]
            wanted = int(any(" refused " in line for line in lines)), "".join(line + "\n" for line in lines).encode(), b""
        elif self.is_batch and self.ample[0] == 0:
            # All that stands is a repeat.
            wanted = 0, self.ample[1].replace(b" accepted\n", b" repeat\n") if stage else self.ample[1], b""
        elif words[:1] in MAKERS and stage and self.stages[-1]:
            wanted = 4, b"fault S1 NotABook\n", b""
        elif words[:1] not in (["migrate"], ["restore"]):
            return ""
        answer = run(self.program, words, self.other, self.call.text)
        if answer[:2] != wanted[:2]:
            return f"sent again from {first} on: {answer} instead of {wanted}"
        return "" if held(self.other) == self.stages[-1] else f"sent again from {first} on: other tables than those of one run"

    # ---- all copies

    def sweep(self, step):
        """Has each growth refused whose number is a multiple of the step, and returns what was found."""
        self.prepare()
        with open(self.input, "wb") as file:
            file.write(self.call.text)
        process, talk = self.begin(step)
        try:
            while message := talk.recv(MESSAGE.size):
                self.take(*MESSAGE.unpack(message))
                talk.send(b".")
            status = process.wait(PATIENCE)
        finally:
            process.kill()
            process.wait()
            talk.close()
        end = self.state()
        answer = status, end["out"].content, end["err"].content
        if answer != self.ample or self.tables_of(end) != self.stages[-1]:
            self.found.faults.append(f"refused nothing it answers {answer}, or leaves other tables")
        if not self.found.runs:
            self.found.faults.append("no growth was met")
        return self.found

    def begin(self, step):
        """Begins the run. Returns it and the socket on which it tells of growths, a message at a time."""
        ours, theirs = socket.socketpair(socket.AF_UNIX, socket.SOCK_SEQPACKET)
        ours.settimeout(PATIENCE)
        out, err = (os.path.join(self.folder, name) for name in ("out", "err"))
        with theirs, open(self.input, "rb") as given, open(out, "wb") as output, open(err, "wb") as messages:
            process = subprocess.Popen(
                [self.program, *(self.book if word == BOOK else word for word in self.call.words)],
                stdin=given, stdout=output, stderr=messages, pass_fds=[theirs.fileno()],
                env={**os.environ, "LD_PRELOAD": self.library, "GROWTHS": f"{theirs.fileno()} {step}"},
            )
        return process, ours

    def take(self, about, whose, copy, status, number, refused, *growths):
        """Takes a message."""
        self.found.growths = growths
        if about == ASKED:
            self.here = self.state()
        elif about == ENDED:
            self.found.runs += 1
            self.found.refused += refused
            now = self.state()
            try:
                self.judge(copy, status, now)
            except Different as fault:
                self.found.faults.append(f"growth {number} {WHOSE[whose]}, refused {REFUSED[copy]}: {fault}")
            self.set_back(self.here, now)


# ---- the calls

INIT = ["init", "--book", BOOK]
POST = ["post", "--book", BOOK, "--batch", "a"]
IMPORT = ["import", "--book", BOOK, "--batch", "broker", "--invest", "Assets:Broker", "--cash", "Assets:Cash"]
IMPORT += ["--fees", "Expenses:Fees", "--gains", "Income:Gains"]
ROUNDING = ["--rounding", "Equity:Rounding"]
MAKE = INIT, b""
MIGRATE = ["migrate", "--book", BOOK]
RESTORE = ["restore", "--book", BOOK]
STATEMENT = b"commodity,units\nHOOL,3\nGOLD,1\nUSD,0\n"


def content(*path):
    with open(os.path.join(*path), "rb") as file:
        return file.read()


def report_of(program, scratch, word, before):
    """The journal, or the dump, of a book that these calls make."""
    book = os.path.join(scratch, f"{word}.book")
    for words, text in before:
        run(program, words, book, text)
    return run(program, [word, "--book", BOOK], book)[1]


def takes_crumbs(program):
    """Whether the program has the option of a rounding account."""
    return b"--rounding" in subprocess.run([program, "post", "--help"], check=True, stdout=subprocess.PIPE, timeout=60).stdout


def short_calls(texts, crumbs):
    """Those of which each growth is refused."""
    yield Call("no words, no input", [])
    for name, text in texts.items():
        yield Call(f"no words, {name}", [], text)
    yield Call("no words but a rounding account", ROUNDING, crumbs)
    yield Call("no words, a faulty text", [], texts["a sale"] + b"2020-13-01 open Assets:A\n")
    yield Call("help", ["--help"])
    yield Call("help of a word", ["import", "--help"])
    yield Call("the version", ["--version"])
    yield Call("a word that there isn't", ["sell"])
    yield Call("a word without its options", ["import"])
    yield Call("a value that an option doesn't take", [*POST, "--from", "0"])
    yield Call("a value outside its rule", ["holdings", "--book", BOOK, "--day", "2020-02-30"])
    yield Call("a report of a file that isn't there", ["holdings", "--book", BOOK])
    yield Call("a post to a file that isn't there", POST, texts["the first purchase"])
    yield Call("a faulty statement", ["reconcile", "--book", BOOK, "--account", "Assets:"], STATEMENT + b"HOOL,4\n")
    yield Call("a report of a folder", ["journal", "--book", "/"])
    yield Call("a report of a file that is no database", ["gains", "--book", BOOK], file=b"no database\n" * 1000)
    yield Call("migrate a file that isn't there", MIGRATE)
    yield Call("post of the first purchase", POST, texts["the first purchase"], [MAKE])


def calls_on_a_book(texts, dump, older):
    """Those that make a book or open one, and don't do much with it. `dump` is that of a book with a sale, `older` the file of a book of
    edition 1."""
    filled = [MAKE, (POST, texts["a sale"])]
    yield Call("init", INIT)
    yield Call("verify of a sale", ["verify", "--book", BOOK], before=filled)
    yield Call("a report of an empty file", ["journal", "--book", BOOK], file=b"")
    yield Call("a dry run of init", [*INIT, "--dry-run"])
    yield Call("restore of a dump", RESTORE, dump)
    yield Call("a dry run of restore", [*RESTORE, "--dry-run"], dump)
    yield Call("restore of a dump that was changed", RESTORE, dump.replace(b"530", b"531"))
    yield Call("restore of a dump where a book is", RESTORE, dump, [MAKE])
    yield Call("a dry run of the first purchase", [*POST, "--dry-run"], texts["the first purchase"], [MAKE])
    yield Call("a dry run of a sale, with what it tells", [*POST, "--dry-run", "--gains", "--holdings"], texts["a sale"], [MAKE])
    yield Call("all or none of a text that is refused", [*POST[:-1], "b", "--all-or-none"], texts["the first purchase"], filled)
    yield Call("all or none of a sale", [*POST, "--all-or-none"], texts["a sale"], [MAKE])
    yield Call("migrate a book of edition 1", MIGRATE, file=older)
    yield Call("migrate a book of edition 2", MIGRATE, before=[MAKE])


def longer_calls(texts, crumbs, broker, older):
    """Those that do more with a book."""
    filled = [MAKE, (POST, texts["a sale"])]
    accounts = [MAKE, (["post", "--book", BOOK, "--batch", "accounts"], broker["accounts.ledger"])]
    yield Call("init of a book that is there", INIT, before=[MAKE])
    for name, text in texts.items():
        if name != "the first purchase":
            yield Call(f"post of {name}", POST, text, [MAKE])
        yield Call(f"post of {name} to a book of others", [*POST[:-1], "b"], text, filled)
    yield Call("post of a sale again", POST, texts["a sale"], filled)
    yield Call("post of other texts under the same keys", POST, texts["every kind"], filled)
    yield Call("post of a faulty text", POST, texts["a sale"] + b"2020-13-01 open Assets:A\n", [MAKE])
    with_account = [*accounts, (["post", "--book", BOOK, "--batch", "rounding"], b"2023-12-01 open Equity:Rounding\n")]
    yield Call("post of crumbs", [*POST, *ROUNDING], crumbs, [MAKE])
    yield Call("post of crumbs again, without the account", POST, crumbs, [MAKE, ([*POST, *ROUNDING], crumbs)])
    yield Call("post of crumbs again, at other decimals", [*POST, *ROUNDING, "--decimals", "2"], crumbs, [MAKE, ([*POST, *ROUNDING], crumbs)])
    yield Call("import of crumbs", [*IMPORT, *ROUNDING, "--decimals", "1", "--within", "0.05"], broker["2024.csv"], with_account)
    yield Call("import", IMPORT, broker["2024.csv"], accounts)
    yield Call("import of a faulty file", IMPORT, broker["2024.csv"] + b"D-1006,2024-13-01,BUY,HOOL,1,1,USD,\n", accounts)
    yield Call("import again", IMPORT, broker["2024.csv"], [*accounts, (IMPORT, broker["2024.csv"])])
    yield Call("import of all or none", [*IMPORT, "--all-or-none"], broker["2024.csv"], accounts)
    yield Call("import of all or none that is refused", [*IMPORT, "--all-or-none"], broker["2025.csv"], [*accounts, (IMPORT, broker["2024.csv"])])
    yield Call("import of the next year", IMPORT, broker["2025.csv"], [*accounts, (IMPORT, broker["2024.csv"])])
    yield Call("post to a book of edition 1", [*POST[:-1], "b"], texts["the first purchase"], file=older)
    yield Call("import to a book of edition 1", IMPORT, broker["2024.csv"], file=older)
    yield Call("holdings of a book of edition 1", ["holdings", "--book", BOOK], file=older)
    yield Call("init of a book of edition 1", INIT, file=older)
    books = {"an empty book": [MAKE], "a book with a sale": filled, "a book of every kind": [MAKE, (POST, texts["every kind"])]}
    for book, before in books.items():
        day, past, table, below = ["--day", "2020-12-31"], ["--as-of", "2020-03-31"], ["--format", "csv"], ["--account", "Assets:"]
        for words in (
            ["holdings"], ["holdings", *day], ["holdings", *day, *table], ["holdings", *past], ["holdings", *past, *table],
            ["gains"], ["gains", *table], ["gains", "--by", "year,term"], ["gains", "--by", "commodity", *table],
            ["register", *below], ["register", *below, *table], ["activity", "--by", "month"], ["activity", *table],
            ["reconcile", *below], ["reconcile", *below, *past, *table], ["journal"], ["page", "--digest"], ["dump"], ["verify", "--digest"],
        ):  # fmt: skip
            text = STATEMENT if words[0] == "reconcile" else b""
            yield Call(f"{' '.join(words)} of {book}", [words[0], "--book", BOOK, *words[1:]], text, before)


def older_book(scratch):
    """The bytes of a book of edition 1."""
    book = os.path.join(scratch, "older.book")
    tables.older(book)
    return content(book)


def found_of(words, scratch, number, call, step):
    return Sweep(words.program, words.library, os.path.join(scratch, f"call-{number}"), call).sweep(step)


def sweep_all(words, scratch):
    """Tells each call, and returns what was found in all."""
    sale = content(EXAMPLES, "first-sale.ledger") + b"2020-06-15 price HOOL 530 USD\n2020-12-31 price HOOL 520 USD\n"
    texts = {
        "the first purchase": content(EXAMPLES, "first-purchase.ledger"),
        "a sale": sale,
        "a journal": report_of(words.program, scratch, "journal", [MAKE, (POST, sale)]),
        "every kind": content(HERE, "every-kind.ledger"),
    }
    broker = {name: content(EXAMPLES, "broker", name) for name in ("accounts.ledger", "2024.csv", "2025.csv")}
    dump = report_of(words.program, scratch, "dump", [MAKE, (POST, sale)])
    older = older_book(scratch)
    crumbs = content(HERE, "crumbs.ledger")
    calls = [(call, 1) for call in short_calls(texts, crumbs)]
    calls += [(call, 1 if words.whole else STEP) for call in calls_on_a_book(texts, dump, older)]
    calls += [(call, 1 if words.whole else LONGER_STEP) for call in longer_calls(texts, crumbs, broker, older)]
    if not takes_crumbs(words.program):
        calls = [(call, step) for call, step in calls if not any("--rounding" in words for words in (call.words, *(made for made, _ in call.before)))]
    total = Found()
    with concurrent.futures.ProcessPoolExecutor(len(os.sched_getaffinity(0))) as pool:
        jobs = [
            (call.name, pool.submit(found_of, words, scratch, number, call, step))
            for number, (call, step) in enumerate(calls) if words.only in call.name
        ]
        for name, job in jobs:
            found = job.result()
            total.add(found)
            faults = found.faults
            tally.check(name, f"{len(faults)} differences, the first: {faults[0]}" if faults else "")
    return total


def main():
    parser = tally.words("program", "library", "counts")
    parser.add_argument("--whole", action="store_true")
    parser.add_argument("--only", default="")
    words = parser.parse_args()
    # The books lie in memory where the machine has room for files there.
    with tempfile.TemporaryDirectory(dir="/dev/shm" if os.access("/dev/shm", os.W_OK) else None) as scratch:
        total = sweep_all(words, scratch)
    with open(words.counts, "w", encoding="ascii") as counts:
        growths = ", ".join(f"{count} {whose}" for count, whose in zip(total.growths, WHOSE))
        print(f"growths: {growths}", file=counts)
        print(f"runs {total.runs}, refusals met {total.refused}, commits in doubt {total.in_doubt}, ", end="", file=counts)
        print(f"differences {len(total.faults)}", file=counts)


if __name__ == "__main__":
    main()
    tally.end()
