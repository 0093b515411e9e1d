"""What the program says on standard error beside its answer: why commands were refused, and what may have been meant otherwise."""

import re
import unicodedata

FIRST = b"lotbook: "
MOST = 10  # notes, and warnings, of a call
A_PLACE = r"(line [1-9][0-9]*, command {0}|row {0} \(.*\)|number {0}): "
REFUSED = re.compile(r"([1-9][0-9]*) (?:refused|fault) ([A-Z][0-9]+ [A-Za-z]+)(?: .*)?")
FAULTY = re.compile(r"fault (line|row) ([1-9][0-9]*) ([A-Z][0-9] [A-Za-z0-9]+)(?: .*)?")
FAULT = re.compile(r"fault (?:header )?([A-Z][0-9] [A-Za-z0-9]+)")
WARNING = re.compile(r"(?:line [1-9][0-9]*: |row [1-9][0-9]* \(.*\): )?warning: .+")
CRUMB = re.compile(r"(?:command|row) ([1-9][0-9]*): \S+ takes -?[0-9.]+ \S+(?:, -?[0-9.]+ \S+)*")  # what an account took
SUM_OF_CRUMBS = re.compile(r"\S+ takes -?[0-9.]+ \S+(?:, -?[0-9.]+ \S+)*, of [1-9][0-9]* (?:commands?|rows?)")
MORE = re.compile(r"\.\.\. and [1-9][0-9]* more")
MEMORY = re.compile(rf"({A_PLACE.format('[1-9][0-9]*')})?(Memory )?Memory: memory ended(: .+)?")
OF_LINES = re.compile(r"line [1-9][0-9]*: X[1-7] [A-Za-z0-9]+: .+")
OF_DAMAGE = r".+: (entry|table|a row) .+"  # of `verify`
OF_ROWS = re.compile(r"row [1-9][0-9]* \(.*\): C2 BadRow: .+")
REPLY = re.compile(r"([1-9][0-9]*) (accepted|repeat|refused|fault)( .*)?")
UNWRITTEN = re.compile(
    r"standard output: [A-Z].+ \(os error [0-9]+\): (the output( of a dry run)? is cut short|the book is (made|migrated)"
    r"|((command|row) (?P<last>[1-9][0-9]*) is the last|no (command|row)) of this call (is )?in the book; --from (?P<start>[1-9][0-9]*) goes on"
    r"|the same call, sent again, tells: where all is kept, each line says `repeat`)"
)
# What the book says at the end of a run, which another run ends otherwise with, or that can't be read.
OF_THE_BOOK = re.compile(
    r": (entry [1-9][0-9]*(, with(out)? the line `[^`]*`)?|the nearest is [^ ]+(?=: )|it is opened further down"
    r"|the latest is [0-9]{4}-[0-9]{2}-[0-9]{2}, of entry [1-9][0-9]*"
    r"|lots that fit now: [0-9]+(, with [0-9.]+ units)?(; they differ in [a-z, ]+)?|held now: [0-9.]+; wanted: [0-9.]+)"
)
# What was found as a command was judged, which a copy without memory for it leaves out.
OF_ITS_CRUMBS = re.compile(
    r"; (it would balance with `[^`]*`( in its place)?(, `[^`]*`( in its place)?)*(: --rounding ACCOUNT( --within [0-9.]+)? adds that)?"
    r"|its crumb is -?[0-9.]+ [^ ]+, [0-9.]+ more than --within allows|with its crumbs it is refused: [A-Z][0-9]+ [A-Za-z]+( [^ ]+)?(?=: )"
    r"|[^ ]+ has no cost or price here, so no crumb is taken in it|with --rounding ACCOUNT it is a repeat)"
)
HELD = re.compile(r".*: warning: the account is closed, and still holds .+")


NOTHING_KEPT = (
    b": nothing is kept, since not all was accepted: entries and lots are named above as the call would have made them\n",
    b": nothing is kept, since the call stopped: send it again whole\n",
)
IN_DOUBT = b": all is kept or nothing: send the call again whole, and what is kept is a repeat\n"
TAKES_OVER = b"` takes it over\n"


def before_the_end(errors, ample):
    """The messages but for the last line of those with ample memory, where that says that nothing is kept, or what helps with a book of
    edition 1, and ends these, too."""
    last = ample[ample.rfind(b"\n", 0, -1) + 1 :]
    return errors[: -len(last)] if last.endswith((*NOTHING_KEPT, IN_DOUBT, TAKES_OVER)) and errors.endswith(last) else errors


def before_the_withdrawal(errors):
    """The messages but for the last line, where that says that nothing is kept, or that nobody knows."""
    last = errors[errors.rfind(b"\n", 0, -1) + 1 :]
    return errors[: -len(last)] if last.endswith((*NOTHING_KEPT, IN_DOUBT)) else errors


def is_note(line, begin=""):
    """Whether a line without its end begins with `lotbook: ` and then with this text, in UTF-8 without control characters."""
    try:
        text = line.decode()
    except UnicodeDecodeError:
        return False
    return text.startswith("lotbook: " + begin) and not any(unicodedata.category(it) == "Cc" for it in text)


def without(errors):
    """The messages of a call but for those lines, each with its line end."""
    *lines, rest = errors.split(b"\n")
    return b"\n".join([*(line for line in lines if not is_note(line)), rest])


def are(errors, *begins):
    """Whether the messages of a call are so many of those lines, and each begins with its text; nothing where none is given."""
    *lines, rest = errors.encode().split(b"\n")
    return not rest and len(lines) == len(begins) and all(map(is_note, lines, begins))


def without_crumbs(lines):
    """The messages but for the last ones, which say what an account took, and these."""
    first = len(lines)
    for pattern in (SUM_OF_CRUMBS, MORE):  # neither is there where memory ended before it
        if first and pattern.fullmatch(lines[first - 1]):
            first -= 1
    crumbs = first
    while crumbs and CRUMB.fullmatch(lines[crumbs - 1]):
        crumbs -= 1
    if crumbs == first and (first == len(lines) or MORE.fullmatch(lines[first])):
        return lines, []
    return lines[:crumbs], lines[crumbs:]


def wrong(errors, status=None, output=None, may_warn=True):
    """What is wrong with these messages, or nothing. They are lines of the program's own. Where the status is known they are warnings alone
    if it is 0, and where the output is, all that was written or should have been, they say of each refusal and of the fault what is due."""
    try:
        *lines, rest = errors.decode().split("\n")
    except UnicodeDecodeError:
        return "a message that isn't UTF-8"
    if rest:
        return f"a message without a line end: {rest[:200]!r}"
    for line in lines:
        if not line.encode().startswith(FIRST) or any(ord(letter) < 32 or 127 <= ord(letter) < 160 for letter in line):
            return f"the message {line[:200]!r}"
    lines = [line[len(FIRST) :] for line in lines]
    if lines and status in (4, None) and (unwritten := UNWRITTEN.fullmatch(lines[-1])):
        if found := misleads(unwritten, [] if output is None else output.decode().split("\n")[:-1]):
            return found
        lines.pop()
    lines, of_crumbs = without_crumbs(lines)
    if len(of_crumbs) > MOST + 2:
        return f"{len(of_crumbs)} messages of what an account took"
    first = next((at for at, line in enumerate(lines) if WARNING.fullmatch(line)), len(lines))
    noted, warned = lines[:first], lines[first:]
    if warned and not may_warn:
        return f"the warning {warned[0][:200]!r}"
    if len(warned) == MOST + 1 and MORE.fullmatch(warned[-1]):
        warned = warned[:-1]
    if len(warned) > MOST or not all(map(WARNING.fullmatch, warned)):
        return f"other messages than warnings behind {warned[0][:200]!r}"
    if status == 0 and noted:
        return f"no warning: {noted[0][:200]!r}"
    return "" if output is None else missing(noted, output.decode().split("\n")[:-1])


def misleads(unwritten, said):
    """What is wrong with the numbers that are told where output can't be written, or nothing: said are the lines that were handed over, of
    which the last isn't written whole. They are none where that isn't known."""
    replies = [reply for line in said if (reply := REPLY.fullmatch(line))]
    if not replies or not unwritten["start"]:
        return ""
    stands = [reply[1] for reply in replies if reply[2] in ("accepted", "repeat")]
    due = replies[-1][1], stands[-1] if stands else None
    told = unwritten["start"], unwritten["last"]
    return "" if told == due else f"{told} is told behind {said[-1]!r}, where {due} is due"


def wrong_where_memory_ended(errors, ample, output):
    """What is wrong with these messages, or nothing, where memory ended the call: first lines of what there is to say with ample memory,
    then what is said of memory, and then warnings that there are then, too."""
    if found := wrong(errors):
        return found
    lines, whole = (
        [OF_ITS_CRUMBS.sub("", OF_THE_BOOK.sub("", line[len(FIRST) :], count=1), count=1) for line in text.decode().split("\n")[:-1] if not HELD.fullmatch(line)]
        for text in (errors, ample)
    )
    (lines, some), (whole, all_of_them) = without_crumbs(lines), without_crumbs(whole)
    if not are_first_crumbs(some, all_of_them):
        return f"messages {some[:3]} of what an account took, where these are due: {all_of_them[:3]}"
    of_warnings = [line for line in whole if WARNING.fullmatch(line)]
    of_refusals = [line for line in whole if not WARNING.fullmatch(line)]
    refused = sum(" refused " in line for line in output.decode().split("\n"))
    count = next((at for at, line in enumerate(lines) if at >= len(of_refusals) or line != of_refusals[at]), len(lines))
    rest = lines[count:]
    if rest and (MEMORY.fullmatch(rest[0]) and count == refused or count == MOST and rest[0] == f"... and {refused + 1 - MOST} more"):
        rest = rest[1:]
    is_told = count <= refused and rest == of_warnings[: len(rest)]
    return "" if is_told else f"messages {lines[-3:]} where memory ended behind {refused} refusals"


def are_first_crumbs(lines, whole):
    """Whether these messages of what an account took are some of the first of these, and perhaps a sum, which may be of fewer commands."""
    while lines and (SUM_OF_CRUMBS.fullmatch(lines[-1]) or MORE.fullmatch(lines[-1])):
        lines = lines[:-1]
    return lines == whole[: len(lines)]


def are_first_but_for_crumbs(errors, ample):
    """Whether these messages are the first of those with ample memory, but that some of what was found of crumbs may be left out."""
    lines, whole = (
        [OF_ITS_CRUMBS.sub("", line.removeprefix(FIRST.decode()), count=1) for line in text.decode().split("\n")[:-1]] for text in (errors, ample)
    )
    (lines, some), (whole, all_of_them) = without_crumbs(lines), without_crumbs(whole)
    left = iter(all_of_them)
    is_one = (line for line in some if not SUM_OF_CRUMBS.fullmatch(line) and not MORE.fullmatch(line))
    return lines == whole[: len(lines)] and all(line in left for line in is_one)


def are_first_but_for_facts(errors, ample):
    """Whether these messages are the first of those with ample memory, but for what the book says, which is looked up before all that was
    made of it is dropped."""
    lines, whole = ([OF_THE_BOOK.sub("", line, count=1) for line in text.decode().split("\n")[:-1]] for text in (errors, ample))
    return lines == whole[: len(lines)]


def missing(noted, said):
    """What is wrong with the messages, without warnings, beside this output, or nothing."""
    last = said[-1] if said else ""
    if faulty := FAULTY.fullmatch(last):
        kind, number, code = faulty.groups()
        place = f"line {number}: " if kind == "line" else rf"row {number} \(.*\): "
        others = noted[1:-1] if noted and MORE.fullmatch(noted[-1]) and len(noted) == MOST + 1 else noted[1:]
        is_told = noted and re.fullmatch(f"{place}{code}: .+", noted[0]) and len(others) < MOST
        is_told = is_told and all((OF_LINES if kind == "line" else OF_ROWS).fullmatch(line) for line in others)
        return "" if is_told else f"not of {last!r} first: {noted[:2]}"
    due = [A_PLACE.format(it[1]) + f"{it[2]}: .+" for it in map(REFUSED.fullmatch, said) if it]
    if (fault := FAULT.fullmatch(last)) and not fault[1].startswith(("S1 ", "S3 ")):
        due.append(f"{fault[1]}: .+")
    if len(due) > MOST:
        due[MOST:] = [rf"\.\.\. and {len(due) - MOST} more"]
    if last in ("fault S1 NotABook", "fault S3 OlderEdition", "fault open"):  # what helps
        due += [".+"] * min(1, len(noted) - len(due))
    if last == "fault S7 Damaged" and len(noted) > len(due):
        due.append(OF_DAMAGE)
    if last.endswith("fault Memory") and len(due) == len(noted) - 1 and MEMORY.fullmatch(noted[-1]):
        due.append(MEMORY.pattern)
    is_told = len(due) == len(noted) and all(map(re.fullmatch, due, noted))
    return "" if is_told else f"messages {noted[:3]} where these are due: {due[:3]}"
