"""Hostile texts for `restore`: dumps of small books of which each line is left out, doubled, or changes places with the next one, that are cut
at each byte, of which each byte is changed, with CRLF, without the last line end, and with more behind the end.

    hostile.py PROGRAM SCRATCH [--whole]

None is a dump, so without `--edited` none makes a book or tables: the answer is a fault with status 3, that of the plain restorer. With
`--edited` the answer, the status and the tables are those of the plain restorer, too. Each byte gets some of the other 255, drawn from a
fixed seed, or with --whole each; of a long sweep each fifth text is edited. A case is a sweep, with its counts.
"""

import collections
import concurrent.futures
import os
import random
import sys

import ground
import plain
import rows

import tables
import tally

LEDGER = b"""\
2020-01-01 open Assets:Broker "FIFO"
2020-01-01 open Assets:Cash
2020-01-02 * "Buy; two" "\\"lots\\""
  Assets:Broker 2 HOOL {100 USD, "a; b"}
  Assets:Broker 1 HOOL {90 USD}
  Assets:Cash
2020-01-03 price HOOL 120 USD
2020-01-04 *
  Assets:Broker -1 HOOL {} @ 130 USD
  Assets:Cash
"""
OLDER = b"2020-01-05 *\n  Assets:Broker -1 HOOL {}\n  Assets:Cash\n"
IN_THE_GATE = 1  # values of each byte there, beside the one of which a bit is changed
LONG = 1_048_577  # bytes of a line, one more than may be


def texts(data, whole):
    """The name of each sweep, and its texts; those with a changed byte come last."""
    lines = data.split(b"\n")[:-1]
    joined = lambda them: b"".join(line + b"\n" for line in them)  # noqa: E731
    places = range(len(lines))
    yield "each line left out", [joined(lines[:at] + lines[at + 1 :]) for at in places]
    yield "each line doubled", [joined(lines[: at + 1] + lines[at:]) for at in places]
    swapped = [[*lines[:at], lines[at + 1], lines[at], *lines[at + 2 :]] for at in places[:-1]]
    yield "each line behind the next one", [joined(them) for them in swapped if them != lines]
    yield "cut at each byte", [data[:at] for at in range(len(data))]
    yield "with CRLF, in one line or in all", [joined([*lines[:at], lines[at] + b"\r", *lines[at + 1 :]]) for at in places] + [data.replace(b"\n", b"\r\n")]
    more = [b"\n", b"x", b"; a comment\n", lines[-1] + b"\n", data, b"\0", b"2020-01-06 open Assets:More\n", b" "]
    before = [b"\n", b"\xef\xbb\xbf", b"; a comment\n", b" ", lines[0] + b"\n"]
    yield "with more behind it, or before it", [data + it for it in more] + [it + data for it in before]
    between = [b"; a comment\n", b"* a heading\n", b"\n", b"  \n", b"2020-01-06 open Assets:More\n", b"; " + b"x" * LONG + b"\n", b"\xff\n"]
    yield "with a line put in", [joined(lines[:at]) + it + joined(lines[at:]) for at in places[1:] for it in between]
    rng = random.Random(1)
    values = {at: [it for it in range(256) if it != data[at]] for at in range(len(data))}
    bits = {at: data[at] ^ 1 << rng.randrange(8) for at in values}
    chosen = {at: values[at] if whole else {bits[at], *rng.sample(values[at], IN_THE_GATE)} for at in values}
    yield "with each byte changed", [data[:at] + bytes((it,)) + data[at + 1 :] for at in values for it in chosen[at]]


def fault_of(program, path, text, is_edited):
    """What is wrong with the answer to one text, or nothing; and what the answer is."""
    answer = plain.restored(text, is_edited=is_edited)
    got = ground.restore(program, tables.removed(path), text, *["--edited"] * is_edited)
    said = (got[0] or [""])[-1]
    if ground.notes.without(got[2]) or got[:2] != (answer.lines, answer.status):
        wanted = answer.lines[-3:], answer.status
        print(f"=== edited: {is_edited}\n{text[:3000]!r}\n--- wanted\n{wanted}\n--- got\n{got}", file=sys.stderr)
        return f"{got[0][-3:]}, status {got[1]}, {got[2][-100:]}", said
    if answer.book is not None:
        return ("" if ground.contents(path) == rows.Rows(answer.book).sorted() else "other rows than those of the plain book"), said
    if got[1] == 0 or not is_edited and got[1] != 3:
        return f"status {got[1]} of no dump", said
    return ("" if ground.is_empty(path) else "there are tables"), said


def kind_of(said):
    """What the last line of an answer says, without numbers and keys."""
    if " refused " in said:
        return "refused " + said.rpartition(" refused ")[2].split(" ")[0]
    return " ".join(word for word in said.split(" ") if not word.isdigit())


def of_part(program, path, cases):
    seen, faults = collections.Counter(), []
    for text, is_edited in cases:
        fault, said = fault_of(program, path, text, is_edited)
        seen[kind_of(said)] += 1
        if fault:
            faults.append(f"{fault}: {text[:200]!r}")
    tables.removed(path)
    return seen, faults


def dumps(program, scratch):
    """The dump of a book, and that of one with a migration, which has commands of both editions."""
    path = ground.made(program, os.path.join(scratch, "first.book"), LEDGER)
    yield "a dump", ground.dump(program, path)
    tables.older(tables.removed(path))
    ground.sure(program, ["migrate", "--book", path])
    ground.sure(program, ["post", "--book", path, "--batch", "later"], OLDER)
    yield "a migrated dump", ground.dump(program, path)


def main():
    words = tally.words("program", "scratch")
    words.add_argument("--whole", action="store_true")
    words = words.parse_args()
    count = os.cpu_count()
    with concurrent.futures.ProcessPoolExecutor(count) as pool:
        for name, data in dumps(words.program, words.scratch):
            for sweep, them in texts(data, words.whole):
                cases = [(text, False) for text in them]
                cases += [(text, True) for text in (them[::5] if len(them) > 500 else them)]
                # The second dump is for what its head says: of the long sweeps it has a part.
                cases = cases[:: 4 if name != "a dump" and len(cases) > 500 and not words.whole else 1]
                paths = [os.path.join(words.scratch, f"hostile-{at}.book") for at in range(count)]
                seen, faults = collections.Counter(), []
                for found, wrong in pool.map(of_part, [words.program] * count, paths, [cases[at::count] for at in range(count)]):
                    seen += found
                    faults += wrong
                said = ", ".join(f"{times} {what}" for what, times in sorted(seen.items()))
                tally.check(f"{name}, {sweep}: {len(cases)} texts, {said}", f"{len(faults)} differ, first {faults[0]}" if faults else "")


if __name__ == "__main__":
    main()
    tally.end()
