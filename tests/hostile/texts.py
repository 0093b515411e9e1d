"""Ledger texts that end early, that someone changed byte by byte, or that are as long as may be; beside the second reader and the judge.

    texts.py PROGRAM SCRATCH [--whole]

Each text is one of the first purchase, or one of the ledgers below, in which every form of a line stands. It is cut at each place, and
each of its bytes is replaced by each of the 256; without --whole by some of them, drawn from a fixed seed.
"""

import sweep

import compare
import forms
import tally

LONGEST_INPUT = 16_777_216
IN_THE_GATE = 1000  # changes of bytes, and a fifth of them cuts
TOO_LONG = 4  # of the longest inputs each fourth comes with a byte more, too, there

# Lines and directives.
LINES = r"""2020-01-01 open Assets:A
2020-01-01 open Assets:B USD
2020/1-1 open Assets:C USD,EUR , X'1
2020-01-01 open Assets:D "STRICT"
2020-01-01 open Assets:E USD "LIFO"
2020-01-01 open Assets:F USD,EUR "NONE"
* heading
; comment

 	
2020-01-02 close Assets:F;gone
2020-01-02 commodity USD
2020-01-02 price USD 1,000.50 EUR
2020-01-03*
2020-01-03 * "n"
2020-01-03 * "p" "é	\"\\"
2020-01-03 !
2020-01-03 ! "n"
2020-01-03 !"p""n"
2020-01-03 txn
2020-01-03 txn ""
2020-01-03 txn "p" "n"
	Assets:A +1.50 USD

  Assets:B"""

# Postings with each amount.
AMOUNTS = """2020-01-01 open Assets:A "FIFO"
2020-01-01 open Assets:B
2020-01-02 *
  Assets:A 9 X {1 C}
  Assets:A 4 X{{8 C}}
  Assets:B
2020-01-03 *
  Assets:A -1 X {} @ 2 C
  Assets:A -1 X {} @@ 2 C
  Assets:A -2 X {{2 C}}
  Assets:A -2 X {{2 C}} @ 3.5 C
  Assets:A -1 X {{1}}@@ 3 C
  Assets:A 5 D @ 2 C
  Assets:A 5 D @@ 0.00000001 C
  Assets:A -0 D
  Assets:B
"""


def many_currencies():
    """Openings with as many currencies as there may be."""
    names = [first + last for first in "ABCDEFGH" for last in "12345678"]
    for account, method in (("A", ""), ("B", ' "HIFO"')):
        yield f"2020-01-01 open Assets:{account} {','.join(names)}{method}\n"


def costs():
    """Sales by each form of a cost, from one lot that fits each of them; some in a ledger."""
    parts = {"N C": "1 C", "N": "1", "C": "C", "DATE": "2020-01-02", "TEXT": '"l"'}
    count = 15
    for at in range(0, len(forms.COSTS), count):
        text = '2020-01-01 open Assets:A "HIFO"\n2020-01-01 open Assets:B\n2020-01-02*\n Assets:A 99 X {1 C,"l"}\n Assets:B\n2020-01-03*\n'
        for cost in forms.COSTS[at : at + count]:
            within = cost.strip("{}")
            said = " ,".join(parts[part] for part in within.split(", ")) if within else ""
            text += f" Assets:A -1 X {cost.replace(within, said) if within else cost}\n"
        yield text + " Assets:B\n"


def ledgers():
    """Small ledgers, in which each form of a line stands."""
    return [text.encode() for text in ("\ufeff" + LINES.replace("\n", "\r\n", 1), AMOUNTS, *many_currencies(), *costs())]


# The sweeps.


def beside(program, cases):
    """A sweep over texts, whose answers are those of the second reader and the judge."""
    done = sweep.Sweep()
    for text in cases:
        answer, outcome = compare.answer_to(text)
        got = sweep.call(program, [], text)
        done.compare(text, outcome, answer, got, may_warn=True)
    return done


def cut_texts(words):
    program, places = words
    return beside(program, (text[:at] for text, at in places))


def changed_texts(words):
    program, places = words
    return beside(program, (text[:at] + bytes([byte]) + text[at + 1 :] for text, at, byte in places))


def not_utf_8(program, text):
    """Each byte in turn is one that UTF-8 never has: the fault of its line, whatever else there is."""
    done = sweep.Sweep()
    for at in range(len(text)):
        wanted = sweep.lines(f"fault line {1 + text[:at].count(10)} X1 NotUtf8"), 3
        done.compare(f"byte {at}", "NotUtf8", wanted, sweep.call(program, [], text[:at] + b"\xff" + text[at + 1 :]))
    return done


def two_cuts(program, text):
    """Two cuts, whose answers were written by hand."""
    done = sweep.Sweep()
    two = ["1 accepted", "2 accepted"]
    for end, wanted, status in (
        (b"{502.12 US", ["fault line 4 X2 Syntax"], 3),
        (b"10 HOOL", [*two, "3 refused L14 NotBalanced HOOL", "nothing held"], 1),
    ):
        cut = text[: text.index(end) + len(end)]
        done.compare(cut, "answered", (sweep.lines(*wanted), status), sweep.call(program, [], cut))
    return done


def full_inputs(program, text, whole):
    """As many bytes of one kind as an input may have, alone and in a posting, and one byte more."""
    done = sweep.Sweep()
    posting = text[: text.index(b"10 HOOL")]
    long_lines = [(kind, b"", kind, "fault line 1 X7 LineTooLong") for kind in (b"{", b'"', b"\\", b"1", b"A", b" ", "é".encode())]
    long_lines += [(kind, posting, kind, "fault line 4 X7 LineTooLong") for kind in (b"{", b'"', b"\\", b"1", b"A")]
    long_lines.append((b"\xff", b"", b"\xff", "fault line 1 X1 NotUtf8"))
    for at, (kind, before, filling, fault) in enumerate(long_lines):
        full = (before + filling * LONGEST_INPUT)[:LONGEST_INPUT]
        if kind == "é".encode():
            full = full[: len(full) // 2 * 2]
        done.compare(f"{len(full)} bytes {kind}", " ".join(fault.split()[3:]), (sweep.lines(fault), 3), sweep.call(program, [], full))
        if whole or at % TOO_LONG == 0:
            longer = sweep.call(program, [], full + kind[:1])
            done.compare(f"{len(full) + 1} bytes {kind}", "K2 TooLong", (sweep.lines("fault K2 TooLong"), 3), longer)
    return done


def main():
    words = sweep.words_of_a_sweep().parse_args()
    first = sweep.first_purchase()
    whole = ledgers()
    missing = set(forms.ALL) - {form for text in whole for form in forms.of(text)}
    tally.check("ledgers of every form", f"without {sorted(missing)[:5]}" if missing else "")
    not_utf_8(words.program, first).tell("each byte of the first purchase as one that isn't UTF-8", len(first))
    two_cuts(words.program, first).tell("the first purchase cut within a cost, and before it")
    full_inputs(words.program, first, words.whole).tell("inputs of 16,777,216 bytes, and of one more")
    cuts = [(text, at) for text in whole for at in range(len(text))]
    changes = [(text, at, byte) for text in [first, *whole] for at in range(len(text)) for byte in range(256) if text[at] != byte]
    if not words.whole:
        # A byte of 128 or above is mostly a fault of its line, whatever it is.
        changes = [(text, at, byte) for text, at, byte in changes if byte < 128 or at % 8 == 0]
        cuts, changes = sweep.sample(1, cuts, IN_THE_GATE // 5), sweep.sample(2, changes, IN_THE_GATE)
    with sweep.pool() as pool:
        cuts = [*((first, at) for at in range(len(first) + 1)), *cuts]
        sweep.swept(pool, cut_texts, (words.program,), cuts).tell("ledgers cut at a byte, as the second reader says")
        sweep.swept(pool, changed_texts, (words.program,), changes).tell("ledgers with one byte changed, as the reader and the judge say")


if __name__ == "__main__":
    main()
    tally.end()
