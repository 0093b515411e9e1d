#!/usr/bin/env bash
# The program with memory up to a limit and none beyond it. The limits go from the least one with which the program starts
# up to one with which it ends as usual, so memory runs out while the text is read, while commands are judged, and while the
# report is written. Whatever the limit is: the whole lines before the fault are lines of the full answer, in their order; the
# last line names the fault, and the command where one was being judged; the status is 4; standard error has at most one line, of memory.
source "$(dirname "$(readlink -f "${BASH_SOURCE[0]}")")/lib/cases.sh"
need_program

# 200 transactions of 63 lots, each lot in a currency of its own, so that the totals of the report take memory, too. The lots of
# a transaction are of 63 commodities, since one commodity has at most 10,000 lots in an account.
awk 'function code(n,   text, k) {
    for (k = 0; k < 4; k++) { text = sprintf("%c", 65 + n % 26) text; n = int(n / 26) }
    return "LONGEST.CURRENCY.OF." text
}
BEGIN {
    print "2020-01-01 open Assets:A"
    for (n = 0; n < 12600; n++) {
        if (n % 63 == 0) print "2020-01-02 *\n  Assets:A"
        print "  Assets:A 1 C" n % 63 " {1 " code(n) "}"
    }
}' >"$scratch/ledger"
replies=201
run <"$scratch/ledger"
cp "$scratch/out" "$scratch/full"
if ((status == 0)) && (($(wc -l <"$scratch/full") == replies + 3 * 12600)); then
    pass "without a limit"
else
    fail "without a limit" "status $status, $(wc -l <"$scratch/full") lines"
    finish
fi

# within LIMIT FILE: as `run`, with so many KiB of address space and FILE as input. What the shell says of a program that can't be
# loaded isn't shown.
within() {
    { (ulimit -v "$1" && exec "$program" <"$2") >"$scratch/out" 2>"$scratch/err" && status=0 || status=$?; } 2>/dev/null
}

# Whether standard error is one line that says that memory ended, of a command or of none.
is_of_memory() {
    [[ $(wc -l <"$scratch/err") == 1 ]] &&
        grep -qxE 'lotbook: (line [0-9]+, command [0-9]+: |number [0-9]+: )?(Memory )?Memory: memory ended(: .*)?' "$scratch/err"
}

# judged LIMIT: what `within` kept is the full answer, or a prefix of its lines and the line of the fault. Sets `where`.
judged() {
    local name="with $1 KiB" lines last whole
    lines=$(wc -l <"$scratch/out")
    last=$(tail -n 1 "$scratch/out")
    head -n $((lines - 1)) "$scratch/out" >"$scratch/before"
    whole=$(wc -c <"$scratch/before")
    where=nowhere
    if ((status == 0)); then
        where=complete
        cmp -s "$scratch/out" "$scratch/full" && [[ ! -s $scratch/err ]] && pass "$name: complete" ||
            fail "$name" "status 0 and other output, or a message: $(head -n 1 "$scratch/err")"
    elif ((status != 4)); then
        fail "$name" "status $status instead of 4"
    elif [[ -s $scratch/err ]] && ! is_of_memory; then
        fail "$name" "on standard error: $(head -n 1 "$scratch/err")"
    elif ! cmp -s -n "$whole" "$scratch/before" "$scratch/full"; then
        fail "$name" "the lines before the fault aren't those of the answer"
    elif [[ $(tail -c 1 "$scratch/out" | od -An -tx1) != " 0a" ]]; then
        fail "$name" "the last line has no end: $last"
    elif ((lines == 1)) && [[ $last == "fault Memory" ]]; then
        where=reading && pass "$name: while reading"
    elif ((lines <= replies)) && [[ $last == "$lines fault Memory" ]]; then
        where=judging && pass "$name: command $lines"
    elif ((lines > replies)) && [[ $last == "fault Memory" ]]; then
        where=report && pass "$name: row $((lines - replies))"
    else
        fail "$name" "$lines lines, the last of which is '$last'"
    fi
}

# The least limit, in steps of 20 KiB, with which the system's loader hands over to the program, which it says where it is asked to.
# Below it the kernel kills the program unloaded, or the loader ends with 127, or is killed itself where its last two pages lack. From
# there on each end is the program's own.
least=1000
until LD_DEBUG=files within "$least" /dev/null; grep -q 'transferring control' "$scratch/err" || ((least >= 1000000)); do
    least=$((least + 20))
done
if ((status == 0 || status == 4)); then pass "just enough to be loaded"; else fail "just enough to be loaded" "status $status"; fi

declare -A met=()
# What is loaded varies by some pages from run to run, so the limits begin a little higher.
for ((limit = least + 60; limit < least + 1000000; limit += 250)); do
    within "$limit" "$scratch/ledger"
    judged "$limit"
    met[$where]=yes
    if [[ $where == complete || $where == nowhere ]]; then break; fi
done
for where in reading judging report complete; do
    if [[ -n ${met[$where]:-} ]]; then pass "met: $where"; else fail "met: $where" "no limit led there"; fi
done

finish
