# What the scripts of tests/ share that keep books in files. It brings cases.sh with it.
source "$(dirname "$(readlink -f "${BASH_SOURCE[0]}")")/cases.sh"

# The accounts of an import, in the words for it, and the first line of a broker file.
accounts=(--invest Assets:Broker --cash Assets:Cash --fees Expenses:Fees --gains Income:Gains)
header=ref,date,action,symbol,units,price,currency,fee

# What standard error says, behind the name of the book, of a call of all or none that keeps nothing.
nothing_kept="nothing is kept, since not all was accepted: entries and lots are named above as the call would have made them"

# openings: the text that opens those accounts.
openings() { printf '2019-01-01 open %s\n' Assets:Broker Assets:Cash Expenses:Fees Income:Gains; }

# two_lots: four accounts, and two lots of one day and cost, of which the one that comes behind by its key is opened first.
two_lots() {
    printf '2020-01-01 open %s\n' 'Assets:Broker "FIFO"' Assets:Cash Income:Gains Equity:Start
    printf '2020-01-02 *\n  Assets:Broker 5 HOOL {100 USD, "%s"}\n  Equity:Start\n' b a
}

# commodities COUNT: accounts; then so many commodities, each bought, sold and moved as plain units: gains by commodity and activity have as many
# rows, which no pipe takes whole from 2,000 on.
commodities() {
    awk -v count="$1" 'BEGIN {
        print "2020-01-01 open Assets:Broker \"FIFO\"\n2020-01-01 open Assets:Cash\n2020-01-01 open Equity:Coins"
        split("  Assets:Broker 1 C%04d {100 USD}\n|  Assets:Broker -1 C%04d {} @ 130 USD\n|  Assets:Cash 1 C%04d\n  Equity:Coins -1 C%04d\n", forms, "|")
        for (of = 1; of <= 3; of++) for (n = 0; n < count; n++) {
            if (n % 30 == 0) print (of < 3 && n ? "  Assets:Cash\n" : "") "2020-02-01 *"
            printf forms[of], n, n
            if (of < 3 && n == count - 1) print "  Assets:Cash"
        }
    }'
}

# new_book FILE: makes a book there, in the place of what was there, as a step of a case.
new_book() {
    rm -f "$1" "$1"-{wal,shm,journal}
    "$program" init --book "$1" </dev/null >/dev/null 2>&1 || fail "a book for a case" "$1"
}

# book_of FILE BATCH: makes a book there, to which this call's standard input is posted; what becomes of that lies in the file `posted`.
book_of() {
    new_book "$1"
    "$program" post --book "$1" --batch "$2" >"$scratch/posted" 2>/dev/null
}

# tables WORDS..: SQLite's own library looks into a book, or changes it: the words are those of tests/book/tables.py.
tables() { python3 -B "$root/tests/book/tables.py" "$@"; }

# shows NAME TEXT WORDS..: `tables` prints the lines of TEXT.
shows() {
    local found
    found=$(tables "${@:3}" 2>&1)
    if [[ $found == "$2" ]]; then pass "$1"; else fail "$1" "$(diff <(echo "$2") <(echo "$found") | head -n 4 | cut -c 1-200 | tr '\n' '|')"; fi
}

# kept FILE: the bytes of a file and of the log beside it, or that they aren't there. A log shorter than a page holds no commit.
kept() {
    if [[ -f $1 ]]; then sha256sum <"$1"; else echo none; fi
    if [[ -f $1-wal ]] && (($(stat -c %s "$1-wal") >= 4096)); then sha256sum <"$1-wal"; else echo none; fi
}

# same NAME FILE BEFORE: the file is what `kept` found before.
same() { if [[ $(kept "$2") == "$3" ]]; then pass "$1"; else fail "$1" "the file changed"; fi; }

# state FOLDER: the files there, with their numbers, lengths, modes, times and bytes. Reading changes none of these.
state() {
    find "$1" -printf '%P %i %s %m %T@ %C@\n' | sort
    find "$1" -type f -readable -exec sha256sum {} + | sort
}

# no_file NAME FILE: there is no such file, nor any whose name begins so.
no_file() {
    local found
    found=$(compgen -G "$2*")
    if [[ $found ]]; then fail "$1" "there is ${found%%$'\n'*}"; else pass "$1"; fi
}

# until_open FILE: waits until a program has that file locked, as one has that opened it as a book.
until_open() { wait_until is_locked "$1"; }
is_locked() { grep -q ":$(stat -c %i "$1") " /proc/locks; }

# slow_call FILE WORDS..: begins a call on a book, which has the book open once this returns. It reads what is written to the descriptor
# 8, until that is closed; what it says lies in the file `posted`. The number of its process is in `begun`.
slow_call() {
    if [[ ! -p $scratch/slow ]]; then mkfifo "$scratch/slow"; fi
    "$program" "${@:2}" --book "$1" <"$scratch/slow" >"$scratch/posted" 2>&1 &
    begun=$!
    exec 8>"$scratch/slow"
    until_open "$1"
}

# without_rights: leaves in `unprivileged` a program that runs the built one as a user who may do less. Root may do all, so root runs it
# as nobody, who may enter `scratch` from now on.
without_rights() {
    unprivileged=$scratch/unprivileged
    chmod 755 "$scratch" && cp "$program" "$scratch/lotbook"
    cat >"$unprivileged" <<'END_OF_PROGRAM'
#!/usr/bin/env python3
import os, sys
if os.getuid() == 0:
    os.setgroups([])
    os.setgid(65534)
    os.setuid(65534)
os.execv(os.path.join(os.path.dirname(sys.argv[0]), "lotbook"), ["lotbook", *sys.argv[1:]])
END_OF_PROGRAM
    chmod +x "$unprivileged"
}
