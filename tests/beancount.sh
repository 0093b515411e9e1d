#!/usr/bin/env bash
# The journals of books, read by Beancount 2: it finds no error in them, and holds the same lots and the same plain units
# (tests/lib/by_beancount.py says what is compared). This is compared only where the machine has Beancount; elsewhere the script says
# that it is skipped, and its last line is `0 passed, 0 failed`. Each text of tests/cases/ and of examples/ that has no fault, the texts
# of each session of tests/reports/, a book of 1,000 trades, and years with crumbs, which an account takes (tests/rounding/made.py), are
# posted, and the journal is read as it stands, without a tolerance. Left out are books with HIFO, which Beancount 2 doesn't know; tests/beancount.differs names the journals that it judges otherwise, with the reason.
# Of the sessions, the trades and the years what was held at the end of a day in the middle is asked of `bean-query`, too, where the machine has it.
source "$(dirname "$(readlink -f "${BASH_SOURCE[0]}")")/lib/books.sh"
in_memory

# The Python that has Beancount, first on the path.
mkdir "$scratch/bin"
for python in python3 /usr/bin/python3; do
    if "$python" -c 'import beancount.loader' 2>/dev/null; then
        ln -sf "$(command -v "$python")" "$scratch/bin/python3"
        PATH=$scratch/bin:$PATH
        break
    fi
done
if [[ ! -e $scratch/bin/python3 ]]; then
    echo "skipped: there is no Beancount on this machine (no Python that has the module 'beancount')"
    finish
fi
need_program

journals=$scratch/journals book=$scratch/family.book

# is_faulty FILE: the first line of a program's output is the fault of a text.
is_faulty() {
    local line=""
    if [[ -f $1 ]]; then IFS= read -r line <"$1"; fi
    [[ $line == fault* ]]
}
# keep NAME OPTIONS..: posts this call's standard input to a copy of a new book, and keeps its journal and its holdings, unless the text
# is faulty or an account of it has the method HIFO.
new_book "$scratch/new"
keep() {
    local journal
    rm -f "$book"*
    cp "$scratch/new" "$book"
    "$program" post --book "$book" --batch a "${@:2}" >"$scratch/out" 2>"$scratch/err"
    if is_faulty "$scratch/out"; then return; fi
    "$program" journal --book "$book" </dev/null >"$scratch/journal" || fail "$1" "it has no journal"
    IFS= read -rd '' journal <"$scratch/journal"
    if [[ $journal == *$'"HIFO"\n'* ]]; then return; fi
    mkdir -p "$journals/${1%/*}"
    mv "$scratch/journal" "$journals/$1.journal"
    "$program" holdings --book "$book" </dev/null >"$journals/$1.holdings" || fail "$1" "it has no holdings"
    if [[ $1 != tests/cases/* && $1 != examples/* ]]; then past "$journals/$1"; fi
}
# past NAME: keeps what the book held at the end of the day in the middle of those of its transactions, where it has some and was in range then.
past() {
    local days
    mapfile -t days < <(grep -oE '^[0-9]{4}-[0-9]{2}-[0-9]{2} [*!]' "$1.journal" | cut -c 1-10 | sort -u)
    if ((${#days[@]} == 0)); then return; fi
    echo "${days[(${#days[@]} - 1) / 2]}" >"$1.day"
    "$program" holdings --book "$book" --as-of "$(<"$1.day")" --format csv </dev/null >"$1.past" 2>/dev/null || rm "$1.past"
}
while IFS= read -r ledger; do
    name=${ledger#"$root/"} name=${name%.ledger}
    if ! is_faulty "${ledger%.ledger}.expected"; then keep "$name" <"$ledger"; fi
done < <(find "$root/tests/cases" "$examples" -name '*.ledger' | sort)
for session in "$root"/tests/reports/*.session; do
    name=${session#"$root/"}
    sed -n 's/^> //p' "$session" | keep "${name%.session}"
done

# trades: purchases and sales of three commodities by FIFO, LIFO and STRICT, on successive days, some with a label, some for a whole
# cost; a sale of more than is held is refused, and so isn't in the journal.
trades() {
    awk 'function draw(below) { seed = (seed * 1103515245 + 12345) % 2147483648; return int(seed / 65536) % below }
    BEGIN {
        seed = 1
        split("Fifo Lifo Strict", names)
        for (i = 1; i <= 3; i++) printf "2000-01-01 open Assets:%s \"%s\"\n", names[i], toupper(names[i])
        print "2000-01-01 open Assets:Cash\n2000-01-01 open Income:Gains"
        for (n = 0; n < 1000; n++) {
            account = names[1 + draw(3)]; commodity = "C" draw(3)
            printf "%d-%02d-%02d * \"Trade %d\"\n", 2001 + int(n / 336), 1 + int(n / 28) % 12, 1 + n % 28, n
            if (draw(5) < 3 && account != "Strict" || draw(2)) {
                units = 1 + draw(40)
                if (draw(4)) printf "  Assets:%s %d.%d %s {%d.%02d USD%s}\n", account, units, draw(10), commodity, 50 + draw(100), draw(100), draw(3) ? "" : ", \"lot " n "\""
                else printf "  Assets:%s %d %s {{%d USD}}\n", account, units, commodity, units * (50 + draw(100))
                print "  Assets:Cash"
            } else if (account == "Strict") {
                printf "  Assets:%s -%d %s {} @ %d USD\n  Assets:Cash %d USD\n  Income:Gains\n", account, units, commodity, 100, units * 100
            } else {
                units = 1 + draw(60)
                printf "  Assets:%s -%d.5 %s {} @ %d USD\n  Assets:Cash %d USD\n  Income:Gains\n", account, units, commodity, 100, units * 100 + 50
            }
        }
    }'
}
trades | keep trades

if takes_crumbs; then years=({59..68}); else years=(); fi
for seed in "${years[@]}"; do
    mkdir -p "$scratch/made"
    python3 -B "$root/tests/rounding/made.py" "$scratch/made" "$seed" || fail "years with crumbs" "they can't be made"
    for name in south moved; do
        cat "$scratch/made/accounts.ledger" "$scratch/made/$name.ledger" | keep "crumbs/$name-$seed" --rounding Equity:Rounding --decimals $((seed % 2 ? 8 : 2))
        if [[ $(grep -c accepted "$scratch/out") != $(wc -l <"$scratch/out") ]]; then fail "$name-$seed" "$(grep -m 1 -v accepted "$scratch/out")"; fi
    done
done
run_python tests/lib/by_beancount.py "$journals" "$root/tests/beancount.differs"

# What was held at the end of a past day.
if command -v bean-query >/dev/null; then
    run_python tests/lib/by_bean_query.py "$journals" "$root/tests/beancount.differs" "$scratch"
else
    echo "skipped: there is no command 'bean-query' on this machine to ask for a past day"
fi

# The command itself, on one of them.
if command -v bean-check >/dev/null; then
    if bean-check "$journals/trades.journal" >"$scratch/out" 2>&1 && [[ ! -s $scratch/out ]]; then
        pass "bean-check on the journal of the trades"
    else
        fail "bean-check on the journal of the trades" "$(head -n 3 "$scratch/out" | tr '\n' '|')"
    fi
fi
finish
