#!/usr/bin/env bash
# Books of edition 1 that `migrate` takes over: three that the last program of edition 1 wrote, what is printed of them before and after,
# sales behind the migration, all that is refused, output that can't be written, and calls that are stopped at any moment. SQLite's own
# library looks into the files (tests/migrate/).
#
# Of each of the three, in a folder of tests/migrate/: book.gz is its file, posts/ the texts that it was made of, holdings, values, gains
# and journal what that program printed; openings the opening numbers of its lots; later.ledger is posted behind the migration, with the
# later.* that is then printed; again.* is printed where the journal is posted to a new book, if that isn't as before.
source "$(dirname "$(readlink -f "${BASH_SOURCE[0]}")")/lib/books.sh"
in_memory
need_program

stored=$root/tests/migrate
book=$scratch/family.book new=$scratch/new.book

# replies WORD COUNT: so many lines, numbered from 1.
replies() { if (($2)); then seq -f "%g $1" "$2"; fi; }

# reports NAME FOLDER: the reports are those that the program of edition 1 printed.
reports() {
    run holdings --book "$book" </dev/null
    expect "$1: holdings" 0 "$2/holdings"
    run holdings --book "$book" --day 2024-12-31 </dev/null
    expect "$1: values at a day" 0 "$2/values"
    run gains --book "$book" </dev/null
    expect "$1: gains" 0 "$2/gains"
    run journal --book "$book" </dev/null
    expect "$1: journal" 0 "$2/journal"
}

# sent NAME FOLDER WORD: each text that the book was made of is sent again under its batch, and every reply is WORD.
sent() {
    local text batch count
    for text in "$2"/posts/*; do
        batch=${text##*/} batch=${batch%.*}
        if [[ $text == *.csv ]]; then
            count=$(($(wc -l <"$text") - 1))
            run import --book "$book" --batch "$batch" "${accounts[@]}" <"$text"
        else
            count=$(grep -c '^[0-9]' "$text")
            run post --book "$book" --batch "$batch" <"$text"
        fi
        replies "$3" "$count" >"$scratch/expected"
        expect "$1: ${text##*/} again" 0 "$scratch/expected"
    done
}

# elsewhere NAME FOLDER: the journal is posted to a new book, where all is judged by edition 2.
elsewhere() {
    local count wanted=0 told=$scratch/expected held=$2/holdings
    count=$(grep -c '^; entry ' "$2/journal")
    replies accepted "$count" >"$told"
    if [[ -f $2/again.replies ]]; then told=$2/again.replies held=$2/again.holdings wanted=1; fi
    new_book "$scratch/again.book"
    run post --book "$scratch/again.book" --batch again <"$2/journal"
    expect "$1: its journal on a new book" "$wanted" "$told"
    run holdings --book "$scratch/again.book" </dev/null
    expect "$1: the holdings of that" 0 "$held"
}

# ---- books of the last program of edition 1

new_book "$new"
for packed in "$stored"/*/book.gz; do
    folder=${packed%/*} name=${folder##*/}
    rm -f "$book"*
    if ! gzip -dc "$packed" >"$book"; then fail "$name" "it can't be unpacked" && continue; fi
    cp "$book" "$scratch/first.book"
    before=$(kept "$book")
    for words in holdings "holdings --day 2024-12-31" gains journal "post --batch b" "import --batch b ${accounts[*]}"; do
        read -ra each <<<"$words"
        if [[ $words == import* ]]; then echo "$header"; fi |
            run "${each[0]}" --book "$book" "${each[@]:1}"
        older "$name: ${words%% --inv*}"
    done
    prints "$name: init" 4 "fault S1 NotABook" init --book "$book" </dev/null
    same "$name: it is as it was" "$book" "$before"

    prints "$name: migrate" 0 "book migrated" migrate --book "$book" </dev/null
    run_python tests/migrate/compare.py "$name" "$scratch/first.book" "$book" "$new"
    shows "$name: the opening numbers" "$(<"$folder/openings")" openings "$book"
    reports "$name" "$folder"
    before=$(kept "$book")
    prints "$name: migrate again" 0 "book migrated" migrate --book "$book" </dev/null
    same "$name: nothing changes" "$book" "$before"
    sent "$name" "$folder" repeat
    reports "$name, sent again" "$folder"
    elsewhere "$name" "$folder"

    run post --book "$book" --batch later <"$folder/later.ledger"
    wanted=0
    if grep -q refused "$folder/later.replies"; then wanted=1; fi
    expect "$name: sales behind the migration" "$wanted" "$folder/later.replies"
    run gains --book "$book" </dev/null
    expect "$name: the gains then" 0 "$folder/later.gains"
    run holdings --book "$book" </dev/null
    expect "$name: the holdings then" 0 "$folder/later.holdings"
    shows "$name: the opening numbers then" "$(tables numbered "$book")" openings "$book"
    shows "$name: the place of migration then" "$(grep -c '^; entry ' "$folder/journal")" rows "$book" "SELECT entries FROM migration"
    before=$(kept "$book")
    prints "$name: migrate behind them" 0 "book migrated" migrate --book "$book" </dev/null
    same "$name: nothing changes behind them" "$book" "$before"
done

# ---- a sale that edition 1 made of the lot by key, and one that edition 2 makes of the lot that was opened first

{ two_lots && printf '2020-01-03 *\n  Assets:Broker -1 HOOL {}\n  Assets:Cash\n'; } >"$scratch/batch-a"
for method in FIFO LIFO HIFO; do
    rm -f "$book"*
    tables older "$book"
    tables rows "$book" "UPDATE account SET method = '$method' WHERE name = 'Assets:Broker'"
    tables rows "$book" "UPDATE entry SET body = replace(body, 'FIFO', '$method') WHERE number = 1"
    prints "$method: migrate" 0 "book migrated" migrate --book "$book" </dev/null
    numbers=$'Assets:Broker HOOL {100 USD, 2020-01-02, "a"} 321\nAssets:Broker HOOL {100 USD, 2020-01-02, "b"} 257'
    shows "$method: the opening numbers" "$numbers" openings "$book"
    shows "$method: the place of migration" 7 rows "$book" "SELECT entries FROM migration"
    prints "$method: a sale" 0 "1 accepted" post --book "$book" --batch b <<'TEXT'
2020-01-04 *
  Assets:Broker -1 HOOL {}
  Assets:Cash
TEXT
    prints "$method: gains" 0 '2020-01-03 Assets:Broker -1 HOOL unpriced
  -1 HOOL {100 USD, 2020-01-02, "a"}
2020-01-04 Assets:Broker -1 HOOL unpriced
  -1 HOOL {100 USD, 2020-01-02, "b"}' gains --book "$book" </dev/null
    sed "s/FIFO/$method/" "$scratch/batch-a" | prints "$method: the batch again" 0 "$(replies repeat 7)" post --book "$book" --batch a
    sed "s/FIFO/$method/; s/-1 HOOL/-2 HOOL/" "$scratch/batch-a" | run post --book "$book" --batch a
    { replies repeat 6 && echo "7 refused L1 KeyReused"; } >"$scratch/expected"
    expect "$method: the batch again with another sale" 1 "$scratch/expected"
    new_book "$scratch/again.book"
    "$program" journal --book "$book" </dev/null >"$scratch/journal"
    prints "$method: the journal on a new book" 0 "$(replies accepted 8)" post --book "$scratch/again.book" --batch again <"$scratch/journal"
    prints "$method: there both sales take b" 0 'Assets:Broker 5 HOOL {100 USD, 2020-01-02, "a"}
Assets:Broker 3 HOOL {100 USD, 2020-01-02, "b"}
Assets:Cash 200.00 USD
Equity:Start -1000.00 USD
total cost 800.00 USD' holdings --book "$scratch/again.book" </dev/null
    shows "$method: there nothing was migrated" 0 rows "$scratch/again.book" "SELECT entries FROM migration"
done

# ---- files of every kind, and what is refused

run_python tests/migrate/files.py "$program" "$scratch"
new_book "$book"
before=$(kept "$book")
prints "a new book of edition 2" 0 "book migrated" migrate --book "$book" </dev/null
same "a new book of edition 2 is as it was" "$book" "$before"
tables edition "$book" 1 # the tables are there, so their names are taken
before=$(kept "$book")
prints "a book of edition 2 that says 1" 4 "fault S1 NotABook" migrate --book "$book" </dev/null
same "a book of edition 2 that says 1 is as it was" "$book" "$before"

# Another program that has the file open: a post reads its whole input before it looks at the edition.
first() { rm -f "$book"* && tables older "$book"; }
first
slow_call "$book" post --batch b
run migrate --book "$book" </dev/null
unopened "a book that is open in another program"
exec 8>&-
wait
if grep -qx "fault S3 OlderEdition" "$scratch/posted"; then
    pass "that program goes on"
else
    fail "that program goes on" "$(head -n 2 "$scratch/posted" | tr '\n' '|')"
fi
prints "and then it is migrated" 0 "book migrated" migrate --book "$book" </dev/null

# ---- words

unusable "--book" migrate
unusable "--book" migrate --book
unusable "--batch" migrate --book f --batch a
unusable "--book" migrate --book f --book g

# ---- its input isn't read, and output that can't be written

first
mkfifo "$scratch/nothing" && exec 7<>"$scratch/nothing" # an input of which no byte ever comes
prints "its input isn't waited for" 0 "book migrated" migrate --book "$book" <&7

# migrated NAME: the call before ended with status 4 and no message, and the book is migrated.
migrated() {
    stops "$1" "the book is migrated"
    shows "$1: it is of edition 2" 2 rows "$book" "SELECT edition FROM book"
    shows "$1: the opening numbers" "$numbers" openings "$book"
    prints "$1: migrate again" 0 "book migrated" migrate --book "$book" </dev/null
}
first
run_full migrate --book "$book" </dev/null
migrated "output to a full disk"
first
run_closed migrate --book "$book" </dev/null
migrated "standard output closed"
first
mkfifo "$scratch/pipe"
{ exec 9<"$scratch/pipe" && exec 9<&- && : >"$scratch/closed"; } &
{ while [[ ! -e $scratch/closed ]]; do sleep 0.01; done && "$program" migrate --book "$book"; } \
    </dev/null 2>"$scratch/err" >"$scratch/pipe" && status=0 || status=$?
wait
migrated "a pipe that is closed"

# ---- progress

first
watched "progress on a terminal" "$scratch/out" /dev/null $'^\r6 legs, [0-9]+ a second +\r$' migrate --book "$book"
: >"$scratch/err" && echo "book migrated" >"$scratch/expected"
expect "the line on standard output beside it" 0 "$scratch/expected"
watched "no progress of a book of edition 2" "$scratch/out" /dev/null '^$' migrate --book "$book"
first
watched "progress where standard output is that terminal" - /dev/null \
    $'^\r6 legs, [0-9]+ a second +\r\nbook migrated\r$' migrate --book "$book"
rm -f "$book"*
python3 -B "$stored/large.py" "$book" 6000 # some 14,000 legs, of which 5,000 are read at a time
watched "progress of a large book" "$scratch/out" /dev/null \
    $'^\r5000 legs, [0-9]+ a second +(\r1[0-9]{4} legs, [0-9]+ a second +)*\r$' migrate --book "$book"
rm -f "$book"*
python3 -B "$stored/large.py" "$book" 6000
tables rows "$book" "UPDATE leg SET posting = 65 WHERE entry = 6000 AND posting = 1"
watched "progress up to a damaged leg" - /dev/null \
    $'^\r5000 legs, [0-9]+ a second +(\r10000 legs, [0-9]+ a second +)?\r\nfault S7 Damaged\r\nlotbook: S7 Damaged: [^\r\n]+\r$' migrate --book "$book"
if ((status == 4)); then pass "its status"; else fail "its status" "status $status instead of 4"; fi

# ---- stops, and a disk without room

run_python tests/migrate/stops.py "$program" "$scratch" --entries 2403 --kills 25 --step 3
finish
