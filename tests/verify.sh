#!/usr/bin/env bash
# `verify` on books that stand: new ones, those of every kind of command, of the examples, of a broker's file, and those of edition 1
# before and behind their migration. And on books that somebody changed: a change in each table, of a value, of a row less and of one
# more, is the fault, with the place on standard error (tests/verify/). The files stay as they are.
source "$(dirname "$(readlink -f "${BASH_SOURCE[0]}")")/lib/books.sh"
in_memory
need_program

book=$scratch/family.book

# stands NAME: the book is verified, and its file is as it was.
stands() {
    local before
    before=$(kept "$book")
    prints "$1" 0 "book verified" verify --book "$book" </dev/null
    same "$1: as it was" "$book" "$before"
}

# ---- books that stand

new_book "$book"
stands "a new book"
for text in "$examples"/*.ledger "$root/tests/growths/every-kind.ledger"; do
    book_of "$book" a <"$text"
    if grep -q accepted "$scratch/posted"; then stands "${text##*/}"; fi
    "$program" post --book "$book" --batch b <"$text" >"$scratch/posted" 2>/dev/null
    if grep -q accepted "$scratch/posted"; then stands "${text##*/}, posted twice"; fi
done
seq -f '2020-01-01 open Assets:A%g' 2000 | book_of "$book" a
stands "2,000 accounts"

openings | book_of "$book" a
for rows in "$examples"/broker/*.csv; do
    "$program" import --book "$book" --batch deals "${accounts[@]}" <"$rows" >"$scratch/posted" 2>/dev/null
    stands "the rows of ${rows##*/}"
done

# ---- books of edition 1

for packed in "$root"/tests/migrate/*/book.gz; do
    folder=${packed%/*} name=${folder##*/}
    rm -f "$book"* && gzip -dc "$packed" >"$book"
    run verify --book "$book" </dev/null
    older "$name: before its migration"
    "$program" migrate --book "$book" </dev/null >/dev/null 2>&1
    stands "$name: behind its migration"
    "$program" post --book "$book" --batch later <"$folder/later.ledger" >"$scratch/posted" 2>/dev/null
    stands "$name: with later sales"
done

# ---- books that somebody changed

run_python tests/verify/damages.py "$program" "$scratch"

# ---- what is no book

prints "a missing file" 4 "fault S1 NotABook" verify --book "$scratch/none.book" </dev/null
no_file "no file is made" "$scratch/none.book"
tables foreign "$scratch/foreign.book" notes
prints "a database of another program" 4 "fault S1 NotABook" verify --book "$scratch/foreign.book" </dev/null
book_of "$book" a <"$examples/first-purchase.ledger"
tables edition "$book" 3
prints "a book of a newer edition" 4 "fault S2 NewerEdition" verify --book "$book" </dev/null

# ---- words and streams

book_of "$book" a <"$examples/first-purchase.ledger"
for words in "verify" "verify --book" "verify --book $book --day 2020-01-01" "verify --book $book --dry-run" "verify --book $book more"; do
    read -ra each <<<"$words"
    run "${each[@]}" </dev/null
    if ((status == 2)) && [[ ! -s $scratch/out && -s $scratch/err ]]; then pass "unusable: ${words/$book/f}"; else fail "unusable: ${words/$book/f}" "status $status"; fi
done
run_full verify --book "$book" </dev/null
stops "output to a full disk"
run_closed verify --book "$book" </dev/null
stops "standard output closed"
finish
