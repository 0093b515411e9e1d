#!/usr/bin/env bash
# `dump` and `verify --digest`: the dump of a book is its journal between two lines, of which the last holds the SHA-256 of all before it,
# as `sha256sum` works it out; the digest of a book is that of its dump, and changes where a letter of the book does.
source "$(dirname "$(readlink -f "${BASH_SOURCE[0]}")")/lib/books.sh"
in_memory
need_program

book=$scratch/family.book

# expected PLACE: what the dump of the book has to be, by its journal.
expected() {
    local entries digest
    "$program" journal --book "$book" </dev/null >"$scratch/journal" 2>/dev/null
    entries=$(grep -c '^; entry ' "$scratch/journal")
    { echo "; lotbook dump 1 edition 2 migrated $1 entries $entries" && cat "$scratch/journal"; } >"$scratch/above"
    digest=$(sha256sum <"$scratch/above") && digest=${digest%% *}
    { cat "$scratch/above" && echo "; end $entries sha256 $digest"; } >"$scratch/expected"
    printf 'book verified\n%s sha256 %s\n' "$entries" "$digest" >"$scratch/verified"
}

# dumps NAME PLACE: the dump of the book, and its digest, are what they have to be, and its file stays as it was.
dumps() {
    local before
    expected "$2"
    before=$(kept "$book")
    run dump --book "$book" </dev/null
    expect "$1: its dump" 0 "$scratch/expected"
    run verify --book "$book" --digest </dev/null
    expect "$1: its digest" 0 "$scratch/verified"
    same "$1: as it was" "$book" "$before"
}

# ---- books

new_book "$book"
dumps "a new book" 0
for text in "$examples"/*.ledger "$root/tests/growths/every-kind.ledger"; do
    book_of "$book" a <"$text"
    dumps "${text##*/}" 0
done
openings | book_of "$book" a
for rows in "$examples"/broker/*.csv; do
    "$program" import --book "$book" --batch deals "${accounts[@]}" <"$rows" >"$scratch/posted" 2>/dev/null
    dumps "the rows of ${rows##*/}" 0
done
seq -f '2020-01-01 open Assets:A%g' 5000 | book_of "$book" a
dumps "5,000 accounts" 0
for packed in "$root"/tests/migrate/*/book.gz; do
    folder=${packed%/*} name=${folder##*/}
    rm -f "$book"* && gzip -dc "$packed" >"$book"
    prints "$name: a dump before its migration" 4 "fault S3 OlderEdition" dump --book "$book" </dev/null
    prints "$name: a digest before its migration" 4 "fault S3 OlderEdition" verify --book "$book" --digest </dev/null
    "$program" migrate --book "$book" </dev/null >/dev/null 2>&1
    place=$("$program" journal --book "$book" </dev/null | grep -c '^; entry ')
    dumps "$name: behind its migration" "$place"
    "$program" post --book "$book" --batch later <"$folder/later.ledger" >"$scratch/posted" 2>/dev/null
    dumps "$name: with later sales" "$place"
done

# ---- a dump is ledger text, and says whether it was changed

book_of "$book" a <"$examples/year.ledger"
"$program" dump --book "$book" </dev/null >"$scratch/dump"
"$program" <"$examples/year.ledger" 2>/dev/null | grep -vE '^[0-9]+ (accepted|refused)' >"$scratch/held"
"$program" <"$scratch/dump" 2>/dev/null | grep -v '^[0-9]* accepted' >"$scratch/held-again"
if cmp -s "$scratch/held" "$scratch/held-again"; then pass "a dump is checked as ledger text"; else fail "a dump is checked as ledger text" "it holds other lots"; fi
first=$("$program" verify --book "$book" --digest </dev/null | tail -n 1)
tables rows "$book" "UPDATE entry SET body = replace(body, 'of the old year', 'of the odd year') WHERE body LIKE '%of the old year%'"
prints "a book with another narration is a book" 0 "book verified" verify --book "$book" </dev/null
second=$("$program" verify --book "$book" --digest </dev/null | tail -n 1)
if [[ ${first%% *} == "${second%% *}" && $first != "$second" ]]; then pass "a letter of a narration"; else fail "a letter of a narration" "$first and $second"; fi

# ---- books that are damaged, and what is no book

tables rows "$book" "DELETE FROM lot"
prints "no digest of a damaged book" 4 "fault S7 Damaged" verify --book "$book" --digest </dev/null
book_of "$book" a <"$examples/year.ledger"
expected 0
tables rows "$book" "UPDATE entry SET body = 'x' WHERE number = 3"
run dump --book "$book" </dev/null
if ((status == 4)) && [[ $(tail -n 1 "$scratch/out") == "fault S7 Damaged" ]] &&
    head -n -1 "$scratch/out" | cmp -s - <(head -c "$(head -n -1 "$scratch/out" | wc -c)" "$scratch/expected"); then
    pass "a damaged entry ends a dump behind those before it"
else
    fail "a damaged entry ends a dump behind those before it" "status $status, $(tail -n 1 "$scratch/out")"
fi
tables rows "$book" "DELETE FROM migration"
prints "a book without a place of migration" 4 "fault S7 Damaged" dump --book "$book" </dev/null
prints "a missing file" 4 "fault S1 NotABook" dump --book "$scratch/none.book" </dev/null
no_file "no file is made" "$scratch/none.book"

# ---- words and streams

book_of "$book" a <"$examples/year.ledger"
for words in "dump" "dump --book" "dump --book $book --day 2020-01-01" "dump --book $book --dry-run" "dump --book $book more" "verify --book $book --digest yes"; do
    read -ra each <<<"$words"
    run "${each[@]}" </dev/null
    if ((status == 2)) && [[ ! -s $scratch/out && -s $scratch/err ]]; then pass "unusable: ${words/$book/f}"; else fail "unusable: ${words/$book/f}" "status $status"; fi
done
for words in "dump --book $book" "verify --book $book --digest"; do
    read -ra each <<<"$words"
    run_full "${each[@]}" </dev/null
    stops "${words/$book/f}: output to a full disk"
    run_closed "${each[@]}" </dev/null
    stops "${words/$book/f}: standard output closed"
done
finish
