#!/usr/bin/env bash
# Pages of books: each beside the page that Python makes of the other reports, byte for byte; what a page says, its tags, links and
# policy; hostile names; words that can't be used, books that are damaged, output that can't be written, and a note of large books.
# Where the machine has them, `tidy` reads the pages, and in Chromium a walk by keys alone reaches links and folds.
source "$(dirname "$(readlink -f "${BASH_SOURCE[0]}")")/lib/books.sh"
in_memory
need_program

book=$scratch/family.book
page=$scratch/page.html

# paged NAME WORDS..: the page of the book is that of the model, and is sound.
paged() {
    run page --book "$book" "${@:2}" </dev/null
    mv "$scratch/out" "$page"
    if ((status != 0)); then fail "$1" "status $status" && return; fi
    if python3 -B "$root/tests/page/model.py" "$program" "$book" "${@:2}" >"$scratch/model.html" 2>"$scratch/err" &&
        cmp -s "$page" "$scratch/model.html"; then
        pass "$1: the bytes"
    else
        fail "$1: the bytes" "$(cat "$scratch/err")$(diff "$scratch/model.html" "$page" | head -n 4 | cut -c 1-200 | tr '\n' '|')"
    fi
    if python3 -B "$root/tests/page/check.py" "$program" "$book" "$page" "${@:2}" >"$scratch/said" 2>&1; then
        pass "$1: what it says"
    else
        fail "$1: what it says" "$(head -n 4 "$scratch/said" | cut -c 1-200 | tr '\n' '|')"
    fi
    tidied "$1"
}

# by_keys NAME: where the machine has Chromium, links and folds of the page are reached by keys alone, and nothing is fetched.
by_keys() {
    if ! command -v chromium >"$scratch/which"; then return; fi
    if timeout 300 python3 -B "$root/tests/page/keys.py" "$page" >"$scratch/said" 2>&1; then
        pass "$1: keys"
    else
        fail "$1: keys" "$(head -n 3 "$scratch/said" | tr '\n' '|')"
    fi
}

# tidied NAME: `tidy` has no complaint. It knows neither `data` nor what an `svg` in another one has.
tidied() {
    if ! command -v tidy >"$scratch/which"; then return; fi
    sed -E 's/<(\/?)data( value="[^"]*")?>/<\1b>/g; s/^<svg [xy]=[^>]*>/<svg>/' "$page" |
        tidy -q -e --show-info no >"$scratch/complaints" 2>&1
    if [[ -s $scratch/complaints ]]; then
        fail "$1: tidy" "$(head -n 3 "$scratch/complaints" | tr '\n' '|')"
    else
        pass "$1: tidy"
    fi
}

# ---- books

new_book "$book"
paged "an empty book"
paged "an empty book with a range" --first 2023-01-01 --last 2023-12-31

book_of "$book" year <"$examples/year.ledger"
paged "a year" --digest
by_keys "a year"
paged "a year up to a day" --last 2023-06-15
paged "a quarter" --first 2023-04-01 --last 2023-06-30 --day 2023-12-31
paged "days without entries" --first 2030-01-01
paged "a range that ends before it begins" --first 2023-12-31 --last 2023-01-01

book_of "$book" lots < <(two_lots)
paged "lots without a price"

# The name of the file, narrations, labels and keys that would be markup, and names that are written from right to left.
book=$scratch/'a<b>&"c'\''d.book'
book_of "$book" hostile <"$root/tests/page/hostile.ledger"
paged "hostile names"
by_keys "hostile names"
book=$scratch/family.book

# Two currencies, months that come again, gaps of prices, a sale without a price, a lot that is sold short, and many months.
book_of "$book" drawn < <(python3 -B "$root/tests/page/draw.py" 300)
paged "two currencies"
book_of "$book" long < <(printf '1960-01-05 open Assets:Broker "FIFO"\n1960-01-05 open Assets:Cash\n1960-01-06 *\n  Assets:Broker 3 HOOL {100 USD}\n  Assets:Cash\n2020-03-01 price HOOL 120 USD\n')
paged "more than 600 months" --first 2019-11-11

# One lot, whose value has sixteen decimals, is all there is.
book_of "$book" whole < <(printf '2024-01-01 open Assets:Broker\n2024-01-01 open Assets:Cash\n2024-01-02 *\n  Assets:Broker 0.12345678 BTC {43210 USD}\n  Assets:Cash\n2024-01-03 price BTC 43210.12345679 USD\n')
paged "a value of sixteen decimals"
if grep -qF '<data value="100.0">' "$page" || grep -qF '100.0%' "$page"; then pass "all of it is 100 percent"; else fail "all of it is 100 percent" "$(grep -o '[0-9.]*%</data>' "$page" | head -n 1)"; fi

# ---- words, files that are no book, damage, and output that can't be written

unusable "--first" page --book "$book" --first 2023-02-30
unusable "--last" page --book "$book" --last yesterday
unusable "--day" page --book "$book" --day 1
unusable "--format" page --book "$book" --format csv
run page --book "$scratch/missing.book" </dev/null
answers "a missing file" 4 "fault S1 NotABook"
run_full page --book "$book" </dev/null
if ((status == 4)); then pass "a full disk"; else fail "a full disk" "status $status"; fi

# A page that is cut is a prefix of the whole. Of a book of which a sale has lost its legs a part is printed, and the line of the fault.
book_of "$book" year <"$examples/year.ledger"
"$program" page --book "$book" </dev/null >"$page" 2>"$scratch/err"
run_cut 5000 page --book "$book" </dev/null
if cmp -s "$scratch/taken" <(head -c 5000 "$page"); then pass "a cut page"; else fail "a cut page" "it is no prefix"; fi
tables rows "$book" "DELETE FROM leg WHERE entry = (SELECT max(entry) FROM sale)" >"$scratch/said" 2>&1
run page --book "$book" </dev/null
head -n -1 "$scratch/out" >"$scratch/part"
if ((status == 4)) && [[ $(tail -n 1 "$scratch/out") == "fault S7 Damaged" ]] && cmp -s -n "$(stat -c %s "$scratch/part")" "$scratch/part" "$page"; then
    pass "a damaged book"
else
    fail "a damaged book" "status $status, $(tail -n 1 "$scratch/out" | cut -c 1-100)"
fi

# ---- a large book: more than 50,000 entries are said first on standard error

many() { seq -f '2020-01-01 commodity C%.0f' "$1" "$2" | "$program" post --book "$book" --batch "$1" --all-or-none >"$scratch/posted" 2>"$scratch/err"; }
new_book "$book"
many 1 50000
run page --book "$book" </dev/null
if ((status == 0)) && [[ ! -s $scratch/err ]]; then pass "50,000 entries"; else fail "50,000 entries" "status $status, $(head -c 200 "$scratch/err")"; fi
many 50001 50001
run page --book "$book" </dev/null
says "50,001 entries" "lotbook: the book has 50001 entries: the page will be large"
run page --book "$book" --quiet </dev/null
if ((status == 0)) && [[ ! -s $scratch/err ]]; then pass "50,001 entries quietly"; else fail "50,001 entries quietly" "status $status"; fi

finish
