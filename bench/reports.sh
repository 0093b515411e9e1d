#!/usr/bin/env bash
# What a row of each report costs, and how that grows with the entries of the book: time by the clock, and the most memory, both
# without those of a call that opens the book and does nothing else. Then each report as a whole call, in parts of `holdings` and of `gains`, by
# instructions. Of interest are the ratios, not the times of this machine.
source "$(dirname "$(readlink -f "${BASH_SOURCE[0]}")")/lib/runs.sh"
in_memory # a report only reads

# lots COUNT: so many lots of one commodity in each of two accounts, and a sale of all of one of them. A transaction opens thirty of each.
lots() {
    awk -v count="$1" 'BEGIN {
        print "2020-01-01 open Assets:Broker \"FIFO\"\n2020-01-01 open Assets:Cash\n2020-01-01 open Assets:Kept\n2020-01-01 open Income:Gains"
        for (n = 0; n < count; n++) {
            if (n % 30 == 0) print (n ? "  Assets:Cash\n" : "") "2020-01-02 *"
            printf "  Assets:Broker 1 HOOL {%d.5 USD}\n  Assets:Kept 1 HOOL {%d.5 USD}\n", n, n
        }
        print "  Assets:Cash"
        printf "2020-01-03 *\n  Assets:Broker -%d HOOL {} @ 100 USD\n  Assets:Cash %d USD\n  Income:Gains\n", count, count * 100
    }'
}

# clock RUNS BOOK WORDS..: the microseconds of a call on the book, as the mean of so many one after another, the least of five
# such. What it prints is kept.
clock() {
    local turn
    for turn in 1 2 3 4 5; do
        micros /dev/null "$1" "${@:3}" --book "$2" || echo "it failed: ${*:3}" >&2
    done | lowest
}

# rows_of REPORT: the rows that the last call printed: lots, legs of sales, or entries; of CSV plain positions, too.
rows_of() {
    case $1 in
        *csv) tail -n +2 "$scratch/out" | wc -l ;;
        holdings*) grep -c ' {' "$scratch/out" ;;
        gains) grep -c '^  ' "$scratch/out" ;;
        journal) grep -c '^; entry ' "$scratch/out" ;;
        page) grep -c '<i>; entry ' "$scratch/out" ;;
    esac
}

# table BOOK..: a line for each report and each of the books, which are named by their size.
table() {
    local report book words runs opened taken room rows first each
    printf '%-26s %9s %9s %9s %9s %9s %9s\n' report "$size" rows 'rows/ms' 'us/row' ratio KiB
    for report in holdings "holdings --day 2020-12-31" "holdings --format csv" gains "gains --format csv" journal page; do
        read -ra words <<<"$report"
        first=""
        for book in "$@"; do
            # A small book is read so often that its rows take some time.
            runs=$((most_rows / $(basename "$book" .book)))
            opened=$(clock "$runs" "$book" post --batch none)
            taken=$(clock "$runs" "$book" "${words[@]}")
            rows=$(rows_of "$report")
            room=$(($(peak /dev/null "${words[@]}" --book "$book") - $(peak /dev/null post --batch none --book "$book")))
            each=$(awk -v taken="$taken" -v opened="$opened" -v rows="$rows" 'BEGIN { print (taken > opened ? taken - opened : 1) / rows }')
            first=${first:-$each}
            awk -v report="$report" -v size="$(basename "$book" .book)" -v rows="$rows" -v each="$each" -v first="$first" -v kib="$room" \
                'BEGIN { printf "%-26s %9s %9d %9.0f %9.2f %9.2f %9d\n", report, size, rows, 1000 / each, each, each / first, kib }'
        done
    done
}

# beside BOOK: a line for each report of the book: what the whole call takes, its opening with it, and in parts of `holdings` and of `gains`. By
# instructions, or without valgrind by microseconds.
beside() {
    local report words taken of_holdings="" of_gains=""
    printf 'commodity,units\nUSD,0\n' >"$scratch/statement.csv"
    printf '%-38s %15s %9s %9s\n' report taken holdings gains
    for report in holdings gains "holdings --as-of 2020-01-02" "holdings --as-of 2020-01-02 --format csv" "gains --by year" "gains --by commodity" \
        "register --account Assets:Broker" "register --account Assets:" "register --account Assets: --format csv" "activity --by year" \
        "activity --by month --format csv" "reconcile --account Assets:"; do
        read -ra words <<<"$report"
        taken=$(count "$scratch/statement.csv" "${words[@]}" --book "$1")
        if [[ $taken == - ]]; then taken=$(micros "$scratch/statement.csv" 5 "${words[@]}" --book "$1"); fi
        case $report in
            holdings) of_holdings=$taken ;;
            gains) of_gains=$taken ;;
        esac
        printf '%-38s %15s %9s %9s\n' "$report" "$taken" "$(ratio "$taken" "$of_holdings")" "$(ratio "$taken" "$of_gains")"
    done
}

echo "books of so many entries: rows of the report in a millisecond, microseconds for a row and their ratio, and memory"
size=entries most_rows=100000
for entries in 1000 10000 100000; do
    thirds "$((entries - 3 - entries / 31))" prices | made "$scratch/$entries.book"
done
table "$scratch"/{1000,10000,100000}.book

echo
echo "the book of 100,000 entries: each report as a whole, beside holdings and gains"
beside "$scratch/100000.book"

echo
echo "an account with so many lots of one commodity, and a sale of as many legs"
size=lots most_rows=10000
for count in 100 1000 10000; do
    lots "$count" | made "$scratch/$count.book"
done
table "$scratch"/{100,1000,10000}.book
