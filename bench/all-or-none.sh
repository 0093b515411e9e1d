#!/usr/bin/env bash
# What it costs to keep commands all or none, in one commit, beside a commit for each, on one disk in one run: time by the clock, and how
# many times as long single commits take; the processor time and the most memory of the one call, the latter also without the size of the
# book's file after it; and instructions a command. The commands are purchases and sales in turn on a new book. Wanted are 10,000 at least
# five times as fast, 100,000 in at most 25 s, at most 600,000 instructions a command, and 60 MiB for 100,000 beside the file's size.
# Measured on four processors and a virtual disk: 10,000 commands 5.2 times as fast, 1.03 s; 100,000 in 13.5 s, where single commits took 47;
# 589,000 instructions a command; 53 MiB for 100,000 beside the file's size.
#
#   bench/all-or-none.sh          all of it: 100,000 single commits take some minutes
#   bench/all-or-none.sh COUNT    of so many commands alone
source "$(dirname "$(readlink -f "${BASH_SOURCE[0]}")")/lib/runs.sh"

# trades COUNT: purchases of so many commands in turn with sales, of commodities that lie far apart; the first three open accounts.
trades() {
    awk -v count="$1" 'BEGIN {
        print "2000-01-01 open Assets:Broker \"FIFO\"\n2000-01-01 open Assets:Cash\n2000-01-01 open Income:Gains"
        for (n = 0; n < count - 3; n++) {
            commodity = int(n / 3) * 7919 % 5000
            if (n % 3 < 2)
                printf "2020-02-01 * \"Buy\"\n  Assets:Broker 2 C%d {%d.%02d USD}\n  Assets:Cash\n", commodity, 100 + n % 50, n % 100
            else
                printf "2020-02-01 * \"Sell\"\n  Assets:Broker -3 C%d {} @ 130 USD\n  Assets:Cash 390 USD\n  Income:Gains\n", commodity
        }
    }'
}

# fresh: a new book.
fresh() {
    rm -f "$scratch/b.book" "$scratch/b.book-wal"
    "$program" init --book "$scratch/b.book" </dev/null >/dev/null || exit 1
}

# taken TURNS COUNT WORDS..: the milliseconds of a post of the text to a new book, with these words, the least of so many.
taken() {
    local turn
    for ((turn = 0; turn < $1; turn++)); do
        fresh
        millis "$scratch/text" post --book "$scratch/b.book" --batch measured "${@:3}" || echo failed
        accepted "$2"
    done | lowest
}

# counted COUNT WORDS..: the instructions of one command of so many, without those of a call of none.
counted() {
    local none all
    fresh
    none=$(count /dev/null post --book "$scratch/b.book" --batch measured "${@:2}")
    all=$(count "$scratch/text" post --book "$scratch/b.book" --batch measured "${@:2}")
    accepted "$1"
    apart "$all" "$none" "$1"
}

if [[ $# == 0 || $1 == 10000 ]]; then
    trades 10000 >"$scratch/text"
    each=$(counted 10000) || exit 1
    whole=$(counted 10000 --all-or-none) || exit 1
    echo "instructions a command, of 10,000"
    printf '%-20s %14s %9s\n' "" instructions ratio
    printf '%-20s %14s %9s\n' "a commit each" "$each" 1.00
    printf '%-20s %14s %9s\n' "all or none" "$whole" "$(ratio "$whole" "$each")"
    echo
fi

printf '%9s %12s %12s %13s %12s %9s %9s %12s\n' "" "a commit each" "all or none" times processor memory book 'memory beside'
printf '%9s %12s %12s %14s %12s %9s %9s %12s\n' commands seconds seconds 'as long' seconds MiB MiB 'it, MiB'
for count in ${1:-10000 100000}; do
    trades "$count" >"$scratch/text"
    turns=$((count > 10000 ? 1 : 3))
    whole=$(taken "$turns" "$count" --all-or-none) || exit 1
    each=$(taken "$turns" "$count") || exit 1
    fresh
    read -r seconds most <<<"$(used "$scratch/text" "$program" post --book "$scratch/b.book" --batch measured --all-or-none)"
    size=$(($(stat -c %s "$scratch/b.book") / 1024))
    awk -v count="$count" -v each="$each" -v whole="$whole" -v times="$(ratio "$each" "$whole")" -v seconds="$seconds" \
        -v most="$(mib "$most")" -v size="$(mib "$size")" -v beside="$(mib $((most - size)))" \
        'BEGIN { printf "%9d %13.2f %12.2f %13s %12s %9s %9s %12s\n", count, each / 1000, whole / 1000, times, seconds, most, size, beside }'
done
