#!/usr/bin/env bash
# What a rounding account costs: instructions of a post of 1,000 commands with the option, beside the same without it; and of 1,000
# purchases that are completed, beside as many that balance as they are written.
source "$(dirname "$(readlink -f "${BASH_SOURCE[0]}")")/lib/runs.sh"

# ledger UNITS COST: the accounts, then 1,000 purchases of so many units at so much and a cost that grows by 1.
ledger() {
    awk -v units="$1" -v cost="$2" 'BEGIN {
        print "2000-01-01 open Assets:Broker \"FIFO\"\n2000-01-01 open Assets:Cash\n2000-01-01 open Equity:Rounding"
        for (n = 0; n < 1000; n++)
            printf "2020-01-02 * \"Buy\"\n  Assets:Broker %s C%d {%d.%s USD}\n  Assets:Cash\n", units, n % 50, 100 + n % 50, cost
    }'
}

# posted TEXT WORDS..: the instructions of a post of a text to a new book, with these words more.
posted() {
    rm -f "$scratch/b" "$scratch/b-wal"
    "$program" init --book "$scratch/b" </dev/null >/dev/null || exit 1
    count "$1" post --book "$scratch/b" --batch a "${@:2}"
    accepted 1003
}

ledger 0.25 50 >"$scratch/whole"
ledger 0.333333 5012345 >"$scratch/crumbs"
plain=$(posted "$scratch/whole") || exit 1
asked=$(posted "$scratch/whole" --rounding Equity:Rounding --decimals 2) || exit 1
completed=$(posted "$scratch/crumbs" --rounding Equity:Rounding --decimals 2) || exit 1

printf '%-46s %14s %7s\n' "1,000 purchases, posted to a new book" instructions ratio
printf '%-46s %14s %7s\n' "balanced" "$plain" 1.00
printf '%-46s %14s %7s\n' "balanced, with a rounding account" "$asked" "$(ratio "$asked" "$plain")"
printf '%-46s %14s %7s\n' "completed, each" "$completed" "$(ratio "$completed" "$plain")"
