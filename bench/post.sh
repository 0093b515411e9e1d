#!/usr/bin/env bash
# What a command costs that is posted to a book in a file: how it grows with the entries of the book and with the lots of what it
# touches, and what it takes beside the floor: a plain program in Python (bench/book/plain.py) that writes the same rows without any
# rule by Python's module `sqlite3`, with the same pragmas and a commit for each command. Its figures hold the time of Python, and of
# another SQLite than this program's. A call that posts nothing, which opens the book and closes it, is taken off. Of interest are the
# ratios, not the milliseconds of this machine.
source "$(dirname "$(readlink -f "${BASH_SOURCE[0]}")")/lib/runs.sh"

# ledger PAIRS COMMANDS DAY: the accounts where DAY is 1; then purchases of so many commodities in turn, from that day on.
ledger() {
    awk -v pairs="$1" -v commands="$2" -v day="$3" 'BEGIN {
        if (day == 1) print "2000-01-01 open Assets:Broker \"FIFO\"\n2000-01-01 open Assets:Cash\n2000-01-01 open Income:Gains"
        for (n = 0; n < commands; n++)
            printf "2020-01-%02d * \"Buy\"\n  Assets:Broker 2 C%d {%d.%02d USD}\n  Assets:Cash\n", day, n % pairs, 1 + n / pairs, n % 100
    }'
}

# trades PAIRS COMMANDS: purchases and sales in turn, of commodities that lie far apart.
trades() {
    awk -v pairs="$1" -v commands="$2" 'BEGIN {
        for (n = 0; n < commands; n++) {
            commodity = int(n / 2) * 7919 % pairs
            if (n % 2 == 0)
                printf "2020-02-01 * \"Buy\"\n  Assets:Broker 2 C%d {%d.50 USD}\n  Assets:Cash\n", commodity, 100 + n % 50
            else
                printf "2020-02-01 * \"Sell\"\n  Assets:Broker -2 C%d {} @ 130 USD\n  Assets:Cash 260 USD\n  Income:Gains\n", commodity
        }
    }'
}

echo "a command on a book of so many entries, ten lots in each pair"
printf '%9s %12s %9s\n' entries milliseconds ratio
first=
for entries in 1000 10000 100000; do
    ledger $((entries / 10)) "$entries" 1 | made "$scratch/$entries.book"
    trades $((entries / 10)) 1000 >"$scratch/text"
    one=$(each "$scratch/$entries.book" "$scratch/text" 1000)
    first=${first:-$one}
    printf '%9d %12s %9s\n' "$entries" "$one" "$(ratio "$one" "$first")"
done

echo
echo "10,000 commands, beside the floor: the same rows by Python's sqlite3, with no rule, a commit each"
"$program" init --book "$scratch/none.book" >/dev/null
{ ledger 1000 3 1 | head -n 3 && ledger 500 5000 2 && trades 500 5000; } >"$scratch/text"
one=$(each "$scratch/none.book" "$scratch/text" 10003)
plain=$(python3 -B bench/book/plain.py "$scratch/copy.book" "$scratch/plain.book" 3) || exit 1
printf '%-12s %12s %9s\n' "" milliseconds ratio
printf '%-12s %12s %9s\n' "the floor" "$plain" 1.00
printf '%-12s %12s %9s\n' post "$one" "$(ratio "$one" "$plain")"

echo
echo "a purchase and a sale of one lot, in a pair of so many lots; a purchase more than the last would be one too many"
printf '%9s %12s %9s\n' lots milliseconds ratio
first=
for lots in 10 100 1000 9999; do
    ledger 1 "$lots" 1 | made "$scratch/lots.book"
    trades 1 200 >"$scratch/text"
    one=$(each "$scratch/lots.book" "$scratch/text" 200)
    first=${first:-$one}
    printf '%9d %12s %9s\n' "$lots" "$one" "$(ratio "$one" "$first")"
done
