#!/usr/bin/env bash
# What reading costs: its share of a whole run, how it grows with the text, and what unusual texts cost beside an ordinary one.
# A text whose last line is faulty is read to its end and none of it is judged, so the time of a run on it is that of reading.
# Of interest are the ratios, not the times of this machine.
source "$(dirname "$(readlink -f "${BASH_SOURCE[0]}")")/lib/runs.sh"
shopt -s lastpipe # the last part of a pipe runs in this shell

# ledger KEPT TRANSACTIONS: purchases of 50 commodities with labels, and after each the sale of what was bought, or where KEPT
# is 1 another purchase.
ledger() {
    awk -v kept="$1" -v transactions="$2" '
        function begin(n, payee, narration) {
            printf "%04d-%02d-%02d * \"%s\" \"%s\"\n",
                2000 + int(n / 336), 1 + int(n / 28) % 12, 1 + n % 28, payee, narration
        }
        function buy(n, label) {
            begin(n, "Broker", "Buy " label)
            printf "  Assets:Broker   %d C%d {%d.%02d USD, \"%s\"}\n  Assets:Cash\n\n",
                1 + n % 7, n % 50, 1 + n % 9, n % 100, label
        }
        function sell(n) {
            begin(n, "Broker", "Sell " n)
            printf "  Assets:Broker  -%d C%d {} @ 10.00 USD  ; whatever the lot\n", 1 + n % 7, n % 50
            printf "  Expenses:Fees   0.95 USD\n  Assets:Cash    %d.05 USD\n  Income:Gains\n\n", 10 * (1 + n % 7) - 1
        }
        BEGIN {
            print "* Accounts\n2000-01-01 open Assets:Broker \"FIFO\"\n2000-01-01 open Assets:Cash USD"
            print "2000-01-01 open Expenses:Fees\n2000-01-01 open Income:Gains\n"
            for (n = 0; 2 * n < transactions; n++) {
                buy(n, "lot " n)
                if (kept) { buy(n, "other lot " n) } else { sell(n) }
            }
        }'
}

# faulty: the text of standard input, and a faulty line at its end.
faulty() { cat && echo x; }

# answered PATTERN: the last run printed such a line.
answered() {
    if ! grep -q -m 1 -e "$1" "$scratch/out"; then
        echo "reading.sh: no line '$1', but: $(head -n 1 "$scratch/out")" >&2
        exit 1
    fi
}

# size FILE: its MiB.
size() { mib $(($(wc -c <"$1") / 1024)); }

# for_each_byte WHAT BYTES: so much of it for each byte.
for_each_byte() { awk -v what="$1" -v bytes="$2" 'BEGIN { print what / bytes }'; }

# share NAME KEPT TRANSACTIONS: a row of the first table.
share() {
    local whole reading
    ledger "$2" "$3" >"$scratch/text"
    faulty <"$scratch/text" >"$scratch/faulty"
    whole=$(seconds "$scratch/text" $((100000 / $3)))
    answered "^$(($3 + 4)) accepted"
    reading=$(seconds "$scratch/faulty" $((100000 / $3)))
    answered '^fault line [0-9]* X3'
    printf '%-24s %12d %8s %10.3f %10.3f %8s\n' "$1" "$3" "$(size "$scratch/text")" "$whole" "$reading" "$(ratio "$reading" "$whole")"
}

echo "the share of reading in a whole run"
printf '%-24s %12s %8s %10s %10s %8s\n' ledger transactions MiB whole reading share
for transactions in 10000 100000; do
    share "all is sold again" 0 "$transactions"
    share "all is kept" 1 "$transactions"
done

echo
echo "reading alone, as ratios to the smallest text"
printf '%12s %8s %10s %10s %10s\n' transactions bytes time memory seconds
for transactions in 12500 25000 50000 100000; do
    ledger 0 "$transactions" | faulty >"$scratch/text"
    time=$(seconds "$scratch/text" $((100000 / transactions)))
    answered '^fault line [0-9]* X3'
    room=$(peak "$scratch/text")
    bytes=$(wc -c <"$scratch/text")
    if ((transactions == 12500)); then first_time=$time first_room=$room first_bytes=$bytes; fi
    printf '%12d %8s %10s %10s %10.3f\n' "$transactions" "$(ratio "$bytes" "$first_bytes")" "$(ratio "$time" "$first_time")" \
        "$(ratio "$room" "$first_room")" "$time"
done
usual=$(for_each_byte "$time" "$bytes") usual_room=$(for_each_byte "$room" "$bytes")

# unusual NAME PATTERN: a row for the text of standard input, to which the program answers with such a line.
unusual() {
    local time room bytes
    cat >"$scratch/text"
    time=$(seconds "$scratch/text" 1)
    answered "$2"
    room=$(peak "$scratch/text")
    bytes=$(wc -c <"$scratch/text")
    printf '%-44s %8s %10s %10s %10.3f\n' "$1" "$(size "$scratch/text")" "$(ratio "$(for_each_byte "$time" "$bytes")" "$usual")" \
        "$(ratio "$(for_each_byte "$room" "$bytes")" "$usual_room")" "$time"
}

# full BYTE: a full input of one byte.
full() { head -c 16777216 /dev/zero | tr '\0' "$1"; }

echo
echo "unusual texts, for each byte as ratios to the last text above"
printf '%-44s %8s %10s %10s %10s\n' text MiB time memory seconds
full '\n' | unusual "line ends" '^nothing held'
yes ';' | head -n 8388608 | unusual "comments of one byte" '^nothing held'
yes '*' | head -n 8388608 | unusual "headings of one byte" '^nothing held'
yes "$(printf '%4096s' '')" | head -n 4095 | unusual "lines of 4,096 blanks" '^nothing held'
full '{' | unusual "braces in one line" '^fault line 1 X7'
full 0 | unusual "digits in one line" '^fault line 1 X7'
yes '2020-01-01 *' | head -n 1290000 | faulty | unusual "transactions without postings, read" '^fault line 1290001 X3'
yes "$(printf '2020-01-01 open Assets:A C' && printf ',C%.0s' {2..64})" | head -n 100000 | faulty |
    unusual "openings with 64 currencies, read" '^fault line 100001 X3'
{ echo '2020-01-01 *' && yes '  A' | head -n 4000000; } | unusual "a bad name in the second line" '^fault line 2 X5'
{ echo '2020-01-01 *' && yes '  Assets:A' | head -n 1500000; } | unusual "a transaction of 1,500,000 postings" '^1 refused L3'
{
    printf '2020-01-01 open Assets:A\n2020-01-01 open Assets:B\n'
    yes $'2020-01-01 *\n  Assets:A 1 USD\n  Assets:B' | head -n 900000
} | tee "$scratch/many" | unusual "300,000 transactions, judged" '^300002 accepted'
faulty <"$scratch/many" | unusual "300,000 transactions, read" '^fault line 900003 X3'
