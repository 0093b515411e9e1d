#!/usr/bin/env bash
# How processor time and memory grow with the text: the program on ledgers of 1, 2, 4 and 8 parts, in one run. Of interest are
# the ratios to the smallest, not the seconds of this machine. A part is 20,000 purchases of one year.
source "$(dirname "$(readlink -f "${BASH_SOURCE[0]}")")/lib/runs.sh"

# A ledger of so many parts. Each purchase is a lot of its own or adds to one, and takes cash.
ledger() {
    awk -v parts="$1" 'BEGIN {
        print "2020-01-01 open Assets:Broker"; print "2020-01-01 open Assets:Cash"
        for (n = 0; n < 20000 * parts; n++) {
            day = int(n * 336 / (20000 * parts))
            printf "2020-%02d-%02d * \"Buy %d\"\n", 1 + int(day / 28), 1 + day % 28, n
            printf "  Assets:Broker %d.%03d C%d {%d.%02d USD}\n  Assets:Cash\n", 1 + n % 7, n % 1000, n % 50, 1 + n % 9, n % 100
        }
    }'
}

printf '%8s %10s %10s %10s %12s %12s\n' parts MiB seconds memory 'time ratio' 'memory ratio'
for parts in 1 2 4 8; do
    ledger "$parts" >"$scratch/text"
    seconds=$(seconds "$scratch/text" 1) memory=$(peak "$scratch/text")
    accepted
    if ((parts == 1)); then first_seconds=$seconds first_memory=$memory; fi
    printf '%8d %10s %10.3f %10s %12s %12s\n' "$parts" "$(mib $(($(wc -c <"$scratch/text") / 1024)))" "$seconds" "$(mib "$memory")" \
        "$(ratio "$seconds" "$first_seconds")" "$(ratio "$memory" "$first_memory")"
done
