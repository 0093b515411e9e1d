#!/usr/bin/env bash
# How the time of purchases and sales grows with the lots of what they touch, without a file: the program on texts that differ in
# these commands alone, as the difference of their processor times, which wants a quiet machine. Of interest are the ratios to the
# smallest number of lots, not the microseconds of this one.
source "$(dirname "$(readlink -f "${BASH_SOURCE[0]}")")/lib/runs.sh"

# purchases METHOD LOTS COMMODITIES: the accounts, and so many lots of each of so many commodities.
purchases() {
    awk -v method="$1" -v lots="$2" -v commodities="$3" 'BEGIN {
        printf "2020-01-01 open Assets:Broker \"%s\"\n2020-01-01 open Assets:Cash\n", method
        for (lot = 0; lot < lots; lot++)
            for (n = 0; n < commodities; n++)
                printf "2020-01-02 *\n  Assets:Broker 20000 C%d {0.%08d USD}\n  Assets:Cash\n", n, 1 + lot * 7919 % lots
    }'
}

# commands UNITS COST LOTS COMMODITIES COUNT: so many changes by so many units, of one commodity after the other; where there is a cost,
# each of another lot.
commands() {
    awk -v units="$1" -v cost="$2" -v lots="$3" -v commodities="$4" -v count="$5" 'BEGIN {
        for (n = 0; n < count; n++) {
            lot = int(n / commodities) * 31 % lots
            printf "2020-01-02 *\n  Assets:Broker %d C%d {%s}\n  Assets:Cash\n", units, n % commodities,
                cost ? sprintf("0.%08d USD", 1 + lot * 7919 % lots) : ""
        }
    }'
}

# ratios NAME: a line of the microseconds that this call's standard input has for each number of lots, and of their ratios to the first.
ratios() {
    awk -v name="$1" 'NR == 1 { first = $1; printf "%-30s", name } { printf " %9.2f %6.2f", $1, (first > 0 ? $1 / first : 0) } END { print "" }'
}

# difference RUNS COUNT: what the text `with` takes more than the text `without`, in microseconds for each of so many parts.
difference() {
    local without with
    without=$(seconds "$scratch/without" "$1")
    with=$(seconds "$scratch/with" "$1")
    accepted
    awk -v with="$with" -v without="$without" -v count="$2" 'BEGIN { print 1000000 * (with - without) / count }'
}

printf '%-30s %16s %16s %16s %16s\n' "lots of the commodity" 10 100 1000 10000
for units in 1 -1; do
    for lots in 10 100 1000 10000; do
        purchases FIFO "$lots" 1 >"$scratch/without"
        { cat "$scratch/without" && commands "$units" cost "$lots" 1 20000; } >"$scratch/with"
        difference 1 20000
    done | ratios "a $( ((units > 0)) && echo "purchase into" || echo "sale from") one"
done
for method in FIFO LIFO HIFO; do
    for lots in 10 100 1000 10000; do
        count=$((100000 / lots))
        purchases "$method" "$lots" "$count" >"$scratch/without"
        { cat "$scratch/without" && commands $((-20000 * lots)) "" "$lots" "$count" "$count"; } >"$scratch/with"
        difference 1 100000
    done | ratios "a sale of all, a lot, $method"
done
