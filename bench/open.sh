#!/usr/bin/env bash
# What it takes to open a book of some size, which each call does once: seconds by the clock, and the most memory. The first line
# is an empty book. A program that posts many commands in one call opens the book once.
source "$(dirname "$(readlink -f "${BASH_SOURCE[0]}")")/lib/runs.sh"

# purchases FIRST COUNT: so many purchases, one lot each.
purchases() {
    awk -v first="$1" -v count="$2" 'BEGIN {
        for (n = first; n < first + count; n++)
            printf "2020-01-02 *\n  Assets:Broker 2 C%d {%d.%02d USD}\n  Assets:Cash\n", n / 10, 1 + n % 10, n % 100
    }'
}

printf '%9s %9s %9s %9s %12s %12s\n' entries MiB seconds memory 's a MiB' 'memory a MiB'
book=$scratch/growing.book
printf '2020-01-01 open Assets:Broker\n2020-01-01 open Assets:Cash\n' | made "$book"
entries=2
for wanted in 0 1 10 100; do # MiB of the file, of some 530 bytes an entry
    while (($(stat -c %s "$book") < wanted * 1048576)); do
        count=$(((wanted * 1048576 - $(stat -c %s "$book")) / 530 + 1))
        count=$((count > 100000 ? 100000 : count))
        purchases "$entries" "$count" | "$program" post --book "$book" --batch "from-$entries" >/dev/null || exit 1
        entries=$((entries + count))
    done
    taken=$(least 3 "$book" /dev/null)
    room=$(peak /dev/null post --book "$book" --batch none)
    awk -v e="$entries" -v b="$(stat -c %s "$book")" -v ms="$taken" -v kib="$room" 'BEGIN {
        mib = b / 1048576
        printf "%9d %9.1f %9.3f %9.1f %12.3f %12.1f\n", e, mib, ms / 1000, kib / 1024, ms / 1000 / mib, kib / 1024 / mib
    }'
done
