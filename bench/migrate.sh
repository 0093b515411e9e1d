#!/usr/bin/env bash
# What it takes to migrate a book of edition 1, and how that grows with its entries, beside opening the book alone: a report of sales of
# a day on which there was none. Time by the clock, and the most memory, each of the whole call, which opens the book. A third of the
# entries is a lot that is held. Of interest are the ratios, not the times of this machine. The books are made by Python's module
# `sqlite3` (tests/migrate/large.py).
source "$(dirname "$(readlink -f "${BASH_SOURCE[0]}")")/lib/runs.sh"
in_memory

# turns WORDS..: the milliseconds of a call on a fresh copy, or on the one that is migrated; the least of three.
turns() {
    local turn
    for turn in 1 2 3; do
        if [[ $1 == migrate ]]; then copied "$scratch/first.book"; fi
        millis /dev/null "$@" --book "$scratch/copy.book" || echo "it failed: $1" >&2
    done | lowest
}

nothing=(gains --first 9999-12-31)

printf '%9s %9s %12s %12s %9s %12s %12s %9s\n' entries MiB 'migrate ms' 'open ms' ratio 'migrate KiB' 'open KiB' ratio
for entries in 1000 10000 100000; do
    rm -f "$scratch/first.book"*
    python3 -B tests/migrate/large.py "$scratch/first.book" "$entries" || exit 1
    copied "$scratch/first.book"
    room=$(peak /dev/null migrate --book "$scratch/copy.book")
    taken=$(turns migrate)
    if [[ $(<"$scratch/out") != "book migrated" ]]; then echo "it isn't migrated: $(head -n 1 "$scratch/out")" >&2 && exit 1; fi
    opened=$(turns "${nothing[@]}")
    if [[ $(<"$scratch/out") != "no gains" ]]; then echo "it isn't empty: $(head -n 1 "$scratch/out")" >&2 && exit 1; fi
    open_room=$(peak /dev/null "${nothing[@]}" --book "$scratch/copy.book")
    size=$(awk -v bytes="$(stat -c %s "$scratch/first.book")" 'BEGIN { print bytes / 1048576 }')
    printf '%9d %9.1f %12d %12d %9s %12d %12d %9s\n' "$entries" "$size" \
        "$taken" "$opened" "$(ratio "$taken" "$opened")" "$room" "$open_room" "$(ratio "$room" "$open_room")"
done
