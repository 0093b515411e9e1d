#!/usr/bin/env bash
# What it takes to make a book of its dump, and how that grows with the entries: `dump` beside `journal`, which prints the same but for two
# lines, and `restore`. Time by the clock, and the most memory, each of the whole call. A third of the entries is a lot that is held. Of
# `restore` of 100,000 entries at most 30 seconds and 100 MB are wanted. What is restored has the digest of the first book.
#
# Measured on four processors, with the books on a RAM disk: of 100,000 entries `dump` took 1.07 times as long as `journal`, `restore` 10.1 s
# and 21 MB; of a million entries, beside other work, 167 s and 83 MB. That `dump` of a million takes 630 MB, as `journal` does, is the opening.
#
#   bench/restore.sh [ENTRIES]    of so many entries, too, as 1000000
source "$(dirname "$(readlink -f "${BASH_SOURCE[0]}")")/lib/runs.sh"
in_memory

# posted COUNT: posts so many trades to a new book. A text has 16 MiB at most, so they come in several, each of which fits.
posted() {
    local part=0
    rm -f "$first"* "$scratch"/part.*
    "$program" init --book "$first" >/dev/null || return
    thirds "$1" | awk -v folder="$scratch" '/^20/ { if (count++ % 100000 == 0) { close(file); file = sprintf("%s/part.%03d", folder, parts++) } } { print >file }'
    for part in "$scratch"/part.*; do
        "$program" post --quiet --book "$first" --batch "made-${part##*.}" --all-or-none <"$part" | awk '!/ accepted$/ { exit 1 }' || return
        rm -f "$part"
    done
}

# turns COUNT FILE WORDS..: the milliseconds of a call on a file, by the clock; the least of so many. A call that restores has no book to
# begin with.
turns() {
    local turn
    for ((turn = 0; turn < $1; turn++)); do
        if [[ $3 == restore ]]; then rm -f "$new"*; fi
        millis "${@:2}" || echo "it failed: $3" >&2
    done | lowest
}

first=$scratch/first.book new=$scratch/new.book dump=$scratch/dump
printf '%9s %9s %11s %11s %9s %11s %9s %11s %11s %12s\n' entries 'dump MiB' 'journal ms' 'dump ms' ratio 'restore ms' us/entry 'journal KiB' 'dump KiB' 'restore KiB'
for entries in 1000 10000 100000 "$@"; do
    count=3
    if ((entries > 100000)); then count=1; fi
    if ! posted $((entries - 3)); then echo "the book of $entries entries isn't made" >&2 && exit 1; fi
    journal=$(turns "$count" /dev/null journal --book "$first")
    dumped=$(turns "$count" /dev/null dump --book "$first")
    cp "$scratch/out" "$dump"
    restored=$(turns "$count" "$dump" restore --book "$new")
    if [[ $(<"$scratch/out") != "book restored" ]]; then echo "it isn't restored: $(head -n 1 "$scratch/out")" >&2 && exit 1; fi
    if [[ "; end $("$program" verify --book "$new" --digest </dev/null | tail -n 1)" != "$(tail -n 1 "$dump")" ]]; then
        echo "another book is restored" >&2 && exit 1
    fi
    rm -f "$new"*
    rooms=("$(peak /dev/null journal --book "$first")" "$(peak /dev/null dump --book "$first")" "$(peak "$dump" restore --book "$new")")
    size=$(awk -v bytes="$(stat -c %s "$dump")" 'BEGIN { print bytes / 1048576 }')
    printf '%9d %9.1f %11d %11d %9s %11d %9d %11d %11d %12d\n' "$entries" "$size" "$journal" "$dumped" "$(ratio "$dumped" "$journal")" \
        "$restored" $((restored * 1000 / entries)) "${rooms[@]}"
    rm -f "$new"*
done
