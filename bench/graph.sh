#!/usr/bin/env bash
# The crates and how they stand on one another, by crates.txt: of each its level (1 where it stands on no other of them), its functions
# and lines of code but for files with tests, its lines of definitions, of proofs and of tests, and how many crates are proved again
# after an edit of it, itself counted; with names, which these are. Empty lines and comments don't count.
#
#   bench/graph.sh            the table of all
#   bench/graph.sh NAME..     the crates that are proved again after an edit of each of these
set -u -o pipefail

cd "$(dirname "$(readlink -f "${BASH_SOURCE[0]}")")/.." || exit 1

# counted: the lines of this call's standard input that say something.
counted() { grep -cvE '^\s*(//|--|$)' || :; }

# code FLAG FOLDER: the code of a crate: with -L of its files without a test, with -l of those that have one.
code() { find "$2/src" -name '*.rt' -exec grep "$1" -F '#[test]' {} + | while IFS= read -r file; do cat "$file"; done; }

for crate in $(sed -n 's/^\([a-z_0-9]*\).*:.*/\1/p' crates.txt); do
    home=crates/$crate
    printf '%s %s %s %s %s %s\n' "$crate" "$(code -L "$home" | grep -cE '^\s*(pub(\(\w+\))? )?(const )?fn ')" "$(code -L "$home" | counted)" \
        "$(find "$home/specs" -name '*.antt' -exec cat {} + 2>/dev/null | counted)" \
        "$(find "$home/proofs" -name '*.antt' -exec cat {} + 2>/dev/null | counted)" \
        "$(code -l "$home" | counted)"
done | awk -v wanted="$*" '
    function level(name, at, most, of) {
        if (name in levels) return levels[name]
        for (at = 1; at <= uses[name]; at++) { of = level(use[name, at]); if (of > most) most = of }
        return levels[name] = most + 1
    }
    function mark(name, top, at) {
        if ((name, top) in above) return
        above[name, top] = 1
        for (at = 1; at <= uses[name]; at++) mark(use[name, at], top)
    }
    FNR == NR && /^[a-z]/ {
        name = $1; sub(/:$/, "", name); order[++count] = name
        line[name] = $0
        next
    }
    FNR == NR { next }
    FNR == 1 {
        for (n = 1; n <= count; n++) {
            words = split(line[order[n]], word, /[: ]+/)
            for (at = 2; at <= words; at++) if (word[at] in line) use[order[n], ++uses[order[n]]] = word[at]
        }
        for (n = 1; n <= count; n++) { mark(order[n], order[n]); if (level(order[n]) > longest) longest = levels[order[n]] }
        for (n = 1; n <= count; n++) for (at = 1; at <= count; at++) if ((order[n], order[at]) in above) again[order[n]]++
        if (!wanted) printf "%-16s %5s %9s %6s %11s %7s %6s %6s\n", "crate", "level", "functions", "code", "definitions", "proofs", "tests", "again"
    }
    !wanted {
        printf "%-16s %5d %9d %6d %11d %7d %6d %6d\n", $1, levels[$1], $2, $3, $4, $5, $6, again[$1]
        for (at = 2; at <= 6; at++) sum[at] += $at
    }
    END {
        if (!wanted) {
            printf "%-16s %5s %9d %6d %11d %7d %6d\n", "all", "", sum[2], sum[3], sum[4], sum[5], sum[6]
            printf "%d crates, %d levels\n", count, longest
        }
        of = split(wanted, asked, " ")
        for (n = 1; n <= of; n++) {
            if (!(asked[n] in line)) { print "graph: crates.txt has no crate \x27" asked[n] "\x27" >"/dev/stderr"; exit 1 }
            printf "%s: %d of %d:", asked[n], again[asked[n]], count
            for (at = 1; at <= count; at++) if ((asked[n], order[at]) in above) printf " %s", order[at]
            print ""
        }
    }' crates.txt -
