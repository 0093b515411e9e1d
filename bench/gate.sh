#!/usr/bin/env bash
# What a run of ./test costs, in processor minutes and by the clock: for each crate its proofs, its tests and its must-fail edits; then
# the scripts.
#
#   bench/gate.sh               runs ./test, keeps its output and what it cost in bench/out/gate.log, and prints the table
#   bench/gate.sh LOG           prints the table of such a log
#   bench/gate.sh --proofs LOG  prints what the proofs of each crate took by such a log, as JSON. Of a run from nothing it is kept as
#                               bench/prover.json, which tools/pages.py shows in docs/RESEARCH.md
#
# What earlier runs on this machine passed is taken over by the gate: only where nothing was kept is it a run from nothing. As
# `taskset -c 0,1 bench/gate.sh` it runs on two processors.
#
# The gate prints no times. So while it runs, the processor time of each process of the prover is read from /proc, five times
# a second, with the crate and the kind of work that its command line and its folder name. The total is that of the shell's
# `time`; what the table leaves to the line `linking, runs` is the rest of the kit's gate: linking, the runs of tests and programs, and the
# last moments of each process.
set -u -o pipefail

cd "$(dirname "$(readlink -f "${BASH_SOURCE[0]}")")/.." || exit 1

# The crate and the kind of work of a process of the prover, as one word each.
work_of() {
    local words crate kind=proofs
    words=$(tr '\0' ' ' <"/proc/$1/cmdline" 2>/dev/null)
    [[ $words =~ \ --crate-name\ ([a-z0-9_]+)\  ]] || return 1
    crate=${BASH_REMATCH[1]}
    if [[ $(readlink "/proc/$1/cwd" 2>/dev/null) == */rt-edit-* ]]; then
        kind=edits
    elif [[ $words == *" --test "* ]]; then
        kind=tests
    fi
    echo "$crate $kind"
}

# Until the file $1/ended is there: reads the processor time of the prover's processes in the session named in $1/session.
# Then writes one line for each crate and kind of work: `cost CRATE KIND SECONDS`.
watch() {
    local pid stat fields key ticks
    declare -A work=() spent=()
    while [[ ! -e $1/session ]]; do sleep 0.05; done
    while [[ ! -e $1/ended ]]; do
        for pid in $(pgrep -s "$(<"$1/session")" -x rattle); do
            { stat=$(<"/proc/$pid/stat"); } 2>/dev/null || continue
            read -ra fields <<<"${stat##*) }"
            ((${#fields[@]} > 19)) || continue # it has just ended
            key=$pid.${fields[19]} # with the time of its start, since numbers of processes come again
            if [[ -z ${work[$key]:-} ]]; then work[$key]=$(work_of "$pid") || continue; fi
            spent[$key]=$((fields[11] + fields[12]))
        done
        sleep 0.2
    done
    ticks=$(getconf CLK_TCK)
    for key in "${!spent[@]}"; do echo "${work[$key]} ${spent[$key]}"; done |
        awk -v ticks="$ticks" '{ sum[$1 " " $2] += $3 } END { for (it in sum) printf "cost %s %.1f\n", it, sum[it] / ticks }' |
        sort
}

# Prints the table of a log: the `cost` lines by crate; how many edits the gate reports as tried, and the seconds of each.
table() {
    awk '
        function minutes(it) { return sprintf("%.1f", it / 60) }
        $1 == "cost" && NF == 4 {
            spent[$2, $3] += $4; of_crate[$2] += $4; of_kind[$3] += $4; sum += $4
            if (!($2 in seen)) { seen[$2] = 1; crates[++count] = $2 }
        }
        $1 == "kit" && NF == 3 { of_kit_wall = $2; of_kit_total = $3 }
        $1 == "total" && NF == 4 { wall = $2; total = $3; processors = $4; is_whole = 1 }
        $1 == "rt:" && $2 == "must-fail" { split($3, it, "/"); edits[it[1]]++; all_edits++ }
        /^[0-9]+ passed, [0-9]+ failed$/ { last = $0 }
        END {
            if (!count) { print "gate: this log has no costs" >"/dev/stderr"; exit 1 }
            print "processor minutes"
            form = "%-14s %8s %8s %8s %8s %8s %12s\n"
            printf form, "crate", "proofs", "tests", "edits", "all", "tried", "s an edit"
            for (n = 1; n <= count; n++) {
                c = crates[n]
                printf form, c, minutes(spent[c, "proofs"]), minutes(spent[c, "tests"]), minutes(spent[c, "edits"]),
                    minutes(of_crate[c]), edits[c] + 0, edits[c] ? sprintf("%.1f", spent[c, "edits"] / edits[c]) : "-"
            }
            printf form, "all", minutes(of_kind["proofs"]), minutes(of_kind["tests"]), minutes(of_kind["edits"]), minutes(sum),
                all_edits + 0, all_edits ? sprintf("%.1f", of_kind["edits"] / all_edits) : "-"
            if (is_whole) {
                printf form, "linking, runs", "", "", "", minutes(of_kit_total - sum), "", ""
                printf form, "scripts", "", "", "", minutes(total - of_kit_total), "", ""
                printf form, "total", "", "", "", minutes(total), "", ""
                printf "%s minutes by the clock on %d processors, %s of them for the scripts; %s\n",
                    minutes(wall), processors, minutes(wall - of_kit_wall), last
            }
        }' "$1"
}

# Prints the seconds of the proofs of a log, by crate, with its day and the processors of the machine, as JSON.
proofs() {
    awk -v day="$(date -r "$1" +%F)" '
        $1 == "cost" && $3 == "proofs" && NF == 4 { lines = lines (lines ? ",\n" : "") "\"" $2 "\": " $4 }
        $1 == "total" && NF == 4 { processors = $4 }
        END {
            if (!lines || !processors) { print "gate: this log has no costs of a whole run" >"/dev/stderr"; exit 1 }
            printf "{\n\"day\": \"%s\",\n\"processors\": %d,\n\"seconds\": {\n%s\n}\n}\n", day, processors, lines
        }' "$1"
}

if [[ ${1:-} == --proofs ]]; then
    proofs "$2"
    exit
elif (($#)); then
    table "$1"
    exit
fi

mkdir -p bench/out && scratch=$(mktemp -d) || exit 1
trap 'rm -rf "$scratch"' EXIT
log=bench/out/gate.log
ticks=$(getconf CLK_TCK)

# Writes this call's standard input to the log; when the first script begins, what the kit's gate took, `kit WALL SECONDS`, into a file.
listen() {
    local line begun stat fields
    begun=$(date +%s%N)
    while IFS= read -r line; do
        if [[ $line == "== ./tests/"* && ! -e $scratch/kit ]]; then
            stat=$(<"/proc/$(<"$scratch/session")/stat")
            read -ra fields <<<"${stat##*) }"
            awk -v ns=$(($(date +%s%N) - begun)) -v spent=$((fields[13] + fields[14])) -v ticks="$ticks" \
                'BEGIN { printf "kit %.1f %.1f\n", ns / 1e9, spent / ticks }' >"$scratch/kit"
        fi
        printf '%s\n' "$line"
    done >"$log"
}

mkfifo "$scratch/said" || exit 1
listen <"$scratch/said" &
watch "$scratch" >"$scratch/costs" &
TIMEFORMAT='%R %U %S'
{
    time setsid -w bash -c 'echo $$ >"$1/begun" && mv "$1/begun" "$1/session" && exec ./test' _ "$scratch" </dev/null >"$scratch/said" 2>&1
} 2>"$scratch/time"
status=$?
touch "$scratch/ended"
wait
{
    cat "$scratch/costs" "$scratch/kit"
    awk -v processors="$(nproc)" '{ printf "total %.1f %.1f %d\n", $1, $2 + $3, processors }' "$scratch/time"
} >>"$log"
table "$log"
exit "$status"
