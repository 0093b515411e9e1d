# What the scripts of bench/ share that run the program. They source this file, which has them go on in the top folder of the repository.
#
# They measure the program that is built from the sources here, or the one at the absolute path LOTBOOK_PROGRAM, if it is set.
set -u -o pipefail

cd "$(dirname "$(readlink -f "${BASH_SOURCE[0]}")")/../.." || exit 1
program=${LOTBOOK_PROGRAM:-crates/lotbook/out/lotbook}
if [[ ! ${LOTBOOK_PROGRAM:-} ]]; then LOTBOOK_BUILD=1 ./lotbook </dev/null >/dev/null || exit 1; fi
source tests/lib/scratch.sh
source bench/lib/books.sh
source bench/lib/counts.sh

# lowest: the least of the numbers of this call's standard input, one a line.
lowest() { sort -n | head -n 1; }

# seconds FILE RUNS: the processor time of a run on a file, as the mean of so many one after another, the least of some such.
# The output of the last run is kept, and its messages.
seconds() {
    local TIMEFORMAT=%U turn run
    for turn in 1 2 3 4 5; do
        { time for ((run = 0; run < $2; run++)); do "$program" <"$1" >"$scratch/out" 2>"$scratch/err"; done; } 2>&1
    done | lowest | awk -v runs="$2" '{ printf "%.5f\n", $1 / runs }'
}

# micros FILE RUNS WORDS..: the microseconds of a call of the program on a file, by the clock, as the mean of so many one after another.
# The output of the last one is kept, and its messages; the status is that of the last one that failed.
micros() {
    local run begun ended failed=0
    begun=$(date +%s%N)
    for ((run = 0; run < $2; run++)); do "$program" "${@:3}" <"$1" >"$scratch/out" 2>"$scratch/err" || failed=$?; done
    ended=$(date +%s%N)
    echo $(((ended - begun) / 1000 / $2))
    return "$failed"
}

# millis FILE WORDS..: the milliseconds of one such call.
millis() {
    local taken
    taken=$(micros "$1" 1 "${@:2}") && echo $((taken / 1000))
}

# peak FILE WORDS..: the most memory of a run of the program with these words on a file, in KiB.
peak() { peak_of "$1" "$program" "${@:2}"; }

# peak_of FILE COMMAND..: the most memory of a run of this command on a file, in KiB.
peak_of() {
    local pid key value rest peak=0
    "${@:2}" <"$1" >/dev/null 2>&1 &
    pid=$!
    while [[ -e /proc/$pid/exe ]]; do
        while read -r key value rest; do
            if [[ $key == VmHWM: ]] && ((value > peak)); then peak=$value; fi
        done 2>/dev/null <"/proc/$pid/status"
    done
    wait "$pid"
    echo "$peak"
}

# ratio A B: A in parts of B; a dash where one isn't known.
ratio() { awk -v a="$1" -v b="$2" 'BEGIN { if (a + 0 > 0 && b + 0 > 0) printf "%.2f\n", a / b; else print "-" }'; }

# mib KIB: so many KiB in MiB.
mib() { awk -v kib="$1" 'BEGIN { printf "%.1f\n", kib / 1024 }'; }

# accepted [COUNT]: ends the script where a command of the last run wasn't accepted, or where these weren't so many.
accepted() {
    local count
    count=$(grep -c ' accepted$' "$scratch/out")
    if grep -qE 'refused|fault' "$scratch/out" || ((count != ${1:-count})); then
        echo "${0##*/}: not all was accepted: $(grep -m 1 -v ' accepted$' "$scratch/out" || wc -l <"$scratch/out")" >&2
        exit 1
    fi
}
