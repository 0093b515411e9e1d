# What counts instead of timing: instructions by valgrind, and what is written to files by strace. runs.sh sources it.
# A count hardly differs from run to run, and the load of the machine doesn't change it.

# count FILE WORDS..: the instructions of a call of the program with these words on a file, or a dash without valgrind. Its output
# is kept.
count() {
    command -v valgrind >/dev/null || { echo - && return; }
    valgrind --tool=cachegrind --cache-sim=no --cachegrind-out-file="$scratch/counts" "$program" "${@:2}" <"$1" >"$scratch/out" 2>/dev/null
    awk '/^summary:/ { print $2; exit }' "$scratch/counts"
}

# profile FILE WORDS..: as count, some three times slower; what `within` says is of this call.
profile() {
    command -v valgrind >/dev/null || { echo - && return; }
    valgrind --tool=callgrind --callgrind-out-file="$scratch/calls" "$program" "${@:2}" <"$1" >"$scratch/out" 2>/dev/null
    awk '/^(summary|totals):/ { print $2; exit }' "$scratch/calls"
}

# within NAME: the instructions of the last profile in calls of that function of the program, and below them; a dash where the
# program has no such function by itself.
within() {
    [[ -e $scratch/calls ]] || { echo - && return; }
    callgrind_annotate --inclusive=yes "$scratch/calls" |
        awk -v name=":$1 [" 'index($0, name) { gsub(",", "", $1); print $1; found = 1; exit } END { if (!found) print "-" }'
}

# written FILE COMMAND..: what a run of this command on a file writes and asks of files: the bytes written to a log (`-wal`), the zeros
# that the program writes ahead of them, in parts of 128 KiB, the bytes written to the file beside the log, and the syncs of both;
# dashes without strace.
written() {
    command -v strace >/dev/null || { echo - - - - && return; }
    strace -f -y -s 0 -e trace=write,pwrite64,writev,pwritev,fsync,fdatasync -o "$scratch/traced" "${@:2}" <"$1" >"$scratch/out"
    awk '/sync\([0-9]*<.*\.book(-wal)?>/ { syncs++; next }
        /\.book-wal>/ && $NF > 0 && $NF % 131072 == 0 { zeros += $NF; next }
        /\.book-wal>/ { log_bytes += $NF }
        /\.book>/ { file_bytes += $NF }
        END { print log_bytes + 0, zeros + 0, file_bytes + 0, syncs + 0 }' "$scratch/traced"
}

# apart A B PARTS: what A is more than B, for each of so many parts; a dash where it isn't known.
apart() { awk -v a="$1" -v b="$2" -v parts="$3" 'BEGIN { if (a == "-" || b == "-") print "-"; else printf "%.0f\n", (a - b) / parts }'; }

# used FILE COMMAND..: the seconds of processor time of one run of this command on a file, and its most memory in KiB, which isn't told
# below the some 10 MiB of Python.
used() {
    python3 -B -c '
import os, subprocess, sys
with open(sys.argv[1]) as text:
    run = subprocess.Popen(sys.argv[2:], stdin=text, stdout=subprocess.DEVNULL, stderr=subprocess.DEVNULL)
    _, _, usage = os.wait4(run.pid, 0)
print(round(usage.ru_utime, 3), usage.ru_maxrss)' "$@"
}
