# Cases on the built program, for the scripts of tests/. A script sources this file, calls the functions below, and ends
# with `finish`. Each case is one line `ok NAME` or `FAILED NAME: ..`, and the last line is `N passed, M failed`.
set -u
shopt -s lastpipe # the last part of a pipe runs in this shell

root=$(readlink -f "$(dirname "${BASH_SOURCE[0]}")/../..")
program=$root/crates/lotbook/out/lotbook
examples=$root/examples
source "$root/tests/lib/scratch.sh"
export LC_ALL=C

# Where the command `python3` is a script that looks for the interpreter, which takes longer than the interpreter's start, it looks once.
wrapper=$(command -v python3) && read -rN 2 begin 2>/dev/null <"$wrapper" && [[ $begin == "#!" ]] &&
    interpreter=$(python3 -c 'import sys; print(sys.executable)') && [[ -x ${interpreter%/*}/python3 ]] && PATH=${interpreter%/*}:$PATH

passed=0 failed=0

pass() { passed=$((passed + 1)) && echo "ok $1"; }
fail() { failed=$((failed + 1)) && echo "FAILED $1: $2"; }

# Prints the last line and exits with the status of the script.
finish() {
    echo "$passed passed, $failed failed"
    ((failed == 0))
    exit
}

# Proves and builds the program if it isn't built here yet or is out of date; ends the script if that fails.
need_program() {
    if ! LOTBOOK_BUILD=1 "$root/lotbook" </dev/null >/dev/null || [[ ! -x $program ]]; then
        fail "the program" "it can't be built, or it fails on no input"
        finish
    fi
}

# takes_crumbs: whether the program has the option of a rounding account. What tests it isn't run where it hasn't, and says so.
takes_crumbs() {
    if "$program" post --help </dev/null 2>/dev/null | grep -q -- '--rounding'; then return; fi
    echo "the program has no --rounding: what goes with it isn't run"
    return 1
}

# ---- calls

# run WORDS..: runs the program on this call's standard input. Keeps its output, its messages and its status.
run() {
    timeout 600 "$program" "$@" >"$scratch/out" 2>"$scratch/err"
    status=$?
}

# run_full WORDS.. and run_closed WORDS..: as `run`, with standard output on a full disk, or closed.
run_full() {
    "$program" "$@" 2>"$scratch/err" >/dev/full
    status=$?
}
run_closed() {
    "$program" "$@" 2>"$scratch/err" >&-
    status=$?
}

# run_cut BYTES WORDS..: as `run`, with standard output to a pipe that is closed behind so many bytes, which are kept in the file `taken`.
run_cut() {
    "$program" "${@:2}" 2>"$scratch/err" | head -c "$1" >"$scratch/taken"
    status=${PIPESTATUS[0]}
}

# limited KIB WORDS..: runs the program on this call's streams, where no file may get longer than so many KiB.
limited() { (trap '' XFSZ && ulimit -f "$1" && exec "$program" "${@:2}"); }

# ---- what has to come of them

# expect NAME STATUS FILE: `run` kept that status and exactly the bytes of FILE. Standard error is empty, or says of a refusal, a fault,
# a row that is left out or what may have been meant otherwise what there is to say.
expect() {
    if ((status != $2)); then
        fail "$1" "status $status instead of $2"
    elif ! cmp -s "$scratch/out" "$3"; then
        fail "$1" "other output: $(diff "$3" "$scratch/out" 2>&1 | head -n 6 | cut -c 1-200 | tr '\n' '|')"
    elif [[ -s $scratch/err ]] &&
        { grep -qv '^lotbook: ' "$scratch/err" || { ((status == 0)) && grep -qvE 'warning: |: left out: |: no row has the ref |: \.\.\. and [0-9]+ more$' "$scratch/err"; }; }; then
        fail "$1" "on standard error: $(grep -m 1 -v '^lotbook: ' "$scratch/err" || head -n 1 "$scratch/err")"
    else
        pass "$1"
    fi
}

# says NAME PATTERN: standard error of `run` is one line, which the pattern matches whole.
says() {
    if [[ $(wc -l <"$scratch/err") == 1 && -z $(tail -c 1 "$scratch/err") ]] && grep -qxE "$2" "$scratch/err"; then
        pass "$1"
    else
        fail "$1" "on standard error: $(head -c 200 "$scratch/err" | tr '\n' '|')"
    fi
}

# stops NAME [REMAINS]: the call before ended with status 4, and standard error is one line: why standard output couldn't be written, and
# what remains of the call, the output cut short if nothing is given.
stops() {
    if ((status != 4)); then
        fail "$1" "status $status instead of 4"
    else
        says "$1" "lotbook: standard output: [A-Z][A-Za-z ]+ \(os error [0-9]+\): ${2-the output is cut short}"
    fi
}

# cut_short NAME NUMBERS WORDS..: a report stops where its output can't be written: on a full disk, where standard output is closed, and
# where a pipe is closed behind so many bytes, for each of the numbers. What was taken is how the report begins, which is then printed whole.
cut_short() {
    local bytes
    run_full "${@:3}" </dev/null
    stops "$1 on a full disk"
    run_closed "${@:3}" </dev/null
    stops "$1 with standard output closed"
    "$program" "${@:3}" </dev/null >"$scratch/whole"
    for bytes in $2; do
        run_cut "$bytes" "${@:3}" </dev/null
        stops "$1 to a pipe that is closed after $bytes bytes"
        if head -c "$bytes" "$scratch/whole" | cmp -s - "$scratch/taken"; then
            pass "$1: the first $bytes bytes"
        else
            fail "$1: the first $bytes bytes" "$(head -c 100 "$scratch/taken")"
        fi
    done
    run "${@:3}" </dev/null
    expect "$1 after that" 0 "$scratch/whole"
}

# older NAME: `run` met a book of an older edition: the fault, status 4, and on standard error, behind warnings, one line that names what helps.
older() {
    if ((status != 4)); then
        fail "$1" "status $status instead of 4"
    elif [[ $(<"$scratch/out") != "fault S3 OlderEdition" ]]; then
        fail "$1" "other output: $(head -c 200 "$scratch/out" | tr '\n' '|')"
    elif [[ $(grep -vc ': warning: ' "$scratch/err") != 1 || $(tail -n 1 "$scratch/err") != *"lotbook migrate"* ]]; then
        fail "$1" "no line names what helps: $(head -c 200 "$scratch/err" | tr '\n' '|')"
    else
        pass "$1"
    fi
}

# wrote NAME STATUS TEXT: as `expect`, of the lines of a text, or of nothing.
wrote() {
    printf '%s' "${3:+$3$'\n'}" >"$scratch/expected"
    expect "$1" "$2" "$scratch/expected"
}

# prints NAME STATUS TEXT WORDS..: the program, on this call's standard input, ends with STATUS and writes the lines of TEXT.
prints() {
    run "${@:4}"
    wrote "$1" "$2" "$3"
}

# answers NAME STATUS TEXT: `run` kept that status and these lines, whatever standard error says.
answers() {
    if ((status == $2)) && [[ $(<"$scratch/out") == "$3" ]]; then
        pass "$1"
    else
        fail "$1" "status $status, '$(head -c 200 "$scratch/out" | tr '\n' '|')', '$(head -c 300 "$scratch/err" | tr '\n' '|')'"
    fi
}

# unopened NAME: the call before ended since its file can't be opened, and says why.
unopened() { if [[ -s $scratch/err ]]; then answers "$1" 4 "fault open"; else fail "$1" "status $status, and nothing on standard error"; fi; }

# unusable TEXT WORDS..: the words can't be used: status 2, a message that has this text, nothing on standard output. No input is read.
unusable() {
    run "${@:2}" <"$examples/first-purchase.ledger"
    if ((status == 2)) && [[ ! -s $scratch/out ]] && grep -qF -- "$1" "$scratch/err"; then
        pass "words: ${*:2}"
    else
        fail "words: ${*:2}" "status $status, output '$(head -c 60 "$scratch/out")', message '$(head -c 120 "$scratch/err")'"
    fi
}

# on_terminal OUTPUT INPUT WORDS..: runs the program with a terminal as standard error, and as standard output, too, where OUTPUT is `-` and
# no file. Prints what is shown there.
on_terminal() { timeout 600 python3 -B "$root/tests/lib/terminal.py" "$1" "$2" "$program" "${@:3}"; }

# watched NAME OUTPUT INPUT WANTED WORDS..: what is shown on such a terminal matches WANTED. Keeps the status.
watched() {
    local shown
    shown=$(on_terminal "$2" "$3" "${@:5}")
    status=$?
    if [[ $shown =~ $4 ]]; then pass "$1"; else fail "$1" "$(head -c 200 <<<"$shown" | tr '\r\n' '@|')"; fi
}

# run_python SCRIPT WORDS..: counts the cases of a script in Python, given from the root, which stands on tests/lib/tally.py. A line
# `skipped: ..` of it is passed on. That there is no Python, or that the script ends early, is a failure.
run_python() {
    local line counted="" before=("$passed" "$failed")
    if ! command -v python3 >/dev/null; then
        fail "$1" "there is no command 'python3' on the PATH to run it with"
        return
    fi
    python3 -B "$root/$1" "${@:2}" |
        while IFS= read -r line; do
            case $line in
                "ok "*) pass "${line#ok }" ;;
                "FAILED "*) line=${line#FAILED } && fail "${line%%: *}" "${line#*: }" ;;
                "skipped: "*) echo "$line" ;;
                *" passed, "*" failed") counted=$line ;;
                *) fail "$1" "$line" ;;
            esac
        done
    status=${PIPESTATUS[0]}
    if [[ $counted != "$((passed - before[0])) passed, $((failed - before[1])) failed" ]] || ((status != (failed > before[1]))); then
        fail "$1" "it ended early, with status $status: ${counted:-no count}"
    fi
}

# wait_until COMMAND..: waits, a minute at most, until the command succeeds.
wait_until() {
    local turn
    for turn in {1..1200}; do
        if "$@"; then return; fi
        sleep 0.05
    done
    return 1
}
