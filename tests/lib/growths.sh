# For tests/growths.sh and tests/whole/growths.sh, which source it behind cases.sh.

# sweep_growths WORDS..: compiles tests/growths/refuse.c and runs tests/growths/sweep.py with these words. The counts follow the cases.
# Where there is no C compiler nothing is counted, and a line says so.
sweep_growths() {
    takes_crumbs || :
    local library=$scratch/refuse.so
    if ! command -v cc >/dev/null; then
        echo "skipped: there is no command 'cc' on the PATH to compile tests/growths/refuse.c with"
    elif ! cc -std=gnu11 -O1 -Wall -Wextra -shared -fPIC -o "$library" "$root/tests/growths/refuse.c" -ldl >"$scratch/log" 2>&1; then
        fail "tests/growths/refuse.c" "it can't be compiled: $(head -n 1 "$scratch/log")"
    else
        run_python tests/growths/sweep.py "$program" "$library" "$scratch/counts" "$@"
        if [[ -e $scratch/counts ]]; then cat "$scratch/counts"; fi
    fi
}
