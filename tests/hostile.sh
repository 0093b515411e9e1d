#!/usr/bin/env bash
# Truncated and malicious input, a sample of it: texts and broker files that are cut, changed by a byte, or as long as may be; streams
# that come in pieces, fail, grow, end or are closed; files that are no book, books that someone changed; words and paths of every kind.
# Each sweep is one line, with its counts. Python's scripts in tests/hostile/ say what is asked of each; tests/whole/hostile.sh runs all.
#
#   tests/hostile.sh [--whole]
source "$(dirname "$(readlink -f "${BASH_SOURCE[0]}")")/lib/cases.sh"
in_memory
need_program

chmod 755 "$scratch" # some calls are made by a user who may do less
for subject in texts streams databases changed_bytes words broker_files; do
    mkdir "$scratch/$subject"
    run_python "tests/hostile/$subject.py" "$program" "$scratch/$subject" "$@"
    rm -rf "${scratch:?}/$subject"
done
finish
