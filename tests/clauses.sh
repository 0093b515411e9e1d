#!/usr/bin/env bash
# Clauses of contracts are read aloud: a line that begins one, or that says a fact, fits into 100 columns.
source "$(dirname "$(readlink -f "${BASH_SOURCE[0]}")")/lib/cases.sh"
cd "$root" || exit 1
run_python tests/clauses/width.py
finish
