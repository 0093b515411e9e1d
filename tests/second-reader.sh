#!/usr/bin/env bash
# The second reader of ledger text, in Python, which was written from docs/FORMATS.md: on what that page says, on ledgers drawn at
# random, which have to read back as their commands, and with the plain judge on the stored texts, whose answers it has to give.
# No program is run; tests/random.sh compares it with the program.
source "$(dirname "$(readlink -f "${BASH_SOURCE[0]}")")/lib/cases.sh"
run_python tests/random/text_cases.py
finish
