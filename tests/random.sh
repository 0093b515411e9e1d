#!/usr/bin/env bash
# The program beside a plain judge and a second reader in Python, which were written from docs/RULES.md and docs/FORMATS.md alone:
# on some thousand small ledgers that are drawn from fixed seeds, on texts of them that are changed at random, most of which are
# faulty, and on ledgers of 10,000 lots. Each whole answer is compared, byte for byte, with its status. Every kind of refusal and
# booking, every order in which two or three lots that tie can be opened, every form of a line and every fault of text has to occur.
# Ledgers with crumbs go to calls with a rounding account, in memory and in files. tests/random/compare.py and
# tests/random/rounding.py say how to repeat one seed.
source "$(dirname "$(readlink -f "${BASH_SOURCE[0]}")")/lib/cases.sh"
in_memory
need_program
run_python tests/random/compare.py "$program" "$@"
if (($# == 0)) && takes_crumbs; then run_python tests/random/rounding.py "$program" "$scratch"; fi
finish
