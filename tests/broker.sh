#!/usr/bin/env bash
# Imports of the program beside a second reader of broker files and a plain judge in Python, which were written from
# docs/FORMATS.md and docs/RULES.md alone; records are cut by Python's `csv`. Some thousand files are drawn from fixed seeds: some
# come again, with other rows and in the other version, some have fields at the edges of the rules, and some are changed at
# random. Each whole answer is compared, byte for byte, with its status, and then what is held. Every fault and every refusal that a row can
# meet has to occur. Files whose rows leave crumbs go to calls with a rounding account. tests/broker/compare.py says how to repeat one seed.
source "$(dirname "$(readlink -f "${BASH_SOURCE[0]}")")/lib/cases.sh"
in_memory
need_program
run_python tests/broker/compare.py "$program" "$@"
if (($# == 0)) && takes_crumbs; then run_python tests/broker/compare.py "$program" --crumbs --count 100; fi
finish
