#!/usr/bin/env bash
# Profiles by a second reader in Python, tests/profile/reader.py, which was written from the rules of profiles alone: eight made years whose
# truth tests/profile/world.py kept while they were made, the examples in profiles/, and small cases of faults. tests/profile/program.py
# compares the program with it. tests/profile/splits.py tries what becomes of splits. Where Python has no tomllib (below 3.11) the cases
# are said to be skipped.
source "$(dirname "$(readlink -f "${BASH_SOURCE[0]}")")/lib/cases.sh"
need_program
run_python tests/profile/compare.py
run_python tests/profile/program.py "$program"
run_python tests/profile/splits.py "$program"
finish
