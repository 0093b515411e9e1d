#!/usr/bin/env bash
# What the program answers on books that others changed: rows that no book has, tables that are gone or of another form, columns that
# hold other types, rows without the one that belongs to them, names that are taken, the greatest number of an entry, and labels of each
# byte. SQLite's own library changes the books. Only `verify`, which meets each of these, reads the row of `migration`.
source "$(dirname "$(readlink -f "${BASH_SOURCE[0]}")")/lib/cases.sh"
in_memory
need_program
run_python tests/book/changed.py "$program" "$scratch"
finish
