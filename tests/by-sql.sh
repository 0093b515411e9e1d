#!/usr/bin/env bash
# Reports beside what SQLite's own library finds in the tables of a book's file, and in nothing else: what was held at the end of past days,
# registers, activity, gains by keys, and what differs from statements (tests/csv/by_sql.py). No reader of the file needs the program for them.
source "$(dirname "$(readlink -f "${BASH_SOURCE[0]}")")/lib/books.sh"
in_memory
need_program
run_python tests/csv/by_sql.py "$program" "$scratch"
finish
