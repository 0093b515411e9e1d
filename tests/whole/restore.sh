#!/usr/bin/env bash
# All of what tests/restore.sh runs shortly: `restore` killed 1,000 times; a book of 100,000 entries, and a migrated one, compared with the
# first table by table; each of the 255 other values of each byte of two dumps; books and edited dumps of other seeds.
#
#   tests/whole/restore.sh [TIMES]    so many times 400 books of each kind and 400 edited dumps; 5 where it is absent
source "$(dirname "$(readlink -f "${BASH_SOURCE[0]}")")/../lib/cases.sh"
in_memory
need_program

times=${1:-5}
# part SCRIPT WORDS..: runs a script of tests/restore/ in a folder of its own.
part() {
    mkdir "$scratch/part"
    run_python "tests/restore/$1" "$program" "$scratch/part" "${@:2}"
    rm -rf "${scratch:?}/part"
}

part row_for_row.py --entries 100000
part stopped.py --entries 1000 --kills 1000 --rooms 100 --seed 2
part stopped.py --entries 100000 --kills 6 --rooms 6 --seed 3
part hostile.py --whole
part books.py --first 100001 --count $((400 * times))
part edited.py --first 100001 --count $((100 * times))
finish
