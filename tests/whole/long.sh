#!/usr/bin/env bash
# Long runs of what the gate runs shortly, from other seeds: ledgers and broker files beside the judge and the readers in Python,
# reports beside plain ones, and stops at random moments. And each command of each stored case in a batch of its own.
#
#   tests/whole/long.sh [TIMES]    so many times 2,000 ledgers and the like; 10 where it is absent
source "$(dirname "$(readlink -f "${BASH_SOURCE[0]}")")/../lib/cases.sh"
in_memory
need_program

times=${1:-10}
run_python tests/random/compare.py "$program" --first 100001 --count $((2000 * times)) --changed 4 --crowded NONE FIFO LIFO HIFO
run_python tests/broker/compare.py "$program" --first 100001 --count $((400 * times))
if takes_crumbs; then
    run_python tests/broker/compare.py "$program" --crumbs --first 100001 --count $((200 * times))
    run_python tests/random/rounding.py "$program" "$scratch" --first 100001 --count $((300 * times))
fi
run_python tests/random/reports.py "$program" "$scratch" --first 100001 --count $((400 * times))
run_python tests/csv/compare.py "$program" "$scratch" --first 100001 --count $((200 * times))
run_python tests/book/batches.py "$program" "$root/tests/cases" "$scratch" --whole
run_python tests/migrate/stops.py "$program" "$scratch" --seed 2 --kills $((100 * times))
for ((seed = 2; seed < 2 + times; seed++)); do
    mkdir "$scratch/stops-$seed"
    run_python tests/book/stops.py "$program" "$scratch/stops-$seed" --seed "$seed"
    if takes_crumbs; then
        mkdir "$scratch/stops-$seed/crumbs"
        run_python tests/book/stops.py "$program" "$scratch/stops-$seed/crumbs" --seed "$seed" --crumbs
    fi
    mkdir "$scratch/stops-$seed/batch"
    run_python tests/book/stops.py "$program" "$scratch/stops-$seed/batch" --seed "$seed" --all-or-none
    rm -rf "$scratch/stops-$seed"
done
finish
