#!/usr/bin/env bash
# Each growth of memory refused in turn, as in tests/growths.sh, here of all calls: `init`, `migrate`, `verify`, dry runs, sales, prices,
# a journal, broker files that come twice, every kind of command and refusal, and the reports, on new and on filled books.
#
#   tests/whole/growths.sh [--only TEXT]    the calls whose names have that text in them
source "$(dirname "$(readlink -f "${BASH_SOURCE[0]}")")/../lib/cases.sh"
source "$root/tests/lib/growths.sh"
need_program
sweep_growths --whole "$@"
finish
