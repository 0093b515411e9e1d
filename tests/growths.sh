#!/usr/bin/env bash
# Each growth of memory refused in turn, alone and with all that follow: what the program then answers, what the tables hold, and what
# comes of the same input sent again. tests/growths/sweep.py says what has to hold. Of the short calls each growth is refused: no words,
# words that ask for help or can't be used, files that can't be opened, and `post` of the first purchase. Of the others some are;
# tests/whole/growths.sh refuses each.
source "$(dirname "$(readlink -f "${BASH_SOURCE[0]}")")/lib/cases.sh"
source "$root/tests/lib/growths.sh"
need_program
sweep_growths "$@"
finish
