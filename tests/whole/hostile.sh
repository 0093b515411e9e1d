#!/usr/bin/env bash
# All of what tests/hostile.sh takes a sample of: each of the 256 bytes at each place of its texts and broker files, 20,000 changes of a
# book's file, every form of each table.
exec "$(dirname "$(readlink -f "${BASH_SOURCE[0]}")")/../hostile.sh" --whole
