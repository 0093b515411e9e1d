#!/usr/bin/env bash
# What tests/reports.sh shows, with a book of 100,000 entries.
exec "$(dirname "$(readlink -f "${BASH_SOURCE[0]}")")/../reports.sh" 97558
