#!/usr/bin/env bash
# What the pages take from the sources is what tools/pages.py writes: docs/CALLS.md, docs/DEFINITIONS.md, the crates and the scripts in
# docs/ARCHITECTURE.md, limits, words, codes and the map in docs/RULES.md, the headline in docs/PROVED.md, and that, the sizes and the
# prover's time in docs/RESEARCH.md; so are the man page and the completions. A code has one name in the definitions, in what `explain` says and in the pages.
source "$(dirname "$(readlink -f "${BASH_SOURCE[0]}")")/lib/cases.sh"
cd "$root" || exit 1
run_python tools/pages.py --check
finish
