#!/usr/bin/env bash
# Runs a command from nothing: in a clone of what is committed here, with a kit beside which no earlier run left proofs. Prints what it
# took, by the clock and of the processors.
#
#   bench/anew.sh env LOTBOOK_BUILD=1 ./lotbook      a first build of the program
#   bench/anew.sh bench/gate.sh                      the gate
#   taskset -c 0,1 bench/anew.sh bench/gate.sh       the gate on two processors
#
# The kit keeps what it passed in a folder beside its own. So its files are linked into another folder, which takes no room where that
# is on the same disk. What the command leaves in bench/out/ is copied here; all else goes again in the end.
set -u -o pipefail

cd "$(dirname "$(readlink -f "${BASH_SOURCE[0]}")")/.." || exit 1
if ((!$#)) || ! rt=$(command -v rt); then
    echo "anew.sh: it is given a command, and needs the kit's command 'rt' on the PATH" >&2
    exit 2
fi
kit=$(dirname "$(dirname "$(readlink -f "$rt")")")
scratch=$(mktemp -d) || exit 1
trap 'rm -rf "$scratch"' EXIT

cp -al "$kit" "$scratch/kit" 2>/dev/null || { rm -rf "$scratch/kit" && cp -a "$kit" "$scratch/kit"; } || exit 1
git clone -q . "$scratch/repo" || exit 1
if [[ -n $(git status --porcelain) ]]; then echo "anew.sh: what isn't committed here is left out" >&2; fi
TIMEFORMAT='%R seconds by the clock; of the processors %U in programs, %S in the system'
time (cd "$scratch/repo" && PATH=$scratch/kit/bin:$PATH "$@" </dev/null) && status=0 || status=$?
if [[ -d $scratch/repo/bench/out ]]; then mkdir -p bench/out && cp -r "$scratch/repo/bench/out/." bench/out/; fi
exit "$status"
