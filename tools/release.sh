#!/usr/bin/env bash
# Brings release/ up to date: proves and builds the program here, packs it, and writes what it is made from beside it. To be run at
# the end of a change, behind a gate that passed, and committed by itself.
#
# release/lotbook.gz is the program, packed; release/sums has its sums, as tools/sums prints them.
set -u -o pipefail

cd "$(dirname "$(readlink -f "${BASH_SOURCE[0]}")")/.." || exit 1
program=crates/lotbook/out/lotbook

LOTBOOK_BUILD=1 ./lotbook </dev/null >/dev/null || exit 1
mkdir -p release || exit 1
gzip -9n <"$program" >release/lotbook.gz || exit 1
cp crates/lotbook/out/sums release/sums && cat release/sums
