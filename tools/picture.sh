#!/usr/bin/env bash
# Draws docs/page.png, the picture of a page that README.md shows: the page of the book of examples/year.ledger, as Chromium draws it.
#
#   tools/picture.sh [PAGE]    of another page, where one is named
set -eu -o pipefail

root=$(dirname "$(dirname "$(readlink -f "${BASH_SOURCE[0]}")")")
scratch=$(mktemp -d)
trap 'rm -rf "$scratch"' EXIT
page=${1:-$scratch/year.html}
if (($# == 0)); then
    "$root/lotbook" init --book "$scratch/year.book" </dev/null >"$scratch/said"
    "$root/lotbook" post --book "$scratch/year.book" --batch year --quiet <"$root/examples/year.ledger" >"$scratch/said"
    "$root/lotbook" page --book "$scratch/year.book" --last 2023-12-31 </dev/null >"$page"
fi
chromium --headless=new --no-sandbox --disable-gpu --hide-scrollbars --user-data-dir="$scratch/profile" --window-size=1200,900 \
    --blink-settings=preferredColorScheme=1 --screenshot="$root/docs/page.png" "file://$(readlink -f "$page")" 2>"$scratch/said"
