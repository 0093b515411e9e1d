#!/usr/bin/env bash
# An account with about as many lots as it may have. Each text of tests/most-lots/ is read behind purchases of 9,999 lots, which
# are made here, and ends with the sale of all; its expected output stands behind the replies to the purchases.
source "$(dirname "$(readlink -f "${BASH_SOURCE[0]}")")/lib/cases.sh"
need_program

awk -v ledger="$scratch/purchases" -v replies="$scratch/replies" 'BEGIN {
    print "2020-01-01 open Assets:Many \"FIFO\"\n2020-01-01 open Equity:Start" >ledger
    print "1 accepted\n2 accepted" >replies
    number = 2
    for (n = 1; n <= 9999; n++) {
        printf "2020-01-01 *\n  Assets:Many 1 HOOL {%.8f USD}\n  Equity:Start\n", n / 100000000 >ledger
        print ++number " accepted" >replies
    }
}'
for ledger in "$root"/tests/most-lots/*.ledger; do
    name=${ledger##*/} && name=${name%.ledger}
    cat "$scratch/purchases" "$ledger" | run
    cat "$scratch/replies" "${ledger%.ledger}.expected" >"$scratch/expected"
    expect "$name" 1 "$scratch/expected"
done
finish
