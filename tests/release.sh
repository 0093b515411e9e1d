#!/usr/bin/env bash
# The program that release/ holds: it is the one that release/sums names, and where its sources are those that stand here, it is to
# the byte the one that was built here from the proofs. That it is of other sources is no failure: it is brought up to date at the
# end of a change (tools/release.sh).
source "$(dirname "$(readlink -f "${BASH_SOURCE[0]}")")/lib/cases.sh"

# held WORD: what release/sums says.
held() { sed -n "s/^$1 //p" "$root/release/sums" 2>/dev/null; }

if [[ ! -e $root/release ]]; then
    echo "there is no release/"
    finish
fi
if gzip -dc "$root/release/lotbook.gz" >"$scratch/released" && [[ $(sha256sum <"$scratch/released") == "$(held program)  -" ]]; then
    pass "release/ holds the program that it names"
else
    fail "release/ holds the program that it names" "$(held program)"
fi
if [[ $(held kit) != "$(rt version)" ]]; then
    echo "release/ is of another kit: $(held kit)"
elif [[ $("$root/tools/sources" "$(held kit)") != "$(held sources)" ]]; then
    echo "release/ is of other sources: $(held sources)"
else
    need_program
    if cmp -s "$program" "$scratch/released"; then
        pass "the program that was built here is to the byte the one of release/"
    else
        fail "the program that was built here is to the byte the one of release/" "$(sha256sum <"$program")"
    fi
fi
finish
