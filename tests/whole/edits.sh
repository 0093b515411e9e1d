#!/usr/bin/env bash
# The edits beside the gate, crates/NAME/edits/*.edit: the prover has to refuse each. They are tried in a copy of the repository, in
# which they stand in the place of those that the gate tries, over the proofs that the gate kept. The copy stays in .git/edits, where there
# is a folder .git, so that a later run tries only what changed.
#
#   tests/whole/edits.sh [NAME..]    the edits of these crates alone
source "$(dirname "$(readlink -f "${BASH_SOURCE[0]}")")/../lib/cases.sh"

copy=$scratch/edits
if [[ -d $root/.git ]]; then copy=$root/.git/edits; fi
crates=("$@")
if ((!$#)); then
    for folder in "$root"/crates/*/edits; do
        if [[ -d $folder ]]; then crates+=("$(basename "$(dirname "$folder")")"); fi
    done
fi
if ((${#crates[@]} == 0)); then finish; fi

# The crates with edits and those below them, as they stand, but for the edits.
mkdir -p "$copy/crates" || exit 1
for crate in "${crates[@]}"; do "$root/tools/below" "$crate" || exit 1; done | awk '!seen[$0]++' >"$scratch/names"
for folder in "$copy"/crates/*/; do
    if ! grep -qx "$(basename "$folder")" "$scratch/names"; then rm -rf "$folder"; fi
done
if [[ -f $root/HANDLES ]]; then cp "$root/HANDLES" "$copy/"; fi
awk 'FNR == NR { wanted[$0] = 1; next } { name = $1; sub(/:$/, "", name) } name in wanted' "$scratch/names" "$root/crates.txt" >"$copy/crates.txt"
while IFS= read -r crate; do
    mkdir -p "$copy/crates/$crate"
    rm -rf "$copy/crates/$crate"/{src,specs,proofs,must-fail}
    for part in src specs proofs; do
        if [[ -d $root/crates/$crate/$part ]]; then cp -r "$root/crates/$crate/$part" "$copy/crates/$crate/"; fi
    done
done <"$scratch/names"
wanted=0
for crate in "${crates[@]}"; do
    mkdir "$copy/crates/$crate/must-fail" && cp "$root/crates/$crate"/edits/*.edit "$copy/crates/$crate/must-fail/" || exit 1
    wanted=$((wanted + $(ls "$copy/crates/$crate/must-fail" | wc -l)))
done

# The proofs of what they change are those that the gate kept, or an earlier run; else they are done first.
(cd "$copy" && rt ci "${crates[@]}") >"$scratch/log" 2>&1 </dev/null
for crate in "${crates[@]}"; do
    grep -qE "^rt: $crate (proved$|is kept:)" "$scratch/log" && continue
    tail -n 20 "$scratch/log"
    fail "the copy is proved" "the edits show nothing: $crate isn't"
    finish
done
pass "the copy is proved"

tried=0
while IFS= read -r line; do
    [[ $line =~ ^rt:\ must-fail\ ([^:]+):\ (.*)$ ]] || continue
    tried=$((tried + 1))
    case ${BASH_REMATCH[2]} in
        "refused, as it must be (only"*) pass "${BASH_REMATCH[1]}" && echo "${BASH_REMATCH[2]}" ;;
        "refused, as it must be"*) pass "${BASH_REMATCH[1]}" ;;
        *) fail "${BASH_REMATCH[1]}" "${BASH_REMATCH[2]}" ;;
    esac
done <"$scratch/log"
if ((tried == wanted)); then pass "each edit was tried"; else fail "each edit was tried" "$tried of $wanted"; fi
finish
