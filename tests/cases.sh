#!/usr/bin/env bash
# Every text under tests/cases/. The program reads NAME.ledger, writes NAME.expected, byte for byte, and ends with the status
# in the file `status` of the folder, or with 0 where the folder has no such file.
source "$(dirname "$(readlink -f "${BASH_SOURCE[0]}")")/lib/cases.sh"
need_program

shopt -s nullglob
for folder in "$root"/tests/cases/*/ "$root"/tests/cases/*/*/; do
    ledgers=("$folder"*.ledger) expected=("$folder"*.expected) folders=("$folder"*/)
    # A folder of folders needs no texts of its own.
    if ((${#folders[@]} && !${#ledgers[@]} && !${#expected[@]})); then continue; fi
    wanted=0
    if [[ -f $folder/status ]]; then wanted=$(<"$folder/status"); fi
    for ledger in "${ledgers[@]}"; do
        name=${ledger#"$root/tests/cases/"}
        run <"$ledger"
        expect "${name%.ledger}" "$wanted" "${ledger%.ledger}.expected"
    done
    # A text without expected output fails above; output without a text would otherwise go unnoticed.
    if ((${#ledgers[@]} == 0 || ${#ledgers[@]} != ${#expected[@]})); then
        fail "${folder#"$root/tests/cases/"}" "${#ledgers[@]} texts and ${#expected[@]} expected outputs"
    fi
done
finish
