#!/usr/bin/env bash
# What `lotbook explain` says: held to the codes of docs/RULES.md, and each of its examples is run. The refused one gets exactly the code,
# the accepted one none.
source "$(dirname "$(readlink -f "${BASH_SOURCE[0]}")")/lib/books.sh"
need_program

# The codes of the pages, a line each: the code and its name. Those of dumps have their letter apart. Those without a code stand in the
# paragraph behind the table.
awk '/^## All codes/ { inside = 1 } /^Two faults have no code/ { exit } inside && /^\| / { print }' "$root/docs/RULES.md" |
    sed -E 's/^\| `([A-Z])` ([0-9]+) `/| `\1\2 /' |
    grep -oE '[A-Z][0-9]+ [A-Z][A-Za-z0-9]+' >"$scratch/codes"
printf 'Memory\nopen\n' >>"$scratch/codes"

run explain </dev/null
cp "$scratch/out" "$scratch/all"
if ((status == 0)) && [[ ! -s $scratch/err ]]; then pass "all codes, a line each"; else fail "all codes, a line each" "status $status"; fi
sed -E 's/^([A-Za-z0-9]+( [A-Za-z0-9]+)?): .+$/\1/' "$scratch/all" | sort >"$scratch/listed"
sort "$scratch/codes" >"$scratch/sorted"
if cmp -s "$scratch/listed" "$scratch/sorted"; then
    pass "the codes of the pages, with their names"
else
    fail "the codes of the pages, with their names" "$(diff "$scratch/sorted" "$scratch/listed" | head -n 4 | tr '\n' '|')"
fi

# example FILE WORD: the lines of the example under the heading that begins with that word.
example() {
    awk -v word="$2" '
        /^[A-Z]/ { inside = index($0, word) == 1 }
        inside && /^    / { print substr($0, 5) }
    ' "$1"
}

# answer KIND FILE: what the program writes of an example, on both streams.
answer() {
    local folder=$scratch/example
    rm -rf "$folder" && mkdir "$folder" || return
    case $1 in
        "ledger text") "$program" <"$2" 2>&1 ;;
        "a broker file") openings | book_of "$folder/rows.book" accounts && "$program" import --book "$folder/rows.book" --batch deals "${accounts[@]}" <"$2" 2>/dev/null ;;
        calls)
            ln -s "$program" "$folder/lotbook"
            sed 's/^\$ //' "$2" | (cd "$folder" && PATH=.:$PATH timeout 600 sh) 2>&1
            ;;
    esac
}

# codes FILE: the codes that an answer has, each once.
codes() { grep -E '^([0-9]+ refused|([0-9]+ )?fault) ' "$1" | grep -oE '\b([A-Z][0-9]+ [A-Z][A-Za-z0-9]+|Memory|open)\b' | sort -u; }

# A number, a name or a day that is outside its rule is told by another code of the text or the file.
told_as() {
    case $1 in
        N1 | M3) echo "C2 BadRow" ;;
        N2 | N3 | N4) echo "X4 BadNumber" ;;
        M1 | M2 | M5) echo "X5 BadName" ;;
        M4) echo "X6 BadDay" ;;
        open) echo open ;;
        *) echo "$1 $2" ;;
    esac
}

while read -r code name; do
    run explain "$code" </dev/null
    cp "$scratch/out" "$scratch/explained"
    first=$(head -n 1 "$scratch/explained")
    if ((status != 0)) || [[ $first != "$code${name:+ $name}: "* ]]; then
        fail "$code" "status $status, and the first line is $first"
        continue
    fi
    if ! grep -q '^Read on: docs/[A-Z]*\.md, ' "$scratch/explained"; then
        fail "$code" "it names no page to read on"
        continue
    fi
    page=$(sed -n 's/^Read on: \(docs\/[A-Z]*\.md\), \(.*\)$/\1:\2/p' "$scratch/explained" | head -n 1)
    if ! grep -qx "#* ${page#*:}" "$root/${page%%:*}"; then
        fail "$code" "$page has no such part"
        continue
    fi
    kind=$(sed -n 's/^Refused, \(.*\):$/\1/p' "$scratch/explained" | head -n 1)
    if [[ -z $kind ]]; then
        pass "$code, without an example"
        continue
    fi
    example "$scratch/explained" Refused >"$scratch/refused"
    example "$scratch/explained" Accepted >"$scratch/accepted"
    answer "$kind" "$scratch/refused" >"$scratch/answer"
    wanted=$(told_as "$code" "$name")
    found=$(codes "$scratch/answer" | tr '\n' ',')
    if [[ $code == U1 ]]; then wanted="" found=$(grep -q '^Usage:' "$scratch/answer" || echo "no usage,"); fi
    if [[ $found == "${wanted:+$wanted,}" ]]; then pass "$code: the refused example"; else fail "$code: the refused example" "codes $found"; fi
    answer "$kind" "$scratch/accepted" >"$scratch/answer"
    found=$(codes "$scratch/answer" | tr '\n' ',')
    if [[ -s $scratch/answer && -z $found ]]; then pass "$code: the accepted example"; else fail "$code: the accepted example" "codes $found"; fi
done <"$scratch/codes"

# The causes of C2 that docs/FORMATS.md lists by a profile, and some of those of a broker file.
{
    awk '/^NoTable, TwoTables / { on = 1 } on && /^```/ { exit } on { print substr($0, 1, 23) }' "$root/docs/FORMATS.md" | tr -d , | tr ' ' '\n' | grep .
    printf '%s\n' Ref Date Action Symbol Units Price Currency Fee Lot
} >"$scratch/causes"
while read -r cause; do
    run explain "$cause" </dev/null
    if ((status == 0)) && [[ $(grep -c "^C2 BadRow $cause: " "$scratch/out") == 1 && $(tail -n 2 "$scratch/out") == "Read on: docs/FORMATS.md, Faults"* ]]; then
        pass "the cause $cause"
    else
        fail "the cause $cause" "status $status, and $(head -n 1 "$scratch/out")"
    fi
done <"$scratch/causes"

# Other words.
"$program" explain B2 >"$scratch/one" 2>/dev/null </dev/null
for word in b2 Ambiguous ambiguous AMBIGUOUS; do
    run explain "$word" </dev/null
    expect "$word is B2 Ambiguous" 0 "$scratch/one"
done
run explain Range </dev/null
if ((status == 0)) && [[ $(grep -cE '^(I1|L11|P1) Range: ' "$scratch/out") == 3 ]]; then
    pass "a name of several codes"
else
    fail "a name of several codes" "status $status"
fi
for words in "L17 L1" "Ambigous Ambiguous" "unknownacount UnknownAccount" "x X1" "Disagre Disagree"; do
    read -r word nearest <<<"$words"
    run explain "$word" </dev/null
    if ((status == 2)) && [[ ! -s $scratch/out && $(<"$scratch/err") == "lotbook: there is no code '$word'; the nearest is $nearest: "* ]]; then
        pass "no code: $word"
    else
        fail "no code: $word" "status $status: $(head -c 200 "$scratch/err")"
    fi
done
# What a profile may say: each key of the profiles of profiles/ is named, and the notes stand behind all else.
run explain profile </dev/null
if ((status == 0)) && [[ ! -s $scratch/err && $(tail -n 1 "$scratch/out") == "Columns: "* ]]; then
    pass "a profile, with the notes"
else
    fail "a profile, with the notes" "status $status: $(tail -n 1 "$scratch/out")"
fi
sed -E -n 's/^([a-z-]+) *=.*/\1/p; s/^\[\[?([a-z.-]+)\]\]?.*/\1/p' "$root"/profiles/*.toml | tr . '\n' | sort -u >"$scratch/keys"
unnamed=$(while IFS= read -r key; do grep -qwF -e "$key" "$scratch/out" || echo "$key"; done <"$scratch/keys")
if [[ -s $scratch/keys && ! $unnamed ]]; then pass "the keys of profiles"; else fail "the keys of profiles" "$unnamed"; fi
run_full explain </dev/null
stops "all codes on a full disk"
run_full explain profile </dev/null
stops "a profile on a full disk"
run_full explain B2 </dev/null
stops "a code on a full disk"
finish
