#!/usr/bin/env bash
# The pages: their links lead somewhere, the README is short, its text is the stored one and it names
# the kit that is here and that of release/, the version is that of the program, no cell of a table is
# long, PROVED.md and RESEARCH.md are short, people wrote at most 25,000 words of all pages, the names
# that PROVED.md, the wrong bodies of PROMISES.md and the map of RULES.md cite are those of the crates
# and of tests/, the paths that CONTRIBUTING.md names are there, and a section that code names is one
# of the page.
source "$(dirname "$(readlink -f "${BASH_SOURCE[0]}")")/lib/cases.sh"
cd "$root" || exit 1

# none NAME: fails where this call's standard input has lines, and says which.
none() {
    local found
    found=$(head -n 20 | tr '\n' ' ')
    if [[ -z $found ]]; then pass "$1"; else fail "$1" "$found"; fi
}

# The anchors of a page's headings.
anchors() { sed -n 's/^##* //p' "$1" | tr 'A-Z' 'a-z' | sed 's/[^a-z0-9_ -]//g; s/ /-/g'; }

pages=(README.md CHANGELOG.md CONTRIBUTING.md SECURITY.md docs/*.md)
for page in "${pages[@]}"; do
    grep -o '](\([^)]*\))' "$page" | sed 's/^](\(.*\))$/\1/' | while IFS= read -r link; do
        file=$page
        if [[ ${link%%#*} ]]; then file=$(dirname "$page")/${link%%#*}; fi
        if [[ ! -e $file ]]; then
            echo "$link"
        elif [[ $link == *'#'* ]]; then
            anchors "$file" | grep -qxF -- "${link#*#}" || echo "$link"
        fi
    done | none "links of $page"
done

# The text that the README's session begins with is the stored one; tests/guide.sh runs the session.
awk '/^    [$] cat examples/ { on = 1; next } on && /^    [$]/ { exit } on { print substr($0, 5) }' README.md |
    diff - "$examples/first-sale.ledger" | none "the README's first-sale.ledger"

# short PAGE MOST: the page has at most so many words outside of what tools/pages.py writes.
short() {
    local words
    words=$(awk '/^<!-- pages.py: end/ { off = 0; next } /^<!-- pages.py: / { off = 1 } !off' "$1" | wc -w)
    if ((words <= $2)); then pass "$1 is short"; else fail "$1 is short" "$words words"; fi
}
short README.md 900
short docs/PROVED.md 3000
short docs/RESEARCH.md 1500

# by_hand PAGE..: the words that people wrote there: none that tools/pages.py writes, none of a block of code, no mark of a table.
by_hand() {
    awk 'FNR == 1 { off = code = 0 }
        /^<!-- pages.py: end/ { off = 0; next }
        /^<!-- pages.py: / { off = 1 }
        /^```/ { code = !code; next }
        off || code || /^    / { next }
        { for (at = 1; at <= NF; at++) words += $at ~ /[[:alnum:]]/ }
        END { print words + 0 }' "$@"
}
mapfile -t written < <(printf '%s\n' "${pages[@]}" | grep -vE '^docs/(CALLS|DEFINITIONS)\.md$')
words=$(by_hand "${written[@]}")
if ((words <= 25000)); then pass "the words by hand"; else fail "the words by hand" "$words, of at most 25,000"; fi

# The kits that README names have to be those that it was proved and built with: the one that is here, and that of release/.
{ if command -v rt >/dev/null; then rt version; fi && sed -n 's/^kit //p' release/sums 2>/dev/null; } | sort -u |
    while IFS= read -r kit; do grep -qF -- "\`$kit\`" README.md || echo "$kit"; done | none "the kits that the README names"

# The version stands in the program, and is that of the first heading of CHANGELOG.md. tests/program.sh asks the program for it.
version=$(sed -n 's/^const VERSION: &str = "\(.*\)";$/\1/p' crates/lot_args/src/program.rt)
{
    grep -m 1 '^## ' CHANGELOG.md | grep -vxF -- "## $version" || :
    grep -onE 'lotbook [0-9]+\.[0-9]+\.[0-9]+' "${pages[@]}" | grep -v -- ":lotbook $version\$" || :
} | none "the version that the pages name"

# Words in quotes of code that are paths: of files, of folders, and with NAME or * for a part.
grep -oE '`[^`]+`' CONTRIBUTING.md | tr -d '`' | grep -E '^[A-Za-z._*-]+/[^ ]*$' | sort -u | while IFS= read -r path; do
    compgen -G "${path//NAME/*}" >/dev/null || echo "$path"
done | none "paths in CONTRIBUTING.md"

# A cell of two lines has some 250 bytes.
awk -F ' [|] ' '/^\|/ { for (at = 1; at <= NF; at++) if (length($at) > 250) print FILENAME ":" FNR }' README.md CONTRIBUTING.md docs/*.md | none "long cells of tables"

find crates -path '*/out' -prune -o \( -name '*.rt' -o -name '*.antt' \) -exec grep -hoE 'docs/[A-Z]+\.md, [A-Z][A-Za-z ]*[);]' {} + | sort -u |
    while IFS=, read -r page section; do
        section=${section# } section=${section%[);]}
        grep -qxE "#+ $section" "$page" || echo "$page, $section"
    done | none "sections that code names"

# Words of the code and of the definitions, of names of their modules, and of tests/.
{
    find crates -path '*/out' -prune -o \( -path '*/src/*' -o -path '*/specs/*' \) -type f -print | while IFS= read -r file; do
        echo "$file"
        cat "$file"
    done
    ls . crates crates/*/must-fail crates/*/edits tests tests/whole tests/cases tests/cases/text
} | grep -oE '[A-Za-z_][A-Za-z_0-9-]*' | sort -u >"$scratch/known"
{ cat "$scratch/known" && tr '-' '\n' <"$scratch/known"; } | sort -u >"$scratch/words"

# cited FILE LINES FROM TO: the words in quotes of code in the lines that match, from one that begins with FROM to one with TO.
cited() {
    awk -v lines="$2" -v from="$3" -v to="$4" 'index($0, from) == 1 { on = 1 } on && index($0, to) == 1 { exit } on && $0 ~ lines' "$1" |
        grep -oE '`[^`]+`' | grep -oE '[A-Za-z_][A-Za-z_0-9-]*' | grep -vE '^[A-Z]$' | sort -u
}
cited docs/PROVED.md . "## The theorem" "## The end" | comm -23 - "$scratch/words" | none "names in docs/PROVED.md"
cited docs/PROMISES.md '^[|]' "## Wrong bodies" "## What isn't" | comm -23 - "$scratch/words" | none "names of wrong bodies in docs/PROMISES.md"
cited docs/RULES.md '^[|]' "## Map" "## The end" | comm -23 - "$scratch/words" | none "names in the map of docs/RULES.md"

finish
