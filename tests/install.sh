#!/usr/bin/env bash
# tools/install: what it installs, and where; and the man page, which has each word and each option of the program's help. That the page
# is what tools/words.py writes is a case of tests/generated.sh.
source "$(dirname "$(readlink -f "${BASH_SOURCE[0]}")")/lib/cases.sh"
source "$root/tests/lib/words.sh"
need_program

# ---- what is installed

installed="bin/lotbook share/bash-completion/completions/lotbook share/fish/vendor_completions.d/lotbook.fish share/man/man1/lotbook.1
share/zsh/site-functions/_lotbook"
# installs NAME FOLDER PREFIX [DESTDIR]: the files, and none beside them, are below the folder, and their names are printed.
installs() {
    DESTDIR=${4:-} "$root/tools/install" "$3" >"$scratch/out" 2>"$scratch/err" </dev/null
    status=$?
    (cd "$2" && find . -type f -o -type l) | sed 's|^\./||' | sort >"$scratch/found"
    tr ' ' '\n' <<<"$installed" | sort >"$scratch/wanted"
    if ((status != 0)) || [[ -s $scratch/err ]]; then
        fail "$1" "status $status, $(head -n 1 "$scratch/err")"
    elif ! cmp -s "$scratch/found" "$scratch/wanted"; then
        fail "$1" "$(tr '\n' ' ' <"$scratch/found")"
    elif [[ $(sort "$scratch/out") != "$(sed "s|^|$2/|" "$scratch/wanted")" ]]; then
        fail "$1" "it says $(head -n 2 "$scratch/out" | tr '\n' ' ')"
    else
        pass "$1"
    fi
}
installs "a folder" "$scratch/a folder" "$scratch/a folder"
installs "the same again" "$scratch/a folder" "$scratch/a folder/"
installs "below DESTDIR" "$scratch/stage/usr/local" /usr/local "$scratch/stage"
cmp -s "$program" "$scratch/a folder/bin/lotbook" && pass "it is the program" || fail "it is the program" "it isn't"
printf 'nothing held\n' >"$scratch/expected"
"$scratch/a folder/bin/lotbook" </dev/null >"$scratch/out" 2>"$scratch/err" && status=0 || status=$?
expect "it runs" 0 "$scratch/expected"
modes=$(cd "$scratch/a folder" && stat -c %a bin/lotbook share/man/man1/lotbook.1 share/zsh/site-functions/_lotbook | tr '\n' ' ')
if [[ $modes == "755 644 644 " ]]; then pass "all may read it"; else fail "all may read it" "$modes"; fi
for words in "" "usr/local" "/usr /usr"; do
    # shellcheck disable=SC2086
    "$root/tools/install" $words >"$scratch/out" 2>"$scratch/err" </dev/null && status=0 || status=$?
    if ((status == 2)); then says "install with '$words'" "install: it is called as tools/install PREFIX, .*"; else fail "install with '$words'" "status $status"; fi
done
touch "$scratch/file"
"$root/tools/install" "$scratch/file" >"$scratch/out" 2>"$scratch/err" </dev/null && status=0 || status=$?
if ((status == 1)) && [[ ! -s $scratch/out && -s $scratch/err ]]; then pass "a folder that can't be made"; else fail "a folder that can't be made" "status $status"; fi

# ---- the man page

page=$root/lotbook.1
# plain: the page's text, without what is troff's.
plain() { sed -E 's/\\f[BIR]//g; s/\\-/-/g; s/\\\(aq/'"'"'/g; s/\\e/\\/g; s/^\\&//' "$page"; }
plain >"$scratch/page"
missing=""
for word in "" $(words_in_help); do
    [[ ! $word ]] || grep -qxF -- ".SS $word" "$scratch/page" || missing+=" $word"
    [[ $word != help ]] || continue
    # The options of the word stand in its part of the page.
    awk -v word="$word" '/^\.S[SH] / { on = $0 == (word == "" ? ".SH OPTIONS" : ".SS " word) } on' "$scratch/page" >"$scratch/part"
    for option in $(options_in_help $word); do
        grep -qE -- "^(-[hV], )?$option( [A-Z-]+)?$" "$scratch/part" || missing+=" $word $option"
    done
done
if [[ ! $missing ]]; then pass "the page has each word and option"; else fail "the page has each word and option" "not$missing"; fi
parts=$(sed -n 's/^\.SH //p' "$page" | tr '\n' ',')
if [[ $parts == "NAME,SYNOPSIS,DESCRIPTION,OPTIONS,COMMANDS,EXIT STATUS,FILES,EXAMPLES,SEE ALSO," ]]; then pass "its parts"; else fail "its parts" "$parts"; fi
statuses=$(awk '/^\.SH EXIT/ { on = 1 } /^\.SH FILES/ { on = 0 } on && /^[0-9]$/' "$page" | tr '\n' ' ')
if [[ $statuses == "0 1 2 3 4 " ]]; then pass "the statuses"; else fail "the statuses" "$statuses"; fi
if command -v groff >/dev/null; then
    said=$(groff -ww -man -Tutf8 -z "$page" 2>&1)
    if [[ ! $said ]]; then pass "groff takes the page"; else fail "groff takes the page" "$(head -n 3 <<<"$said" | tr '\n' '|')"; fi
else
    echo "skipped: there is no groff on this machine"
fi
if man --help 2>/dev/null | grep -q -- --warnings; then
    said=$(MANWIDTH=100 man --warnings -l "$page" 2>&1 >"$scratch/shown")
    if [[ ! $said ]] && grep -q "total gain 378.80 USD" "$scratch/shown"; then pass "man shows it"; else fail "man shows it" "$(head -n 3 <<<"$said" | tr '\n' '|')"; fi
else
    echo "skipped: there is no man of man-db on this machine"
fi
finish
