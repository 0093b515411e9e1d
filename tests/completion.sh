#!/usr/bin/env bash
# The completions for bash, zsh and fish: the words, the options, the codes and the files that they offer, against the help of the
# program; and each list of the subcommands, in the completions, the man page and the pages, against that help. That completions and man
# page are what tools/words.py writes is a case of tests/generated.sh.
source "$(dirname "$(readlink -f "${BASH_SOURCE[0]}")")/lib/cases.sh"
source "$root/tests/lib/words.sh"
need_program
source "$root/completions/lotbook.bash"

# offered WORDS..: what is offered for the last of these words, sorted, a line each.
offered() {
    COMP_WORDS=(lotbook "$@") COMP_CWORD=$# COMPREPLY=()
    _lotbook
    printf '%s\n' "${COMPREPLY[@]}" | sort
}

# offers NAME WANTED WORDS..: exactly these lines are offered for the last of the words.
offers() {
    local got
    got=$(offered "${@:3}")
    if [[ $got == "$2" ]]; then
        pass "$1"
    else
        fail "$1" "offered '$(tr '\n' ' ' <<<"$got")' instead of '$(tr '\n' ' ' <<<"$2")'"
    fi
}

words=$(words_in_help)
(($(wc -l <<<"$words") > 7)) && pass "the help lists words" || fail "the help lists words" "$words"

# ---- the subcommands: what lists them lists those of the help, and no others

# lists_all NAME WORDS: the lines of this call's standard input are these words, whatever their order.
lists_all() {
    local wrong
    wrong=$(diff <(echo "$2") <(sort) | sed -n 's/^< /no /p; s/^> /also /p' | tr '\n' ',')
    if [[ ! $wrong ]]; then pass "$1"; else fail "$1" "$wrong"; fi
}
# between FROM TO FILE: the lines of a file from one that matches to the next one that matches.
between() { sed -n "/$1/,/$2/p" "$root/$3"; }
tr ' ' '\n' <<<"$_lotbook_words" | lists_all "lotbook.bash: the words" "$words"
between '^_lotbook_options()' '^}' completions/lotbook.bash | sed -nE 's/^        ([a-z]+)\).*/\1/p' | lists_all "lotbook.bash: the words with options" "$words"
between '^_lotbook_words()' '^}' completions/_lotbook | sed -nE "s/^        '([a-z]+):.*/\1/p" | lists_all "_lotbook: the words" "$words"
sed -nE "s/^complete -c lotbook -n '__lotbook_word_is' -a ([a-z]+) .*/\1/p" "$root/completions/lotbook.fish" | lists_all "lotbook.fish: the words" "$words"
sed -nE 's/.*contains -- \$token ([a-z ]+)$/\1/p' "$root/completions/lotbook.fish" | tr ' ' '\n' | lists_all "lotbook.fish: the words that a line may have" "$words"
sed -nE "s/.*'__lotbook_word_is help' -a '([a-z ]+)'$/\1/p" "$root/completions/lotbook.fish" | tr ' ' '\n' | lists_all "lotbook.fish: the words of help" "$words"
sed -nE 's/^\.SS ([a-z]+)$/\1/p' "$root/lotbook.1" | lists_all "lotbook.1: the words" "$words"

# The pages name each but `help`, which says what they say.
named=$(grep -vx help <<<"$words")
between '^## Subcommands' '^## Two' README.md | grep -oE '`[a-z]+[` ]' | tr -d '` ' | sort -u | lists_all "README.md: the words" "$named"
between '^| Subcommand and options' '^$' docs/RULES.md | sed -nE 's/^\| `([a-z]+) .*/\1/p' | lists_all "docs/RULES.md: the words" "$named"

# Each has a help of its own.
declare -A begun=()
for word in $words; do
    run help "$word" </dev/null
    begins=$(head -n 1 "$scratch/out")
    if ((status == 0)) && [[ $begins && ! ${begun[$begins]:-} ]] && grep -q "^Usage: lotbook $word " "$scratch/out"; then
        pass "the help of $word is its own"
    else
        fail "the help of $word is its own" "status $status: it begins with '$begins'${begun[$begins]:+, as that of ${begun[$begins]} does}"
    fi
    begun[${begins:-none}]=$word
done

# ---- bash

offers "the words" "$words" ""
offers "the words of help" "$words" help ""
offers "the words that begin so" $'import\ninit' i
offers "no word that begins so" "" x
for word in $words; do
    [[ $word != help ]] || continue
    options=$(options_in_help "$word")
    [[ -n $options ]] || fail "the help of $word" "no options"
    offers "the options of $word" "$options" "$word" -
    [[ $word == explain ]] || offers "the options of $word at once" "$options" "$word" ""
    offers "the options of $word behind one of the program" "$options" --quiet "$word" --
done
offers "the options of a call without a word" "$(options_in_help)" -
codes=$("$program" explain | sed 's/[ :].*//' | sort)
offers "the codes" "$codes" explain ""
offers "the codes that begin so" "$(grep '^B' <<<"$codes")" explain B
offers "the option that begins so" "--batch" post --book f --ba

# Files for --book and --profile, in both forms; no value is offered for other options.
mkdir "$scratch/books" && cd "$scratch/books" || exit 1
touch family.book "a book" post
offers "the books" $'a book\nfamily.book\npost' post --book ""
offers "the books that begin so" "family.book" holdings --book fa
offers "a book behind =" "family.book" holdings --book = fa
offers "all books behind =" $'a book\nfamily.book\npost' holdings --book =
offers "a name with a space" "a book" holdings --book a
for word in $words; do
    [[ $word != help && $word != explain ]] || continue
    for option in $(options_in_help "$word"); do
        case $option in
            --book | --compare | --profile) offers "$word $option" "family.book" "$word" "$option" fa ;;
            --quiet | --dry-run | --sales | --holdings | --all-or-none | --explain-all | --digest | --edited | --keep-accepted | --keep-going | --show | --help)
                offers "$word $option" "$(options_in_help "$word")" "$word" "$option" ""
                ;;
            --gains)
                if [[ $word == post ]]; then choices=$(options_in_help post); else choices=""; fi
                offers "$word $option" "$choices" "$word" "$option" ""
                ;;
            --format) offers "$word $option" $'csv\ntext' "$word" "$option" "" ;;
            --by)
                if [[ $word == activity ]]; then choices=$'month\nquarter\nyear'; else choices=$'account\ncommodity\nterm\nyear'; fi
                offers "$word $option" "$choices" "$word" "$option" ""
                ;;
            *) offers "$word $option" "" "$word" "$option" "" ;;
        esac
    done
done

# ---- zsh and fish

# names FILE: the file has each word, each option and each code; a shell that is there takes it.
names() {
    local word option missing=""
    for word in $words $codes; do grep -qw -- "$word" "$root/completions/$1" || missing+=" $word"; done
    for word in "" $words; do
        [[ $word != help ]] || continue
        for option in $(options_in_help $word); do grep -qE -- "(--|-l )${option#--}[^a-z-]" "$root/completions/$1" || missing+=" $option"; done
    done
    if [[ ! $missing ]]; then pass "$1 names all"; else fail "$1 names all" "not$missing"; fi
}
# read_by SHELL FILE: it reads the file without a complaint.
read_by() {
    if said=$("$1" -n "$root/completions/$2" 2>&1) && [[ ! $said ]]; then pass "$1 reads $2"; else fail "$1 reads $2" "$said"; fi
}
for file in lotbook.bash _lotbook lotbook.fish; do names "$file"; done
read_by bash lotbook.bash

# lists NAME WANTED LINE: fish offers exactly these lines for the last word of a line.
lists() {
    local got
    got=$(HOME=$scratch XDG_DATA_HOME=$scratch XDG_CONFIG_HOME=$scratch fish --no-config -c "source \"$root/completions/lotbook.fish\"; complete -C '$3'" |
        cut -f 1 | sort)
    if [[ $got == "$2" ]]; then pass "fish: $1"; else fail "fish: $1" "'$(tr '\n' ' ' <<<"$got")' instead of '$(tr '\n' ' ' <<<"$2")'"; fi
}
if command -v fish >/dev/null; then
    read_by fish lotbook.fish
    lists "the words" "$words" "lotbook "
    lists "the words of help" "$words" "lotbook help "
    lists "the codes" "$codes" "lotbook explain "
    lists "the options of a call without a word" "$(options_in_help)" "lotbook --"
    for word in $words; do
        [[ $word == help ]] || lists "the options of $word" "$(options_in_help "$word")" "lotbook --quiet $word --"
    done
    lists "the books that begin so" "family.book" "lotbook post --book fam"
    lists "the formats" $'csv\ntext' "lotbook gains --format "
    lists "no batch" "" "lotbook post --batch "
else
    echo "skipped: there is no fish on this machine"
fi

if command -v zsh >/dev/null; then
    read_by zsh _lotbook
    typed=() wanted=()
    # makes WANTED TYPED: zsh makes this of such a line; its last blank, or the `=` of an option with a value, isn't compared.
    makes() {
        wanted+=("$1")
        typed+=("$2")
    }
    for word in $words; do
        makes "lotbook $word" "lotbook ${word%?}"
        makes "lotbook help $word" "lotbook help ${word%?}"
        [[ $word != help ]] || continue
        options=$(options_in_help "$word")
        for option in $options; do
            # Without its last letter it may be the begin of another, too: `--b` of `--book` and `--by`.
            made=$option
            if printf '%s\n' $options | grep -- "^${option%?}" | grep -qv -- "^$option"; then made=${option%?}; fi
            makes "lotbook --quiet $word $made" "lotbook --quiet $word ${option%?}"
        done
    done
    for option in $(options_in_help); do makes "lotbook $option" "lotbook ${option%?}"; done
    makes "lotbook explain B2" "lotbook explain B2"
    makes "lotbook explain Memory" "lotbook explain Mem"
    makes "lotbook gains --format csv" "lotbook gains --format c"
    makes "lotbook gains --format=text" "lotbook gains --format=t"
    makes "lotbook post --book family.book" "lotbook post --book fam"
    makes "lotbook post --book=family.book" "lotbook post --book=fam"
    makes "lotbook post --batch fam" "lotbook post --batch fam"
    mkdir "$scratch/zsh" && touch "$scratch/zsh/family.book"
    printf '%s\n' "${typed[@]}" | python3 -B "$root/tests/lib/zsh.py" "$scratch/zsh" "$root/completions" 2>&1 | sed 's/[ =]$//' >"$scratch/got"
    printf '%s\n' "${wanted[@]}" >"$scratch/wanted"
    if ((${#wanted[@]} > 40)) && cmp -s "$scratch/got" "$scratch/wanted"; then
        pass "zsh completes words, options, codes and files"
    else
        fail "zsh completes words, options, codes and files" "$(diff "$scratch/wanted" "$scratch/got" | head -n 6 | tr '\n' '|')"
    fi
else
    echo "skipped: there is no zsh on this machine"
fi

finish
