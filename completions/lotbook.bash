# Completion of lotbook in bash: source completions/lotbook.bash
# Written by tools/pages.py from the subcommands of the program: change those, and run it again.

# The words of the program, and those of `help`; the codes of `explain`.
_lotbook_words="init migrate post import holdings gains register activity journal page dump reconcile restore verify explain help"
_lotbook_codes="N1 N2 N3 N4 M1 M2 M3 M4 M5 I1 B1 B2 B3 B4 B5 B6"
_lotbook_codes+=" L1 L2 L3 L4 L5 L6 L7 L8 L9 L10 L11 L12 L13 L14 L15 L16"
_lotbook_codes+=" X1 X2 X3 X4 X5 X6 X7 D1 D2 D3 D4 C1 C2 C3 C4 C5"
_lotbook_codes+=" C6 C7 S1 S2 S3 S4 S5 S6 S7 S8 P1 P2 P3 U1 U2 K1"
_lotbook_codes+=" K2 Memory open"

# _lotbook_options WORD: prints the options of a word, or of a call without one.
_lotbook_options() {
    case $1 in
        init) echo --book --dry-run --quiet --help ;;
        migrate) echo --book --dry-run --quiet --help ;;
        post)
            echo --book --batch --row-of --ref --from --rounding --within --decimals --dry-run --gains --holdings
            echo --all-or-none --explain-all --quiet --help
            ;;
        import)
            echo --book --batch --profile --invest --cash --fees --gains --from --except --rounding --within --decimals
            echo --dry-run --sales --holdings --all-or-none --explain-all --keep-accepted --show --quiet --help
            ;;
        holdings) echo --book --as-of --day --format --quiet --help ;;
        gains) echo --book --first --last --by --format --quiet --help ;;
        register) echo --book --account --commodity --first --last --format --quiet --help ;;
        activity) echo --book --account --first --last --by --format --quiet --help ;;
        journal) echo --book --quiet --help ;;
        page) echo --book --first --last --day --digest --quiet --help ;;
        dump) echo --book --quiet --help ;;
        reconcile) echo --book --account --as-of --format --quiet --help ;;
        restore)
            echo --book --edited --keep-going --without --without-batch --without-entries --compare --dry-run --quiet
            echo --help
            ;;
        verify) echo --book --digest --quiet --help ;;
        explain) echo --help ;;
        help) ;;
        *) echo --rounding --within --decimals --explain-all --quiet --help --version ;;
    esac
}

# _lotbook_offer KIND CHOICES: offers those of the choices, or of the files, that the word under the cursor begins.
_lotbook_offer() {
    mapfile -t COMPREPLY < <(compgen "$@" -- "$current")
}

_lotbook() {
    local current=${COMP_WORDS[COMP_CWORD]} at=$((COMP_CWORD - 1)) word= candidate
    # `--book=FILE` comes as three words.
    if [[ $current == "=" ]]; then
        current=
    elif [[ ${COMP_WORDS[at]} == "=" ]]; then
        at=$((at - 1))
    fi
    for candidate in "${COMP_WORDS[@]:1:COMP_CWORD-1}"; do
        if [[ " $_lotbook_words " == *" $candidate "* ]]; then
            word=$candidate
            break
        fi
    done
    COMPREPLY=()
    case ${COMP_WORDS[at]} in
        --book | --compare | --profile)
            compopt -o filenames 2>/dev/null
            _lotbook_offer -f
            return
            ;;
        --format)
            _lotbook_offer -W "text csv"
            return
            ;;
        --by)
            case $word in
                gains) _lotbook_offer -W "year commodity account term" ;;
                activity) _lotbook_offer -W "year quarter month" ;;
            esac
            return
            ;;
        --gains)
            case $word in import) return ;; esac
            ;;
        --account | --as-of | --batch | --cash | --commodity | --day | --decimals | --except | --fees | --first | --from | --invest | --last | --ref | --rounding | --row-of | --within | --without | --without-batch | --without-entries) return ;;
    esac
    if [[ $current == -* ]]; then
        _lotbook_offer -W "$(_lotbook_options "$word")"
    elif [[ -z $word || $word == help ]]; then
        _lotbook_offer -W "$_lotbook_words"
    elif [[ $word == explain ]]; then
        _lotbook_offer -W "$_lotbook_codes"
    else
        _lotbook_offer -W "$(_lotbook_options "$word")"
    fi
}

complete -F _lotbook lotbook
