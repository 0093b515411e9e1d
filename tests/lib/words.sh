# The subcommands and options of the program, as its help lists them: for the scripts of tests/ that try each, which source it behind cases.sh.
# tests/completion.sh holds all other lists of the subcommands to this one.

# words_in_help: the subcommands, a line each, sorted.
words_in_help() { "$program" help </dev/null | sed -n '/^Commands:/,/^$/p' | sed -nE 's/^  ([a-z]+) .*/\1/p' | sort; }

# options_in_help [WORD]: the options of a subcommand, or of a call without one.
options_in_help() { "$program" "$@" -h </dev/null | sed -nE 's/^ +(-[A-Za-z], )?(--[a-z-]+).*/\2/p' | sort; }

# words_with OPTION [OTHER]: the subcommands that have the option, but for those that have the other one, too.
words_with() {
    local word options
    for word in $(words_in_help); do
        if [[ $word == help ]]; then continue; fi # it takes no option, but words
        options=" $(options_in_help "$word" | tr '\n' ' ')"
        if [[ $options == *" $1 "* && $options != *" ${2:-none} "* ]]; then echo "$word"; fi
    done
}
