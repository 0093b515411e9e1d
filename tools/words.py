"""Writes what stands of the subcommands outside the program: the man page lotbook.1, and the completions of bash, zsh and fish.

tools/pages.py calls it, which writes these files and compares them. The subcommands and their options are `PROGRAM` and `WORDS` of
crates/lot_args/src/program.rt; what the program is and its statuses are the README's.
"""

import re
from collections import namedtuple
from pathlib import Path

ROOT = Path(__file__).resolve().parent.parent
NOTICE = "Written by tools/pages.py from the subcommands of the program: change those, and run it again."

Word = namedtuple("Word", "name usage brief about options")
Option = namedtuple("Option", "name value help is_repeated", defaults=(False,))

# What an option takes, where the shell can offer it: by what its value is called, and files by its name.
CHOICES = {"FORMAT": ("text", "csv"), "KEYS": ("year", "commodity", "account", "term"), "PERIOD": ("year", "quarter", "month")}
FILES = ("book", "compare", "profile")


# ---- the subcommands, from the code

TOKEN = re.compile(r'\s*(?://\s?(?P<comment>[^\n]*)|"(?P<string>(?:[^"\\]|\\.)*)"|(?P<name>\w+(?:::\w+)*)|(?P<mark>.))')


def tokens(text):
    for match in TOKEN.finditer(text):
        yield match.lastgroup, match.group(match.lastgroup)


class Reader:
    """Reads the values of constants: literals of structs, lists, texts and names."""

    def __init__(self, text, constants):
        self.left, self.constants, self.comments = list(tokens(text)), constants, []

    def next(self):
        kind, said = self.left.pop(0)
        if kind == "comment":
            self.comments.append(said.strip())
            return self.next()
        return kind, said

    def ahead(self):
        while self.left[0][0] == "comment":
            self.comments.append(self.left.pop(0)[1].strip())
        return self.left[0][1]

    def passes(self, mark):
        """Takes the mark where it comes next."""
        found = self.ahead() == mark
        if found:
            self.next()
        return found

    def list_to(self, end):
        found = []
        while not self.passes(end):
            found.append(self.value())
            self.passes(",")
        return found

    def value(self):
        while self.passes("&"):
            pass
        kind, said = self.next()
        if kind == "string":
            return re.sub(r"\\\n\s*", "", said).replace("\\n", "\n").replace('\\"', '"')
        if said == "[":
            return self.list_to("]")
        if self.passes("("):
            return (said, *self.list_to(")"))
        if self.passes("{"):
            above, self.comments, found = " ".join(self.comments).strip("`"), [], {}
            while not self.passes("}"):
                field = self.next()[1]
                self.passes(":")
                found[field] = self.value()
                self.passes(",")
            return {**found, "above": above}
        self.comments = []
        if said in self.constants:
            return Reader(self.constants[said], self.constants).value()
        return (said,)


def option(said):
    form, *value = said["form"]
    kind = form.rpartition("::")[2]
    value = value[0] if value else "N" if kind in ("Start", "Decimals") else ""
    return kind, Option(said["name"], value, said["help"], kind == "Repeated")


def word(said):
    """A subcommand. Its options come in the order of its help."""
    options = [option(it) for it in said["options"]]
    options = sorted(((kind == "LastFlag", it) for kind, it in options if kind != "Place"), key=lambda it: it[0])
    options = [*(it for _, it in options), Option("help", "", "Prints the help")]
    about = said["about"].split("\n\n")
    return Word(said["name"], said["above"], said["brief"].rstrip("."), about, options)


def program():
    """The program, its version, and its subcommands."""
    text = (ROOT / "crates/lot_args/src/program.rt").read_text()
    constants = dict(re.findall(r"^(?:pub\(crate\) )?const (\w+): [^=]* = ([^\n]*|.*?^[}\]]);$", text, re.M | re.S))
    whole = word(Reader(constants["PROGRAM"], constants).value())
    words = [word(it) for it in Reader(constants["WORDS"], constants).value()]
    version = constants["VERSION"].strip('"')
    whole.options.append(Option("version", "", "Prints the version"))
    words.append(Word("help", "help [SUBCOMMAND]", "Prints the help, of a subcommand where one is given", [], []))
    return whole, version, words


def short(help):
    """The beginning of what the help says of an option, for a list."""
    return re.split(r", as in |: |\. ", help)[0]


# ---- bash


def bash_lines(words, indent, limit=120):
    """Words as lines of a case: `echo` a line, none too long."""
    lines, line = [], "echo"
    for it in words:
        if len(indent + line) + 1 + len(it) > limit:
            lines.append(line)
            line = "echo"
        line += " " + it
    return [*lines, line]


def bash_choices(words):
    """Of each option with choices: the words that have it, and what offers them."""
    offers = {}
    for of in words:
        for it in of.options:
            if it.value in CHOICES:
                offers.setdefault(it.name, []).append((of.name, f'_lotbook_offer -W "{" ".join(CHOICES[it.value])}"'))
    return offers


def bash_mixed(words):
    """Of each option that has a value behind some words and none behind others: the words behind which it has one."""
    bare = {it.name for of in words for it in of.options if not it.value}
    valued = {}
    for of in words:
        for it in of.options:
            if it.value and it.name in bare:
                valued.setdefault(it.name, []).append(of.name)
    return valued


def bash(whole, words, codes):
    mixed = bash_mixed(words)
    takes_none = sorted(
        {f"--{it.name}" for of in words for it in of.options if it.value and it.value not in CHOICES and it.name not in (*FILES, *mixed)}
    )
    cases = []
    for of in [*words, None]:
        options = [f"--{it.name}" for it in (of or whole).options]
        label = of.name if of else "*"
        lines = bash_lines(options, " " * 12) if options else []
        if len(lines) == 1 and len(lines[0]) < 90:
            cases.append(f"        {label}) {lines[0]} ;;")
        elif lines:
            cases += [f"        {label})", *(f"            {it}" for it in lines), "            ;;"]
        else:
            cases.append(f"        {label}) ;;")
    choices = []
    for name, offers in bash_choices(words).items():
        choices.append(f"        --{name})")
        if len({offer for _, offer in offers}) == 1:
            choices.append(f"            {offers[0][1]}")
        else:
            choices += ["            case $word in", *(f"                {of}) {offer} ;;" for of, offer in offers), "            esac"]
        choices += ["            return", "            ;;"]
    for name, of in mixed.items():
        choices += [f"        --{name})", f"            case $word in {' | '.join(of)}) return ;; esac", "            ;;"]
    coded = "\n".join(f'_lotbook_codes+=" {" ".join(codes[at:at + 16])}"' for at in range(0, len(codes), 16)).replace("+=\" ", "=\"", 1)
    return BASH % {
        "notice": NOTICE,
        "words": " ".join(it.name for it in words),
        "codes": coded,
        "cases": "\n".join(cases),
        "files": " | ".join(f"--{it}" for it in FILES),
        "choices": "\n".join(choices),
        "none": " | ".join(takes_none),
    }


BASH = r"""# Completion of lotbook in bash: source completions/lotbook.bash
# %(notice)s

# The words of the program, and those of `help`; the codes of `explain`.
_lotbook_words="%(words)s"
%(codes)s

# _lotbook_options WORD: prints the options of a word, or of a call without one.
_lotbook_options() {
    case $1 in
%(cases)s
    esac
}

# _lotbook_offer KIND CHOICES: offers those of the choices, or of the files, that the word under the cursor begins.
_lotbook_offer() {
    mapfile -t COMPREPLY < <(compgen "$@" -- "$current")
}

_lotbook() {
    local current=${COMP_WORDS[COMP_CWORD]} at=$((COMP_CWORD - 1)) word= candidate
    # `--book=FILE` comes as three words.
    if [[ $current == "=" ]]; then
        current=
    elif [[ ${COMP_WORDS[at]} == "=" ]]; then
        at=$((at - 1))
    fi
    for candidate in "${COMP_WORDS[@]:1:COMP_CWORD-1}"; do
        if [[ " $_lotbook_words " == *" $candidate "* ]]; then
            word=$candidate
            break
        fi
    done
    COMPREPLY=()
    case ${COMP_WORDS[at]} in
        %(files)s)
            compopt -o filenames 2>/dev/null
            _lotbook_offer -f
            return
            ;;
%(choices)s
        %(none)s) return ;;
    esac
    if [[ $current == -* ]]; then
        _lotbook_offer -W "$(_lotbook_options "$word")"
    elif [[ -z $word || $word == help ]]; then
        _lotbook_offer -W "$_lotbook_words"
    elif [[ $word == explain ]]; then
        _lotbook_offer -W "$_lotbook_codes"
    else
        _lotbook_offer -W "$(_lotbook_options "$word")"
    fi
}

complete -F _lotbook lotbook
"""


# ---- zsh


def zsh_quoted(said):
    return "'" + said.replace("'", "'\\''") + "'"


def zsh_escaped(said):
    return re.sub(r"([\[\]:\\])", r"\\\1", said)


def zsh_option(it):
    """An option as `_arguments` reads it."""
    said = f"[{zsh_escaped(short(it.help))}]"
    if not it.value:
        alone = "(- *)" if it.name in ("help", "version") else ""
        letters = {"help": "-h", "version": "-V"}
        forms = f"{{{letters[it.name]},--{it.name}}}" if it.name in letters else ""
        return zsh_quoted(alone) + forms + zsh_quoted(said) if forms else zsh_quoted(f"--{it.name}{said}")
    if it.name in FILES:
        action = "_files"
    elif it.value in CHOICES:
        action = "(%s)" % " ".join(CHOICES[it.value])
    else:
        action = ""
    again = "*" if it.is_repeated else ""
    return zsh_quoted(f"{again}--{it.name}={said}:{it.value}:{action}")


def zsh(whole, words, codes):
    lines = ["#compdef lotbook", f"# Completion of lotbook in zsh. {NOTICE}", ""]
    lines += ["_lotbook_words() {", "    local -a subcommands=("]
    lines += [f"        {zsh_quoted(zsh_escaped(it.name) + ':' + it.brief)}" for it in words]
    lines += ["    )", "    _describe -t commands 'subcommand' subcommands", "}", ""]
    lines += ["_lotbook_codes() {", "    local -a codes=("]
    lines += [f"        {zsh_quoted(code + ':' + said)}" for code, said in codes]
    lines += ["    )", "    _describe -t codes 'code' codes", "}", ""]
    lines += ["_lotbook() {", "    local curcontext=$curcontext state line", "    typeset -A opt_args", "    _arguments -C \\"]
    lines += [f"        {zsh_option(it)} \\" for it in whole.options]
    lines += ["        '1: :_lotbook_words' \\", "        '*:: :->rest'", "    [[ $state == rest ]] || return", "    case $words[1] in"]
    for it in words:
        given = [zsh_option(of) for of in it.options]
        if it.name == "help":
            given.append("'1: :_lotbook_words'")
        elif it.name == "explain":
            given.append("'1: :_lotbook_codes'")
        lines.append(f"        {it.name})")
        lines += ["            _arguments \\", *(f"                {of} \\" for of in given[:-1]), f"                {given[-1]}", "            ;;"]
    lines += ["    esac", "}", "", '_lotbook "$@"', ""]
    return "\n".join(lines)


# ---- fish


def fish_quoted(said):
    return "'" + said.replace("\\", "\\\\").replace("'", "\\'") + "'"


def fish_option(it, of):
    letters = {"help": " -s h", "version": " -s V"}
    takes = ""
    if it.name in FILES:
        takes = " -r -F"
    elif it.value in CHOICES:
        takes = " -x -a " + fish_quoted(" ".join(CHOICES[it.value]))
    elif it.value:
        takes = " -x"
    return f"complete -c lotbook -n '__lotbook_word_is{of}'{letters.get(it.name, '')} -l {it.name}{takes} -d {fish_quoted(short(it.help))}"


def fish(whole, words, codes):
    names = " ".join(it.name for it in words)
    lines = [f"# Completion of lotbook in fish. {NOTICE}", ""]
    lines += ["# The subcommand of the line is one of these, or there is none where none is given.", "function __lotbook_word_is"]
    lines += ["    for token in (commandline -opc)", f"        if contains -- $token {names}", "            contains -- $token $argv"]
    lines += ["            return", "        end", "    end", "    test (count $argv) -eq 0", "end", "", "complete -c lotbook -f"]
    lines += [f"complete -c lotbook -n '__lotbook_word_is' -a {it.name} -d {fish_quoted(it.brief)}" for it in words]
    lines += [fish_option(it, "") for it in whole.options]
    for it in words:
        lines += [fish_option(of, " " + it.name) for of in it.options]
    lines.append(f"complete -c lotbook -n '__lotbook_word_is help' -a {fish_quoted(names)}")
    lines += [f"complete -c lotbook -n '__lotbook_word_is explain' -a {code} -d {fish_quoted(said)}" for code, said in codes]
    return "\n".join([*lines, ""])


# ---- the man page


def roff(said):
    """A text of a page in Markdown, or of the help, as troff reads it."""
    said = re.sub(r"\[([^\]]*)\]\([^)]*\)", r"\1", said).replace("\\", "\\e").replace("-", "\\-").replace("'", "\\(aq")
    said = re.sub(r"`([^`]*)`|\*\*([^*]*)\*\*", lambda it: f"\\fB{it[1] or it[2]}\\fR", said)
    return "\\&" + said if said.startswith(".") else said


def readme():
    """What the README says: what the program is, what it isn't, an example, and the statuses."""
    text = (ROOT / "README.md").read_text()
    is_for = re.search(r"^# lotbook\n\n(.*)\n", text, re.M)[1]
    is_not = re.search(r"^\*\*What it isn't\*\*: (.*)\n", text, re.M)[1]
    example = re.search(r"^    \$ cat examples/first-sale.*?\n\n", text, re.M | re.S)[0]
    statuses = re.search(r"^Status (0: .*)\.\n", text, re.M)[1]
    return is_for, is_not, re.sub(r"^    ", "", example.rstrip(), flags=re.M), re.findall(r"(\d): ([^;]*)", statuses)


def man_options(options):
    for it in options:
        letters = {"help": "\\fB\\-h\\fR, ", "version": "\\fB\\-V\\fR, "}
        name = f"{letters.get(it.name, '')}\\fB\\-\\-{roff(it.name)}\\fR"
        yield ".TP"
        yield name + (f" \\fI{roff(it.value)}\\fR" if it.value else "")
        yield roff(it.help.rstrip(".") + ".")


def manual(whole, version, words):
    is_for, is_not, example, statuses = readme()
    yield f'.\\" {NOTICE}'
    yield f'.TH LOTBOOK 1 "" "lotbook {version}" "User Commands"'
    yield ".ad l"
    yield ".nh"
    yield ".SH NAME"
    yield "lotbook \\- a lot book for investments"
    yield ".SH SYNOPSIS"
    yield "\\fBlotbook\\fR " + roff("[--rounding ACCOUNT [--within AMOUNT] [--decimals N]] [--quiet] [--explain-all] < ") + "\\fILEDGER\\fR"
    for it in words:
        yield ".br"
        yield "\\fBlotbook\\fR " + roff(it.usage)
    yield ".SH DESCRIPTION"
    yield roff(is_for)
    for said in whole.about:
        if said.rstrip(".") != whole.brief:
            yield ".PP"
            yield roff(said)
    yield ".PP"
    yield roff(is_not[0].upper() + is_not[1:])
    yield ".SH OPTIONS"
    yield "Without a subcommand lotbook judges ledger text in memory:"
    yield from man_options(whole.options)
    yield ".SH COMMANDS"
    for it in words:
        yield f".SS {it.name}"
        yield "\\fBlotbook\\fR " + roff(it.usage)
        for said in it.about or [it.brief + "."]:
            yield ".PP"
            yield roff(said)
        yield from man_options(it.options)
    yield ".SH EXIT STATUS"
    for status, said in statuses:
        yield ".TP"
        yield status
        yield roff(said)
    yield ".SH FILES"
    yield ".TP"
    yield "\\fIFILE\\fR"
    yield "A book: an SQLite database."
    yield ".TP"
    yield "\\fIFILE\\fR\\fB\\-wal\\fR"
    yield "Its log, which may have what isn\\(aqt in the file yet. The two belong together: copy both while no call is at work."
    yield ".SH EXAMPLES"
    yield ".nf"
    for line in example.replace("examples/", "").replace("./lotbook", "lotbook").splitlines():
        yield roff(line)
    yield ".fi"
    yield ".SH SEE ALSO"
    yield "\\fBlotbook help\\fR \\fISUBCOMMAND\\fR, \\fBlotbook explain\\fR \\fICODE\\fR, \\fBsqlite3\\fR(1), \\fBflock\\fR(1)"
    yield ".PP"
    yield "With the sources: docs/GUIDE.md, a walk through a year; docs/PROFILES.md, what brokers print; docs/RULES.md, the rules and all codes; docs/FORMATS.md, the texts."


def files(explained):
    """Each file that is written here, as it has to be. `explained` has the codes, each with what is wrong."""
    whole, version, words = program()
    return {
        "lotbook.1": "\n".join([*manual(whole, version, words), ""]),
        "completions/lotbook.bash": bash(whole, words, [code for code, _ in explained]),
        "completions/_lotbook": zsh(whole, words, explained),
        "completions/lotbook.fish": fish(whole, words, explained),
    }
