#!/usr/bin/env bash
# The program's streams, words and statuses, on real files.
source "$(dirname "$(readlink -f "${BASH_SOURCE[0]}")")/lib/cases.sh"
source "$root/tests/lib/words.sh"
need_program

mapfile -t words_of_books < <(words_with --book)

# Stored examples, byte for byte.
run <"$examples/first-purchase.ledger"
expect "the first purchase" 0 "$examples/first-purchase.expected"
run <"$examples/first-sale.ledger"
expect "the first sale" 0 "$examples/first-sale.expected"
run <"$examples/small-year.ledger"
expect "a small year" 0 "$examples/small-year.expected"
run <"$examples/year.ledger"
expect "a year of every form" 0 "$examples/year.expected"
for ledger in "$examples"/mistakes/*.ledger; do
    name=${ledger##*/} expected=${ledger%.ledger}.expected wanted=0
    if grep -q '^fault ' "$expected"; then wanted=3; elif grep -q ' refused ' "$expected"; then wanted=1; fi
    run <"$ledger"
    expect "the mistake ${name%.ledger}" "$wanted" "$expected"
done

# Input from elsewhere than a file.
prints "no input at all" 0 "nothing held" </dev/null
while IFS= read -r -N 1 byte; do
    printf %s "$byte" && sleep 0.002
done <"$examples/first-purchase.ledger" | run
expect "one byte at a time" 0 "$examples/first-purchase.expected"
prints "a folder as input" 3 "fault K1 Read" <"$root"
prints "standard input closed" 3 "fault K1 Read" <&-

# Limits of the input: 16,777,216 bytes are read to the end, and one more is refused.
head -c 16777217 /dev/zero | prints "a byte too many" 3 "fault K2 TooLong"
head -c 20000000 /dev/zero | prints "more bytes than are looked at" 3 "fault K2 TooLong"
yes | prints "an input without an end" 3 "fault K2 TooLong"
{
    yes '2020-01-01 *' | head -n 1290554
    echo '2020-01-01 xx'
} | prints "a fault in the last line of a full input" 3 "fault line 1290555 X3 UnknownDirective"
{
    printf '2020-01-01 open Assets:A\n2020-01-01 *\n  Assets:A '
    head -c 16777080 /dev/zero | tr '\0' 0
    printf '5 USD\n  Assets:A -5. USD\n'
} | prints "a number of 16 million digits" 3 "fault line 3 X7 LineTooLong"
head -c 16777216 /dev/zero | tr '\0' '\n' | prints "a full input of line ends" 0 "nothing held"
head -c 16777216 /dev/zero | tr '\0' ';' | prints "a full input of one line" 3 "fault line 1 X7 LineTooLong"

# Output that can't be written.
run_full <"$examples/first-purchase.ledger"
stops "a full disk"
run_full </dev/null
stops "a full disk and no input"
run_closed <"$examples/first-purchase.ledger"
stops "standard output closed"

# A reader of the output that ends early: what it took is a prefix of the answer.
yes '2020-01-01 *' | head -n 100000 >"$scratch/many"
run_cut 10 <"$scratch/many"
stops "a pipe that is closed after 10 bytes"
printf '1 accepted' | cmp -s - "$scratch/taken" && pass "the 10 bytes" || fail "the 10 bytes" "$(<"$scratch/taken")"
mkfifo "$scratch/pipe"
{ exec 8<"$scratch/pipe" && exec 8<&- && : >"$scratch/closed"; } &
{ while [[ ! -e $scratch/closed ]]; do sleep 0.01; done && cat "$examples/first-purchase.ledger"; } |
    { "$program" 2>"$scratch/err" >"$scratch/pipe" && status=0 || status=$?; }
wait
stops "a pipe that is closed before the first line"

# Words that can't be used.
unusable "sell" sell
unusable "migration" migration --book f
unusable "hold" hold --book f
unusable "sell" help sell
for word in holdings gains journal page dump restore import; do unusable "--book" "$word" --batch a; done
unusable "--book" migrate
unusable "--book" verify
unusable "--batch" migrate --book f --batch a
unusable "--dry-run" verify --book f --dry-run
unusable "--batch" post --book f
unusable "--book" post --batch a
unusable "--book" init
unusable "''" ''
for value in 0 10000001 -1 x ''; do unusable "--from" post --book f --batch a "--from=$value"; done
for word in "${words_of_books[@]}"; do unusable "Example: lotbook $word --book" "$word"; done
unusable "fault U2 BadValue --batch" post --book f --batch a --row-of b --ref r
unusable "fault U2 BadValue --row-of" post --book f --row-of a/b --ref r
unusable "fault U2 BadValue --ref" post --book f --row-of a
unusable "fault U2 BadValue --ref" post --book f --row-of a --ref 'r"'
unusable "fault U2 BadValue --ref" post --book f --batch a --ref r
unusable "fault U2 BadValue --from" post --book f --row-of a --ref r --from 2
unusable "lotbook: --batch and --row-of can't stand together" post --book f --batch a --row-of b
unusable "lotbook: --ref stands beside --row-of alone" post --book f --batch a --ref r
unusable "lotbook: --ref wants the ref of a row" post --book f --row-of a
unusable "lotbook: --within stands beside --rounding alone" post --book f --batch a --within 0.01
unusable "lotbook: --decimals stands beside --rounding alone" post --book f --batch a --decimals 2
unusable "lotbook: --within stands beside --rounding alone" --within 0.01 --decimals 2
unusable "\"1.01\" isn't an amount from 0 to 1" --rounding Equity:Rounding --within 1.01
unusable "\"Rounding\" isn't an account, as in --rounding" --rounding=Rounding
unusable "'9' for '--decimals <N>'" --rounding Equity:Rounding --decimals 9
unusable "--decimals" --decimals 9
unusable "--rounding" --rounding Equity:Rounding --rounding Equity:Other
unusable "--rounding" holdings --book f --rounding Equity:Rounding
unusable "--quiet" post --book f --batch a --quiet --quiet
unusable "--all-or-none" init --book f --all-or-none
unusable "--dry-run" holdings --book f --dry-run
unusable "--explain-all" journal --book f --explain-all
unusable "--book" explain --book f
unusable "L1" explain B2 L1
unusable "fault U2 BadValue --gains" post --book f --batch a --gains --holdings
unusable "fault U2 BadValue --holdings" post --book f --batch a --holdings --from 2
unusable "fault U2 BadValue --decimals" post --book f --batch a --decimals 2 --gains
unusable "lotbook: --gains stands beside --dry-run alone" post --book f --row-of a --ref r --gains
unusable "--sales" post --book f --batch a --dry-run --sales
unusable "--gains" init --book f --dry-run --gains
unusable "fault U2 BadValue --batch" post --book f --batch a/b
unusable "\"a/b\" isn't 1 to 32 letters" post --book f --batch a/b
unusable "\"a/b\" isn't 1 to 32 letters" post --book f --batch=a/b
unusable "--batch wants 1 to 32 letters" post --book f --batch "$(head -c 81 /dev/zero | tr '\0' /)"
unusable "fault U2 BadValue --batch" post --book f --batch ''
unusable "fault U2 BadValue --batch" post --book f --batch 123456789012345678901234567890123
unusable "--from" post --book f --batch a/b --from 0
unusable "-a" post --book f --batch -a
unusable "--book" journal --book f --book g
unusable "UTF-8" post --book f --batch $'\xff'
unusable "fault U2 BadValue --as-of" holdings --book f --as-of 2020-02-30
unusable "fault U2 BadValue --as-of" holdings --book f --day x --as-of x
unusable "--as-of" gains --book f --as-of 2020-01-01

# An option that the subcommand has under another name: it is told behind what `clap` says, and no other one is.
for word in page gains "register --account Assets:" activity; do
    read -ra words <<<"$word"
    unusable "  tip: '--last' stands here in place of '--as-of'" "${words[@]}" --book f --as-of 2020-01-01
    unusable "  tip: '--last' stands here in place of '--as-of'" --quiet "${words[@]}" --book f --as-of=2020-01-01
done
for word in holdings "reconcile --account Assets:"; do
    read -ra words <<<"$word"
    unusable "  tip: '--as-of' stands here in place of '--last'" "${words[@]}" --book f --last 2020-01-01
done
unusable "  tip: '--gains' stands here in place of '--sales'" post --book f --batch a --dry-run --sales
for words in "page --book f --as" "journal --book f --as-of 2020-01-01" "post --book f --batch a --profile sales" "import --book f --last 2020-01-01"; do
    read -ra words <<<"$words"
    unusable "unexpected argument" "${words[@]}"
    grep -q "stands here in place" "$scratch/err" && fail "no tip: ${words[*]}" "$(tail -n 1 "$scratch/err")" || pass "no tip: ${words[*]}"
done

unusable "fault U2 BadValue --day" holdings --book f --day 2020-02-30
unusable "\"2020-02-30\" isn't a day" holdings --book f --day 2020-02-30
unusable "fault U2 BadValue --first" gains --book f --last x --first ''
unusable "fault U2 BadValue --last" gains --book f --last x --first 2020-01-01
for keys in years year, ,year 'year, term' '' Year 'year term' year,,term year,year term,year,term account,commodity,year,term,account; do
    unusable "fault U2 BadValue --by" gains --book f --by "$keys"
done
unusable '"year,year" isn'"'"'t year, commodity, account or term, or several joined by commas, each once, as in --by year,account' \
    gains --book f --by year,year
unusable "fault U2 BadValue --first" gains --book f --by x --first x
unusable "fault U2 BadValue --by" gains --book f --format x --by x
unusable "--by" holdings --book f --by year
for length in years '' Year year,month week; do unusable "fault U2 BadValue --by" activity --book f --by "$length"; done
for account in '' : A Assets Asets: Assets:: :Assets: Assets:cash: Assets:Cash:: 'Assets: '; do
    unusable "fault U2 BadValue --account" activity --book f --account "$account"
done
unusable "fault U2 BadValue --account" activity --book f --format x --by x --last x --first x --account x
unusable "fault U2 BadValue --first" activity --book f --format x --by x --last x --first x
unusable "fault U2 BadValue --last" activity --book f --format x --by x --last x
unusable "fault U2 BadValue --by" activity --book f --format x --by x
unusable "--account" register --book f
unusable "fault U2 BadValue --account" register --book f --account Assets --commodity x --first x --last x --format x
for commodity in '' usd 'USD ' US- ABCDEFGHIJKLMNOPQRSTUVWXY; do
    unusable "fault U2 BadValue --commodity" register --book f --account Assets: --commodity "$commodity" --first x --last x --format x
done
unusable "fault U2 BadValue --first" register --book f --account Assets: --first x --last x --format x
unusable "fault U2 BadValue --last" register --book f --account Assets: --last 2024-02-30 --format x
unusable "--commodity" activity --book f --commodity USD
unusable "--account" gains --book f --account Income:
unusable "--account" reconcile --book f
unusable "fault U2 BadValue --account" reconcile --book f --account Assets --as-of x --format x
unusable "fault U2 BadValue --as-of" reconcile --book f --account Assets: --as-of 2024-02-30 --format x
unusable "fault U2 BadValue --format" reconcile --book f --account Assets:Cash --format x
for word in holdings gains activity "register --account Assets:"; do
    read -ra words <<<"$word"
    for format in json CSV ''; do unusable "fault U2 BadValue --format" "${words[@]}" --book f --format "$format"; done
done
unusable "--format" journal --book f --format csv

# A post that names no batch, neither its own nor that of a row, lacks an option, whatever its others are. What `clap` refuses goes first.
cat >"$scratch/lacks" <<'EOT'
error: the following required arguments were not provided:
  <--batch <NAME>|--row-of <NAME>>

Usage: lotbook post --book <FILE> <--batch <NAME>|--row-of <NAME>>

For more information, try '--help'.

Example: lotbook post --book family.book --batch 2024 < 2024.ledger
EOT
for words in "" "--quiet" "--ref r" "--from 2" "--dry-run --all-or-none" "--ref r --from 2"; do
    read -ra words <<<"$words"
    unusable "--batch <NAME>|--row-of <NAME>" post --book f "${words[@]}"
    cmp -s "$scratch/lacks" "$scratch/err" && pass "no batch: ${words[*]}" || fail "no batch: ${words[*]}" "$(head -c 200 "$scratch/err" | tr '\n' '|')"
done
unusable "Example: lotbook post" --quiet post --book f
unusable "'0' for '--from <N>'" post --book f --from 0
unusable "Usage: lotbook post --book <FILE>" post --ref r

# Of several bad values the first option in the order of the help decides, of a post `--from` comes last.
crumbs=(--rounding Rounding --within 2)
unusable "fault U2 BadValue --rounding" "${crumbs[@]}"
unusable "fault U2 BadValue --within" --rounding Equity:Rounding "${crumbs[@]:2}"
unusable "fault U2 BadValue --within" "${crumbs[@]:2}" --decimals 2
unusable "fault U2 BadValue --batch" post --book f --batch / "${crumbs[@]}"
unusable "fault U2 BadValue --ref" post --book f --row-of a "${crumbs[@]}"
unusable "fault U2 BadValue --rounding" post --book f --row-of a --ref r --from 2 "${crumbs[@]}"
unusable "fault U2 BadValue --from" post --book f --row-of a --ref r --from 2 --rounding Equity:Rounding

# The options of a rounding account stand behind a subcommand, or in a call without one: `clap` and that go before all values.
for word in post holdings "post --book f" "explain B2" "post --book f --batch /"; do
    read -ra words <<<"$word"
    case $word in
        post | holdings) unusable "Example: lotbook $word" --rounding Rounding "${words[@]}" ;;
        *) unusable "error: the argument '--rounding' cannot be used before a subcommand" --rounding Rounding "${words[@]}" ;;
    esac
done
unusable "tip: it stands behind 'post' or 'import'" --rounding Equity:Rounding post --book f --batch a
unusable "error: the argument '--within' cannot be used before a subcommand" --within 0 post --book f --batch a --rounding Equity:Rounding
unusable "error: the argument '--decimals' cannot be used before a subcommand" --decimals 2 --quiet init --book f

# Of the options of an import each has to be there, and the first one that is bad is named.
good=(--batch a --invest Assets:A --cash Assets:B --fees Expenses:F --gains Income:G)
bad=(--batch / --invest Assets --cash assets:B --fees '' --gains Income:)
for ((at = 0; at < 10; at += 2)); do
    unusable "${good[at]}" import --book f "${good[@]:0:at}" "${good[@]:at+2}"
    unusable "fault U2 BadValue ${good[at]}" import --book f "${bad[@]:at}" "${good[@]:0:at}" "${crumbs[@]}"
done
unusable "fault U2 BadValue --rounding" import --book f "${good[@]}" "${crumbs[@]}"
unusable "fault U2 BadValue --decimals" import --book f "${good[@]}" --decimals 2
unusable "--from" import --book f "${bad[@]}" --from 0
unusable "--row-of" import --book f --row-of a "${good[@]}"
for ref in '' 'r"' 'r\'; do unusable "fault U2 BadValue --except" import --book f "${good[@]}" --except a --except "$ref"; done
unusable "\"r,s\\\"\" isn't the ref of a row, as in --except A17" import --book f "${good[@]}" --except A17 '--except=r,s"'
unusable "--except" import --book f "${good[@]}" --except
unusable "--except" post --book f --batch a --except A17

# An import by a profile needs a book and a batch, unless it shows ledger text alone. The profile names the accounts.
by_profile=(--book f --batch a --profile p)
unusable "  --batch <NAME>" import --book f --profile p
unusable "Example: lotbook import --book family.book --batch degiro --profile" import --profile p
for option in --invest --cash --fees --gains --rounding; do
    unusable "fault U2 BadValue $option" import "${by_profile[@]}" "$option" Assets:A
done
unusable "fault U2 BadValue --within" import "${by_profile[@]}" --within 0.01
unusable "fault U2 BadValue --decimals" import "${by_profile[@]}" --decimals 2
unusable "fault U2 BadValue --from" import "${by_profile[@]}" --from 2
unusable "fault U2 BadValue --keep-accepted" import "${by_profile[@]}" --keep-accepted --all-or-none
unusable "fault U2 BadValue --keep-accepted" import --book f "${good[@]}" --keep-accepted
unusable "fault U2 BadValue --sales" import "${by_profile[@]}" --sales --holdings --from 2
unusable "fault U2 BadValue --holdings" import "${by_profile[@]}" --holdings
unusable "lotbook: --sales stands beside --dry-run alone" import --profile p --show --sales
unusable "fault U2 BadValue --show" import --profile p --show --dry-run --sales
unusable "--show stands beside --profile alone" import --show
for option in "--book f" "--batch a" "--except r" --keep-accepted --all-or-none --dry-run; do
    read -ra words <<<"$option"
    unusable "fault U2 BadValue --show" import --profile p --show "${words[@]}"
done

# What a restore leaves out: of each option every value has to be within its rule, and the first one that isn't is shown.
for value in '' post:june ' 3' 'post:june ' 'post:june "3"' 'post:june 3\' $'post:june\t3'; do
    unusable "fault U2 BadValue --without" restore --book n --without "post:june 3" "--without=$value"
done
for value in '' 'post:june 3' ' ' 'a"b'; do unusable "fault U2 BadValue --without-batch" restore --book n --without-batch a "--without-batch=$value"; done
for value in '' 3 - 3- -3 0-3 3-2 03-4 3-04 +1-2 1-+2 '1 -2' 1-2-3 1-4294967296 x-y; do
    unusable "fault U2 BadValue --without-entries" restore --book n --without-entries 1-1 "--without-entries=$value"
done
unusable "\"post:june\" isn't the key of an entry, its source and its name, as in --without" restore --book n --without "post:june 3" --without post:june
unusable "\"a b\" isn't the source of keys, as in --without-batch" restore --book n --without-batch=a '--without-batch=a b' --without-batch 'c d'
unusable "\"30-12\" isn't numbers from 1 with a dash between, as in --without-entries" restore --book n --without-entries 12-30 --without-entries 30-12
unusable "--without-batch wants the source of keys" restore --book n --without-batch "$(head -c 81 /dev/zero | tr '\0' '"')"
unusable "fault U2 BadValue --without" restore --book n --without-entries 0 --without-batch 'a b' --without x
unusable "fault U2 BadValue --without-batch" restore --book n --without-entries 0 --without-batch 'a b' --without 'x y'
for option in --without --without-batch --without-entries --compare; do unusable "$option" restore --book n "$option"; done
unusable "--compare" restore --book n --compare f --compare g
for option in --edited --keep-going --dry-run --quiet; do unusable "$option" restore --book n "$option" "$option"; done
for option in --batch=a --from=2 --all-or-none --explain-all --rounding=Equity:Rounding; do unusable "${option%%=*}" restore --book n "$option"; done
for option in --edited --keep-going --without=a --without-batch=a --without-entries=1-2 --compare=f; do unusable "${option%%=*}" dump --book f "$option"; done
unusable "tip: it stands behind 'post' or 'import'" --rounding Equity:Rounding restore --book n

# Help that is asked for: status 0, on standard output, with an example of each word.
helps() {
    run "${@:2}" </dev/null
    if ((status == 0)) && [[ ! -s $scratch/err ]] && grep -qF -- "$1" "$scratch/out"; then
        pass "help: ${*:2}"
    else
        fail "help: ${*:2}" "status $status, output '$(head -c 120 "$scratch/out")', message '$(head -c 60 "$scratch/err")'"
    fi
}
helps "lotbook < " --help
helps "lotbook < " -h
helps "lotbook < " help
helps "explain" help
for word in "${words_of_books[@]}"; do
    helps "lotbook $word --book" help "$word"
    helps "lotbook $word --book" "$word" --help
    helps "--quiet" "$word" -h
    [[ $word == restore ]] || helps "--book family.book" "$word" -h
done
helps "lotbook explain B2" help explain
helps "lotbook explain B2" explain --help
helps "[CODE]" explain -h
helps "the oldest first" import --help
helps "--batch 2024" post -h
helps "--row-of broker --ref A17" post -h
for word in post import init migrate restore; do helps "--dry-run" "$word" -h; done
for word in post import; do helps "--all-or-none" "$word" -h && helps "--explain-all" "$word" -h; done
for word in post import; do helps "--dry-run --holdings" "$word" -h; done
helps "--dry-run --gains < sale.ledger" post -h
helps "--dry-run --sales" import -h
for word in post import; do
    helps "--rounding Equity:Rounding" "$word" -h
    helps "--within 0.01" "$word" -h
    helps "--decimals 2" "$word" -h
done
for option in "--rounding <ACCOUNT>" "--within <AMOUNT>" "--decimals <N>"; do helps "$option" -h; done
helps "--quiet" -h
helps "--explain-all" -h
helps "--from 120" post -h
helps "--batch broker" import -h
helps "--invest Assets:Broker" import -h
helps "--cash Assets:Cash" import -h
helps "--fees Expenses:Fees" import -h
helps "--gains Income:Gains" import -h
helps "--from 120" import -h
helps "--except A17" import -h
helps "--profile profiles/degiro-transactions.toml" import -h
helps "--keep-accepted" import -h
helps "--show" import -h
helps "--as-of 2024-12-31" holdings -h
helps "--day 2024-12-31" holdings -h
helps "it chooses prices alone" holdings -h
for word in holdings gains register activity; do helps "--format csv" "$word" -h; done
helps "--first 2024-01-01" gains -h
helps "--last 2024-12-31" gains -h
helps "--by year,commodity" gains -h
helps "--account Assets:Broker" register -h
helps "--commodity HOOL" register -h
helps "it takes 16 bytes of memory for each leg" register --help
helps "--by quarter" activity -h
helps "--as-of 2024-12-31" reconcile -h
helps "--account Income:" activity -h
helps "--book new.book" restore -h
helps "--edited" restore -h
helps "--keep-going" restore -h
helps '--without "import:broker A17"' restore -h
helps "--without-batch import:deals" restore -h
helps "--without-entries 12-30" restore -h
helps "--compare family.book" restore -h

# The help of the program has a line for each subcommand and for each option, none wider than a screen of 80 columns.
for word in help --help -h; do
    run "$word" </dev/null
    lines=$(wc -l <"$scratch/out") columns=$(wc -L <"$scratch/out")
    if ((lines == 30 && columns <= 80)); then pass "the size of $word"; else fail "the size of $word" "$lines lines, $columns columns"; fi
    [[ $word == help ]] && cp "$scratch/out" "$scratch/help"
    cmp -s "$scratch/help" "$scratch/out" && pass "$word is the help" || fail "$word is the help" "other than help"
done
for word in $(words_in_help); do
    found=$(grep -cE "^  $word +[A-Z]" "$scratch/help")
    ((found == 1)) && pass "the line of $word" || fail "the line of $word" "$found lines"
done
run_full --help </dev/null
stops "help on a full disk"

# The example that is shown beside what is missing is that of the help.
for word in "${words_of_books[@]}"; do
    run "$word" </dev/null
    example=$(sed -n 's/^Example: //p' "$scratch/err")
    helps "$example" "$word" --help
done

# Whatever the program's file is called, what it says of itself has its own name.
cp "$program" "$scratch/not-its-name"
while read -ra words; do
    timeout 600 "$scratch/not-its-name" "${words[@]}" </dev/null >"$scratch/out" 2>&1
    if grep -q not-its-name "$scratch/out"; then
        fail "the name: ${words[*]}" "$(grep -m 1 not-its-name "$scratch/out")"
    elif ! grep -qE '^Usage: lotbook |^lotbook [0-9.]+$|^error: (invalid value|a value is required)' "$scratch/out"; then
        fail "the name: ${words[*]}" "no usage: $(head -c 120 "$scratch/out")"
    else
        pass "the name: ${words[*]}"
    fi
done < <(
    printf '%s\n' help --help -h --version sell "help sell" "init --book" "post --book f" "post --book f --batch a --from 0" "verify --book f --day d" "explain B2 L1"
    for word in $(words_in_help | grep -vx help); do printf '%s\n' "help $word" "$word --help" "$word -h"; done
    printf '%s\n' "${words_of_books[@]}"
)

# A hint is a call that a shell takes as it is: it makes a book at the path that was named, and nothing else.
mkdir "$scratch/bin" && ln -s "$program" "$scratch/bin/lotbook"
hints() {
    local hint made
    rm -rf "$scratch/hints" && mkdir "$scratch/hints" && cd "$scratch/hints" || exit 1
    run holdings --book="$1" </dev/null
    hint=$(<"$scratch/err")
    hint=${hint#*"there is no such file: \`"} hint=${hint%"\` makes a book"}
    made=$(PATH=$scratch/bin:$PATH sh -c "$hint" 2>&1 </dev/null)
    if [[ $made == "book ready" && -f ./$1 ]] && rm -f "./$1" "./$1-wal" && [[ -z $(ls -A) ]]; then
        pass "the hint for '${1//$'\n'/@}'"
    else
        fail "the hint for '${1//$'\n'/@}'" "${hint//$'\n'/@}: ${made//$'\n'/@}"
    fi
    cd - >/dev/null || exit 1
}
for path in family.book ./a_b-c.book "a b" " " "  two  " "a'b" "'" "''" 'a"b' '\' 'a\b' '$HOME' '$(touch x)' 'a`id`b' "a;b" "a&b" "a|b" "a>b" "(a)" \
    "*" "?" "[a-z]" "{a,b}" "~" "~root" "a~" "#a" "!a" "a=b" "=a" "%1" "-x" "--book" "-a b" "-'" "--" "é" $'a\nb' $'\n' $'two\n\n'; do
    hints "$path"
done
run holdings --book=$'a\tb' </dev/null
says "no hint that a terminal doesn't show" $'lotbook: a\tb: there is no such file'
run holdings --book "" </dev/null
says "no hint for an empty path" "lotbook: [^\`]*empty[^\`]*"

# The version: the program's name and its number, on standard output.
helps "  -V, --version" --help
version=$(sed -n 's/^## \([0-9.]*\)$/\1/p' "$root/CHANGELOG.md" | head -n 1)
for word in --version -V; do
    prints "the version by $word" 0 "lotbook $version" "$word" </dev/null
done
unusable "--version" init --version
run_full --version </dev/null
stops "the version on a full disk"

# The names of the C library's calls that the program asks for: none is of a socket or of another program (SECURITY.md).
calls() { tr '\0' '\n' <"$program" | grep -axE "$1" | sort -u; }
forbidden=$(calls 'socket|connect|bind|listen|accept4?|getaddrinfo|exec[a-z]+|v?fork|clone|posix_spawnp?|system|popen|dlopen')
if [[ -z $(calls fdatasync) || -n $forbidden ]]; then
    fail "no socket and no other program" "${forbidden//$'\n'/ }"
else
    pass "no socket and no other program"
fi

# The script `lotbook`, from elsewhere and by links; it hands on words, streams and status.
program=$root/lotbook
cd "$scratch" || exit 1
run <"$examples/first-purchase.ledger"
expect "called from another folder" 0 "$examples/first-purchase.expected"
ln -s "$root/lotbook" by-link && program=./by-link
run <"$examples/first-purchase.ledger"
expect "called through a symbolic link" 0 "$examples/first-purchase.expected"
mkdir "a folder" && ln -s ../by-link "a folder/again" && program="a folder/again"
run <"$examples/first-purchase.ledger"
expect "called through a link to a link" 0 "$examples/first-purchase.expected"
program=$root/lotbook
printf x | prints "called with a faulty text" 3 "fault line 1 X3 UnknownDirective"
run_full <"$examples/first-purchase.ledger"
stops "called with a full disk"

finish
