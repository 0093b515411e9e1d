#!/usr/bin/env bash
# The rounding account from outside, where the program has one: the year of each of two brokers and a ledger of 205 transactions, which tests/rounding/made.py makes.
# They go in without a refusal, the cash is the broker's to the cent, no transaction leaves more than a cent in the account, and the
# journal comes to the same book without the options. Then the words, what standard error says, and what is refused all the same.
source "$(dirname "$(readlink -f "${BASH_SOURCE[0]}")")/lib/books.sh"
source "$root/tests/lib/words.sh"
in_memory
need_program
if ! takes_crumbs; then finish; fi

look() { python3 -B "$root/tests/rounding/look.py" "$@"; }
made=$scratch/made
mkdir "$made"
python3 -B "$root/tests/rounding/made.py" "$made" || fail "the years" "they can't be made"
new_book "$scratch/new"
rounding=(--rounding Equity:Rounding)

# fresh NAME: a copy of a new book, in `book`, on which the accounts are open.
fresh() {
    book=$scratch/$1.book
    rm -f "$book"*
    cp "$scratch/new" "$book"
    "$program" post --book "$book" --batch accounts <"${2-$made/accounts.ledger}" >/dev/null || fail "$1" "its accounts can't be opened"
}

# replies NAME STATUS WORD COUNT: the last call ended so, with so many replies that are this word, and no others.
replies() {
    seq -f "%g $3" 1 "$4" >"$scratch/expected"
    if ((status == $2)) && cmp -s "$scratch/expected" "$scratch/out"; then
        pass "$1"
    else
        fail "$1" "status $status, $(diff "$scratch/expected" "$scratch/out" | head -n 6 | tr '\n' '|')$(head -c 300 "$scratch/err" | tr '\n' '|')"
    fi
}

# to NAME: the words of a call that sends this text or file of a broker, in `to`.
declare -a to
to() {
    case $1 in
        *.ledger) to=(post --book "$book" --batch "${1%.ledger}") ;;
        *) broker=${1%.csv} broker=${broker^} && to=(import --book "$book" --batch "${1%.csv}" --invest "Assets:$broker" --cash "Assets:${broker}Cash" --fees Expenses:Fees --gains Income:Gains) ;;
    esac
}

# goes_in NAME COUNT OPTIONS..: this text or file goes in, with these options.
goes_in() {
    to "$1"
    run "${to[@]}" "${rounding[@]}" "${@:3}" <"$made/$1"
    replies "$1 goes in with '${*:3}'" 0 accepted "$2"
}

# stands NAME: the book, whose cash is what NAME.cash says, is sound, and its journal comes to it without the options.
stands() {
    local report
    "$program" holdings --book "$book" </dev/null >"$scratch/holdings"
    if grep -vxFf "$scratch/holdings" "$made/$1.cash" >"$scratch/other"; then
        fail "the cash of $1" "no $(head -n 1 "$scratch/other"), but $(grep Cash "$scratch/holdings" | tr '\n' '|')"
    else
        pass "the cash of $1"
    fi
    "$program" journal --book "$book" </dev/null >"$scratch/journal"
    if look crumbs "$scratch/journal" 0.01 >"$scratch/crumbs"; then
        pass "the crumbs of $1: $(wc -l <"$scratch/crumbs"), each at most a cent"
    else
        fail "the crumbs of $1" "$(tail -n 1 "$scratch/crumbs")"
    fi
    prints "$1 is a book" 0 "book verified" verify --book "$book" </dev/null
    rm -f "$scratch/again.book"*
    cp "$scratch/new" "$scratch/again.book"
    run post --book "$scratch/again.book" --batch journal <"$scratch/journal"
    replies "the journal of $1 without the options" 0 accepted "$(grep -c '^; entry' "$scratch/journal")"
    for report in holdings gains journal; do
        "$program" "$report" --book "$book" </dev/null | grep -v '^; entry' >"$scratch/one"
        "$program" "$report" --book "$scratch/again.book" </dev/null | grep -v '^; entry' >"$scratch/two"
        if cmp -s "$scratch/one" "$scratch/two"; then pass "$report of both books of $1"; else fail "$report of both books of $1" "they differ"; fi
    done
}

# comes_again NAME COUNT [FILE] OPTIONS..: sent once more with these options each is a repeat.
comes_again() {
    to "$1"
    run "${to[@]}" "${rounding[@]}" "${@:3}" <"$made/$1"
    replies "$1 comes again with '${*:3}'" 0 repeat "$2"
}

# without NAME [FILE]: sent once more without the options what stands in another text is L1, and its line names the option.
without() {
    local file=$made/${2-$1}
    to "$1"
    look again "$scratch/journal" "${1%.*}" "$file" >"$scratch/expected"
    run "${to[@]}" <"$file"
    expect "$1 comes again without the options: $(grep -c L1 "$scratch/expected") L1" 1 "$scratch/expected"
    if head -n 1 "$scratch/err" | grep 'L1 KeyReused' | grep -qF -- --rounding; then
        pass "the line of L1 names the option for $1"
    else
        fail "the line of L1 names the option for $1" "$(head -n 1 "$scratch/err")"
    fi
}

# ---- a broker whose fees stand apart

fresh north
to north.csv
first=$(grep -m 1 C4 "$made/north.inexact")
prints "a file with cash of more than eight decimals, without the options" 3 "fault row ${first% *} C4 InexactAmount" "${to[@]}" <"$made/north.csv"
if grep -qF -- --rounding "$scratch/err"; then pass "its line names the option"; else fail "its line names the option" "$(<"$scratch/err")"; fi
goes_in north.csv 100 --decimals 2
stands north
comes_again north.csv 100 --decimals 2
comes_again north.csv 100 --decimals 8 --within 0
comes_again north.csv 100
# The rows that are no C4.
awk 'NR == FNR { if ($2 == "C4") skip[$1]; next } !(FNR - 1 in skip)' "$made/north.inexact" "$made/north.csv" >"$made/north-short.csv"
without north.csv north-short.csv

# ---- a broker whose purchases have the fee in the cost, and that has two currencies

fresh south
for options in "" "--decimals 2"; do
    fresh south
    # shellcheck disable=SC2086
    goes_in south.ledger 70 $options
    # shellcheck disable=SC2086
    goes_in south.csv 40 --decimals 2
    stands south
    comes_again south.ledger 70 --decimals 3
    comes_again south.csv 40 --decimals 2
    without south.ledger
done
fresh south
to south.ledger
run "${to[@]}" --quiet <"$made/south.ledger"
grep -oE '^[0-9]+ refused B5' "$scratch/out" | sed 's/ refused//' | cmp -s - "$made/south.inexact" &&
    pass "without the options $(wc -l <"$made/south.inexact") of 70 are B5" || fail "without the options" "other B5 than those of south.inexact"

# ---- a ledger that is moved over

fresh moved
to moved.ledger
run "${to[@]}" --dry-run --quiet <"$made/moved.ledger"
if grep refused "$scratch/out" | sed 's/ refused//' | cut -d ' ' -f 1,2 | cmp -s - "$made/moved.inexact"; then
    pass "without the options 16 of 205 are L14, and 15 are B5"
else
    fail "without the options" "other refusals than those of moved.inexact: $(grep -c refused "$scratch/out")"
fi
goes_in moved.ledger 205
stands moved
if cut -d ' ' -f 2 "$scratch/crumbs" | uniq | cmp -s - <(cut -d ' ' -f 1 "$made/moved.inexact"); then
    pass "those and no others have crumbs"
else
    fail "those and no others have crumbs" "$(wc -l <"$scratch/crumbs")"
fi
comes_again moved.ledger 205
to moved.ledger
run "${to[@]}" "${rounding[@]}" --from 200 <"$made/moved.ledger"
if ((status == 0)) && seq -f '%g repeat' 200 205 | cmp -s - "$scratch/out"; then pass "sent on from a number"; else fail "sent on from a number" "status $status"; fi
without moved.ledger
cat "$made/accounts.ledger" "$made/moved.ledger" >"$scratch/whole.ledger"
run "${rounding[@]}" <"$scratch/whole.ledger"
{ seq -f '%g accepted' 1 216 && cat "$scratch/holdings"; } >"$scratch/expected"
if ((status == 0)) && cmp -s "$scratch/expected" "$scratch/out"; then
    pass "the ledger without a book"
else
    fail "the ledger without a book" "status $status, $(diff "$scratch/expected" "$scratch/out" | head -n 4 | tr '\n' '|')"
fi
run --quiet "${rounding[@]}" <"$scratch/whole.ledger"
if ((status == 0)) && [[ ! -s $scratch/err ]]; then pass "--quiet says nothing"; else fail "--quiet says nothing" "$(head -n 2 "$scratch/err")"; fi

# ---- words

# refuses NAME CODE WORDS..: these words can't be used, by U1 where that is the code, else by U2.
refuses() {
    run "${@:3}" </dev/null
    if ((status != 2)) || [[ -s $scratch/out ]]; then
        fail "$1" "status $status"
    elif [[ $2 == U2 ]] && ! grep -q '^fault U2 BadValue --' "$scratch/err" || [[ $2 == U1 ]] && grep -q U2 "$scratch/err"; then
        fail "$1" "$(head -n 2 "$scratch/err")"
    else
        pass "$1"
    fi
}
fresh words
for call in "" "post --book $book --batch w"; do
    read -ra words <<<"$call"
    for decimals in 9 10 -1 x 2.0 4294967298; do refuses "${words[0]-check} --decimals $decimals" U1 "${words[@]}" "${rounding[@]}" "--decimals=$decimals"; done
    for within in 2 1.00000001 -0.005 0.000000001 x ""; do refuses "${words[0]-check} --within '$within'" U2 "${words[@]}" "${rounding[@]}" "--within=$within"; done
    for account in "" Equity Rounding equity:Rounding Equity:rounding "$(printf 'Equity:%0122d' 0)"; do
        refuses "${words[0]-check} --rounding '$account'" U2 "${words[@]}" "--rounding=$account"
    done
    refuses "${words[0]-check} --within alone" U2 "${words[@]}" --within 0.005
    refuses "${words[0]-check} --decimals alone" U2 "${words[@]}" --decimals 8
    for good in "--within 0" "--within 1" "--within 1.00000000" "--within 0.00000001" "--decimals 0" "--decimals 8 --within 0.5"; do
        read -ra more <<<"$good"
        run "${words[@]}" "${rounding[@]}" "${more[@]}" <"$made/accounts.ledger"
        if ((status < 2)); then pass "${words[0]-check} $good"; else fail "${words[0]-check} $good" "$(head -n 1 "$scratch/err")"; fi
    done
done

# ---- what standard error says

# says_of COUNT NAME PATTERN..: so many lines of standard error match all of these patterns.
says_of() {
    local found pattern
    found=$(<"$scratch/err")
    for pattern in "${@:3}"; do found=$(grep -E -- "$pattern" <<<"$found"); done
    if (($(grep -c . <<<"$found") == $1)); then pass "$2"; else fail "$2" "$(head -c 900 "$scratch/err" | tr '\n' '|')"; fi
}

cat >"$scratch/accounts.ledger" <<'EOT'
2024-01-01 open Assets:Depot "FIFO"
2024-01-01 open Assets:Cash
2024-01-01 open Income:Gains
2024-01-01 open Equity:Rounding
EOT
# Each leaves a crumb of its own: 0.0001 USD, 0.0002 USD and so on, and the last one 0.003 EUR.
for number in {1..11}; do printf '2024-01-02 *\n  Assets:Depot 1.0001 FUND {%d USD}\n  Assets:Cash -%d USD\n' "$number" "$number"; done >"$scratch/twelve.ledger"
printf '2024-01-02 *\n  Assets:Depot 1.0001 FUND {30 EUR}\n  Assets:Cash -30 EUR\n' >>"$scratch/twelve.ledger"
fresh twelve "$scratch/accounts.ledger"
run post --book "$book" --batch b "${rounding[@]}" <"$scratch/twelve.ledger"
replies "twelve commands with crumbs" 0 accepted 12
for number in {1..9}; do says_of 1 "command $number of twelve" "[^0-9]$number[^0-9]" Equity:Rounding "[ -]0\.000$number USD"; done
says_of 1 "command 10 of twelve" "[^0-9]10[^0-9]" Equity:Rounding "[ -]0\.001 USD"
says_of 0 "command 11 isn't among ten" "[ -]0\.0011 USD"
says_of 1 "the sum in USD" Equity:Rounding "[ -]0\.0066 USD"
says_of 1 "the sum in EUR, and no line of command 12" Equity:Rounding "[ -]0\.003 EUR"
tail -n 1 "$scratch/err" | grep -q "0\.003 EUR" && pass "the sums stand at the end" || fail "the sums stand at the end" "$(tail -n 1 "$scratch/err")"
run post --quiet --book "$book" --batch c "${rounding[@]}" <"$scratch/twelve.ledger"
replies "twelve with --quiet" 0 accepted 12
says_of 0 "--quiet says nothing of them" .
run post --book "$book" --batch b "${rounding[@]}" <"$scratch/twelve.ledger"
replies "twelve again" 0 repeat 12
says_of 0 "nothing is said of repeats" Equity:Rounding
run post --book "$book" --batch e --from 12 "${rounding[@]}" <"$scratch/twelve.ledger"
answers "the last of twelve under another batch" 0 "12 accepted"
says_of 1 "it is told under its number" "command 12: Equity:Rounding takes -0\.003 EUR"
run post --book "$book" --batch f --from 12 --all-or-none "${rounding[@]}" <"$scratch/twelve.ledger"
answers "the last of twelve under a third batch, all or none" 0 "12 accepted"
says_of 1 "so it is of a call that keeps all or nothing" "command 12: Equity:Rounding takes -0\.003 EUR"
run post --book "$book" --batch d --dry-run "${rounding[@]}" <"$scratch/twelve.ledger"
replies "a dry run" 0 accepted 12
says_of 1 "a dry run says what would go to the account" Equity:Rounding "[ -]0\.0066 USD"

# one NAME TEXT OPTIONS..: the transaction of this text, behind what opens the accounts.
one() { run "${@:3}" < <(cat "$scratch/accounts.ledger" && printf '%b' "$2"); }
opened=$'1 accepted\n2 accepted\n3 accepted\n4 accepted'

over='2024-01-02 *\n  Assets:Depot 1.002 FUND {10 USD}\n  Assets:Cash -10 USD\n'
one over "$over" "${rounding[@]}"
answers "a crumb over the bound is refused as it is written" 1 "$opened"$'\n5 refused L14 NotBalanced USD\nnothing held'
says_of 1 "and by how much it is too much" L14 "its crumb is -0\.02 USD, 0\.015 more than"
one over "$over" "${rounding[@]}" --within 0.02
if ((status == 0)) && grep -qxF 'Equity:Rounding -0.02 USD' "$scratch/out"; then pass "a crumb as large as the bound"; else fail "a crumb as large as the bound" "status $status"; fi
one over "$over" "${rounding[@]}" --within 0.01999999
answers "a crumb that is larger by the last decimal" 1 "$opened"$'\n5 refused L14 NotBalanced USD\nnothing held'
one over "$over" --rounding Equity:Other --within 1
answers "an account that isn't open" 1 "$opened"$'\n5 refused L14 NotBalanced USD\nnothing held'
says_of 1 "why the completion isn't accepted" L14 Equity:Other
one behind '2024-01-02 *\n  Assets:Depot 3 FUND {{100.99 EUR}}\n  Assets:Depot -5 OTHER {}\n  Assets:Cash\n' "${rounding[@]}"
answers "a whole cost without a rate, before a sale of what isn't held" 1 "$opened"$'\n5 refused B5 InexactCost posting 1\nnothing held'
one plain '2024-01-02 *\n  Assets:Cash 1 USD\n  Income:Gains -1.001 USD\n' "${rounding[@]}"
answers "no crumb in a currency without a product" 1 "$opened"$'\n5 refused L14 NotBalanced USD\nnothing held'
one other '2024-01-02 *\n  Assets:Depot -1 FUND {} @ 1.00000001 USD\n  Assets:Cash\n' "${rounding[@]}"
answers "a refusal of another kind" 1 "$opened"$'\n5 refused B4 IncompleteCost posting 1\nnothing held'

# holds NAME TEXT LINES OPTIONS..: the transaction is accepted, and the holdings are these lines.
holds() {
    one "$1" "$2" "${rounding[@]}" "${@:4}"
    answers "$1" 0 "$opened"$'\n5 accepted\n'"$3"
}
holds "cash in cents" '2024-01-02 *\n  Assets:Depot 0.3333 FUND {101.12345 USD}\n  Assets:Cash -33.70 USD\n' \
    $'Assets:Cash -33.70 USD\nAssets:Depot 0.3333 FUND {101.12345 USD, 2024-01-02}\nEquity:Rounding -0.00444589 USD\ntotal cost 33.704445885 USD'
holds "an elided posting to the cent" '2024-01-02 *\n  Assets:Depot 0.3333 FUND {101.12345 USD}\n  Assets:Cash\n' \
    $'Assets:Cash -33.70 USD\nAssets:Depot 0.3333 FUND {101.12345 USD, 2024-01-02}\nEquity:Rounding -0.00444589 USD\ntotal cost 33.704445885 USD' --decimals 2
holds "an elided posting to eight decimals" '2024-01-02 *\n  Assets:Depot 0.3333 FUND {101.12345 USD}\n  Assets:Cash\n' \
    $'Assets:Cash -33.70444588 USD\nAssets:Depot 0.3333 FUND {101.12345 USD, 2024-01-02}\nEquity:Rounding -0.00000001 USD\ntotal cost 33.704445885 USD'
holds "a whole cost with a fee" '2024-01-02 *\n  Assets:Depot 3 FUND {{100.99 EUR}}\n  Assets:Cash\n' \
    $'Assets:Cash -100.99 EUR\nAssets:Depot 3 FUND {33.66333333 EUR, 2024-01-02}\nEquity:Rounding 0.00000001 EUR\ntotal cost 100.98999999 EUR'
holds "seven million of a coin for 100" '2024-01-02 *\n  Assets:Depot 7000000 COIN {{100 USD}}\n  Assets:Cash\n' \
    $'Assets:Cash -100.00 USD\nAssets:Depot 7000000 COIN {0.00001429 USD, 2024-01-02}\nEquity:Rounding -0.03 USD\ntotal cost 100.03 USD' --within 0.03
holds "a speck adds more units than it weighs" '2024-01-02 *\n  Assets:Cash 0.0001 FUND @ 0.00009999 USD\n  Income:Gains\n' \
    $'Assets:Cash 0.0001 FUND\nEquity:Rounding 0.00000001 USD\nIncome:Gains -0.00000001 USD'
one over '2024-01-02 *\n  Assets:Depot 7000000 COIN {{100 USD}}\n  Assets:Cash\n' "${rounding[@]}"
answers "it is over the bound" 1 "$opened"$'\n5 refused B5 InexactCost posting 1\nnothing held'
one few '2024-01-02 *\n  Assets:Depot 1.5 FUND {1.25 USD}\n  Assets:Cash\n' "${rounding[@]}" --decimals 0
if ((status == 0)) && grep -qxF 'Assets:Cash -1.875 USD' "$scratch/out"; then pass "no decimals, and a crumb over the bound: as it is written"; else fail "no decimals" "status $status"; fi

# Rows: half a cent goes to the even one, and the row comes again at other decimals.
fresh rows "$scratch/accounts.ledger"
import() { run import --book "$book" --batch x --invest Assets:Depot --cash Assets:Cash --fees Income:Gains --gains Income:Gains "$@"; }
printf '%s\n' "$header" A,2024-01-02,BUY,FUND,0.5,0.05,USD, B,2024-01-02,BUY,FUND,0.5,0.07,USD, | import "${rounding[@]}" --decimals 2
replies "rows of half a cent" 0 accepted 2
"$program" journal --book "$book" </dev/null >"$scratch/journal"
if [[ $(grep -c '  Assets:Cash -0.02 USD\|  Assets:Cash -0.04 USD' "$scratch/journal") == 2 ]]; then pass "to the even cent"; else fail "to the even cent" "$(grep Cash "$scratch/journal" | tr '\n' '|')"; fi
printf '%s\n' "$header" A,2024-01-02,BUY,FUND,0.5,0.05,USD, B,2024-01-02,BUY,FUND,0.5,0.08,USD, | import "${rounding[@]}" --decimals 5
answers "a row at other decimals, and one that was changed" 1 $'1 repeat\n2 refused L1 KeyReused'
printf '%s\n' "$header" A,2024-01-02,BUY,FUND,0.5,0.05,USD, | import
answers "without the options it is another row" 1 "1 refused L1 KeyReused"
says_of 1 "whose line names them" L1 --rounding
printf '%s\n' "$header" C,2024-01-02,BUY,FUND,9999999999,99999999,USD, | import "${rounding[@]}"
answers "cash that is out of range" 3 "fault row 1 C4 InexactAmount"
printf '2024-01-02 * "D"\n  Assets:Depot 1.0001 FUND {7 USD}\n  Assets:Cash -7 USD\n' >"$scratch/row.ledger"
run post --book "$book" --row-of x --ref D "${rounding[@]}" <"$scratch/row.ledger"
answers "a row by hand" 0 "1 accepted"
run post --book "$book" --row-of x --ref D "${rounding[@]}" <"$scratch/row.ledger"
answers "a row by hand again" 0 "1 repeat"
printf '%s\n' "$header" D,2024-01-02,BUY,FUND,1.0001,7,USD, | import "${rounding[@]}" --decimals 2
answers "its row, whose cash is in cents" 0 "1 repeat"
printf '%s\n' "$header" E,2024-01-02,BUY,FUND,1.0001,7,USD, | import "${rounding[@]}" --decimals 2 --all-or-none
answers "all or none of a row with a crumb" 0 "1 accepted"
printf '%s\n' "$header" F,2024-01-02,BUY,FUND,1.0001,7,USD, G,2024-01-02,BUY,FUND,1,7,USD, | import "${rounding[@]}" --decimals 1 --within 0 --all-or-none
answers "all or none of rows of which one isn't completed" 1 $'1 refused L14 NotBalanced USD\n2 accepted'

# ---- without the options: the postings that would balance

# pastes NAME TEXT PATTERN: refused without the options, by a post and by a check; with what the line of standard error says it is
# accepted without them, by both.
pastes() {
    local text way
    for way in post check; do
        fresh pasted "$scratch/accounts.ledger"
        to_judge "$way" "$2"
        if ! tail -n 1 "$scratch/replied" | grep -q "refused $3"; then
            fail "$1, $way" "$(<"$scratch/out")"
            continue
        fi
        text=$(printf '%b' "$2" | look pasted "$scratch/err" "$3") || { fail "$1, $way" "no postings: $(head -c 500 "$scratch/err")" && continue; }
        to_judge "$way" "$text\n"
        if tail -n 1 "$scratch/replied" | grep -q "accepted$"; then pass "$1, $way"; else fail "$1, $way" "$(<"$scratch/out"): $text"; fi
    done
}

# to_judge WAY TEXT: posts a text to the book, or checks it behind its accounts; the replies are kept.
to_judge() {
    if [[ $1 == post ]]; then
        printf '%b' "$2" | run post --book "$book" --batch p
    else
        { cat "$scratch/accounts.ledger" && printf '%b' "$2"; } | run
    fi
    grep -E '^[0-9]+ ' "$scratch/out" >"$scratch/replied"
}
pastes "L14 with its postings" '2024-01-02 *\n  Assets:Depot 0.3333 FUND {101.12345 USD}\n  Assets:Cash -33.70 USD\n' L14
pastes "L12 with its postings" '2024-01-02 *\n  Assets:Depot 0.3333 FUND {101.12345 USD}\n  Assets:Cash\n' L12
pastes "B5 with its postings" '2024-01-02 *\n  Assets:Depot 3 FUND {{100.99 EUR}}\n  Assets:Cash\n' B5
pastes "B5 with cash" '2024-01-02 *\n  Assets:Depot 3 FUND {{100.99 EUR, 2024-01-01, "a"}}\n  Assets:Depot 7 FUND {{10 USD}}\n  Assets:Cash -100.99 EUR\n  Assets:Cash -10 USD\n' B5
# What leaves another currency off isn't told.
for way in post check; do
    fresh off "$scratch/accounts.ledger"
    to_judge "$way" '2024-01-02 *\n  Assets:Depot 0.3333 FUND {101.12345 USD}\n  Assets:Cash -33.70 USD\n  Assets:Cash 5 EUR\n'
    if tail -n 1 "$scratch/replied" | grep -q "refused L14 NotBalanced USD" && ! grep -q "would balance" "$scratch/err"; then
        pass "of a transaction that a completion doesn't balance nothing is told, $way"
    else
        fail "of a transaction that a completion doesn't balance nothing is told, $way" "$(<"$scratch/out") $(<"$scratch/err")"
    fi
done
# With the options, of what is accepted as it is written nothing is told.
fresh whole "$scratch/accounts.ledger"
printf '2024-01-02 *\n  Assets:Depot 1 FUND {10.40 USD}\n  Assets:Cash\n' | run post --book "$book" --batch p "${rounding[@]}" --decimals 0
answers "a fill of which a completion takes too much is accepted as it is written" 0 "1 accepted"
if [[ -s $scratch/err ]]; then fail "nothing is told of it" "$(<"$scratch/err")"; else pass "nothing is told of it"; fi
# Of a sale the residual goes by the lots that are held.
sold='2024-01-02 *\n  Assets:Depot 3.333333 FUND {33.66333333 EUR}\n  Assets:Cash\n'
fresh sale "$scratch/accounts.ledger"
printf "$sold" | run post --book "$book" --batch s "${rounding[@]}"
answers "a purchase of six decimals" 0 "1 accepted"
sale='2024-01-03 *\n  Assets:Depot -1.111111 FUND {} @ 40 EUR\n  Assets:Cash 44.44 EUR\n  Income:Gains\n'
printf "$sale" | run post --book "$book" --batch t
answers "a sale of it is L12 without the options" 1 "1 refused L12 InexactFill EUR"
text=$(printf "$sale" | look pasted "$scratch/err" L12) && printf '%s\n' "$text" | run post --book "$book" --batch t
answers "with the postings that its line says it isn't" 0 "1 accepted"

# ---- a comma in the bound

printf '2000-01-01 open Assets:Cash\n' | run "${rounding[@]}" --within 0,01
if grep -qx "lotbook: --within: warning: '0,01' is read as 1" "$scratch/err"; then pass "a comma in the bound is told"; else fail "a comma in the bound is told" "$(<"$scratch/err")"; fi
printf '2000-01-01 open Assets:Cash\n' | run "${rounding[@]}" --within=0.01
if [[ ! -s $scratch/err ]]; then pass "a point isn't"; else fail "a point isn't" "$(<"$scratch/err")"; fi
printf '2000-01-01 open Assets:Cash\n' | run --quiet "${rounding[@]}" --within 0,01
if [[ ! -s $scratch/err ]]; then pass "nor is anything of a quiet call"; else fail "nor is anything of a quiet call" "$(<"$scratch/err")"; fi

# ---- codes

for code in B5 L12 L14 C4; do
    if "$program" explain "$code" </dev/null | grep -qF -- --rounding; then pass "explain $code names the option"; else fail "explain $code names the option" "it doesn't"; fi
done
for word in $(words_with --book --rounding); do refuses "$word takes no rounding account" U1 "$word" --book "$book" "${rounding[@]}"; done
finish
