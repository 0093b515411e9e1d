#!/usr/bin/env bash
# A row of a broker file that is posted by hand: it stands under the row's key, so the row doesn't act a second time when its
# file comes, and is left out of a call that keeps all or none.
source "$(dirname "$(readlink -f "${BASH_SOURCE[0]}")")/lib/books.sh"
need_program

book=$scratch/family.book
cat >"$scratch/accounts.ledger" <<'EOT'
2020-01-01 open Assets:Broker "STRICT"
2020-01-01 open Assets:Cash
2020-01-01 open Expenses:Fees
2020-01-01 open Income:Gains
EOT
cat >"$scratch/deals.csv" <<'EOT'
ref,date,action,symbol,units,price,currency,fee
A1,2020-01-02,BUY,HOOL,10,100,USD,
A2,2020-01-03,BUY,HOOL,10,110,USD,
S1,2020-02-03,SELL,HOOL,4,130,USD,
EOT
cat >"$scratch/sale.ledger" <<'EOT'
2020-02-03 * "S1"
  Assets:Broker -4 HOOL {110 USD} @ 130 USD
  Assets:Cash 520 USD
  Income:Gains
EOT
import() { run import --book "$book" --batch broker "${accounts[@]}" "$@"; }
in_place() { run post --book "$book" --row-of broker --ref "$@"; }

# unfit NAME: the last call ended with status 2, nothing on standard output and one line on standard error, and the book is as
# it was before.
unfit() {
    if ((status != 2)) || [[ -s $scratch/out ]] || (($(wc -l <"$scratch/err") != 1)) || ! grep -q -- --row-of "$scratch/err"; then
        fail "$1" "status $status, '$(head -c 200 "$scratch/out")', '$(head -c 200 "$scratch/err")'"
    elif [[ $("$program" journal --book "$book") != "$(<"$scratch/journal")" ]]; then
        fail "$1" "the book changed"
    else
        pass "$1"
    fi
}

book_of "$book" accounts <"$scratch/accounts.ledger"
import <"$scratch/deals.csv"
answers "the sale of a lot that isn't named is refused" 1 $'1 accepted\n2 accepted\n3 refused B2 Ambiguous posting 1'
"$program" journal --book "$book" >"$scratch/journal"

in_place S1 </dev/null
unfit "no command"
printf '; nothing\n\n' | in_place S1
unfit "a comment alone"
cat "$scratch/sale.ledger" "$scratch/sale.ledger" | in_place S1
unfit "two commands"
cat "$scratch/accounts.ledger" | in_place S1
unfit "four commands"
printf '2020-02-03 xx\n' | in_place S1
answers "a faulty text" 3 "fault line 1 X3 UnknownDirective"
in_place S1 <"$root"
answers "a text that can't be read" 3 "fault K1 Read"
sed 's/-4/-40/' "$scratch/sale.ledger" | in_place S1
answers "a command that is refused" 1 "1 refused B3 NotEnough posting 1"
[[ $("$program" journal --book "$book") == "$(<"$scratch/journal")" ]] && pass "no row by then" || fail "no row by then" "the book changed"

in_place S1 <"$scratch/sale.ledger"
answers "the sale with its lot" 0 "1 accepted"
in_place S1 <"$scratch/sale.ledger"
answers "the same again" 0 "1 repeat"
sed 's/{110/{100/' "$scratch/sale.ledger" | in_place S1
answers "another one in its place" 1 "1 refused L1 KeyReused"
"$program" journal --book "$book" >"$scratch/journal"
import <"$scratch/deals.csv"
answers "the file again" 1 $'1 repeat\n2 repeat\n3 refused L1 KeyReused'
[[ $("$program" journal --book "$book") == "$(<"$scratch/journal")" ]] && pass "the sale acts once" || fail "the sale acts once" "the book changed"

# says_of NAME LINE: the last call's standard error is this one line behind `lotbook: `.
says_of() { if [[ $(<"$scratch/err") == "lotbook: $2" ]]; then pass "$1"; else fail "$1" "'$(head -c 300 "$scratch/err")'"; fi; }

# All of a longer file or none: the row by hand keeps the others out, until it is left out.
{ cat "$scratch/deals.csv" && echo "A4,2020-02-03,BUY,HOOL,1,140,USD,"; } >"$scratch/longer.csv"
import --all-or-none <"$scratch/longer.csv"
answers "all of a longer file or none" 1 $'1 repeat\n2 repeat\n3 refused L1 KeyReused\n4 accepted'
if grep -q '^lotbook: row 3 (S1): L1 KeyReused: .*; --except S1 leaves it out: S1,2020-02-03,SELL,HOOL,4,130,USD,$' "$scratch/err"; then
    pass "it says how it goes in"
else
    fail "it says how it goes in" "$(head -n 1 "$scratch/err")"
fi
[[ $("$program" journal --book "$book") == "$(<"$scratch/journal")" ]] && pass "none of it is kept" || fail "none of it is kept" "the book changed"
import --all-or-none --except S1 --dry-run <"$scratch/longer.csv"
answers "a dry run without the row by hand" 0 $'1 repeat\n2 repeat\n4 accepted'
import --all-or-none --except S1 <"$scratch/longer.csv"
answers "all of it without the row by hand" 0 $'1 repeat\n2 repeat\n4 accepted'
says_of "it says which is left out" "row 3 (S1): left out: S1,2020-02-03,SELL,HOOL,4,130,USD,"
import --all-or-none --except S1 <"$scratch/longer.csv"
answers "the same again" 0 $'1 repeat\n2 repeat\n4 repeat'
run gains --book "$book" </dev/null
[[ $(grep -c 'HOOL' "$scratch/out") -ge 1 && $(grep -c '2020-02-03' "$scratch/out") == 1 ]] && pass "one sale" || fail "one sale" "$(<"$scratch/out")"

# A command that says what the row says is the row.
cat >"$scratch/purchase.ledger" <<'EOT'
2020-02-04 * "A3"
  Assets:Broker 1 HOOL {120 USD}
  Assets:Cash -120 USD
EOT
in_place A3 <"$scratch/purchase.ledger"
answers "a purchase by hand" 0 "1 accepted"
printf '%s\n' "$header" A3,2020-02-04,BUY,HOOL,1,120,USD, | import
answers "its row says the same" 0 "1 repeat"

# The batch counts: under another one the row isn't known.
sed s/02-03/02-05/ "$scratch/sale.ledger" | run post --book "$book" --row-of other --ref S1
answers "the same ref in another batch" 0 "1 accepted"
rm -f "$book"*
in_place S1 <"$scratch/sale.ledger"
answers "no book" 4 "fault S1 NotABook"
in_place S1 </dev/null
if ((status == 2)) && [[ ! -e $book ]]; then pass "no command and no book"; else fail "no command and no book" "status $status"; fi

finish
