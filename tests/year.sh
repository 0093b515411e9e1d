#!/usr/bin/env bash
# A year that goes wrong: the exports of two brokers, with the newest row first, decimal commas, a fraction of a share whose cash doesn't
# fit and a sale whose lot isn't named; then a split, and files that overlap. At each step standard error says what is needed to go on.
source "$(dirname "$(readlink -f "${BASH_SOURCE[0]}")")/lib/books.sh"
need_program

book=$scratch/year.book
cat >"$scratch/accounts.ledger" <<'EOT'
2023-12-01 open Assets:North "FIFO"
2023-12-01 open Assets:South
2023-12-01 open Assets:Cash
2023-12-01 open Expenses:Fees
2023-12-01 open Income:Gains
EOT
cat >"$scratch/north.csv" <<'EOT'
ref,date,action,symbol,units,price,currency,fee
N5,2024-11-04,SELL,HOOL,12,120,USD,4.95
N4,2024-06-03,BUY,HOOL,0.3333,101.12345,USD,
N3,2024-03-15,BUY,HOOL,10,98.20,USD,4.95
N2,2024-02-15,BUY,BOND,"1,000",1.04,USD,
N1,2024-01-15,BUY,HOOL,10,102.50,USD,4.95
EOT
cat >"$scratch/south.csv" <<'EOT'
ref,date,action,symbol,units,price,currency,fee
S1,2024-02-01,BUY,WIDG,5,"111,64",EUR,
S2,2024-03-01,BUY,WIDG,5,"120,10",EUR,
S3,2024-09-02,SELL,WIDG,8,"130,00",EUR,
EOT

# import NAME FILE [OPTIONS]: the call for one of the two brokers.
import() {
    local account=Assets:${1^}
    run import --book "$book" --batch "$1" --invest "$account" "${accounts[@]:2}" "${@:3}" <"$scratch/$2"
}

# step NAME STATUS REPLIES NOTES..: the last call ended so, with these replies, and each of the notes stands on standard error, which has
# no other lines.
step() {
    local note
    if ((status != $2)) || [[ $(<"$scratch/out") != "$3" ]]; then
        fail "$1" "status $status, '$(head -c 300 "$scratch/out")', '$(head -c 500 "$scratch/err")'"
        return
    fi
    for note in "${@:4}"; do
        if ! grep -qF -- "$note" "$scratch/err"; then
            fail "$1" "standard error lacks '$note': '$(head -c 700 "$scratch/err")'"
            return
        fi
    done
    if (($(wc -l <"$scratch/err") == $# - 3)); then
        pass "$1"
    else
        fail "$1" "standard error has other lines, too: '$(head -c 700 "$scratch/err")'"
    fi
}

new_book "$book"
run post --book "$book" --batch accounts <"$scratch/accounts.ledger"
step "the accounts" 0 $'1 accepted\n2 accepted\n3 accepted\n4 accepted\n5 accepted'

import north north.csv --all-or-none
step "a fraction of a share whose cash doesn't fit" 3 "fault row 2 C4 InexactAmount" \
    "row 2 (N4): C4 InexactAmount: the cash of the row has more than eight decimals, or is too large: 33.704445885 USD, which has 9 decimals" \
    "warning: the first row is of 2024-11-04, the last of 2024-01-15: rows stand in the order of their days, the oldest first" \
    "row 4 (N2): warning: units 1,000 is read as 1000: commas are skipped, decimals stand behind a point; try --all-or-none --dry-run first, or a profile that says what the comma is: N2,"
grep -v ^N4 "$scratch/north.csv" >"$scratch/without.csv"
import north without.csv --all-or-none
step "the newest row first" 1 $'1 refused B4 IncompleteCost posting 1\n2 accepted\n3 accepted\n4 refused L10 BackDated posting 1' \
    "row 1 (N5): B4 IncompleteCost" \
    "row 4 (N1): L10 BackDated: a later day of this account and commodity is booked at cost already: the latest is 2024-03-15, of entry 6" \
    "warning: the first row is of 2024-11-04, the last of 2024-01-15: rows stand in the order of their days, the oldest first" \
    "row 3 (N2): warning: units 1,000 is read as 1000" \
    "$nothing_kept"
{ head -n 1 "$scratch/without.csv" && tail -n +2 "$scratch/without.csv" | tac; } >"$scratch/oldest.csv"
import north oldest.csv --all-or-none
step "the oldest row first" 0 $'1 accepted\n2 accepted\n3 accepted\n4 accepted' "row 2 (N2): warning: units 1,000 is read as 1000"
run post --book "$book" --row-of north --ref N4 <<'EOT'
2024-11-04 * "N4"
  Assets:North 0.3333 HOOL {101.1 USD, 2024-06-03}
  Assets:Cash -33.70 USD
  Expenses:Fees
EOT
step "the fraction by hand, the rest as a fee" 0 "1 accepted"

import south south.csv --dry-run
step "decimal commas" 1 $'1 accepted\n2 accepted\n3 refused B2 Ambiguous posting 1' "row 3 (S3): B2 Ambiguous" \
    "row 1 (S1): warning: price 111,64 is read as 11164: commas are skipped, decimals stand behind a point; 2 more rows have a comma there; try --all-or-none --dry-run first, or a profile that says what the comma is: S1,"
sed 's/"\([0-9]*\),\([0-9]*\)"/\1.\2/' "$scratch/south.csv" >"$scratch/points.csv"
import south points.csv
step "a sale whose lot isn't named" 1 $'1 accepted\n2 accepted\n3 refused B2 Ambiguous posting 1' "row 3 (S3): B2 Ambiguous: several lots fit the braces, and STRICT doesn't choose among them: lots that fit now: 2, with 10 units; they differ in day, cost"
run post --book "$book" --row-of south --ref S3 <<'EOT'
2024-09-02 * "S3"
  Assets:South -5 WIDG {2024-02-01} @ 130 EUR
  Assets:South -3 WIDG {2024-03-01} @ 130 EUR
  Assets:Cash 1040 EUR
  Income:Gains
EOT
step "the sale by hand" 0 "1 accepted"
run post --book "$book" --batch split <<'EOT'
2024-12-02 * "Split, two for one"
  Assets:South -2 WIDG {2024-03-01}
  Assets:South 4 WIDG {60.05 EUR, 2024-03-01}
EOT
step "a split" 0 "1 accepted"

{ cat "$scratch/points.csv" && echo "S4,2024-12-09,BUY,WIDG,1,66,EUR,"; } >"$scratch/later.csv"
import south later.csv --all-or-none
step "a file that overlaps, with the row by hand" 1 $'1 repeat\n2 repeat\n3 refused L1 KeyReused\n4 accepted' \
    "row 3 (S3): L1 KeyReused: another command has this key already: entry 13, with the line \`Assets:South -5 WIDG {2024-02-01} @ 130 EUR\` in place of \`Assets:South -8 WIDG {} @ 130 EUR\`; --except S3 leaves it out" \
    "$nothing_kept"
import south later.csv --all-or-none --except S3
step "the same without that row" 0 $'1 repeat\n2 repeat\n4 accepted' "row 3 (S3): left out: S3,2024-09-02,SELL,WIDG,8,130.00,EUR,"
{ cat "$scratch/oldest.csv" && echo "N6,2024-12-10,BUY,BOND,100,1.05,USD,"; } >"$scratch/further.csv"
import north further.csv --all-or-none
step "the other file that overlaps" 0 $'1 repeat\n2 repeat\n3 repeat\n4 repeat\n5 accepted' "row 2 (N2): warning: units 1,000 is read as 1000"
{ head -n 1 "$scratch/north.csv" && tail -n +2 "$scratch/north.csv" | tac && tail -n 1 "$scratch/further.csv"; } >"$scratch/complete.csv"
import north complete.csv --all-or-none --except N4
step "the same file with the fraction of a share, which stands by hand" 0 $'1 repeat\n2 repeat\n3 repeat\n5 repeat\n6 repeat' \
    "row 2 (N2): warning: units 1,000 is read as 1000" "row 4 (N4): left out: N4,2024-06-03,BUY,HOOL,0.3333,101.12345,USD,"
run post --book "$book" --batch end <<'EOT'
2024-12-31 close Assets:South
EOT
step "the closing of what holds something" 0 "1 accepted" "warning: the account is closed, and still holds WIDG"

run verify --book "$book" </dev/null
step "the book is verified" 0 "book verified"
run gains --book "$book" --first 2024-01-01 --last 2024-12-31 </dev/null
step "the gains of the year" 0 "2024-11-04 Assets:North -12 HOOL proceeds 1440.00 cost 1221.40 gain 218.60 USD
  -10 HOOL {102.5 USD, 2024-01-15}
  -2 HOOL {98.2 USD, 2024-03-15}
2024-09-02 Assets:South -5 WIDG proceeds 650.00 cost 558.20 gain 91.80 EUR
  -5 WIDG {111.64 EUR, 2024-02-01}
2024-09-02 Assets:South -3 WIDG proceeds 390.00 cost 360.30 gain 29.70 EUR
  -3 WIDG {120.1 EUR, 2024-03-01}
2024-12-02 Assets:South -2 WIDG unpriced
  -2 WIDG {120.1 EUR, 2024-03-01}
total gain 121.50 EUR
total gain 218.60 USD"
run holdings --book "$book" </dev/null
step "what is held" 0 "Assets:Cash -184.70 EUR
Assets:Cash -1760.55 USD
Assets:North 1000 BOND {1.04 USD, 2024-02-15}
Assets:North 100 BOND {1.05 USD, 2024-12-10}
Assets:North 8 HOOL {98.2 USD, 2024-03-15}
Assets:North 0.3333 HOOL {101.1 USD, 2024-06-03}
Assets:South 4 WIDG {60.05 EUR, 2024-03-01}
Assets:South 1 WIDG {66 EUR, 2024-12-09}
Expenses:Fees 14.85337 USD
Income:Gains -121.50 EUR
Income:Gains -218.60 USD
total cost 306.20 EUR
total cost 1964.29663 USD"

finish
