#!/usr/bin/env bash
# Every broker file under tests/import/ and examples/broker/. The program imports NAME.csv into a book, writes NAME.expected, byte
# for byte, and ends with status 3 after a fault, 1 where a row was refused, else 0. Each file begins with a new book, on which
# the accounts of `openings.ledger` are open; the files of a folder are imported into one book, in the order of their names.
# Where there is a NAME.holdings, that is what is held then.
source "$(dirname "$(readlink -f "${BASH_SOURCE[0]}")")/lib/books.sh"
need_program

shopt -s nullglob
book=$scratch/family.book

# begin LEDGER: a new book on which the ledger is posted.
begin() { book_of "$book" openings <"$1" || fail "a new book" "the accounts can't be opened"; }

# import WORDS..: imports this call's standard input.
import() { run import --book "$book" --batch x "${accounts[@]}" "$@"; }

# imports NAME FILE: imports the file, with the output that stands beside it.
imports() {
    local expected=${2%.csv}.expected wanted=0
    if grep -qs '^fault ' "$expected"; then wanted=3; elif grep -qs ' refused ' "$expected"; then wanted=1; fi
    import <"$2"
    expect "$1" "$wanted" "$expected"
}

# holds NAME FILE: what is held is what the file says.
holds() {
    run holdings --book "$book"
    expect "what is held after $1" 0 "$2"
}

ledger=$root/tests/import/openings.ledger
cases=("$root"/tests/import/*.csv "$root"/tests/import/*/)
for case in "${cases[@]}"; do
    case=${case%/} name=${case##*/}
    name=${name%.csv}
    files=("$case")
    if [[ -d $case ]]; then files=("$case"/*.csv); fi
    begin "$ledger"
    for file in "${files[@]}"; do
        part=${file##*/}
        imports "$name: ${part%.csv}" "$file"
    done
    if [[ -f $root/tests/import/$name.holdings ]]; then holds "$name" "$root/tests/import/$name.holdings"; fi
done
# Output without a file would otherwise go unnoticed.
for output in "$root"/tests/import/{,*/}*.{expected,holdings}; do
    if [[ ! -f ${output%.*}.csv && ! -d ${output%.*} ]]; then fail "${output##*/}" "there is no broker file for it"; fi
done

# The example: a year at a broker, and its next file, which has some rows of the first one.
begin "$examples/broker/accounts.ledger"
for file in "$examples"/broker/*.csv; do
    name=${file##*/}
    imports "the example ${name%.csv}" "$file"
done
holds "the example" "$examples/broker/holdings.expected"

row=A1,2020-01-02,BUY,HOOL,1,100,USD,
inexact=A0,2020-01-02,BUY,HOOL,0.00000001,0.1,USD,
rows() { yes "$row" | head -n "$1"; }

# Rows that are skipped.
begin "$ledger"
printf '%s\n' "$header" "$row" "A2${row#A1}" | import --from 2
wrote "the first row is skipped" 0 "2 accepted"
printf '%s\n' "$header" "$row" | import --from 2
wrote "all rows are skipped" 0 ""
printf '%s\n' "$header" "$row," "$row" | import --from 2
wrote "a faulty row that is skipped" 3 "fault row 1 C2 BadRow Length"
printf '%s\n' "$header" "$inexact" "$row" | import --from 2
wrote "an inexact row that is skipped" 3 "fault row 1 C4 InexactAmount"
printf '%s\n' "$header" "$row" "A2${row#A1}" | import
wrote "faults of skipped rows applied nothing" 0 $'1 accepted\n2 repeat'
printf '%s\n' "$header" "$row" "A2${row#A1}" |
    run import --gains Income:Gains --from 2 --fees Expenses:Fees --cash Assets:Cash --invest Assets:Broker --batch=x --book="$book"
wrote "the options in another order" 0 "2 repeat"

# Rows that are left out. Those that are left keep their numbers; a row that is left out may have a cash that no row can have.
begin "$ledger"
printf '%s\n' "$header" "$row" "A2${row#A1}" "A3${row#A1}" >"$scratch/three"
import --except A2 <"$scratch/three"
wrote "a row that is left out" 0 $'1 accepted\n3 accepted'
says "it says so" "lotbook: row 2 \(A2\): left out: A2,2020-01-02,BUY,HOOL,1,100,USD,"
import --except A3 --all-or-none --except=A1 <"$scratch/three"
wrote "two rows that are left out, of all or none" 0 "2 accepted"
import --from 2 --except A2 <"$scratch/three"
wrote "a row that is left out behind one that is skipped" 0 "3 repeat"
import --from 3 --except A2 <"$scratch/three"
wrote "a row that is skipped and left out" 0 "3 repeat"
if [[ ! -s $scratch/err ]]; then pass "nothing is said of it"; else fail "nothing is said of it" "$(head -n 1 "$scratch/err")"; fi
import --except A1 --except A2 --except A3 --all-or-none <"$scratch/three"
wrote "all rows are left out" 0 ""
import --except a2 <"$scratch/three"
wrote "a ref that no row has" 0 $'1 repeat\n2 repeat\n3 repeat'
says "it says that, too" "lotbook: no row has the ref a2"
printf '%s\n' "$header" "$row" "A2${row#A1}" "$row" | import --except A1 --all-or-none
wrote "two rows of one ref that are left out" 0 "2 repeat"
printf 'lotbook: row %d (A1): left out: '"$row"'\n' 1 3 | cmp -s - "$scratch/err" && pass "both are named" || fail "both are named" "$(tail -n 1 "$scratch/err")"
printf '%s\n' "$header" "$inexact" "$row" | import --except A0 --all-or-none
wrote "an inexact row that is left out" 0 "2 repeat"
printf '%s\n' "$header" "$inexact" "$row" | import --except A1
wrote "an inexact row beside one that is left out" 3 "fault row 1 C4 InexactAmount"
printf '%s\n' "$header" "A4,2020-01-32,BUY,HOOL,1,100,USD," "$row" | import --except A4
wrote "a faulty row that is left out" 3 "fault row 1 C2 BadRow Date"
printf '%s\n' "$header" "A5,2020-01-02,BUY,HOOL,1,100,NO," "A6,2020-01-02,SELL,HOOL,9,1,USD," "A7${row#A1}" | import --except A5 --all-or-none
wrote "a refusal behind a row that is left out" 1 $'2 refused B3 NotEnough posting 1\n3 accepted'
printf '%s\n' "$header" "A7${row#A1}" | import
wrote "nothing of it was kept" 0 "1 accepted"

# A lot whose row in one of the two tables is gone.
begin "$ledger"
printf '%s\n' "$header" "$row" | import
wrote "a purchase" 0 "1 accepted"
tables rows "$book" "DELETE FROM opening"
printf '%s\n' "$header" "$row" "A2,2020-01-03,SELL,HOOL,1,100,USD," | import --from 2
wrote "a sale from a lot without its opening number" 4 "2 fault S7 Damaged"

begin "$ledger"
printf '%s\n' "$header" "$row" | import
wrote "the purchase in a new book" 0 "1 accepted"

# Long files.
{ echo "$header" && rows 100000; } | import --from 100000
wrote "100,000 rows" 0 "100000 repeat"
{ echo "$header" && rows 100000 && echo x; } | import
wrote "a row too many" 3 "fault C3 TooManyRows"
{ echo "$header,lot" && rows 100000 | sed 's/$/,/'; } | import --from 100000
wrote "100,000 rows of version 2" 0 "100000 repeat"
{ echo "$header,lot" && rows 100001 | sed 's/$/,/'; } | import
wrote "a row too many of version 2" 3 "fault C3 TooManyRows"
{ echo "$header" && echo "$inexact" && rows 100000; } | import
wrote "a row too many behind an inexact row" 3 "fault C3 TooManyRows"
{ echo "$header" && rows 99999 && echo x && rows 1; } | import
wrote "a faulty row before the row too many" 3 "fault row 100000 C2 BadRow Length"
{ echo "$header" && head -c 1000000 /dev/zero | tr '\0' A && echo "${row#A1}"; } | import
wrote "a reference of a million bytes" 3 "fault row 1 C2 BadRow Ref"
{ echo "$header" && printf 'A3,2020-01-02,BUY,HOOL,' && head -c 1000000 /dev/zero | tr '\0' 0 && echo 1,100,USD,; } | import
wrote "units of a million digits" 0 "1 accepted"
{ echo "$header" && printf 'A3,2020-01-02,BUY,HOOL,1.' && head -c 1000000 /dev/zero | tr '\0' 0 && echo ,100,USD,; } | import
wrote "units of a million decimals, the same" 0 "1 repeat"

# What comes first: a file that can't be opened, then a fault of the input, then one of the book.
rm -f "$book"*
printf '%s\n' "$header" "$row" | import
wrote "no book" 4 "fault S1 NotABook"
printf '%s\n' "$row" | import
wrote "a faulty file and no book" 3 "fault header C1 BadHeader"
no_file "no book is left" "$book"
tables foreign "$book" notes
printf '%s\n' "$header" "$row" | import
wrote "another database" 4 "fault S1 NotABook"
printf '%s\n' "$header" "$row" "$inexact" | import
wrote "a faulty file and another database" 3 "fault row 2 C4 InexactAmount"
rm -f "$book"*
tables older "$book"
printf '%s\n' "$header" "$row" | import
older "a book of edition 1"
printf '%s\n' "$header" "$row" "$inexact" | import
wrote "a faulty file and a book of edition 1" 3 "fault row 2 C4 InexactAmount"
rm -f "$book"*
echo "no database" >"$book"
printf '%s\n' "$row" | import
unopened "a faulty file and a file that is no database"
finish
