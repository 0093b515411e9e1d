#!/usr/bin/env bash
# What standard error says of refused commands, of faults and of what may have been meant otherwise. Standard output and the status are
# those of the same call with --quiet, which says nothing there.
source "$(dirname "$(readlink -f "${BASH_SOURCE[0]}")")/lib/books.sh"
need_program

book=$scratch/noted.book

# opened: a new book with four accounts.
opened() { openings | book_of "$book" accounts || fail "a book for a case" "its accounts can't be opened"; }

# notes NAME STATUS WORDS..: the call on the file `in` ends with that status and says exactly what the file `told` has; with --quiet it
# says nothing, and answers the same.
notes() {
    opened
    run "${@:3}" <"$scratch/in"
    cp "$scratch/out" "$scratch/first"
    if ((status != $2)); then
        fail "$1" "status $status instead of $2"
        return
    elif ! cmp -s "$scratch/told" "$scratch/err"; then
        fail "$1" "$(diff "$scratch/told" "$scratch/err" | head -n 6 | cut -c 1-200 | tr '\n' '|')"
        return
    fi
    opened
    run "${@:3}" --quiet <"$scratch/in"
    expect "$1" "$2" "$scratch/first"
    if [[ -s $scratch/err ]]; then fail "$1, quiet" "it says $(head -n 1 "$scratch/err")"; fi
}

post=(post --book "$book" --batch a)
import=(import --book "$book" --batch d "${accounts[@]}")

# What was read, and what standard error says of it: behind a line `> WORDS NAME` the input, then lines that begin with `lotbook`.
cases() {
    local line name="" status=0 kind=""
    while IFS= read -r line; do
        case $line in
            "== "*)
                if [[ -n $name ]]; then tried "$name" "$status" "$kind"; fi
                read -r _ status kind name <<<"$line"
                : >"$scratch/in" >"$scratch/told"
                ;;
            lotbook:*) printf '%s\n' "$line" >>"$scratch/told" ;;
            *) printf '%s\n' "$line" >>"$scratch/in" ;;
        esac
    done
    tried "$name" "$status" "$kind"
}

# tried NAME STATUS KIND: a case, by a call without a word, by a post or by an import.
tried() {
    case $3 in
        text)
            notes "$1, without a word" "$2"
            notes "$1, of a post" "$2" "${post[@]}"
            ;;
        check) notes "$1" "$2" ;;
        post) notes "$1" "$2" "${post[@]}" ;;
        rows) notes "$1" "$2" "${import[@]}" ;;
    esac
}

cases <<'CASES'
== 1 post what postings leave
2024-01-02 * "Buy"
  Assets:Broker 10 HOOL {502.12 USD}
  Assets:Cash -5031.19830 USD
lotbook: line 1, command 1: L14 NotBalanced: the postings don't balance: they leave -9.9983 USD; it would balance with `ACCOUNT 9.9983 USD`: 2024-01-02 * "Buy"
== 1 post what postings leave, by price and by whole cost
2024-01-02 * "Exchange"
  Assets:Cash 100 EUR @ 1.1 USD
  Assets:Cash -109 USD
2024-01-02 * "Exchange"
  Assets:Cash -100 EUR @@ 110 USD
  Assets:Cash 109.5 USD
2024-01-02 * "Buy"
  Assets:Broker 4 HOOL {{1000 USD}}
  Assets:Cash -1000.01 USD
2024-01-02 * "Two currencies"
  Assets:Cash 1 EUR
  Assets:Cash -1 USD
lotbook: line 1, command 1: L14 NotBalanced: the postings don't balance: they leave 1.00 USD; it would balance with `ACCOUNT -1 USD`: --rounding ACCOUNT --within 1 adds that: 2024-01-02 * "Exchange"
lotbook: line 4, command 2: L14 NotBalanced: the postings don't balance: they leave -0.50 USD; it would balance with `ACCOUNT 0.5 USD`: --rounding ACCOUNT --within 0.5 adds that: 2024-01-02 * "Exchange"
lotbook: line 7, command 3: L14 NotBalanced: the postings don't balance: they leave -0.01 USD; it would balance with `ACCOUNT 0.01 USD`: --rounding ACCOUNT --within 0.01 adds that: 2024-01-02 * "Buy"
lotbook: line 10, command 4: L14 NotBalanced: the postings don't balance: they leave 1.00 EUR: 2024-01-02 * "Two currencies"
== 1 post what lots weigh isn't in the text
2024-01-02 * "Buy"
  Assets:Broker 10 HOOL {502.12 USD}
  Assets:Cash
2024-01-03 * "Sell"
  Assets:Broker -10 HOOL {} @ 510 USD
  Assets:Cash 5100 USD
lotbook: line 4, command 2: L14 NotBalanced: the postings don't balance; it would balance with `ACCOUNT -78.8 USD`: 2024-01-03 * "Sell"
== 1 post digits that don't fit
2024-01-02 * "Buy"
  Assets:Broker 0.3170215 HOOL {78.8594 USD}
  Assets:Cash
2024-01-02 * "Buy"
  Assets:Broker 3 HOOL {{1000 USD}}
  Assets:Cash
lotbook: line 1, command 1: L12 InexactFill: what the others leave has more than eight decimals, or is too large: they leave 25.0001252771 USD, which has 10 decimals; it would balance with `ACCOUNT 0.00000001 USD @ 0.29 USD`: --rounding ACCOUNT adds that: 2024-01-02 * "Buy"
lotbook: line 5, command 2: B5 InexactCost: the whole cost can't be divided by the units: 1000 / 3 = 333.33333333..; it would balance with `Assets:Broker 3 HOOL {333.33333333 USD}` in its place, `ACCOUNT 0.00000001 USD`: --rounding ACCOUNT adds that: Assets:Broker 3 HOOL {{1000 USD}}
== 1 post whole costs that are too large for a unit
2024-01-02 * "Buy"
  Assets:Broker 7 HOOL {{9999999999.99999999 USD}}
  Assets:Cash
2024-01-02 * "Buy"
  Assets:Broker 0.00000001 HOOL {{1000000 USD}}
  Assets:Cash
2024-01-02 * "Buy"
  Assets:Broker 3 HOOL {{1000000000 USD}}
  Assets:Cash
lotbook: line 2, command 1: B5 InexactCost: the whole cost can't be divided by the units: 9999999999.99999999 / 7 = 1428571428.57142857, which is too large for the cost of a unit: Assets:Broker 7 HOOL {{9999999999.99999999 USD}}
lotbook: line 5, command 2: B5 InexactCost: the whole cost can't be divided by the units: 1000000 / 0.00000001 = 100000000000000.00000000, which is too large for the cost of a unit: Assets:Broker 0.00000001 HOOL {{1000000 USD}}
lotbook: line 8, command 3: B5 InexactCost: the whole cost can't be divided by the units: 1000000000 / 3 = 333333333.33333333.., which is too large for the cost of a unit: Assets:Broker 3 HOOL {{1000000000 USD}}
== 1 post the line of the posting
* a heading
; a comment

2024-01-02 * "Wages"
  ; a comment
  Assets:Cash 100 USD

  Income:Wages -100 USD
2024-01-02 * "Again"
  Assets:Cash 1 USD
  Assets:Cash -1 USD
2024-01-03 close Assets:Other
lotbook: line 8, command 1: L3 UnknownAccount: no account of this name was opened: the nearest is Income:Gains: Income:Wages -100 USD
lotbook: line 12, command 3: L3 UnknownAccount: no account of this name was opened: the nearest is Assets:Broker: 2024-01-03 close Assets:Other
== 1 post names that were opened
2024-01-01 open Assets:DEPOT
2024-01-02 * "Wages"
  Assets:Cahs 100 USD
  Income:Bonus -100 USD
2024-01-02 close Assets:Depot
2024-01-03 open Income:Bonus
2024-01-03 * "Wages"
  Assets:Cash 100 USD
  Income:Bonuses -100 USD
lotbook: line 3, command 2: L3 UnknownAccount: no account of this name was opened: the nearest is Assets:Cash: Assets:Cahs 100 USD
lotbook: line 5, command 3: L3 UnknownAccount: no account of this name was opened: the nearest is Assets:DEPOT: 2024-01-02 close Assets:Depot
lotbook: line 9, command 5: L3 UnknownAccount: no account of this name was opened: the nearest is Income:Bonus: Income:Bonuses -100 USD
== 1 text an account that is opened behind
2024-01-02 * "Wages"
  Assets:New 100 USD
  Assets:New -100 USD
2024-01-01 open Assets:New
lotbook: line 2, command 1: L3 UnknownAccount: no account of this name was opened: it is opened further down: Assets:New 100 USD
== 1 check names in a check
2020-01-01 open Assets:Cash
2020-01-01 open Expenses:Food
2020-01-02 * "Shopping"
  Assets:Cash -1 USD
  Expenses:Fodo 1 USD
2020-01-03 close Assets:Cahs
lotbook: line 5, command 3: L3 UnknownAccount: no account of this name was opened: the nearest is Expenses:Food: Expenses:Fodo 1 USD
lotbook: line 6, command 4: L3 UnknownAccount: no account of this name was opened: the nearest is Assets:Cash: 2020-01-03 close Assets:Cahs
== 1 check a check has no names
2020-01-02 * "Shopping"
  Assets:Cash -1 USD
  Expenses:Food 1 USD
lotbook: line 2, command 1: L3 UnknownAccount: no account of this name was opened: Assets:Cash -1 USD
== 1 check a check has no book
2024-01-01 open Assets:Broker
2024-01-01 open Assets:Cash
2024-01-03 * "Buy"
  Assets:Broker 5 HOOL {480 USD}
  Assets:Cash
2024-01-02 * "Buy, found later"
  Assets:Broker 5 HOOL {480 USD}
  Assets:Cash
2024-01-04 * "Sell"
  Assets:Broker -6 HOOL {}
  Assets:Cash
2024-01-05 close Assets:Broker
lotbook: line 7, command 4: L10 BackDated: a later day of this account and commodity is booked at cost already: Assets:Broker 5 HOOL {480 USD}
lotbook: line 10, command 5: B3 NotEnough: the lots that fit hold less than the units: Assets:Broker -6 HOOL {}
== 1 post lots that fit
2024-01-02 * "Buy"
  Assets:Broker 10 HOOL {500 USD, "a"}
  Assets:Broker 5 HOOL {500 USD, "b"}
  Assets:Cash
2024-01-03 * "Buy"
  Assets:Broker 3 HOOL {510 EUR}
  Assets:Cash
2024-01-04 * "Sell some of all"
  Assets:Broker -4 HOOL {}
  Assets:Cash
2024-01-04 * "Sell some of two"
  Assets:Broker -4 HOOL {500 USD}
  Assets:Cash
2024-01-04 * "Sell some, for a whole cost"
  Assets:Broker -4 HOOL {{2000 USD}}
  Assets:Cash
2024-01-05 * "Sell more than there is"
  Assets:Broker -7.5 HOOL {"b"}
  Assets:Cash
lotbook: line 9, command 3: B2 Ambiguous: several lots fit the braces, and STRICT doesn't choose among them: lots that fit now: 3, with 18 units; they differ in day, cost, currency, label: Assets:Broker -4 HOOL {}
lotbook: line 12, command 4: B2 Ambiguous: several lots fit the braces, and STRICT doesn't choose among them: lots that fit now: 2, with 15 units; they differ in label: Assets:Broker -4 HOOL {500 USD}
lotbook: line 15, command 5: B2 Ambiguous: several lots fit the braces, and STRICT doesn't choose among them: lots that fit now: 2, with 15 units; they differ in label: Assets:Broker -4 HOOL {{2000 USD}}
lotbook: line 18, command 6: B3 NotEnough: the lots that fit hold less than the units: held now: 5; wanted: 7.5: Assets:Broker -7.5 HOOL {"b"}
== 1 post what is held once the run is over
2024-01-02 * "Sell short"
  Assets:Broker -10 HOOL {500 USD}
  Assets:Broker -5 HOOL {510 USD}
  Assets:Cash
2024-01-03 * "Buy some of it back"
  Assets:Broker 4 HOOL {}
  Assets:Cash
2024-01-04 * "Buy back too much"
  Assets:Broker 12 HOOL {500 USD}
  Assets:Cash
2024-01-05 * "Buy one lot back, and nearly all of the other"
  Assets:Broker 5 HOOL {510 USD}
  Assets:Broker 9.5 HOOL {500 USD}
  Assets:Cash
lotbook: line 6, command 2: B2 Ambiguous: several lots fit the braces, and STRICT doesn't choose among them: Assets:Broker 4 HOOL {}
lotbook: line 9, command 3: B3 NotEnough: the lots that fit hold less than the units: held now: 0.5; wanted: 12: Assets:Broker 12 HOOL {500 USD}
== 1 post lots that are sold once the run is over
2024-01-02 * "Buy"
  Assets:Broker 3 HOOL {500 USD}
  Assets:Cash
2024-01-03 * "Sell too many"
  Assets:Broker -5 HOOL {}
  Assets:Cash
2024-01-04 * "Sell all"
  Assets:Broker -3 HOOL {}
  Assets:Cash
lotbook: line 5, command 2: B3 NotEnough: the lots that fit hold less than the units: Assets:Broker -5 HOOL {}
== 1 post lots that hold enough once the run is over
2024-01-02 * "Buy"
  Assets:Broker 10 HOOL {500 USD}
  Assets:Cash
2024-01-03 * "Sell in two postings, the second too many"
  Assets:Broker -5 HOOL {}
  Assets:Broker -8 HOOL {}
  Assets:Cash
2024-01-03 * "Sell too many"
  Assets:Broker -15 HOOL {}
  Assets:Cash
2024-01-04 * "Buy more"
  Assets:Broker 5 HOOL {500 USD, 2024-01-02}
  Assets:Cash
lotbook: line 6, command 2: B3 NotEnough: the lots that fit hold less than the units: Assets:Broker -8 HOOL {}
lotbook: line 9, command 3: B3 NotEnough: the lots that fit hold less than the units: Assets:Broker -15 HOOL {}
== 1 post lots that hold more than units can say
2024-01-02 open Assets:Fund
2024-01-02 * "Buy"
  Assets:Broker 9000000000 HOOL {1 USD, "a"}
  Assets:Cash
2024-01-02 * "Buy"
  Assets:Broker 9000000000 HOOL {1 USD, "b"}
  Assets:Fund
2024-01-03 * "Sell some"
  Assets:Broker -1 HOOL {}
  Assets:Cash
lotbook: line 9, command 4: B2 Ambiguous: several lots fit the braces, and STRICT doesn't choose among them: lots that fit now: 2; they differ in label: Assets:Broker -1 HOOL {}
== 1 post the latest day
2024-02-01 * "Buy"
  Assets:Broker 10 HOOL {500 USD}
  Assets:Cash
2024-01-01 * "Buy, found later"
  Assets:Broker 1 HOOL {400 USD}
  Assets:Cash
2024-02-02 * "Another commodity, units without a cost, another account"
  Assets:Broker 1 OTHR {400 USD}
  Assets:Broker 1 HOOL
  Assets:Cash -1 HOOL
  Assets:Cash 2 HOOL {500 USD}
  Assets:Cash
2024-01-31 * "Buy, found later"
  Assets:Cash
  Assets:Broker 1 HOOL {400 USD}
lotbook: line 5, command 2: L10 BackDated: a later day of this account and commodity is booked at cost already: the latest is 2024-02-01, of entry 5: Assets:Broker 1 HOOL {400 USD}
lotbook: line 15, command 4: L10 BackDated: a later day of this account and commodity is booked at cost already: the latest is 2024-02-01, of entry 5: Assets:Broker 1 HOOL {400 USD}
== 0 post closings of accounts that hold something
2024-01-02 * "Buy"
  Assets:Broker 10 HOOL {500 USD}
  Assets:Cash
2024-01-03 close Expenses:Fees
2024-01-03 close Assets:Broker
2024-01-03 close Assets:Cash
lotbook: line 5: warning: the account is closed, and still holds HOOL: 2024-01-03 close Assets:Broker
lotbook: line 6: warning: the account is closed, and still holds USD: 2024-01-03 close Assets:Cash
== 1 post a closing that is refused
2024-01-02 * "Gift"
  Assets:Cash 10 USD
  Income:Gains
2018-01-03 close Assets:Cash
lotbook: line 4, command 2: L4 NotOpenYet: the day is before the account's opening: 2018-01-03 close Assets:Cash
== 3 text lines that are faulty
2020-01-31 open Assets:Yen JPY
2020-01-31 * "Gift" $100
  Assets:Yen 1 yen
2020-13-01 open Assets:B
2020-01-01 balance Assets:A 0 USD
Assets:Cash 10 USD
  Assets:Cash 1
  Assets:Cash 1.123456789 USD {{1 USD}}
  Assets:Cash 1.5 USD {-3 USD}
  Assets:Cash 1.5 USD {3 USD, 2020-01-01, 2020-01-02}
lotbook: line 2: X2 Syntax: the line has none of the forms: column 21: `$100`: 2020-01-31 * "Gift" $100
lotbook: line 3: X5 BadName: a name is outside its rule: column 16: `yen`: Assets:Yen 1 yen
lotbook: line 4: X6 BadDay: the day isn't in the calendar: column 1: `2020-13-01`: 2020-13-01 open Assets:B
lotbook: line 5: X3 UnknownDirective: the line begins with no day, or behind the day stands no directive: column 12: `balance`: 2020-01-01 balance Assets:A 0 USD
lotbook: line 6: X3 UnknownDirective: the line begins with no day, or behind the day stands no directive: column 1: `Assets:Cash`: Assets:Cash 10 USD
lotbook: line 7: X2 Syntax: the line has none of the forms: the line ends too early: Assets:Cash 1
lotbook: line 8: X4 BadNumber: a number is outside its rule: a number has at most eight decimals: column 15: `1.123456789`: Assets:Cash 1.123456789 USD {{1 USD}}
lotbook: line 9: X4 BadNumber: a number is outside its rule: this number may not be negative: column 24: `-3`: Assets:Cash 1.5 USD {-3 USD}
lotbook: line 10: X2 Syntax: the line has none of the forms: column 43: `2020-01-02`: Assets:Cash 1.5 USD {3 USD, 2020-01-01, 2020-01-02}
== 3 text a posting without a transaction
2020-01-01 open Assets:A
  Assets:A 1 USD
lotbook: line 2: X2 Syntax: the line has none of the forms: no transaction is before this posting: Assets:A 1 USD
== 3 text openings that are faulty
2020-01-02 close Assets:Cash USD
2020-01-02 open Assets:Cash USD,
2020-01-02 open Assets:Cash "fifo"
2020-01-02 open
2020-01-02 price USD 1
2020-01-02 * "a\q"
2020-01-02
lotbook: line 1: X2 Syntax: the line has none of the forms: column 30: `USD`: 2020-01-02 close Assets:Cash USD
lotbook: line 2: X2 Syntax: the line has none of the forms: the line ends too early: 2020-01-02 open Assets:Cash USD,
lotbook: line 3: X5 BadName: a name is outside its rule: column 29: `"fifo"`: 2020-01-02 open Assets:Cash "fifo"
lotbook: line 4: X2 Syntax: the line has none of the forms: the line ends too early: 2020-01-02 open
lotbook: line 5: X2 Syntax: the line has none of the forms: the line ends too early: 2020-01-02 price USD 1
lotbook: line 6: X2 Syntax: the line has none of the forms: column 14: `"a\q"`: 2020-01-02 * "a\q"
lotbook: line 7: X2 Syntax: the line has none of the forms: the line ends too early: 2020-01-02
== 0 post numbers with a comma, and a method without quotes
2024-01-01 open Assets:First FIFO
2024-01-02 * "Buy"
  Assets:Broker 1,000 HOOL {111,64 USD}
  Assets:Cash -11,164,000.0 USD
2024-01-03 * "Interest"
  Assets:Cash -0,500 USD
  Income:Gains 0500 USD
2024-01-03 price HOOL 0,125 USD
2024-01-03 price HOOL 100,125 USD
lotbook: line 1: warning: FIFO is read as a currency: the method of an account stands in quotes: 2024-01-01 open Assets:First FIFO
lotbook: line 3: warning: 1,000 is read as 1000: commas are skipped, decimals stand behind a point: Assets:Broker 1,000 HOOL {111,64 USD}
lotbook: line 4: warning: -11,164,000.0 is read as -11164000: commas are skipped, decimals stand behind a point: Assets:Cash -11,164,000.0 USD
lotbook: line 6: warning: -0,500 is read as -500: commas are skipped, decimals stand behind a point: Assets:Cash -0,500 USD
lotbook: line 8: warning: 0,125 is read as 125: commas are skipped, decimals stand behind a point: 2024-01-03 price HOOL 0,125 USD
lotbook: line 9: warning: 100,125 is read as 100125: commas are skipped, decimals stand behind a point: 2024-01-03 price HOOL 100,125 USD
== 1 rows refused rows
ref,date,action,symbol,units,price,currency,fee
D-1,2024-01-15,BUY,HOOL,10,102.50,USD,4.95
D-2,2024-01-16,BUY,HOOL,10,103.50,USD,4.95
"D-3",2024-02-16,SELL,HOOL,5,"1,103.50",USD,4.95
lotbook: row 3 (D-3): B2 Ambiguous: several lots fit the braces, and STRICT doesn't choose among them: lots that fit now: 2, with 20 units; they differ in day, cost: "D-3",2024-02-16,SELL,HOOL,5,"1,103.50",USD,4.95
lotbook: row 3 (D-3): warning: price 1,103.50 is read as 1103.5: commas are skipped, decimals stand behind a point; try --all-or-none --dry-run first, or a profile that says what the comma is: "D-3",2024-02-16,SELL,HOOL,5,"1,103.50",USD,4.95
== 3 rows faulty rows
ref,date,action,symbol,units,price,currency,fee
D-1,2024-01-15,BUY,HOOL,10,102.50,USD,4.95
D-2,2024-01-16,Buy,HOOL,10,102.50,USD,4.95
D-3,2024-01-16,BUY,HOOL,"1,000.5x",102.50,USD,4.95
D-4,15.1.2024,BUY,HOOL,10,102.50,USD,4.95
D-5,2024-01-16,BUY,HOOL,10,102,50,USD,4.95
lotbook: row 2 (D-2): C2 BadRow: a field is outside the rule of its column: action is neither BUY nor SELL: `Buy`: D-2,2024-01-16,Buy,HOOL,10,102.50,USD,4.95
lotbook: row 3 (D-3): C2 BadRow: a field is outside the rule of its column: units isn't a number of units, or is below zero: `1,000.5x`: D-3,2024-01-16,BUY,HOOL,"1,000.5x",102.50,USD,4.95
lotbook: row 4 (D-4): C2 BadRow: a field is outside the rule of its column: date isn't a day: `15.1.2024`: D-4,15.1.2024,BUY,HOOL,10,102.50,USD,4.95
lotbook: row 5 (D-5): C2 BadRow: a field is outside the rule of its column: another number of fields than the header: 9: D-5,2024-01-16,BUY,HOOL,10,102,50,USD,4.95
== 3 rows fields with blanks
ref,date,action,symbol,units,price,currency,fee
D-1, 2024-01-15,BUY,HOOL,10,102.50,USD,4.95
D-2,2024-01-15, BUY ,HOOL,10,102.50,USD,4.95
D-3,2024-01-15,BUY,HOOL,10,102.50,USD, 
lotbook: row 1 (D-1): C2 BadRow: a field is outside the rule of its column: date isn't a day: ` 2024-01-15`: D-1, 2024-01-15,BUY,HOOL,10,102.50,USD,4.95
lotbook: row 2 (D-2): C2 BadRow: a field is outside the rule of its column: action is neither BUY nor SELL: ` BUY `: D-2,2024-01-15, BUY ,HOOL,10,102.50,USD,4.95
lotbook: row 3 (D-3): C2 BadRow: a field is outside the rule of its column: fee is neither empty nor a rate: ` `: D-3,2024-01-15,BUY,HOOL,10,102.50,USD,
== 3 rows lots that aren't right
ref,date,action,symbol,units,price,currency,fee,lot
D-1,2024-01-15,BUY,HOOL,10,102.50,USD,4.95,D-2
D-2,2024-01-15,SELL,HOOL,10,102.50,USD,4.95,a\b
lotbook: row 1 (D-1): C2 BadRow: a field is outside the rule of its column: lot isn't the ref of the purchase: `D-2`: D-1,2024-01-15,BUY,HOOL,10,102.50,USD,4.95,D-2
lotbook: row 2 (D-2): C2 BadRow: a field is outside the rule of its column: lot isn't the label of a lot: `a\b`: D-2,2024-01-15,SELL,HOOL,10,102.50,USD,4.95,a\b
== 3 rows cash that isn't exact
ref,date,action,symbol,units,price,currency,fee
D-1,2024-01-15,BUY,HOOL,10,102.50,USD,4.95
D-2,2024-01-15,BUY,HOOL,0.3170215,78.8594,USD,1
lotbook: row 2 (D-2): C4 InexactAmount: the cash of the row has more than eight decimals, or is too large: 26.0001252771 USD, which has 10 decimals; --rounding ACCOUNT rounds it: D-2,2024-01-15,BUY,HOOL,0.3170215,78.8594,USD,1
== 3 rows another header
ref,date,action,symbol,units,price,currency,Fee
lotbook: C1 BadHeader: the first record isn't the header of a broker file: the file begins with `ref,date,action,symbol,units,price,currency,Fee`
== 1 rows newest first, a decimal comma and a ref twice
ref,date,action,symbol,units,price,currency,fee
D-9,2024-03-15,SELL,HOOL,10,"102,50",USD,4.95
D-2,2024-02-15,BUY,HOOL,5,102.50,USD,4.95
D-3,2024-01-15,BUY,HOOL,5,102.50,USD,4.95
D-2,2024-01-15,BUY,HOOL,6,102.50,USD,4.95
lotbook: row 1 (D-9): B4 IncompleteCost: the braces open a lot, and don't give its cost and currency: it sells, and no lot is held that it can take: D-9,2024-03-15,SELL,HOOL,10,"102,50",USD,4.95
lotbook: row 3 (D-3): L10 BackDated: a later day of this account and commodity is booked at cost already: the latest is 2024-02-15, of entry 5: D-3,2024-01-15,BUY,HOOL,5,102.50,USD,4.95
lotbook: row 4 (D-2): L1 KeyReused: another command has this key already: entry 5, with the line `2024-02-15 * "D-2"` in place of `2024-01-15 * "D-2"`: D-2,2024-01-15,BUY,HOOL,6,102.50,USD,4.95
lotbook: warning: the first row is of 2024-03-15, the last of 2024-01-15: rows stand in the order of their days, the oldest first
lotbook: row 1 (D-9): warning: price 102,50 is read as 10250: commas are skipped, decimals stand behind a point; try --all-or-none --dry-run first, or a profile that says what the comma is: D-9,2024-03-15,SELL,HOOL,10,"102,50",USD,4.95
lotbook: row 4 (D-2): warning: row 2 has this ref, too: a deal is known by it, so this one is a repeat or refused: D-2,2024-01-15,BUY,HOOL,6,102.50,USD,4.95
== 0 rows rows without a fault
ref,date,action,symbol,units,price,currency,fee
"D,1","2024-01-15","BUY","HOOL","10","102.50","USD","4.95"
D-2,2024-01-16,BUY,HOOL,1010,103.50,USD,4.95
== 0 rows a comma before three decimals
ref,date,action,symbol,units,price,currency,fee
D-1,2024-01-15,BUY,FUND,3,"605,007",EUR,
lotbook: row 1 (D-1): warning: price 605,007 is read as 605007: commas are skipped, decimals stand behind a point; try --all-or-none --dry-run first, or a profile that says what the comma is: D-1,2024-01-15,BUY,FUND,3,"605,007",EUR,
== 0 rows a comma in each column, in several rows
ref,date,action,symbol,units,price,currency,fee,lot
D-1,2024-01-15,BUY,HOOL,10,"605,007",EUR,,
D-2,2024-01-16,BUY,HOOL,"1,000","6,5",EUR,"4,95",
"D,3",2024-01-17,BUY,HOOL,"2,000.5",6.5,EUR,"0,5","D,3"
D-4,2024-01-18,BUY,HOOL,10,"6,5",EUR,5,
lotbook: row 2 (D-2): warning: units 1,000 is read as 1000: commas are skipped, decimals stand behind a point; 1 more row has a comma there; try --all-or-none --dry-run first, or a profile that says what the comma is: D-2,2024-01-16,BUY,HOOL,"1,000","6,5",EUR,"4,95",
lotbook: row 1 (D-1): warning: price 605,007 is read as 605007: commas are skipped, decimals stand behind a point; 2 more rows have a comma there; try --all-or-none --dry-run first, or a profile that says what the comma is: D-1,2024-01-15,BUY,HOOL,10,"605,007",EUR,,
lotbook: row 2 (D-2): warning: fee 4,95 is read as 495: commas are skipped, decimals stand behind a point; 1 more row has a comma there; try --all-or-none --dry-run first, or a profile that says what the comma is: D-2,2024-01-16,BUY,HOOL,"1,000","6,5",EUR,"4,95",
== 3 rows all columns of a row that are faulty
ref,date,action,symbol,units,price,currency,fee
D-1,15.01.2024,Kauf,BRK/B,10,"1.102,50",EUR,
D-2,2024-01-16,BUY,HOOL,10,102.50,EUR,
D-3,2024-01-17,BUY,HOOL,-10,102.50,€,x
D-4,2024-01-32,SELL,HOOL,10,102.50,EUR
lotbook: row 1 (D-1): C2 BadRow: a field is outside the rule of its column: date isn't a day: `15.01.2024`; action is neither BUY nor SELL: `Kauf`; symbol isn't a commodity (at most 24 of A-Z, 0-9 and ' . _ -, a letter first, a letter or a digit last): `BRK/B`: the nearest is BRK.B; price isn't a rate: `1.102,50`: D-1,15.01.2024,Kauf,BRK/B,10,"1.102,50",EUR,
lotbook: row 3 (D-3): C2 BadRow: a field is outside the rule of its column: units isn't a number of units, or is below zero: `-10`; currency isn't a commodity (at most 24 of A-Z, 0-9 and ' . _ -, a letter first, a letter or a digit last): `€`; fee is neither empty nor a rate: `x`: D-3,2024-01-17,BUY,HOOL,-10,102.50,€,x
lotbook: row 4 (D-4): C2 BadRow: a field is outside the rule of its column: another number of fields than the header: 7: D-4,2024-01-32,SELL,HOOL,10,102.50,EUR
== 3 rows columns of version 2, of which a lot goes by the action
ref,date,action,symbol,units,price,currency,fee,lot
,,,,,,,x,a\b
D-2,2024-01-15,Kauf,HOOL,10,102.50,USD,4.95,D-1
D-3,2024-01-15,Kauf,HOOL,10,102.50,USD,4.95,a\b
D-4,2024-01-15,BUY,HOOL,10,x,USD,4.95,D-1
a\b,2024-01-15,BUY,HOOL,10,102.50,USD,4.95,a\b
D-6,2024-01-15,SELL,HOOL,10,x,USD,4.95,D-1
D-7,2024-01-15,BUY,HOOL,x,102.50,USD,4.95
lotbook: row 1 (): C2 BadRow: a field is outside the rule of its column: ref isn't a label: ``; date isn't a day: ``; action is neither BUY nor SELL: ``; symbol isn't a commodity (at most 24 of A-Z, 0-9 and ' . _ -, a letter first, a letter or a digit last): ``; units isn't a number of units, or is below zero: ``; price isn't a rate: ``; currency isn't a commodity (at most 24 of A-Z, 0-9 and ' . _ -, a letter first, a letter or a digit last): ``; fee is neither empty nor a rate: `x`; lot isn't the label of a lot: `a\b`: ,,,,,,,x,a\b
lotbook: row 2 (D-2): C2 BadRow: a field is outside the rule of its column: action is neither BUY nor SELL: `Kauf`: D-2,2024-01-15,Kauf,HOOL,10,102.50,USD,4.95,D-1
lotbook: row 3 (D-3): C2 BadRow: a field is outside the rule of its column: action is neither BUY nor SELL: `Kauf`; lot isn't the label of a lot: `a\b`: D-3,2024-01-15,Kauf,HOOL,10,102.50,USD,4.95,a\b
lotbook: row 4 (D-4): C2 BadRow: a field is outside the rule of its column: price isn't a rate: `x`; lot isn't the ref of the purchase: `D-1`: D-4,2024-01-15,BUY,HOOL,10,x,USD,4.95,D-1
lotbook: row 5 (a\b): C2 BadRow: a field is outside the rule of its column: ref isn't a label: `a\b`; lot isn't the label of a lot: `a\b`: a\b,2024-01-15,BUY,HOOL,10,102.50,USD,4.95,a\b
lotbook: row 6 (D-6): C2 BadRow: a field is outside the rule of its column: price isn't a rate: `x`: D-6,2024-01-15,SELL,HOOL,10,x,USD,4.95,D-1
lotbook: row 7 (D-7): C2 BadRow: a field is outside the rule of its column: another number of fields than the header: 8: D-7,2024-01-15,BUY,HOOL,x,102.50,USD,4.95
== 3 rows fields with quotes and line ends
ref,date,action,symbol,units,price,currency,fee
"D
1","2024-01-15","Buy","H""L",10,"1
0",USD,
lotbook: row 1 (D?1): C2 BadRow: a field is outside the rule of its column: ref isn't a label: `D?1`; action is neither BUY nor SELL: `Buy`; symbol isn't a commodity (at most 24 of A-Z, 0-9 and ' . _ -, a letter first, a letter or a digit last): `H"L`: the nearest is H.L; price isn't a rate: `1?0`: "D?1","2024-01-15","Buy","H""L",10,"1?0",USD,
CASES

# Symbols that aren't commodities, each with the name that is one and near; with none, where no letter and no digit stands there.
near() {
    printf 'ref,date,action,symbol,units,price,currency,fee\nD-1,2024-01-15,BUY,%s,1,1,USD,\n' "$1" >"$scratch/in"
    printf "lotbook: row 1 (D-1): C2 BadRow: a field is outside the rule of its column: symbol isn't a commodity (%s): \`%s\`%s: %s\n" \
        "at most 24 of A-Z, 0-9 and ' . _ -, a letter first, a letter or a digit last" "$1" "${2:+: the nearest is $2}" \
        "$(tail -n 1 "$scratch/in")" >"$scratch/told"
    notes "the symbol '$1'" 3 "${import[@]}"
}
near BRK/B BRK.B
near brk.b BRK.B
near "BRK B" BRK.B
near " HOOL " HOOL
near 3M X3M
near 7203.T X7203.T
near -5.T X5.T
near '$HOOL.' HOOL
near "A & B -C" A.B.C
near "o'neil_x-1" "O'NEIL_X-1"
near MÜNCH M.NCH
near VANGUARD-FTSE-ALL-WORLD-UCITS VANGUARD-FTSE-ALL-WORLD
near ABCDEFGHIJKLMNOPQRSTUVWXYZ ABCDEFGHIJKLMNOPQRSTUVWX
near 012345678901234567890123 X01234567890123456789012
near "" ""
near "?" ""
near "..." ""

# Bytes that no line may bring to a terminal, marks and line ends of other systems, and long lines.
printf '\357\273\2772020-01-01 open Assets:A\r\n2020-01-02 * "Z\374rich"\r\n' >"$scratch/in"
printf 'lotbook: line 2: X1 NotUtf8: the line isn'"'"'t UTF-8: 2020-01-02 * "Z?rich"\n' >"$scratch/told"
notes "bytes that aren't UTF-8" 3
printf '2020-01-01 open Assets:A\n2020-01-02 * "\303\274" \033[2J\n' >"$scratch/in"
printf 'lotbook: line 2: X2 Syntax: the line has none of the forms: column 18: `?[2J`: 2020-01-02 * "\303\274" ?[2J\n' >"$scratch/told"
notes "control characters" 3
printf '2020-01-02 *\n  \302\240Assets:A 1 USD\n  \fAssets:A 1 USD\n' >"$scratch/in"
{
    printf 'lotbook: line 2: X5 BadName: a name is outside its rule: column 3: `\302\240Assets:A`: \302\240Assets:A 1 USD\n'
    printf 'lotbook: line 3: X2 Syntax: the line has none of the forms: column 3: `?Assets:A`: Assets:A 1 USD\n'
} >"$scratch/told"
notes "blanks that separate no tokens" 3
long=$(printf 'x%.0s' {1..200})
printf '2020-01-01 open Assets:A\n2020-01-02 * "%s"\n  Assets:A 1 USD\n' "$long" >"$scratch/in"
printf 'lotbook: line 2, command 2: L14 NotBalanced: the postings don'"'"'t balance: they leave 1.00 USD: 2020-01-02 * "%s..\n' "${long:0:66}" >"$scratch/told"
notes "a long line" 1
head -c 5000 /dev/zero | tr '\0' ';' >"$scratch/in"
printf 'lotbook: line 1: X7 LineTooLong: the line has more than 4,096 bytes: %s..\n' "$(printf ';%.0s' {1..80})" >"$scratch/told"
notes "a line that is too long" 3

# How many.
for n in {10..34}; do echo "2020-01-$((n % 28 + 1)) open Assets:Cash"; done >"$scratch/in"
for n in {1..25}; do
    printf 'lotbook: line %d, command %d: L2 AlreadyOpen: the account was opened before: %s\n' "$n" "$n" "$(sed -n "${n}p" "$scratch/in")"
done >"$scratch/each"
{ head -n 10 "$scratch/each" && echo "lotbook: ... and 15 more"; } >"$scratch/told"
notes "the first ten" 1 "${post[@]}"
opened
run "${post[@]}" --explain-all <"$scratch/in"
if cmp -s "$scratch/each" "$scratch/err"; then pass "all of them"; else fail "all of them" "$(head -n 1 "$scratch/err")"; fi
head -n 10 "$scratch/in" >"$scratch/ten" && mv "$scratch/ten" "$scratch/in"
head -n 10 "$scratch/each" >"$scratch/told"
notes "ten and no more" 1 "${post[@]}"

# Rows that are faulty, each with all its columns.
for n in {1..12}; do echo "D-$n,2024-01-15,buy,HOOL,x,1,USD,"; done >"$scratch/each"
{ echo "ref,date,action,symbol,units,price,currency,fee" && cat "$scratch/each"; } >"$scratch/in"
{
    sed -n '1,10s/^D-\([0-9]*\),.*/lotbook: row \1 (D-\1): C2 BadRow: a field is outside the rule of its column: action is neither BUY nor SELL: `buy`; units isn'"'"'t a number of units, or is below zero: `x`: &/p' "$scratch/each"
    echo "lotbook: ... and 2 more"
} >"$scratch/told"
notes "the first ten faulty rows" 3 "${import[@]}"

# Warnings of a file as a whole and of its columns come before those of its rows, so that ten have room for them.
{
    printf 'ref,date,action,symbol,units,price,currency,fee\nD-1,2024-01-16,BUY,HOOL,1,1,USD,\n'
    for n in {2..12}; do printf 'D-1,2024-01-15,BUY,HOOL,1,"1,5",USD,\n'; done
} >"$scratch/in"
{
    echo "lotbook: warning: the first row is of 2024-01-16, the last of 2024-01-15: rows stand in the order of their days, the oldest first"
    echo "lotbook: warning: --from 13 is past the end of 12 rows: none was run"
    echo 'lotbook: row 2 (D-1): warning: price 1,5 is read as 15: commas are skipped, decimals stand behind a point; 10 more rows have a comma there; try --all-or-none --dry-run first, or a profile that says what the comma is: D-1,2024-01-15,BUY,HOOL,1,"1,5",USD,'
    for n in {2..8}; do
        printf 'lotbook: row %d (D-1): warning: row %d has this ref, too: a deal is known by it, so this one is a repeat or refused: D-1,2024-01-15,BUY,HOOL,1,"1,5",USD,\n' "$n" "$((n - 1))"
    done
    echo "lotbook: ... and 4 more"
} >"$scratch/told"
notes "warnings of a file, of its columns and of its rows" 0 "${import[@]}" --from 13

# A start past the end; a fault of the input; no input.
printf '2020-01-01 open Assets:A\n2020-01-01 open Assets:B\n' >"$scratch/in"
echo "lotbook: warning: --from 3 is past the end of 2 commands: none was run" >"$scratch/told"
notes "a start past the end" 0 "${post[@]}" --from 3
: >"$scratch/told"
notes "a start at the last command" 0 "${post[@]}" --from 2
head -c 16777217 /dev/zero >"$scratch/in"
echo "lotbook: K2 TooLong: the input, or an entry of a dump, is too long" >"$scratch/told"
notes "too much input" 3 "${post[@]}"
: >"$scratch/in" >"$scratch/told"
notes "no input" 0 "${post[@]}"

# The text that stands under a key: of a text sent again with another one, and of a row that was posted by hand.
reused() {
    opened
    "$program" "${@:3}" <"$scratch/sent" >/dev/null 2>&1
    run "${@:3}" <"$scratch/in"
    if ((status == 1)) && grep -qxF "lotbook: $2" "$scratch/err" && [[ $(wc -l <"$scratch/err") == 1 ]]; then
        pass "$1"
    else
        fail "$1" "status $status, and $(head -n 2 "$scratch/err" | tr '\n' '|')"
    fi
}
key="L1 KeyReused: another command has this key already: entry 5, with"
printf '2024-01-02 * "Gift"\n  Assets:Cash 10 USD\n  Income:Gains -10 USD\n' >"$scratch/sent"
printf '2024-01-02 * "Gift"\n  Assets:Cash 11 USD\n  Income:Gains -11 USD\n' >"$scratch/in"
reused "a key that stands with another line" "line 1, command 1: $key the line \`Assets:Cash 10 USD\`: 2024-01-02 * \"Gift\"" "${post[@]}"
printf '2024-01-02 * "Gift"\n  Assets:Cash 10 USD\n  Income:Gains -10 USD\n  Assets:Cash 0 USD\n' >"$scratch/in"
reused "a key that stands with fewer lines" "line 1, command 1: ${key}out the line \`Assets:Cash 0 USD\`: 2024-01-02 * \"Gift\"" "${post[@]}"
printf '2024-01-02 close Assets:Cash\n' >"$scratch/in"
reused "the key of a row" "line 1, command 1: $key the line \`2024-01-02 * \"Gift\"\`: 2024-01-02 close Assets:Cash" \
    post --book "$book" --row-of b --ref D-1

# The account of a refused row, which stands in the arguments alone, and the currency that it may not have.
refused_row() {
    opened
    printf '2019-01-01 open %s\n' "$2" | "$program" post --book "$book" --batch more >/dev/null 2>&1
    run import --book "$book" --batch d "${accounts[@]}" <"$scratch/in"
    if ((status == 1)) && [[ $(<"$scratch/err") == "lotbook: row 2 (D-2): $3: $(tail -n 1 "$scratch/in")" ]]; then
        pass "$1"
    else
        fail "$1" "status $status, and $(head -n 2 "$scratch/err" | tr '\n' '|')"
    fi
}
printf 'ref,date,action,symbol,units,price,currency,fee\nD-1,2024-01-15,BUY,HOOL,10,102.50,EUR,\nD-2,2024-01-16,SELL,HOOL,10,103,EUR,1\n' >"$scratch/in"
accounts[5]=Expenses:Feees
refused_row "a row whose account isn't open" Assets:Other \
    "L3 UnknownAccount: no account of this name was opened: Expenses:Feees: the nearest is Expenses:Fees"
accounts[5]=Expenses:Later
refused_row "a row before the opening of an account" $'Assets:Other\n2024-02-01 open Expenses:Later' \
    "L4 NotOpenYet: the day is before the account's opening: Expenses:Later"
accounts[5]=Expenses:Shut
refused_row "a row behind the closing of an account" $'Expenses:Shut\n2019-01-02 close Expenses:Shut' \
    "L5 Closed: the account is closed: Expenses:Shut"
accounts[5]=Expenses:Dollars
refused_row "a row in a currency that an account may not have" "Expenses:Dollars USD" \
    "L7 CurrencyNotAllowed: the account was opened with other currencies: Expenses:Dollars, EUR"
accounts[5]=Expenses:Fees accounts[7]=Income:Dollars
refused_row "a row whose gain an account may not have" "Income:Dollars USD" \
    "L13 FillNotAllowed: the account of the posting without an amount was opened with other currencies: Income:Dollars, EUR"
accounts[7]=Income:Gains

# What is kept nowhere: a dry run, and a call that keeps all or nothing, one of whose commands is refused.
printf '2024-01-02 * "Buy"\n  Assets:Broker 3 HOOL {500 USD}\n  Assets:Cash\n2024-01-03 * "Sell"\n  Assets:Broker -5 HOOL {}\n  Assets:Cash\n' >"$scratch/in"
fact='line 5, command 2: B3 NotEnough: the lots that fit hold less than the units: held now: 3; wanted: 5: Assets:Broker -5 HOOL {}'
echo "lotbook: $fact" >"$scratch/told"
notes "facts of a dry run" 1 "${post[@]}" --dry-run
echo "lotbook: $book: $nothing_kept" >>"$scratch/told"
notes "facts of a call that keeps all or nothing" 1 "${post[@]}" --all-or-none

# They are of the book that all its commands had made: an account, a lot and an entry that aren't kept.
printf '2024-01-01 open %s\n' Assets:Depot Assets:Money >"$scratch/in"
cat >>"$scratch/in" <<'END'
2024-02-02 * "Buy"
  Assets:Depot 3 HOOL {500 USD}
  Assets:Money
2024-02-03 * "Buy"
  Assets:Depot 4 HOOL {510 USD}
  Assets:Mony
2024-02-01 * "Buy"
  Assets:Depot 1 HOOL {490 USD}
  Assets:Money
2024-02-03 * "Buy"
  Assets:Depot 4 HOOL {510 USD}
  Assets:Money
2024-02-04 * "Sell"
  Assets:Depot -2 HOOL {}
  Assets:Money
2024-02-04 close Assets:Money
END
{
    echo 'lotbook: line 8, command 4: L3 UnknownAccount: no account of this name was opened: the nearest is Assets:Money: Assets:Mony'
    echo 'lotbook: line 10, command 5: L10 BackDated: a later day of this account and commodity is booked at cost already: the latest is 2024-02-03, of entry 8: Assets:Depot 1 HOOL {490 USD}'
    echo "lotbook: line 16, command 7: B2 Ambiguous: several lots fit the braces, and STRICT doesn't choose among them: lots that fit now: 2, with 7 units; they differ in day, cost: Assets:Depot -2 HOOL {}"
    echo 'lotbook: line 18: warning: the account is closed, and still holds USD: 2024-02-04 close Assets:Money'
    echo "lotbook: $book: $nothing_kept"
} >"$scratch/told"
notes "facts of what isn't kept" 1 "${post[@]}" --all-or-none

# What an account took, or why it takes nothing. An entry that it completed is one of the same text where the account is named.
rounding=(--rounding Income:Gains)
printf '2024-01-02 * "Buy"\n  Assets:Broker 0.3333 HOOL {101.12345 USD}\n  Assets:Cash -33.70 USD\n' >"$scratch/in"
printf 'lotbook: %s\n' "command 1: Income:Gains takes -0.004445885 USD" "Income:Gains takes -0.004445885 USD, of 1 command" >"$scratch/told"
notes "a crumb that an account takes" 0 "${post[@]}" "${rounding[@]}"
notes "the same of a call that keeps all or nothing" 0 "${post[@]}" "${rounding[@]}" --all-or-none
left="line 1, command 1: L14 NotBalanced: the postings don't balance: they leave 0.004445885 USD, which has 9 decimals"
echo "lotbook: $left; its crumb is -0.004445885 USD, 0.003445885 more than --within allows: 2024-01-02 * \"Buy\"" >"$scratch/told"
notes "a crumb that is too large" 1 "${post[@]}" "${rounding[@]}" --within 0.001
echo "lotbook: $left; with its crumbs it is refused: L3 UnknownAccount Equity:Other: 2024-01-02 * \"Buy\"" >"$scratch/told"
notes "an account for crumbs that isn't open" 1 "${post[@]}" --rounding Equity:Other
cp "$scratch/in" "$scratch/bought"
printf '2024-01-02 * "Move"\n  Assets:Cash 10 USD\n  Assets:Cash -9.999 USD\n' >"$scratch/in"
echo "lotbook: line 1, command 1: L14 NotBalanced: the postings don't balance: they leave 0.001 USD; USD has no cost or price here, so no crumb is taken in it: 2024-01-02 * \"Move\"" >"$scratch/told"
notes "a currency in which no crumb is taken" 1 "${post[@]}" "${rounding[@]}"
mv "$scratch/bought" "$scratch/in"
opened
"$program" "${post[@]}" "${rounding[@]}" <"$scratch/in" >/dev/null 2>&1
run "${post[@]}" <"$scratch/in"
echo "lotbook: line 1, command 1: $key the line \`Income:Gains -0.00444588 USD\`; with --rounding ACCOUNT it is a repeat: 2024-01-02 * \"Buy\"" >"$scratch/told"
if ((status == 1)) && cmp -s "$scratch/told" "$scratch/err"; then pass "an entry that was completed"; else fail "an entry that was completed" "status $status, and $(head -n 1 "$scratch/err")"; fi
printf 'ref,date,action,symbol,units,price,currency,fee\nD-1,2024-01-15,BUY,HOOL,0.3333,101.12345,USD,\nD-2,2024-01-15,BUY,HOOL,2,10.002,USD,\n' >"$scratch/in"
printf 'lotbook: %s\n' "row 1: Income:Gains takes -0.004445885 USD" "row 2: Income:Gains takes -0.004 USD" "Income:Gains takes -0.008445885 USD, of 2 rows" >"$scratch/told"
notes "crumbs of rows" 0 "${import[@]}" "${rounding[@]}" --decimals 2
{ echo "$header" && seq -f 'D-%g,2024-01-15,BUY,HOOL,2,10.002,USD,' 12; } >"$scratch/in"
{
    seq -f 'lotbook: row %g: Income:Gains takes -0.004 USD' 10
    printf 'lotbook: %s\n' "... and 2 more" "Income:Gains takes -0.048 USD, of 12 rows"
} >"$scratch/told"
notes "crumbs of more than ten rows" 0 "${import[@]}" "${rounding[@]}" --decimals 2

# An import by a profile, on a book without the accounts that have this word: refused rows, rows to be left out, and faulty ones.
profile=$examples/profile
by_profile() {
    grep -v -- "$3" "$profile/accounts.ledger" | book_of "$book" accounts || fail "a book for a case" "its accounts can't be opened"
    run import --book "$book" --batch maple --profile "$scratch/maple.toml" "${@:4}" <"$scratch/in"
    if ((status == $2)) && cmp -s "$scratch/told" "$scratch/err"; then
        pass "$1"
    else
        fail "$1" "status $status: $(diff "$scratch/told" "$scratch/err" | head -n 6 | cut -c 1-200 | tr '\n' '|')"
    fi
}
# said LINE..: what is to be said, a line each, below the rows that are passed over.
said() { printf 'lotbook: %s\n' "1 row skipped" "$@" >"$scratch/told"; }
# faulty LINE: what is to be said of a faulty file.
faulty() { printf 'lotbook: %s\n' "$1" >"$scratch/told"; }
dropped="$book: $nothing_kept"
cp "$profile/maple.csv" "$scratch/in"
cp "$profile/maple.toml" "$scratch/maple.toml"
said "row 5 (2024-02-02 1 1001): L3 UnknownAccount: no account of this name was opened: Equity:Transfers: the nearest is Equity:Rounding: 02.02.2024 Payment" "$dropped"
by_profile "a row by a profile whose account isn't open" 1 Transfers
by_profile "the same, with all that is to be said" 1 Transfers --explain-all
said "row 1 (2024-06-28 1 1009): left out: 28.06.2024 Custody fee" "no row has a key with the name 2024-06-28 2 1009"
by_profile "rows by a profile to be left out" 0 nothing --except "2024-06-28 1 1009" --except "2024-06-28 2 1009"
sed 's/1.038,10/1.028,10/' "$profile/maple.csv" >"$scratch/in"
faulty "row 3 (03.05.2024 Sale ALV 4): units x price with the fee come to 1038.10, the amount is 1028.10: 10.00 apart: a column may be another, a fee have another sign, or a number be rounded, which \`rounded\` says"
by_profile "numbers that disagree" 3 nothing
sed 's/^05.02.2024;Purchase;ALV;10/&00000000000/' "$profile/maple.csv" >"$scratch/in"
faulty "row 4 (05.02.2024 Purchase ALV 1000000000000): units is too large: \`1000000000000\`"
by_profile "a number that is too large" 3 nothing
sed 's/^02.02.2024.*EUR/&x/' "$profile/maple.csv" >"$scratch/in"
faulty "row 5 (02.02.2024 Payment): currency is no commodity, as USD is: a column may be another, or a constant name it: \`EURx\`"
by_profile "a currency that is none" 3 nothing
sed 's/;Value;/;Net;/' "$profile/maple.csv" >"$scratch/in"
faulty "line 3, blank lines not counted: the column \`Value\` isn't in the header: \`Date;What;Symbol;Pieces;Price;Costs;Net;Currency;No.\`"
by_profile "a header without a column" 3 nothing
{ head -n 4 "$profile/maple.csv" && printf 'Z\374rich\n'; } >"$scratch/in"
faulty 'line 4, blank lines not counted, isn'"'"'t UTF-8: try encoding = "latin-1" in [file]'
by_profile "an export in another encoding" 3 nothing
cp "$profile/maple.csv" "$scratch/in"
grep -v turn "$profile/maple.toml" >"$scratch/maple.toml"
faulty "row 3 (03.05.2024 Sale ALV 4): sell: units has to be below zero, is 4: \`turn\` names the roles that are printed the other way"
by_profile "a number with another sign" 3 nothing
sed 's/Custody fee/begins: Pay/' "$profile/maple.toml" >"$scratch/maple.toml"
sed 's/Custody fee/Payment/' "$profile/maple.csv" >"$scratch/in"
faulty "row 1 (28.06.2024 Payment): it is of two kinds of the profile: fee, the [[kind]] 4, and withdrawal, the [[kind]] 6"
by_profile "a row of two kinds" 3 nothing
cp "$profile/maple.csv" "$scratch/in"
sed 's/is = "fee"/is = "by-hand"/' "$profile/maple.toml" >"$scratch/maple.toml"
printf 'lotbook: %s\n' "row 1 is by hand: --row-of maple --ref '2024-06-28 1 1009'" "1 row skipped" >"$scratch/told"
by_profile "a row by hand" 0 nothing
{ cat "$profile/maple.toml" && echo 'is = "skip"'; } >"$scratch/maple.toml"
run import --book "$book" --batch m --profile "$scratch/maple.toml" <"$scratch/in"
line=$(wc -l <"$scratch/maple.toml")
printf 'fault U2 BadValue --profile\nlotbook: %s: line %d is no TOML, or has a key that stands above already\n' "$scratch/maple.toml" "$line" >"$scratch/told"
if ((status == 2)) && cmp -s "$scratch/told" "$scratch/err"; then pass "a key twice in a profile"; else fail "a key twice in a profile" "status $status: $(tail -n 1 "$scratch/err")"; fi

# Lots without a price: what standard error says beside holdings with a day, as text and as a table. With --quiet it says nothing, and
# standard output is the same.
unpriced() {
    local form
    printf '%s' "${2:+lotbook: warning: lots without a price in their currency at $2$'\n'}" >"$scratch/told"
    for form in text csv; do
        run holdings --book "$book" --format "$form" --quiet "${@:3}" </dev/null
        cp "$scratch/out" "$scratch/first"
        if [[ -s $scratch/err ]]; then fail "$1, $form, quiet" "it says $(head -n 1 "$scratch/err")"; fi
        run holdings --book "$book" --format "$form" "${@:3}" </dev/null
        if ((status == 0)) && cmp -s "$scratch/first" "$scratch/out" && cmp -s "$scratch/told" "$scratch/err"; then
            pass "$1, $form"
        else
            fail "$1, $form" "status $status: $(diff "$scratch/told" "$scratch/err" | head -n 4 | tr '\n' '|')"
        fi
    done
}
opened
unpriced "an empty book" "" --day 2020-12-31
"$program" post --book "$book" --batch lots >"$scratch/posted" 2>&1 <<'END'
2020-01-02 * "A lot"
  Assets:Broker 10 HOOL {100 USD}
  Assets:Cash
2020-01-03 * "In another currency, with a label that looks like the end of a record"
  Assets:Broker 2.5 GOLD {40.5 EUR, "5,USD,10,,"}
  Assets:Cash
2020-01-04 * "With a label that looks like the end of a line"
  Assets:Broker 4 IRON {3 USD, "} value none"}
  Assets:Cash
2020-01-05 * "Short"
  Assets:Broker -2 LEAD {7.5 USD, "of two, the first"}
  Assets:Cash
2020-02-01 price IRON 3.5 USD
2020-03-01 price HOOL 110 USD
2020-03-01 price GOLD 45 USD
2020-04-01 price GOLD 41 EUR
2020-05-01 price LEAD 0 USD
END
if grep -qv accepted "$scratch/posted"; then fail "lots for a case" "$(grep -v accepted "$scratch/posted" | head -n 1)"; fi
unpriced "no day" ""
unpriced "no lot has a price" "2020-01-31: 4, total cost 101.25 EUR, 997.00 USD; total value of the others: none" --day 2020-01-31
unpriced "one lot has a price" "2020-02-29: 3, total cost 101.25 EUR, 985.00 USD; total value of the others: 14.00 USD" --day 2020-02-29
unpriced "a price in another currency" "2020-03-31: 2, total cost 101.25 EUR, -15.00 USD; total value of the others: 1114.00 USD" --day 2020-03-31
unpriced "one lot has no price" "2020-04-30: 1, total cost -15.00 USD; total value of the others: 102.50 EUR, 1114.00 USD" --day 2020-04-30
unpriced "each lot has a price" "" --day 2020-05-31
unpriced "nothing was held" "" --as-of 2020-01-01
unpriced "a past day" "2020-01-03: 2, total cost 101.25 EUR, 1000.00 USD; total value of the others: none" --as-of 2020-01-03
unpriced "a past day, at the prices of another" "2020-03-31: 1, total cost 101.25 EUR; total value of the others: 1114.00 USD" \
    --as-of 2020-01-04 --day 2020-03-31
unpriced "a past day, at the prices of a later one" "" --as-of 2020-01-04 --day 2020-12-31

# Of a report that isn't written whole only that is said.
run_full holdings --book "$book" --day 2020-01-31 </dev/null
stops "lots without a price, on a full disk"
tables rows "$book" "UPDATE lot SET cost_day = 99999999 WHERE commodity = 'LEAD'" >"$scratch/out"
run holdings --book "$book" --day 2020-01-31 </dev/null
damaged="lotbook: S7 Damaged: the file has a row that no book has"
says "lots without a price, and damage" "$damaged: lotbook verify says where the damage shows"
tables rows "$book" "UPDATE entry SET body = '2020-1-02' || substr(body, 11) WHERE number = 5" >"$scratch/out"
run reconcile --book "$book" --account Assets:Broker < <(printf 'commodity,units\n')
says "a statement, and damage" "$damaged: lotbook verify says where the damage shows"
run verify --book "$book" </dev/null
head -n 1 "$scratch/err" >"$scratch/first"
mv "$scratch/first" "$scratch/err"
says "damage, by verify" "$damaged"

# Many lots, to a pipe: more than a buffer holds.
opened
for number in {1..2000}; do printf '2020-01-02 *\n  Assets:Broker 0.5 HOOL {100.01 USD, "lot %d"}\n  Assets:Cash\n' "$number"; done |
    "$program" post --book "$book" --batch many --all-or-none >"$scratch/posted" 2>&1
unpriced "many lots" "2020-01-02: 2000, total cost 100010.00 USD; total value of the others: none" --day 2020-01-02
"$program" holdings --book "$book" --day 2020-01-02 2>"$scratch/err" </dev/null | cat >"$scratch/out"
echo "lotbook: warning: lots without a price in their currency at 2020-01-02: 2000, total cost 100010.00 USD; total value of the others: none" >"$scratch/told"
if cmp -s "$scratch/told" "$scratch/err"; then pass "many lots, to a pipe"; else fail "many lots, to a pipe" "$(head -n 1 "$scratch/err")"; fi

# A faulty statement: which row, why, and its first line.
# stated NAME TOLD STATEMENT
stated() {
    printf '%b' "$3" >"$scratch/in"
    echo "lotbook: $2" >"$scratch/told"
    notes "a statement, $1" 3 reconcile --book "$book" --account Assets:Broker
}
begins='a statement begins with `commodity,units`'
stated "another header" "$begins: the file begins with "'`commodity;units`' 'commodity;units\nUSD;1\n'
stated "empty" "$begins" ''
stated "a number" 'row 2: units isn'"'"'t a number of units: `EUR,1x`' 'commodity,units\nUSD,1\n\nEUR,1x\n'
stated "a commodity" 'row 1: commodity isn'"'"'t a commodity: `usd,1`' 'commodity,units\r\nusd,1\r\n'
stated "a commodity that comes twice" 'row 2: the commodity stands in a row above: `USD,2`' 'commodity,units\nUSD,1\nUSD,2\n'
stated "a field more" 'row 1: another number of fields than the header: `USD,1,`' 'commodity,units\nUSD,1,\n'
stated "a field of two lines" 'row 2: commodity isn'"'"'t a commodity: `"E`' 'commodity,units\n"USD",1\n"E\nR",1\n'

# A number with a comma in a statement: the first row that has one, and how many more. A faulty statement has no warning.
# commas NAME TOLD STATEMENT
commas() {
    printf '%b' "$3" >"$scratch/in"
    if [[ -n $2 ]]; then echo "lotbook: $2" >"$scratch/told"; else : >"$scratch/told"; fi
    notes "a statement, $1" 1 reconcile --book "$book" --account Assets:Broker
}
skipped="commas are skipped, decimals stand behind a point"
commas "no comma" "" 'commodity,units\n"CRUX","1.5"\n'
commas "a comma" "row 1 (CRUX): warning: units 1,5 is read as 15: $skipped: "'CRUX,"1,5"' 'commodity,units\nCRUX,"1,5"\n'
commas "a comma in groups" "row 2 (CRUX): warning: units -1,500.25 is read as -1500.25: $skipped: "'CRUX,"-1,500.25"' \
    'commodity,units\nUSD,1\nCRUX,"-1,500.25"\n'
commas "two commas" "row 2 (EUR): warning: units 0,5 is read as 5: $skipped; 1 more row has a comma there: "'EUR,"0,5"' \
    'commodity,units\nUSD,1\nEUR,"0,5"\nCRUX,"1,5"\n'
commas "three commas" "row 1 (EUR): warning: units 0,5 is read as 5: $skipped; 2 more rows have a comma there: "'EUR,"0,5"' \
    'commodity,units\nEUR,"0,5"\nUSD,"2,5"\nCRUX,"1,5"\n'
stated "a comma, and a fault" 'row 2: units isn'"'"'t a number of units: `EUR,1x`' 'commodity,units\nUSD,"1,5"\nEUR,1x\n'

# An account that the book doesn't have is warned of; one that it has isn't, and with `--quiet` none is.
# of_account ACCOUNT WORDS..: a report of it.
of_account() { run "${@:2}" --book "$book" --account "$1" < <(printf 'commodity,units\nUSD,0\n'); }
silent() { if [[ -s $scratch/err ]]; then fail "$1" "on standard error: $(head -c 200 "$scratch/err")"; else pass "$1"; fi; }
opened
for word in register activity reconcile; do
    for account in Assets:Broke Assets:Brokers Assets:Broker: Equity:; do
        of_account "$account" "$word"
        says "$word of no account $account" "lotbook: warning: the book has no account $account"
        of_account "$account" "$word" --quiet
        silent "$word of no account $account, quietly"
    done
    for account in Assets:Broker Assets:; do
        of_account "$account" "$word"
        silent "$word of $account"
    done
done

# Standard error that can't be written changes nothing.
printf '2020-01-01 open Assets:Cash\n' >"$scratch/in"
echo "1 refused L2 AlreadyOpen" >"$scratch/told"
opened
"$program" "${post[@]}" <"$scratch/in" >"$scratch/out" 2>/dev/full && status=0 || status=$?
: >"$scratch/err"
expect "standard error on a full disk" 1 "$scratch/told"
"$program" "${post[@]}" <"$scratch/in" >"$scratch/out" 2>&- && status=0 || status=$?
expect "standard error closed" 1 "$scratch/told"
finish
