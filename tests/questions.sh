#!/usr/bin/env bash
# Twelve questions of a bookkeeper at the end of a year, each answered by one command, without SQL and without awk. They are asked when some
# of the next year is posted already, and a fee of December came late. docs/GUIDE.md has a command of the same form for each.
source "$(dirname "$(readlink -f "${BASH_SOURCE[0]}")")/lib/books.sh"
need_program

book=$scratch/year.book
year=(--first 2024-01-01 --last 2024-12-31)

printf '2023-12-29 open %s\n' 'Assets:Broker "FIFO"' Assets:Cash Equity:Start Expenses:{Fees,Tax} Income:{Dividends,Gains,Interest} >"$scratch/year.ledger"
cat >>"$scratch/year.ledger" <<'EOT'
2023-12-29 * "From another broker"
  Assets:Broker 10 HOOL {80 USD, 2022-11-15}
  Assets:Cash 5000 USD
  Equity:Start
2024-02-15 * "Buy"
  Assets:Broker 10 HOOL {100 USD}
  Expenses:Fees 4.95 USD
  Assets:Cash
2024-03-18 * "Dividend of HOOL"
  Assets:Cash 12.75 USD
  Expenses:Tax 2.25 USD
  Income:Dividends
2024-05-06 * "Buy"
  Assets:Broker 20 VEA {47.50 USD}
  Expenses:Fees 4.95 USD
  Assets:Cash
2024-06-28 price HOOL 112 USD
2024-06-28 price VEA 49 USD
2024-09-03 * "Sell"
  Assets:Broker -12 HOOL {} @ 120 USD
  Expenses:Fees 4.95 USD
  Assets:Cash 1435.05 USD
  Income:Gains
2024-09-17 * "Dividend of HOOL"
  Assets:Cash 6.80 USD
  Expenses:Tax 1.20 USD
  Income:Dividends
2024-12-10 * "Sell"
  Assets:Broker -5 VEA {} @ 46 USD
  Expenses:Fees 4.95 USD
  Assets:Cash 225.05 USD
  Income:Gains
2024-12-30 * "Interest"
  Assets:Cash 31.20 USD
  Income:Interest
2024-12-31 price HOOL 125 USD
2024-12-31 price VEA 48 USD
2025-01-08 * "Sell, in the new year"
  Assets:Broker -3 HOOL {} @ 130 USD
  Assets:Cash 390 USD
  Income:Gains
2025-01-08 price HOOL 130 USD
2024-12-20 * "A fee that came late"
  Expenses:Fees 2 USD
  Assets:Cash
EOT
book_of "$book" a <"$scratch/year.ledger" || fail "the year" "$(grep -v accepted "$scratch/posted" | head -n 3 | tr '\n' '|')"

# asked NAME STATUS WORDS..: the command ends so, and prints the lines of this call's standard input. docs/GUIDE.md has one with the same words,
# but for days and accounts.
asked() {
    local lines form
    lines=$(cat)
    run "$3" --book "$book" "${@:4}" <"${statement:-/dev/null}"
    wrote "$1" "$2" "$lines"
    form=$(sed -E 's/[0-9]{4}-[0-9]{2}-[0-9]{2}/[0-9-]+/g; s/(Assets|Expenses|Income):[A-Za-z]*/\1:[A-Za-z]*/g' <<<"${*:4}")
    if grep -qE "^    [$] .*lotbook $3 --book [a-z]+\.book $form\$" "$root/docs/GUIDE.md"; then
        pass "$1: in docs/GUIDE.md"
    else
        fail "$1: in docs/GUIDE.md" "no such command"
    fi
}

asked "what was held at the end of the year, and what it was worth" 0 holdings --as-of 2024-12-31 <<'EOT'
Assets:Broker 8 HOOL {100 USD, 2024-02-15} value 1000.00 USD
Assets:Broker 15 VEA {47.5 USD, 2024-05-06} value 720.00 USD
Assets:Cash 4748.95 USD
Equity:Start -5800.00 USD
Expenses:Fees 21.80 USD
Expenses:Tax 3.45 USD
Income:Dividends -23.00 USD
Income:Gains -432.50 USD
Income:Interest -31.20 USD
total cost 1512.50 USD
total value 1720.00 USD
EOT
asked "the same of an earlier day, as a table" 0 holdings --as-of 2024-06-30 --format csv <<'EOT'
account,commodity,units,acquired,label,unit_cost,currency,cost,price,value
Assets:Broker,HOOL,10,2022-11-15,,80,USD,800.00,112,1120.00
Assets:Broker,HOOL,10,2024-02-15,,100,USD,1000.00,112,1120.00
Assets:Broker,VEA,20,2024-05-06,,47.5,USD,950.00,49,980.00
Assets:Cash,USD,3052.85,,,,,,,
Equity:Start,USD,-5800,,,,,,,
Expenses:Fees,USD,9.9,,,,,,,
Expenses:Tax,USD,2.25,,,,,,,
Income:Dividends,USD,-15,,,,,,,
EOT
asked "what each sale of the year gained, and which lots it took" 0 gains "${year[@]}" <<'EOT'
2024-09-03 Assets:Broker -12 HOOL proceeds 1440.00 cost 1000.00 gain 440.00 USD
  -10 HOOL {80 USD, 2022-11-15}
  -2 HOOL {100 USD, 2024-02-15}
2024-12-10 Assets:Broker -5 VEA proceeds 230.00 cost 237.50 gain -7.50 USD
  -5 VEA {47.5 USD, 2024-05-06}
total gain 432.50 USD
EOT
asked "the same lot by lot, as a table for the adviser" 0 gains "${year[@]}" --format csv <<'EOT'
entry,posting,account,commodity,units,acquired,sold,days_held,label,unit_cost,currency,proceeds,cost,gain,term
15,1,Assets:Broker,HOOL,-10,2022-11-15,2024-09-03,658,,80,USD,1200.00,800.00,400.00,over-a-year
15,1,Assets:Broker,HOOL,-2,2024-02-15,2024-09-03,201,,100,USD,240.00,200.00,40.00,up-to-a-year
17,1,Assets:Broker,VEA,-5,2024-05-06,2024-12-10,218,,47.5,USD,230.00,237.50,-7.50,up-to-a-year
EOT
asked "what was gained on lots that were held over a year, by years" 0 gains --by year,term <<'EOT'
2024 over-a-year USD lots 1 proceeds 1200.00 cost 800.00 gain 400.00
2024 up-to-a-year USD lots 2 proceeds 470.00 cost 437.50 gain 32.50
2025 up-to-a-year USD lots 1 proceeds 390.00 cost 300.00 gain 90.00
total gain 522.50 USD
EOT
asked "what was gained with each commodity in each account" 0 gains "${year[@]}" --by account,commodity <<'EOT'
Assets:Broker HOOL USD lots 2 proceeds 1440.00 cost 1000.00 gain 440.00
Assets:Broker VEA USD lots 1 proceeds 230.00 cost 237.50 gain -7.50
total gain 432.50 USD
EOT
asked "the dividends of each quarter" 0 activity --account Income:Dividends --by quarter <<'EOT'
2024-Q1 Income:Dividends USD in 0.00 out 15.00
2024-Q3 Income:Dividends USD in 0.00 out 8.00
EOT
asked "the interest of each month" 0 activity --account Income:Interest --by month <<'EOT'
2024-12 Income:Interest USD in 0.00 out 31.20
EOT
asked "the fees and the tax of the year" 0 activity --account Expenses: "${year[@]}" <<'EOT'
2024 Expenses:Fees USD in 21.80 out 0.00
2024 Expenses:Tax USD in 3.45 out 0.00
EOT
printf 'commodity,units\nHOOL,8\nVEA,14\n' >"$scratch/statement.csv"
statement=$scratch/statement.csv asked "whether the broker's statement of the last day agrees" 1 reconcile --account Assets:Broker --as-of 2024-12-31 <<'EOT'
VEA statement 14.00 book 15.00 difference -1.00
EOT
asked "what moved a commodity, and what was left of it" 0 register --account Assets:Broker --commodity HOOL --first 2024-01-01 <<'EOT'
2024-02-15 Assets:Broker 10 HOOL {100 USD, 2024-02-15} left 20 entry 10 Buy
2024-09-03 Assets:Broker -10 HOOL {80 USD, 2022-11-15} left 10 entry 15 Sell
2024-09-03 Assets:Broker -2 HOOL {100 USD, 2024-02-15} left 8 entry 15 Sell
2025-01-08 Assets:Broker -3 HOOL {100 USD, 2024-02-15} left 5 entry 21 Sell, in the new year
EOT

# What the sale of the rest would gain: a dry run tells, and the book stays as it is.
before=$(kept "$book")
cat >"$scratch/sale.ledger" <<'EOT'
2025-01-31 *
  Assets:Broker -5 HOOL {} @ 130 USD
  Assets:Cash 650 USD
  Income:Gains
EOT
would='1 accepted
2025-01-31 Assets:Broker -5 HOOL proceeds 650.00 cost 500.00 gain 150.00 USD
  -5 HOOL {100 USD, 2024-02-15}
total gain 150.00 USD'
prints "what a sale of the rest would gain" 0 "$would" post --book "$book" --batch try --dry-run --gains <"$scratch/sale.ledger"
same "what a sale of the rest would gain: the book is as it was" "$book" "$before"
finish
