#!/usr/bin/env bash
# Holdings and gains as tables for a spreadsheet: ledgers drawn from seeds beside plain records in Python, whose sums are those of the
# reports as text; faults that end a table, output that can't be written, words that can't be used, and a book of many sales, whose table
# LibreOffice reads back where the machine has it. The session of tables is tests/reports/csv.session.
source "$(dirname "$(readlink -f "${BASH_SOURCE[0]}")")/lib/books.sh"
in_memory
need_program

book=$scratch/family.book
columns=entry,posting,account,commodity,units,acquired,sold,days_held,label,unit_cost,currency,proceeds,cost,gain,term
of_register=day,entry,posting,account,commodity,units,acquired,label,unit_cost,currency,left,narration

# written NAME STATUS WORDS..: the table that the words ask for is what stands on this call's input.
written() {
    cat >"$scratch/wanted"
    run "${@:3}" --book "$book" --format csv </dev/null
    expect "$1" "$2" "$scratch/wanted"
}

# ---- ledgers that are drawn from seeds, beside plain tables

run_python tests/csv/compare.py "$program" "$scratch"

# ---- words

new_book "$book"
for value in CSV tsv '' 'csv ' textcsv; do
    unusable --format holdings --book "$book" "--format=$value"
    unusable --format gains --book "$book" "--format=$value"
    unusable --format register --account Assets: --book "$book" "--format=$value"
    unusable --format activity --book "$book" "--format=$value"
done
unusable --format gains --book "$book" --format
unusable --format gains --book "$book" --format csv --format csv
unusable --format journal --book "$book" --format csv

# ---- an empty book, and files that are no book

written "gains of an empty book" 0 gains <<<"$columns"
written "holdings of an empty book" 0 holdings <<<"account,commodity,units,acquired,label,unit_cost,currency,cost"
written "register of an empty book" 0 register --account Assets: <<<"$of_register"
written "activity of an empty book" 0 activity <<<"period,account,commodity,in,out"
for word in holdings "holdings --day 2020-01-01" gains "register --account Assets:" activity; do
    read -ra words <<<"$word"
    run "${words[@]}" --book "$scratch/missing.book" --format csv </dev/null
    answers "$word of a missing file" 4 "fault S1 NotABook"
done

# ---- damage

cat >"$scratch/sales" <<'END'
2020-01-01 open Assets:Broker "FIFO"
2020-01-01 open Assets:Cash
2020-01-01 open Income:Gains
2020-01-01 * "Ten at 100"
  Assets:Broker 10 HOOL {100 USD}
  Assets:Cash
2020-02-15 *
  Assets:Broker -3 HOOL {} @ 125 USD
  Assets:Cash 375 USD
  Income:Gains
2020-03-15 * "Sale"
  Assets:Broker -4 HOOL {} @@ 520 USD
  Assets:Cash 520 USD
  Income:Gains
2020-04-01 price HOOL 140 USD
END
sold="5,1,Assets:Broker,HOOL,-3,2020-01-01,2020-02-15,45,,100,USD,375.00,300.00,75.00,up-to-a-year"
later="6,1,Assets:Broker,HOOL,-4,2020-01-01,2020-03-15,74,,100,USD,520.00,400.00,120.00,up-to-a-year"
book_of "$book" a <"$scratch/sales" || fail "sales" "they aren't accepted"
written "two sales" 0 gains <<<"$columns"$'\n'"$sold"$'\n'"$later"
before=$(kept "$book")
run gains --book "$book" --format csv </dev/null
same "a table leaves the book" "$book" "$before"

# damaged NAME SQL WORDS..: after the statement the table ends with `S7`, behind the first lines of what stands on this call's input.
damaged() {
    cat >"$scratch/wanted"
    cp "$book" "$scratch/kept"
    tables rows "$book" "$2" >/dev/null || fail "$1" "the statement failed"
    run "${@:3}" --book "$book" --format csv </dev/null
    local lines
    lines=$(($(wc -l <"$scratch/out") - 1))
    if ((status != 4)); then
        fail "$1" "status $status"
    elif [[ $(tail -n 1 "$scratch/out") != "fault S7 Damaged" ]]; then
        fail "$1" "it ends with '$(tail -n 1 "$scratch/out")'"
    elif ! head -n "$lines" "$scratch/out" | cmp -s - <(head -n "$lines" "$scratch/wanted"); then
        fail "$1" "other lines before it: $(head -n 2 "$scratch/out" | tr '\n' '|')"
    else
        pass "$1"
    fi
    rm -f "$book"* && cp "$scratch/kept" "$book"
}
damaged "a second sale of no kind" "UPDATE sale SET kind = 3 WHERE entry = 6" gains <<<"$columns"$'\n'"$sold"
damaged "a first sale of no kind" "UPDATE sale SET kind = 3 WHERE entry = 5" gains </dev/null
damaged "a second sale without its legs" "DELETE FROM leg WHERE entry = 6 AND posting = 1" gains <<<"$columns"$'\n'"$sold"
damaged "an entry of no day" "UPDATE entry SET body = 'x' || body WHERE number = 6" register --account Assets: </dev/null
damaged "a last entry of no command" "UPDATE entry SET body = replace(body, '\"', '') WHERE number = 6" register --account Assets:Broker \
    <<<"$of_register"$'\n'"2020-01-01,4,1,Assets:Broker,HOOL,10,2020-01-01,,100,USD,10,Ten at 100"$'\n'"2020-02-15,5,1,Assets:Broker,HOOL,-3,2020-01-01,,100,USD,7,"
damaged "an entry without its day" "UPDATE entry SET body = 'x' || body WHERE number = 5" activity </dev/null
damaged "legs of no entry" "DELETE FROM entry WHERE number = 4" activity </dev/null
damaged "a lot of no day" "UPDATE lot SET cost_day = 99999999" holdings </dev/null
damaged "a price of no day" "UPDATE price SET day = 99999999" holdings --day 9999-12-31 </dev/null
written "two sales after that" 0 gains <<<"$columns"$'\n'"$sold"$'\n'"$later"

# ---- a book of many sales

awk 'BEGIN {
    print "2020-01-01 open Assets:Broker \"FIFO\"\n2020-01-01 open Assets:Cash\n2020-01-01 open Income:Gains"
    for (n = 0; n < 4000; n++) printf "2020-02-01 * \"Buy\"\n  Assets:Broker 1 HOOL {100.25 USD, \"a, %06d\"}\n  Assets:Cash\n", n
    for (n = 0; n < 600; n++) printf "2020-02-02 * \"Sell\"\n  Assets:Broker -3 HOOL {} @@ 391 USD\n  Assets:Cash 391 USD\n  Income:Gains\n"
}' >"$scratch/many"
book_of "$book" a <"$scratch/many" || fail "many sales" "$(grep -m 1 -v accepted "$scratch/posted")"
awk -v columns="$columns" 'BEGIN {
    print columns
    for (n = 0; n < 1800; n++) {
        share = n % 3 == 2 ? "130.33333334" : "130.33333333"
        gain = n % 3 == 2 ? "30.08333334" : "30.08333333"
        printf "%d,1,Assets:Broker,HOOL,-1,2020-02-01,2020-02-02,1,\"a, %06d\",100.25,USD,%s,100.25,%s,up-to-a-year\n", 4004 + n / 3, n, share, gain
    }
}' >"$scratch/sold"
written "many sales" 0 gains <"$scratch/sold"

# ---- LibreOffice, where the machine has it: it reads the fields as they are

if office=$(command -v soffice || command -v libreoffice); then
    cp "$scratch/sold" "$scratch/sold.csv"
    as_text=$(seq -f '%g/2' -s / 15) # each column as text, so that no field is written in another form
    timeout 300 "$office" "-env:UserInstallation=file://$scratch/office" --headless "--infilter=CSV:44,34,76,1,$as_text" \
        --convert-to "csv:Text - txt - csv (StarCalc):44,34,76,1,,0,false,true" --outdir "$scratch/read" "$scratch/sold.csv" >"$scratch/out" 2>&1
    if python3 -c 'import csv, sys; a, b = ([*csv.reader(open(f, newline=""))] for f in sys.argv[1:]); sys.exit(a != b)' \
        "$scratch/sold.csv" "$scratch/read/sold.csv" 2>"$scratch/err"; then
        pass "LibreOffice reads the fields of many sales"
    else
        fail "LibreOffice reads the fields of many sales" "$(cat "$scratch/out" "$scratch/err" | tail -n 2 | tr '\n' '|')"
    fi
else
    echo "skipped: there is no LibreOffice on this machine (no command 'soffice')"
fi

# ---- output that can't be written

for word in "holdings" "holdings --day 2020-12-31" "holdings --as-of 2020-12-31" gains; do
    read -ra words <<<"$word --format csv"
    cut_short "$word" "1 70 4097" "${words[@]}" --book "$book"
done
cut_short register "1 90 4097" register --account Assets: --format csv --book "$book"
commodities 2000 | book_of "$book" a || fail "many commodities" "$(grep -m 1 -v accepted "$scratch/posted")"
cut_short "gains by keys" "1 40 4097" gains --by account,commodity --format csv --book "$book"
cut_short activity "1 40 4097" activity --format csv --book "$book"
finish
