#!/usr/bin/env bash
# The reports of books in files: every session under tests/reports/, the stored cases, ledgers drawn from seeds beside plain reports
# in Python, words that can't be used, files that are no book, output that can't be written, totals that leave their range, and a
# large book. A commit for each of 100,000 commands would wait for the disk, so the books lie in memory where there is room.
#
#   tests/reports.sh [TRADES]    so many trades in the large book, a multiple of forty or two less; 14,600 where it is absent
source "$(dirname "$(readlink -f "${BASH_SOURCE[0]}")")/lib/books.sh"
in_memory
need_program

book=$scratch/family.book
accepted() { seq -f '%g accepted' "$1" "$2"; }

# fresh: a new book, a copy of one.
new_book "$scratch/new"
fresh() { rm -f "$book"* && cp "$scratch/new" "$book"; }

# ---- sessions
#
# A session is a text of blocks, run on one new book in their order. `$ WORDS` calls the program with these words and the book's
# file; the lines under it that begin with `> ` are its input, the others are what it prints, byte for byte, and a last line
# `status N` is its status where that isn't 0. Where the last line printed is a fault of the store, the lines before it may be
# fewer, from the first on: a report ends where it meets the damage, which may be ahead of what it has written. `$ sql TEXT` is run
# by SQLite's own library. A line that begins with `#`, or is empty, says nothing to the script.

# A block as it is read: the call, and where its parts are kept.
call="" blocks=0 damaged=0 wanted=0
input=$scratch/input printed=$scratch/printed

# begins_early FILE: what was printed ends with the last line of the file, and is before that the first lines of the file.
begins_early() {
    [[ $(tail -n 1 "$1") == "fault S"* && $(tail -n 1 "$1") == "$(tail -n 1 "$scratch/out")" ]] || return 1
    local lines
    lines=$(($(wc -l <"$scratch/out") - 1))
    ((lines <= $(wc -l <"$1") - 1)) && cmp -s <(head -n "$lines" "$1") <(head -n "$lines" "$scratch/out")
}

# done_with NAME: runs the block that was read.
done_with() {
    if [[ -z $call ]]; then return; fi
    local name="$1, $blocks: $call" words
    if [[ $call == "sql "* ]]; then
        damaged=1 wanted=0
        tables rows "$book" "${call#sql }" >"$scratch/out" 2>"$scratch/err" && status=0 || status=$?
    else
        read -ra words <<<"$call"
        run "${words[0]}" --book "$book" "${words[@]:1}" <"$input"
    fi
    if ((status == wanted)) && ! cmp -s "$printed" "$scratch/out" && begins_early "$printed"; then
        says "$name" "lotbook: $(tail -n 1 "$printed" | cut -d ' ' -f 2-): [[:print:]]+"
    else
        expect "$name" "$wanted" "$printed"
    fi
}

# again NAME HELD: the journal of the book is ledger text, which leaves the same holdings, a file, where it is read without words.
again() {
    run journal --book "$book" </dev/null
    mv "$scratch/out" "$scratch/journal"
    { accepted 1 "$(grep -c '^; entry ' "$scratch/journal")" && cat "$2"; } >"$printed"
    run <"$scratch/journal"
    expect "$1: its journal without words" 0 "$printed"
}

# elsewhere NAME: posted to another book, the journal leaves the same journal there, under other keys, and the same gains.
elsewhere() {
    local other=$scratch/again.book
    new_book "$other"
    accepted 1 "$(grep -c '^; entry ' "$scratch/journal")" >"$printed"
    run post --book "$other" --batch again <"$scratch/journal"
    expect "$1: its journal on another book" 0 "$printed"
    sed -E 's/^(; entry ([0-9]+) key) .*/\1 post:again \2/' "$scratch/journal" >"$printed"
    run journal --book "$other" </dev/null
    expect "$1: the journal of that" 0 "$printed"
    "$program" gains --book "$book" </dev/null >"$printed"
    run gains --book "$other" </dev/null
    expect "$1: the gains of that" 0 "$printed"
}

for session in "$root"/tests/reports/*.session; do
    name=${session##*/} name=${name%.session}
    fresh
    call="" blocks=0 damaged=0
    while IFS= read -r line; do
        case $line in
            '$ '*)
                done_with "$name"
                call=${line#'$ '} blocks=$((blocks + 1)) wanted=0
                : >"$input" && : >"$printed"
                ;;
            '> '*) printf '%s\n' "${line#'> '}" >>"$input" ;;
            'status '*) wanted=${line#status } ;;
            '' | '#'*) ;;
            *) printf '%s\n' "$line" >>"$printed" ;;
        esac
    done <"$session"
    done_with "$name"
    if ((blocks == 0)); then fail "$name" "there is no call in it"; fi
    if ((!damaged)); then
        "$program" holdings --book "$book" </dev/null >"$scratch/held"
        again "$name" "$scratch/held" && elsewhere "$name"
    fi
done

# ---- the stored cases: what a book in a file holds is what is printed without words

while IFS= read -r ledger; do
    name=${ledger#"$root/"} name=${name%.ledger} answer=${ledger%.ledger}.expected
    if [[ ! -f $answer ]] || grep -q '^fault' "$answer"; then continue; fi
    grep -v '^[0-9]' "$answer" >"$scratch/held"
    fresh
    "$program" post --book "$book" --batch a <"$ledger" >"$scratch/out" 2>"$scratch/err"
    run holdings --book "$book" </dev/null
    expect "$name: the holdings" 0 "$scratch/held"
    again "$name" "$scratch/held"
done < <(find "$root/tests/cases" "$examples" -name '*.ledger' | sort)

# ---- ledgers that are drawn from seeds, beside plain reports

run_python tests/random/reports.py "$program" "$scratch"

# ---- words

fresh
for day in 2020-02-30 2020-13-01 2021-02-29 0000-01-01 20-1-1 20200101 2020-01-01x x ''; do
    unusable "fault U2 BadValue --day" holdings --book "$book" "--day=$day"
    unusable "fault U2 BadValue --as-of" holdings --book "$book" "--as-of=$day"
    unusable "fault U2 BadValue --first" gains --book "$book" "--first=$day"
    unusable "fault U2 BadValue --last" gains --book "$book" --first 2020-01-01 "--last=$day"
done
unusable "fault U2 BadValue --first" gains --book "$book" --last x --first y
for word in holdings gains journal; do unusable "--book" "$word"; done
unusable "--first" holdings --book "$book" --first 2020-01-01
unusable "--day" gains --book "$book" --day 2020-01-01
unusable "--day" journal --book "$book" --day 2020-01-01
unusable "--batch" journal --book "$book" --batch a
unusable "--day" holdings --book "$book" --day
unusable "--day" holdings --book "$book" --day 2020-01-01 --day 2020-01-02
unusable "--as-of" holdings --book "$book" --as-of 2020-01-01 --as-of 2020-01-02
for word in holdings gains journal; do
    run "$word" --help </dev/null
    if ((status == 0)) && [[ ! -s $scratch/err ]] && grep -qF -- "lotbook $word --book" "$scratch/out"; then
        pass "help: $word"
    else
        fail "help: $word" "status $status, output '$(head -c 120 "$scratch/out")'"
    fi
done

# ---- files that are no book

for word in holdings "holdings --day 2020-01-01" "holdings --as-of 2020-01-01" gains "gains --by year" "register --account Assets:" activity journal; do
    read -ra words <<<"$word"
    missing=$scratch/missing.book
    prints "$word of a missing file" 4 "fault S1 NotABook" "${words[@]}" --book "$missing" </dev/null
    no_file "$word leaves no file" "$missing"
    : >"$scratch/empty.book"
    prints "$word of an empty file" 4 "fault S1 NotABook" "${words[@]}" --book "$scratch/empty.book" </dev/null
    new_book "$scratch/newer.book"
    tables edition "$scratch/newer.book" 9
    prints "$word of a book of edition 9" 4 "fault S2 NewerEdition" "${words[@]}" --book "$scratch/newer.book" </dev/null
    rm -f "$scratch/older.book"*
    tables older "$scratch/older.book"
    run "${words[@]}" --book "$scratch/older.book" </dev/null
    older "$word of a book of edition 1"
    printf 'no database, but a text\n' >"$scratch/text.book"
    run "${words[@]}" --book "$scratch/text.book" </dev/null
    unopened "$word of a text"
done
# No input is waited for, or read.
mkfifo "$scratch/nothing" && exec 7<>"$scratch/nothing"
for word in holdings gains "register --account Assets:" activity journal; do
    read -ra words <<<"$word"
    warning=""
    if [[ $word == register* ]]; then warning="lotbook: warning: the book has no account Assets:"; fi
    run "${words[@]}" --book "$book" <&7
    if ((status == 0)) && [[ $(<"$scratch/err") == "$warning" ]]; then pass "$word reads no input"; else fail "$word reads no input" "status $status"; fi
done

# ---- a book with many rows of each report

# trades COUNT KEPT: the accounts; then so many transactions, purchases and sales in turn, but of each KEPT the first sale is a
# purchase. Each purchase is a lot of its own; a sale takes the oldest. After each forty comes another commodity, with its price.
trades() {
    awk -v count="$1" -v kept="$2" 'BEGIN {
        print "2020-01-01 open Assets:Broker \"FIFO\"\n2020-01-01 open Assets:Cash\n2020-01-01 open Income:Gains"
        for (n = 0; n < count; n++) {
            name = sprintf("C%04d", n / 40)
            if (n % 40 == 0) print "2020-02-01 price " name " 150 USD"
            if (n % 2 == 0 || n % kept == 1) printf "2020-02-01 * \"Buy\"\n  Assets:Broker 1 %s {100.25 USD, \"%06d\"}\n  Assets:Cash\n", name, n
            else printf "2020-02-01 * \"Sell\"\n  Assets:Broker -1 %s {} @ 130 USD\n  Assets:Cash 130 USD\n  Income:Gains\n", name
        }
    }'
}
fresh
trades 6000 4 >"$scratch/many"
"$program" post --book "$book" --batch a <"$scratch/many" >"$scratch/out" || fail "a book with many rows" "$(grep -m 1 -v accepted "$scratch/out")"

# ---- output that can't be written

for word in holdings "holdings --day 2020-12-31" "holdings --as-of 2020-12-31" gains "register --account Assets:" journal; do
    read -ra words <<<"$word"
    cut_short "$word" "1 10 4097" "${words[@]}" --book "$book"
done
commodities 2000 | book_of "$book" a || fail "many commodities" "$(grep -m 1 -v accepted "$scratch/posted")"
cut_short "gains by keys" "1 10 4097" gains --by account,commodity --book "$book"
cut_short activity "1 10 4097" activity --book "$book"
fresh
for word in holdings gains; do
    run_full "$word" --book "$book" </dev/null
    stops "$word of an empty book on a full disk"
done
run_full journal --book "$book" </dev/null
if ((status == 0)); then pass "the journal of an empty book on a full disk"; else fail "the journal of an empty book on a full disk" "status $status"; fi

# ---- totals that leave their range
#
# The greatest total is 10^38 at scale 16. A row of the most units at the greatest rate counts (10^18 - 1) * (10^16 - 1): 10,000
# rows stay in range, and one more leaves it.

most=9999999999.99999999 dearest=99999999.99999999 each=999999999999999899.0000000000000001
total=9999999999999998990000.000000000001

# post_to_range NAME: posts this call's standard input to a new book.
post_to_range() {
    fresh
    if ! "$program" post --book "$book" --batch a >"$scratch/out" || grep -q -v accepted "$scratch/out"; then
        fail "$1" "$(grep -m 1 -v accepted "$scratch/out")"
    fi
}
# more NAME: posts one command more, this call's standard input, to that book.
more() { "$program" post --book "$book" --batch more >"$scratch/out" || fail "$1" "$(<"$scratch/out")"; }
# ends_at NAME FILE WORDS..: the report is the file, and the fault behind it.
ends_at() {
    { cat "$2" && echo "fault P1 Range"; } >"$scratch/expected"
    run "${@:3}" --book "$book" </dev/null
    expect "$1" 4 "$scratch/expected"
}

# Costs: so many lots of those units at that cost, of a commodity each, against plain units of that commodity at its price.
costs() {
    awk -v count="$1" -v units="$2" -v rate="$3" 'BEGIN {
        print "2020-01-01 open Assets:Lots\n2020-01-01 open Assets:Coins"
        for (n = 1; n <= count; n++) {
            if (n % 32 == 1) print "2020-01-01 *"
            printf "  Assets:Lots %s C%05d {%s USD}\n  Assets:Coins -%s C%05d @ %s USD\n", units, n, rate, units, n, rate
        }
    }'
}
# cost_rows UNITS RATE COINS LOTS: the rows of so many commodities, in the order of the report.
cost_rows() {
    seq -f "Assets:Coins -$1 C%05g" "$3"
    seq -f "Assets:Lots $1 C%05g {$2 USD, 2020-01-01}" "$4"
}
costs 10000 "$most" "$dearest" | post_to_range "the greatest total cost of such rows"
{ cost_rows "$most" "$dearest" 10000 10000 && echo "total cost $total USD"; } >"$scratch/expected"
run holdings --book "$book" </dev/null
expect "a total cost that stays in its range" 0 "$scratch/expected"
printf '2020-01-01 *\n  Assets:Lots %s C10001 {%s USD}\n  Assets:Coins -%s C10001 @ %s USD\n' "$most" "$dearest" "$most" "$dearest" | more "a cost too many"
cost_rows "$most" "$dearest" 10001 10000 >"$scratch/rows"
ends_at "a total cost that leaves its range in the last row" "$scratch/rows" holdings
{ accepted 1 315 && cat "$scratch/rows" && echo "fault P1 Range"; } >"$scratch/expected"
costs 10001 "$most" "$dearest" | run
expect "the same without words" 4 "$scratch/expected"

# The greatest total itself, and the least cost more.
costs 25000 8000000000 50000000 | post_to_range "the greatest total cost"
{ cost_rows 8000000000.00 50000000 25000 0 && cost_rows 8000000000 50000000 0 25000; } >"$scratch/rows"
{ cat "$scratch/rows" && echo "total cost 10000000000000000000000.00 USD"; } >"$scratch/expected"
run holdings --book "$book" </dev/null
expect "a total cost of exactly 10^22" 0 "$scratch/expected"
printf '2020-01-01 *\n  Assets:Lots 0.00000001 D {0.00000001 USD}\n  Equity:D -0.00000001 D @ 0.00000001 USD\n' >"$scratch/least"
{ echo "2020-01-01 open Equity:D" && cat "$scratch/least"; } |
    prints "the least cost more" 0 $'1 accepted\n2 accepted' post --book "$book" --batch b
ends_at "a total cost that leaves its range by the least" "$scratch/rows" holdings

# Values: so many lots that cost nothing, with a price for each.
values() {
    awk -v count="$1" -v most="$most" -v dearest="$dearest" 'BEGIN {
        print "2020-01-01 open Assets:Lots"
        for (n = 1; n <= count; n++) {
            printf "2020-01-01 price C%05d %s USD\n", n, dearest
            printf "2020-01-01 *\n  Assets:Lots %s C%05d {0 USD}\n", most, n
        }
    }'
}
value_rows() { seq -f "Assets:Lots $most C%05g {0 USD, 2020-01-01}$2" "$1"; }
values 10001 | post_to_range "a value too many"
value_rows 10000 " value $each USD" >"$scratch/rows"
ends_at "a total value that leaves its range in the last row" "$scratch/rows" holdings --day 2020-01-01
{ value_rows 10001 "" && echo "total cost 0.00 USD"; } >"$scratch/expected"
run holdings --book "$book" </dev/null
expect "the same rows without a day" 0 "$scratch/expected"
{ value_rows 10001 " value none" && echo "total cost 0.00 USD"; } >"$scratch/expected"
run holdings --book "$book" --day 2019-12-31 </dev/null
expect "the same rows at a day without prices" 0 "$scratch/expected"

# Gains: so many sales of what cost nothing.
gains() {
    awk -v count="$1" -v most="$most" -v dearest="$dearest" 'BEGIN {
        print "2020-01-01 open Assets:Lots"
        for (n = 1; n <= count; n++)
            printf "2020-01-01 *\n  Assets:Lots %s HOOL {0 USD}\n  Assets:Lots -%s HOOL {} @ %s USD\n", most, most, dearest
    }'
}
gain_rows() {
    yes "2020-01-01 Assets:Lots -$most HOOL proceeds $each cost 0.00 gain $each USD
  -$most HOOL {0 USD, 2020-01-01}" | head -n $((2 * $1))
}
gains 10000 | post_to_range "the greatest total gain"
{ gain_rows 10000 && echo "total gain $total USD"; } >"$scratch/expected"
run gains --book "$book" </dev/null
expect "a total gain that stays in its range" 0 "$scratch/expected"
gains 1 | tail -n +2 | more "a gain too many"
gain_rows 10000 >"$scratch/rows"
ends_at "a total gain that leaves its range in the last sale" "$scratch/rows" gains
printf '2020-01-02 *\n  Assets:Lots 2 HOOL {0 USD}\n  Assets:Lots -2 HOOL {} @ 1.5 USD\n' |
    prints "a sale of another day" 0 "1 accepted" post --book "$book" --batch b
prints "the gains of that day" 0 "2020-01-02 Assets:Lots -2 HOOL proceeds 3.00 cost 0.00 gain 3.00 USD
  -2 HOOL {0 USD, 2020-01-02}
total gain 3.00 USD" gains --book "$book" --first 2020-01-02 </dev/null

# ---- the longest line of a journal: far longer than a line of the other reports

long() { head -c "$1" /dev/zero | tr '\0' "$2"; }
fresh
label=$(long 64 x) account=Assets:$(long 121 A) commodity=$(long 24 C) note=$(printf '\\"%.0s' {1..1000})
{
    echo "2020-01-01 open $account"
    printf '2020-01-02 * "%s" "%s"\n' "$(long 1000 p)" "$note"
    printf '  %s 1 %s {1 %s, "%s"}\n  %s\n' "$account" "$commodity" "$commodity" "$label" "$account"
} >"$scratch/long"
prints "a batch of long lines" 0 $'1 accepted\n2 accepted' post --book "$book" --batch a <"$scratch/long"
{ echo "; entry 1 key post:a 1" && head -n 1 "$scratch/long" && echo "; entry 2 key post:a 2" && tail -n +2 "$scratch/long"; } >"$scratch/expected"
run journal --book "$book" </dev/null
expect "the journal of long lines" 0 "$scratch/expected"
prints "the holdings of long names" 0 "$account -1.00 $commodity
$account 1 $commodity {1 $commodity, 2020-01-02, \"$label\"}
total cost 1.00 $commodity" holdings --book "$book" </dev/null

# ---- a large book: of 100,000 entries a report takes a few seconds, of which the file's opening is most

count=${1:-14600} # of trades; three accounts are opened, and each forty trades have a commodity with a price
fresh
trades "$count" 40 >"$scratch/many"
"$program" post --book "$book" --batch a <"$scratch/many" >"$scratch/out" 2>"$scratch/err" && status=0 || status=$?
accepted 1 $((3 + count + (count + 39) / 40)) >"$scratch/expected"
expect "the entries of a large book are accepted" 0 "$scratch/expected"

# The commodities and labels of the purchases in their order; of each commodity all but the last two are sold.
awk -v count="$count" 'BEGIN { for (n = 0; n < count; n++) if (n % 2 == 0 || n % 40 == 1) printf "C%04d %06d\n", n / 40, n }' >"$scratch/bought"
tac "$scratch/bought" | awk '++of[$1] <= 2' | tac >"$scratch/left"
tac "$scratch/bought" | awk '++of[$1] > 2' | tac >"$scratch/sold"
held=$(wc -l <"$scratch/left") gone=$(wc -l <"$scratch/sold")
product() { awk -v count="$1" -v each="$2" 'BEGIN { printf "%.2f USD", count * each }'; }

# in_time NAME WORDS..: the report is what is expected, and takes no longer than half a minute, on a machine with other work.
in_time() {
    local begun=$SECONDS
    run "${@:2}" --book "$book" </dev/null
    expect "$1" 0 "$scratch/expected"
    if ((SECONDS - begun <= 30)); then pass "$1: in time"; else fail "$1: in time" "$((SECONDS - begun)) seconds"; fi
}
{
    awk '{
        printf "2020-02-01 Assets:Broker -1 %s proceeds 130.00 cost 100.25 gain 29.75 USD\n", $1
        printf "  -1 %s {100.25 USD, 2020-02-01, \"%s\"}\n", $1, $2
    }' "$scratch/sold"
    echo "total gain $(product "$gone" 29.75)"
} >"$scratch/expected"
in_time "the gains of a large book" gains
{
    awk '{ printf "Assets:Broker 1 %s {100.25 USD, 2020-02-01, \"%s\"} value 150.00 USD\n", $1, $2 }' "$scratch/left"
    awk -v held="$held" -v gone="$gone" 'BEGIN { printf "Assets:Cash %.2f USD\n", gone * 29.75 - held * 100.25 }'
    printf '%s\n' "Income:Gains $(product "$gone" -29.75)" "total cost $(product "$held" 100.25)" "total value $(product "$held" 150)"
} >"$scratch/expected"
in_time "the holdings of a large book" holdings --day 2020-12-31
awk '/^2/ { printf "; entry %d key post:a %d\n", ++n, n } { print }' "$scratch/many" >"$scratch/expected"
in_time "the journal of a large book" journal
finish
