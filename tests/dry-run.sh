#!/usr/bin/env bash
# Calls with --dry-run: each prints what the call without it prints of a copy of the files, with its status, and leaves every file of the
# folder as it was: bytes, times, names.
source "$(dirname "$(readlink -f "${BASH_SOURCE[0]}")")/lib/books.sh"
need_program

first=$examples/first-purchase.ledger

# place NAME: an empty folder for a case, in which the book is to be.
place() {
    home=$scratch/$1 book=$scratch/$1/family.book
    mkdir "$home"
}

# dry NAME INPUT WORDS..: the words on the book, with --dry-run and without, where that is done on a copy of the folder.
dry() {
    local before real_status
    before=$(state "$home")
    run "${@:3}" --book "$book" --dry-run <"$2"
    if [[ $(state "$home") != "$before" ]]; then
        fail "$1" "files changed: $(diff <(echo "$before") <(state "$home") | head -n 4 | tr '\n' '|')"
        return
    fi
    rm -rf "$scratch/real" && cp -a "$home" "$scratch/real"
    timeout 600 "$program" "${@:3}" --book "$scratch/real/${book##*/}" <"$2" >"$scratch/expected" 2>"$scratch/real.err"
    real_status=$?
    expect "$1" "$real_status" "$scratch/expected"
}

# as NAME STATUS LINE: the call before ended so, and the first line is that one.
as() {
    if ((status == $2)) && [[ $(head -n 1 "$scratch/out") == "$3" ]]; then
        pass "$1"
    else
        fail "$1" "status $status, $(head -n 1 "$scratch/out")"
    fi
}

printf '2020-01-31 open Assets:Euro EUR\n2020-01-01 open Assets:Broker\n2020-02-01 *\n  Assets:Euro 1 EUR\n' >"$scratch/mixed"
printf '2020-01-31 open Assets:Euro EUR\n2020-13-01 open Assets:Pound\n' >"$scratch/faulty"
{ echo "$header" && printf 'R-1,2020-02-0%d,BUY,HOOL,1,100,USD,\n' 3 2; } >"$scratch/rows.csv"
printf '2020-01-01 open Expenses:Fees\n2020-01-01 open Income:Gains\n' >"$scratch/more"

# ---- a book

place book
book_of "$book" a <"$first"
"$program" post --book "$book" --batch accounts <"$scratch/more" >/dev/null
dry "a batch that is there" "$first" post --batch a
as "it is repeated" 0 "1 repeat"
dry "a batch with refusals" "$scratch/mixed" post --batch b
as "it is accepted and refused" 1 "1 accepted"
dry "the same once more" "$scratch/mixed" post --batch b
as "nothing stood in between" 1 "1 accepted"
dry "a batch from its second command on" "$scratch/mixed" post --batch b --from 2
as "the first is left out" 1 "2 refused L2 AlreadyOpen"
dry "a faulty text" "$scratch/faulty" post --batch b
as "the fault is reported" 3 "fault line 2 X6 BadDay"
dry "no commands" /dev/null post --batch b
dry "a broker file" "$scratch/rows.csv" import --batch deals "${accounts[@]}"
as "its rows are judged" 1 "1 accepted"
dry "a broker file without its header" "$first" import --batch deals "${accounts[@]}"
dry "making a book that is there" /dev/null init
as "it is there" 4 "fault S1 NotABook"
dry "migrating a book of edition 2" /dev/null migrate
as "nothing is left to do" 0 "book migrated"
awk 'BEGIN { for (n = 0; n < 3000; n++) printf "2020-01-01 open Assets:A%d\n", n }' >"$scratch/many"
dry "3,000 commands" "$scratch/many" post --batch many
as "they are accepted" 0 "1 accepted"

# What was committed and isn't copied into the book's file yet stands in the log.
slow_call "$book" post --batch slow
for _ in {1..100}; do # it has opened the file once nothing changes any more
    before=$(state "$home")
    sleep 0.1
    if [[ $(state "$home") == "$before" ]]; then break; fi
done
prints "a book that another program has open" 0 $'1 repeat\n2 repeat\n3 repeat' post --book "$book" --batch a --dry-run <"$first"
if [[ $(state "$home") == "$before" ]]; then pass "it is as it was"; else fail "it is as it was" "a file changed"; fi
cat "$scratch/many" >&8 && exec 8>&-
wait
if [[ $(grep -c ' accepted$' "$scratch/posted") == 3000 ]]; then pass "that program goes on"; else fail "that program goes on" "$(tail -n 1 "$scratch/posted")"; fi
place killed
new_book "$book"
limited 600 post --book "$book" --batch a <"$scratch/many" >/dev/null 2>&1 # it leaves a long log
dry "a book with a long log" "$scratch/many" post --batch a
as "what stands in the log is there" 0 "1 repeat"

# ---- what a dry run tells behind its replies

place told
book_of "$book" a <"$examples/first-sale.ledger"
gained=$'2020-07-01 Assets:Broker -1 HOOL proceeds 540.00 cost 480.00 gain 60.00 USD\n  -1 HOOL {480 USD, 2020-03-02}\ntotal gain 60.00 USD'
left=$'Assets:Broker 2 HOOL {480 USD, 2020-03-02}\nAssets:Cash -531.15 USD\nExpenses:Fees 9.95 USD\nIncome:Gains -438.80 USD\ntotal cost 960.00 USD'
held=$'Assets:Broker 3 HOOL {480 USD, 2020-03-02}\nAssets:Cash -1071.15 USD\nExpenses:Fees 9.95 USD\nIncome:Gains -378.80 USD\ntotal cost 1440.00 USD'
sale=$'2020-07-01 *\n  Assets:Broker -1 HOOL {} @ 540 USD\n  Assets:Cash 540 USD\n  Income:Gains\n'
printf '%s' "$sale" >"$scratch/sale"
printf '%s2020-07-02 open Assets:Cash\n' "$sale" >"$scratch/half"
printf '%s2020-07-02 close Assets:Nowhere\n2020-07-02 opened\n' "$sale" >"$scratch/spoilt"

# tells NAME STATUS LINES INPUT WORDS..: the words on the book, with --dry-run, print this, and no file changes.
tells() {
    local before
    before=$(state "$home")
    run "${@:5}" --book "$book" --dry-run <"$4"
    if [[ $(state "$home") != "$before" ]]; then
        fail "$1" "files changed"
        return
    fi
    answers "$1" "$2" "$3"
}

tells "gains of a sale" 0 $'1 accepted\n'"$gained" "$scratch/sale" post --batch b --gains
tells "what would be held" 0 $'1 accepted\n'"$left" "$scratch/sale" post --batch b --holdings
tells "both, the gains first" 0 $'1 accepted\n'"$gained"$'\n'"$left" "$scratch/sale" post --batch b --holdings --gains
tells "the accepted ones count beside a refused one" 1 $'1 accepted\n2 refused L2 AlreadyOpen\n'"$gained"$'\n'"$left" "$scratch/half" post --batch b --gains --holdings
tells "of all or none, none" 1 $'1 accepted\n2 refused L2 AlreadyOpen\nno gains\n'"$held" "$scratch/half" post --batch b --gains --holdings --all-or-none
tells "of all or none, all" 0 $'1 accepted\n'"$gained" "$scratch/sale" post --batch b --gains --all-or-none
tells "repeats add nothing" 0 $'1 repeat\n2 repeat\n3 repeat\n4 repeat\n5 repeat\n6 repeat\n7 repeat\nno gains' "$examples/first-sale.ledger" post --batch a --gains
tells "no commands" 0 $'no gains\n'"$held" /dev/null post --batch b --gains --holdings
tells "a faulty text" 3 "fault line 6 X3 UnknownDirective" "$scratch/spoilt" post --batch b --gains --holdings
tells "in place of a row" 0 $'1 accepted\n'"$gained" "$scratch/sale" post --row-of deals --ref S-1 --gains
tells "in place of a row, a text that doesn't fit" 2 "" /dev/null post --row-of deals --ref S-1 --gains
{ echo "$header" && echo S-1,2020-07-01,SELL,HOOL,1,540,USD,; } >"$scratch/sale.csv"
{ cat "$scratch/sale.csv" && echo S-2,2020-07-02,SELL,HOOL,9,540,USD,; } >"$scratch/half.csv"
tells "rows" 0 $'1 accepted\n'"$gained"$'\n'"$left" "$scratch/sale.csv" import --batch deals "${accounts[@]}" --sales --holdings
tells "rows of all or none" 1 $'1 accepted\n2 refused B3 NotEnough posting 1\nno gains' "$scratch/half.csv" import --batch deals "${accounts[@]}" --sales --all-or-none
for words in "post --batch b --gains" "post --batch b --holdings" "import --batch deals ${accounts[*]} --sales" "import --batch deals ${accounts[*]} --holdings"; do
    # shellcheck disable=SC2086
    run $words --book "$book" </dev/null
    option=${words##* }
    answers "without --dry-run: $words" 2 ""
    if [[ $(<"$scratch/err") == "fault U2 BadValue $option"$'\n'"lotbook: $option stands beside --dry-run alone, as in --dry-run $option" ]]; then
        pass "it says so"
    else
        fail "it says so" "$(<"$scratch/err")"
    fi
done
run_full post --book "$book" --batch b --dry-run --gains <"$scratch/sale"
stops "a full disk behind gains" "the output of a dry run is cut short"
tables rows "$book" "INSERT INTO plain (account, commodity, units) VALUES ('x', 'USD', 500000000)"
tells "what would be held in a damaged book" 4 $'1 accepted\n'"$gained"$'\nfault S7 Damaged' "$scratch/sale" post --batch b --gains --holdings
place elsewhere
tells "gains on a missing file" 4 "fault S1 NotABook" "$scratch/sale" post --batch b --gains --holdings
: >"$book"
tells "gains on an empty file" 4 "fault S1 NotABook" "$scratch/sale" post --batch b --gains

# ---- files that are no book

place missing
dry "post on a missing file" "$first" post --batch a
as "there is no book" 4 "fault S1 NotABook"
dry "a faulty text on a missing file" "$scratch/faulty" post --batch a
dry "migrating a missing file" /dev/null migrate
dry "making a book" /dev/null init
as "it could be made" 0 "book ready"
no_file "it isn't made" "$book"
book=$home/nowhere/family.book
run init --book "$book" --dry-run </dev/null
as "making a book in no folder" 4 "fault open"
says "it says so" "lotbook: $book: there is no such folder"
for end in / // /. /./ /..; do
    run init --book "$home/new.book$end" </dev/null
    cp "$scratch/err" "$scratch/made.err"
    run init --book "$home/new.book$end" --dry-run </dev/null
    as "making a book under a path that ends in $end" 4 "fault open"
    says "it says what the call without --dry-run does" "$(<"$scratch/made.err")"
done
ln -s nowhere "$home/link.book" && book=$home/link.book
dry "making a book behind a link that leads nowhere" /dev/null init

place empty
: >"$book"
dry "post on an empty file" "$first" post --batch a
as "it is no book" 4 "fault S1 NotABook"
dry "making a book of an empty file" /dev/null init
as "it can be made" 0 "book ready"
dry "migrating an empty file" /dev/null migrate
printf '\0' >"$book"
dry "making a book of a zero byte" /dev/null init
printf x >"$book"
dry "making a book of a letter" /dev/null init
as "it can't be made" 4 "fault open"

place foreign
tables foreign "$book" notes
dry "post on a database of another program" "$first" post --batch a
as "it is no book" 4 "fault S1 NotABook"
dry "making a book of it" /dev/null init
place text
head -c 3000 /dev/urandom | base64 >"$book"
dry "post on a text file" "$first" post --batch a
as "it is no database" 4 "fault open"
dry "making a book of it" /dev/null init
place folder
mkdir "$book"
dry "post on a folder" "$first" post --batch a
as "it is no file" 4 "fault open"
place second
new_book "$book"
ln "$book" "$home/other.book"
dry "a file with a second name" "$first" post --batch a
as "it isn't opened" 4 "fault open"
place journal
new_book "$book"
echo journal >"$book-journal"
dry "a file beside a journal" "$first" post --batch a
as "it isn't opened" 4 "fault open"
place long
book=$home/$(printf 'a%.0s' {1..248})
dry "a name that is too long" /dev/null init
as "it isn't opened" 4 "fault open"

# ---- books of other editions

place older
gzip -dc "$root/tests/migrate/ties/book.gz" >"$book"
dry "post on a book of edition 1" "$first" post --batch a
as "it isn't taken up" 4 "fault S3 OlderEdition"
dry "migrating a book of edition 1" /dev/null migrate
as "it can be migrated" 0 "book migrated"
place newer
new_book "$book"
tables edition "$book" 9
dry "post on a book of edition 9" "$first" post --batch a
as "it isn't taken up" 4 "fault S2 NewerEdition"
dry "migrating it" /dev/null migrate

# ---- without rights

without_rights
place fixed
new_book "$book"
chmod 444 "$book" "$book-wal" && chmod 555 "$home"
before=$(state "$home")
program=$unprivileged prints "a book that may only be read" 0 $'1 accepted\n2 accepted\n3 accepted' \
    post --book "$book" --batch a --dry-run <"$first"
if [[ $(state "$home") == "$before" ]]; then pass "it is as it was"; else fail "it is as it was" "a file changed"; fi
chmod 000 "$book"
program=$unprivileged run post --book "$book" --batch a --dry-run <"$first"
as "a book that may not be read" 4 "fault open"
says "it says so" "lotbook: $book: no permission"

# ---- output that can't be written

place output
new_book "$book"
before=$(state "$home")
run_full post --book "$book" --batch a --dry-run <"$first"
stops "a full disk" "the output of a dry run is cut short"
run_full init --book "$home/other.book" --dry-run </dev/null
stops "making a book, with output to a full disk" "the output of a dry run is cut short"
run_cut 200 post --book "$book" --batch many --dry-run <"$scratch/many"
stops "a pipe that is closed in the middle" "the output of a dry run is cut short"
"$program" post --book "$book" --batch slow --dry-run <"$scratch/slow" >"$scratch/out" 2>&1 &
exec 8>"$scratch/slow"
cat "$first" >&8
kill -9 $!
{ wait; } 2>/dev/null
exec 8>&-
if [[ $(state "$home") == "$before" ]]; then pass "the files are as they were, also after a kill"; else fail "the files are as they were" "a file changed"; fi
finish
