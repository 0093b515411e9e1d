#!/usr/bin/env bash
# `restore`: the dump of a book makes that book again, table by table and row for row; what it answers to texts that were edited, beside a
# plain restorer; what it refuses; hostile dumps; and stops at any moment (tests/restore/). tests/whole/restore.sh runs more of each.
source "$(dirname "$(readlink -f "${BASH_SOURCE[0]}")")/lib/books.sh"
in_memory

# The codes of dumps, each without its letter.
not_a_dump="1 NotADump" newer_format="2 NewerFormat" wrong_digest="3 WrongDigest" wrong_count="4 WrongCount"
need_program

first=$scratch/first.book new=$scratch/new.book dump=$scratch/dump text=$scratch/text

# fresh: no new book.
fresh() { rm -rf "$new"*; }

# none NAME: no file holds a new book or any table.
none() {
    if [[ ! -s $new ]] || [[ $(tables rows "$new" "SELECT count(*) FROM sqlite_schema" 2>&1) == 0 ]]; then pass "$1: no book"; else fail "$1: no book" "there are tables"; fi
}

# restores NAME STATUS TEXT WORDS..: the text of $text, restored to a new file, has this answer. Where that has no line `book restored`,
# there is no book; and a dry run has the same answer, and makes no file.
restores() {
    fresh
    prints "$1, in a dry run" "$2" "$3" restore --book "$new" --dry-run "${@:4}" <"$text"
    no_file "$1, in a dry run: no file" "$new"
    prints "$1" "$2" "$3" restore --book "$new" "${@:4}" <"$text"
    if [[ $'\n'$3$'\n' == *$'\nbook restored\n'* ]]; then
        prints "$1: a book" 0 "book verified" verify --book "$new" </dev/null
    else
        none "$1"
    fi
}

# edit SCRIPT: the dump, edited by sed, is the text.
edit() { sed "$@" "$dump" >"$text"; }

# signed: the text of standard input, all but the last line of a dump, with a last line that says so many entries.
signed() {
    cat >"$scratch/above"
    { cat "$scratch/above" && echo "; end $1 sha256 $(sha256sum <"$scratch/above" | cut -d ' ' -f 1)"; } >"$text"
}

# ---- the first book

book_of "$first" start <<'TEXT'
2020-01-01 open Assets:Broker "FIFO"
2020-01-01 open Assets:Cash
2020-01-01 open Income:Gains
2020-01-01 open Expenses:Fees
TEXT
"$program" import --book "$first" --batch deals "${accounts[@]}" >>"$scratch/posted" <<'TEXT'
ref,date,action,symbol,units,price,currency,fee
D 1; of two,2020-01-02,BUY,HOOL,10,100,USD,
D-2,2020-06-15,SELL,HOOL,4,120,USD,
D-3,2021-01-15,SELL,HOOL,2,125,USD,
TEXT
"$program" post --book "$first" --batch june >>"$scratch/posted" <<'TEXT'
2021-06-01 price HOOL 126 USD
2021-06-02 * "Interest"
  Assets:Cash 5 USD
  Income:Gains
TEXT
if (($(grep -c accepted "$scratch/posted") == 9)); then pass "the first book"; else fail "the first book" "$(grep -v accepted "$scratch/posted" | head -n 1)"; fi
"$program" dump --book "$first" </dev/null >"$dump"
first_kept=$(kept "$first")

# ---- answers

cp "$dump" "$text"
restores "a dump" 0 "book restored"
if "$program" dump --book "$new" </dev/null | cmp -s - "$dump"; then pass "a dump: the same again"; else fail "a dump: the same again" "another dump"; fi
restores "a dump that may be edited" 0 "book restored" --edited
restores "a dump, beside its book" 0 "book restored" --compare "$first"
prints "a dump on the book that it made" 4 "fault S1 NotABook" restore --book "$new" <"$text"

edit 's/{100 USD}/{101 USD}/; s/-1000 USD/-1010 USD/'
restores "another price" 3 "fault D${wrong_digest}"
restores "another price, edited" 0 "book restored" --edited
restores "another price, beside the old book" 0 "book restored
gains 2020 USD 76.00 was 80.00
gains 2021 USD 48.00 was 50.00
held Assets:Cash USD -275 was -265
held Income:Gains USD -129 was -135" --edited --compare "$first"
same "the old book is as it was" "$first" "$first_kept"

edit '/^; entry 7 /,/^; entry 8 /{/^; entry 8 /!d}'
restores "a sale less" 3 "fault D${wrong_digest}"
restores "a sale less, beside the old book" 0 "book restored
gains 2021 USD 0.00 was 50.00
held Assets:Broker HOOL 6 was 4
held Assets:Cash USD -515 was -265
held Income:Gains USD -85 was -135" --edited --compare "$first"

edit 's/BUY//; s/  Assets:Broker 10 HOOL/  Assets:Broker 3 HOOL/; s/-1000 USD/-300 USD/'
restores "too little bought" 1 "entry 6 key import:deals D-2 refused B3 NotEnough posting 1" --edited
restores "too little bought, going on" 1 "entry 6 key import:deals D-2 refused B3 NotEnough posting 1
book restored" --edited --keep-going
restores "too little bought, going on beside the old book" 1 "entry 6 key import:deals D-2 refused B3 NotEnough posting 1
book restored
gains 2020 USD 0.00 was 80.00
held Assets:Broker HOOL 1 was 4
held Assets:Cash USD -45 was -265
held Income:Gains USD -55 was -135" --edited --keep-going --compare "$first"
restores "too little bought, and not edited" 3 "entry 6 key import:deals D-2 refused B3 NotEnough posting 1
fault D${wrong_digest}" --keep-going

# An entry that is put in bears the number of the one before it, or of the one behind.
edit '/^; entry 6 /i; entry 5 key post:more 1\n2020-03-01 * "Forgotten"\n  Assets:Broker 1 HOOL {90 USD}\n  Assets:Cash'
restores "an entry more" 0 "book restored
held Assets:Broker HOOL 5 was 4
held Assets:Cash USD -355 was -265" --edited --compare "$first"
edit '/^; entry 6 /i; entry 6 key post:more 1\n2020-03-01 * "Forgotten"\n  Assets:Broker 1 HOOL {90 USD}\n  Assets:Cash'
restores "an entry more, under the next number" 0 "book restored" --edited
edit '/^; entry 6 /i; entry 4 key post:more 1\n2020-03-01 price HOOL 1 USD'
restores "a number that falls" 3 "fault D${not_a_dump}" --edited
edit '/^; entry 6 /i; entry 5 key post:more 1\n2019-03-01 * "Forgotten"\n  Assets:Broker 1 HOOL {90 USD}\n  Assets:Cash'
restores "an entry more that is refused" 1 "entry 5 key post:more 1 refused L4 NotOpenYet posting 1" --edited

# A key that comes twice.
edit '/^; entry 9 /i; entry 8 key post:june 1\n2021-06-01 price HOOL 126 USD'
restores "an entry that comes twice" 1 "entry 8 key post:june 1 refused L1 KeyReused" --edited
restores "an entry that comes twice, going on" 1 "entry 8 key post:june 1 refused L1 KeyReused
book restored" --edited --keep-going --compare "$first"
edit '/^; entry 9 /i; entry 8 key import:deals D 1; of two\n2021-06-01 price HOOL 1 USD'
restores "a key that comes twice" 1 "entry 8 key import:deals D 1; of two refused L1 KeyReused" --edited

# ---- what is left out

cp "$dump" "$text"
restores "without an entry" 0 "book restored
held Assets:Cash USD -270 was -265
held Income:Gains USD -130 was -135" --without "post:june 2" --compare "$first"
restores "without a key that has blanks" 1 "entry 6 key import:deals D-2 refused B4 IncompleteCost posting 1
entry 7 key import:deals D-3 refused B4 IncompleteCost posting 1" --without "import:deals D 1; of two"
restores "without a batch" 0 "book restored
gains 2020 USD 0.00 was 80.00
gains 2021 USD 0.00 was 50.00
held Assets:Broker HOOL 0 was 4
held Assets:Cash USD 5 was -265
held Income:Gains USD -5 was -135" --without-batch import:deals --compare "$first"
restores "without some entries" 0 "book restored
gains 2021 USD 0.00 was 50.00
held Assets:Broker HOOL 6 was 4
held Assets:Cash USD -520 was -265
held Income:Gains USD -80 was -135" --without-entries 7-7 --without-entries 8-4294967295 --compare "$first"
restores "without several, and one twice" 0 "book restored" --without "post:june 1" --without-entries 6-9 --without-batch post:june --without "post:june 2"
restores "without all" 0 "book restored" --without-entries 1-9
restores "without what later entries need" 1 "entry 6 key import:deals D-2 refused B4 IncompleteCost posting 1
entry 7 key import:deals D-3 refused B4 IncompleteCost posting 1
book restored" --without-entries 5-5 --keep-going
met="without post:june 3 met nothing
without post:jun 1 met nothing
without-batch post:jun met nothing
without-batch deals met nothing
without-entries 10-12 met nothing"
unmet=(--without-entries 10-12 --without "post:june 3" --without-batch post:jun --without "post:jun 1" --without-batch deals)
restores "what meets nothing" 1 "$met" "${unmet[@]}"
restores "what meets nothing, going on" 1 "$met" "${unmet[@]}" --keep-going --without "post:june 1"
restores "refused, and what meets nothing" 1 "entry 6 key import:deals D-2 refused B4 IncompleteCost posting 1
entry 7 key import:deals D-3 refused B4 IncompleteCost posting 1
without-entries 10-12 met nothing" --without-entries 10-12 --without-entries 5-5 --keep-going --compare "$first"
edit 's/D-2$/D-9/'
restores "what meets nothing, of a text that was edited" 3 "fault D${wrong_digest}" --without "import:deals D-2"

# ---- what is no dump

"$program" journal --book "$first" </dev/null >"$scratch/journal"
: >"$text" && restores "no bytes" 3 "fault D${not_a_dump}"
cp "$examples/year.ledger" "$text" && restores "ledger text" 3 "fault D${not_a_dump}"
cp "$scratch/journal" "$text" && restores "a journal" 3 "fault D${not_a_dump}" --edited
head -n -1 "$dump" >"$text" && restores "no last line" 3 "fault D${not_a_dump}" --edited
head -c -1 "$dump" >"$text" && restores "no last line end" 3 "fault D${not_a_dump}" --edited
sed 's/$/\r/' "$dump" >"$text" && restores "CRLF" 3 "fault D${not_a_dump}" --edited
{ cat "$dump" && echo; } >"$text" && restores "a line behind the last one" 3 "fault D${not_a_dump}" --edited
edit '/^; entry 5 /d' && restores "an entry without its line" 3 "fault D${not_a_dump}" --edited
edit '/^; entry 1 /d' && restores "a first entry without its line" 3 "fault D${not_a_dump}" --edited
edit '/^2021-06-01 price/d' && restores "a line without its entry" 3 "fault D${not_a_dump}" --edited
edit 's/^; entry 8 key/; entry 08 key/' && restores "another form of a line" 3 "fault D${not_a_dump}" --edited
edit 's/^; entry 8 key.*/; entry 8 key post:june/' && restores "a key without a name" 3 "fault D${not_a_dump}" --edited
edit 's/^; entry 9 /; entry 4294967296 /' && restores "a number beyond 32 bits" 3 "fault D${not_a_dump}" --edited
edit '$s/[0-9a-f]$/G/' && restores "a digest of other letters" 3 "fault D${not_a_dump}" --edited
edit '1s/dump 1/dump 2/' && restores "a later format" 3 "fault D${newer_format}" --edited
edit '1s/edition 2/edition 3/' && restores "a later edition" 3 "fault D${newer_format}"
edit '1s/edition 2/edition 1/' && restores "an edition that has no dumps" 3 "fault D${not_a_dump}" --edited
edit '1s/dump 1/dump 0/' && restores "no format" 3 "fault D${not_a_dump}" --edited
edit '$s/[0-9a-f]*$/'"$(printf '%064d' 0)/" && restores "another digest" 3 "fault D${wrong_digest}"
restores "another digest, edited" 0 "book restored" --edited
head -n -1 "$dump" | signed 8 && restores "another number at the end" 3 "fault D${wrong_count}"
restores "another number at the end, edited" 0 "book restored" --edited
edit '1s/entries 9/entries 10/' && head -n -1 "$text" | signed 9 && restores "another number at the beginning" 3 "fault D${wrong_count}"
edit '1s/entries 9/entries 10/' && head -n -1 "$text" | signed 10 && restores "another number in both" 3 "fault D${wrong_count}"
edit '/^; entry 9 /,$d' && sed '1s/entries 9/entries 8/' "$text" | signed 8 && restores "an entry less, and signed anew" 0 "book restored"
edit '1s/migrated 0/migrated 10/' && head -n -1 "$text" | signed 9 && restores "a place behind all entries" 0 "book restored"

# fault_at LINE CODE SCRIPT: the dump, edited by sed, has that fault in that line.
fault_at() {
    edit "$3"
    restores "a fault of line $1, $2" 3 "fault line $1 $2" --edited
}
at=$(grep -n '^2021-06-01 price' "$dump" | cut -d : -f 1)
fault_at "$at" "X6 BadDay" 's/^2021-06-01 price/2021-06-31 price/'
fault_at "$at" "X3 UnknownDirective" 's/^2021-06-01 price/2021-06-01 prize/'
fault_at "$at" "X4 BadNumber" 's/HOOL 126 USD$/HOOL 1.123456789 USD/'
fault_at "$at" "X5 BadName" 's/HOOL 126 USD$/hool 126 USD/'
fault_at "$at" "X1 NotUtf8" 's/HOOL 126 USD$/HOOL 126 USD ; \xff/'
fault_at "$at" "X7 LineTooLong" "s/HOOL 126 USD\$/& ; $(printf '%4096s' '')/"
fault_at $((at + 1)) "X2 Syntax" 's/HOOL 126 USD$/&\n  Assets:Cash/'
fault_at 2 "X3 UnknownDirective" '2i x'
edit '2i ; a comment\n* a heading\n' && sed -i 's/HOOL 126 USD$/& ; a comment\n\n; another/' "$text"
restores "comments, headings and empty lines" 0 "book restored" --edited --compare "$first"
if "$program" dump --book "$new" </dev/null | cmp -s - "$dump"; then pass "they aren't kept"; else fail "they aren't kept" "another dump"; fi
{ head -n 1 "$dump" && printf '; %1048576s\n' '' && tail -n +2 "$dump"; } >"$text"
restores "a line of more than 1 MiB" 3 "fault K2 TooLong" --edited
{ head -n 1 "$dump" && yes "; $(printf '%2000s' '')" | head -n 8400 && tail -n +2 "$dump"; } >"$text"
restores "more than 16 MiB in an entry" 3 "fault K2 TooLong" --edited
for words in "a folder" "closed"; do
    fresh
    if [[ $words == closed ]]; then run restore --book "$new" <&-; else run restore --book "$new" <"$scratch"; fi
    wrote "input that is $words" 3 "fault K1 Read"
    none "input that is $words"
done

# ---- the file

cp "$dump" "$text"
for words in "no bytes" "a zero byte"; do
    fresh
    if [[ $words == "no bytes" ]]; then : >"$new"; else printf '\0' >"$new"; fi
    before=$(stat -c '%i %s %Y' "$new")
    prints "a file of $words, in a dry run" 0 "book restored" restore --book "$new" --dry-run <"$text"
    if [[ $(stat -c '%i %s %Y' "$new") == "$before" ]]; then pass "a file of $words, in a dry run: as it was"; else fail "a file of $words, in a dry run: as it was" "it changed"; fi
    prints "a file of $words" 0 "book restored" restore --book "$new" <"$text"
done

# stays NAME LINE: the file of $new isn't taken, stays to the byte, and of the input nothing is read.
stays() {
    local before way
    before=$(kept "$new")
    for way in --edited --dry-run; do
        exec 9<"$text"
        run restore --book "$new" "$way" <&9
        cat <&9 >"$scratch/unread" && exec 9<&-
        wrote "$1, $way" 4 "$2"
        if cmp -s "$text" "$scratch/unread"; then pass "$1, $way: nothing is read"; else fail "$1, $way: nothing is read" "some is"; fi
        same "$1, $way: it stays" "$new" "$before"
    done
}
fresh && cp "$first" "$new" && stays "a book" "fault S1 NotABook"
fresh && tables older "$new" && stays "a book of edition 1" "fault S1 NotABook"
fresh && cp "$first" "$new" && tables edition "$new" 9 && stays "a book of a newer edition" "fault S1 NotABook"
fresh && tables foreign "$new" notes && stays "a database of another program" "fault S1 NotABook"
fresh && tables foreign "$new" book && stays "a database with a table book" "fault S1 NotABook"
fresh && new_book "$new" && stays "an empty book" "fault S1 NotABook"
fresh && cp "$examples/year.ledger" "$new" && stays "a text" "fault open"
fresh && prints "a folder" 4 "fault open" restore --book "$scratch" <"$text"
prints "a missing folder" 4 "fault open" restore --book "$scratch/none/new.book" <"$text"
no_file "no folder is made" "$scratch/none"

# Another call has the file open: a restoration reads its input while it makes the book.
fresh
mkfifo "$scratch/slow"
"$program" restore --book "$new" <"$scratch/slow" >"$scratch/restored" 2>&1 &
exec 8>"$scratch/slow"
wait_until test -e "$new"
until_open "$new"
prints "a file that another call restores" 4 "fault open" restore --book "$new" <"$text"
cat "$text" >&8 && exec 8>&-
wait
if [[ $(<"$scratch/restored") == "book restored" ]]; then pass "that call goes on"; else fail "that call goes on" "$(head -n 2 "$scratch/restored" | tr '\n' '|')"; fi

# ---- the old book

# old NAME LINE: the old book that is compared is the file $scratch/old.book. That is found before anything is made.
old() {
    fresh
    prints "$1" 4 "$2" restore --book "$new" --compare "$scratch/old.book" <"$text"
    none "$1"
}
rm -f "$scratch/old.book"* && old "no old book" "fault S1 NotABook"
no_file "no old book is made" "$scratch/old.book"
tables older "$scratch/old.book" && old "an old book of edition 1" "fault S3 OlderEdition"
cp "$examples/year.ledger" "$scratch/old.book" && old "an old book that is a text" "fault open"
rm -f "$scratch/old.book"* && tables foreign "$scratch/old.book" notes && old "an old book of another program" "fault S1 NotABook"
run restore --book "$first" --compare "$first" <"$text"
if ((status == 4)) && [[ $(<"$scratch/out") =~ ^fault\ (S1\ NotABook|open)$ && $(kept "$first") == "$first_kept" ]]; then
    pass "the same file as old and as new book"
else
    fail "the same file as old and as new book" "status $status, $(head -n 1 "$scratch/out")"
fi

# A copy of an old book that another program writes is read, as by a report.
rm -f "$scratch/old.book"* && cp "$first" "$scratch/old.book"
slow_call "$scratch/old.book" post --batch slow
fresh
prints "an old book that another program has open" 0 "book restored" restore --book "$new" --compare "$scratch/old.book" <"$text"
exec 8>&-
wait

# ---- output that can't be written

# unwritten NAME: the call before ended with status 4 and one line about its output.
unwritten() {
    if ((status == 4)) && grep -qE '^lotbook: standard output: [A-Z][A-Za-z ]+ \(os error [0-9]+\)' "$scratch/err"; then
        pass "$1"
    else
        fail "$1" "status $status, $(head -c 200 "$scratch/err")"
    fi
}
for words in full closed; do
    fresh
    "run_$words" restore --book "$new" <"$text"
    unwritten "output that is $words"
    prints "output that is $words: the book is made" 0 "book verified" verify --book "$new" </dev/null
    fresh
    "run_$words" restore --book "$new" --without-entries 5-5 <"$text"
    unwritten "refusals, with output that is $words"
    none "refusals, with output that is $words"
done

# ---- words; tests/program.sh has those that can't be used

for words in "--without=a $(printf '%065d' 1)" "--without-batch=$(printf '%065d' 1)" "--without-entries=4294967296-4294967296"; do
    fresh
    run restore --book "$new" "$words" <"$text"
    if ((status == 2)) && [[ $(head -n 1 "$scratch/err") == "fault U2 BadValue ${words%%=*}" && ! -e $new ]]; then
        pass "a long value of ${words%%=*}"
    else
        fail "a long value of ${words%%=*}" "status $status, $(head -n 1 "$scratch/err")"
    fi
done
fresh
run restore --quiet --book "$new" --without-entries 5-5 <"$text"
if ((status == 1)) && [[ ! -s $scratch/err && $(wc -l <"$scratch/out") == 2 ]]; then pass "--quiet"; else fail "--quiet" "status $status, $(head -n 1 "$scratch/err")"; fi

# ---- books, edited dumps, hostile ones, stops

for words in "books.py --count 60 --migrated $root/tests/migrate" "edited.py --count 100" hostile.py "stopped.py --entries 600 --kills 24 --rooms 12"; do
    read -ra each <<<"$words"
    mkdir "$scratch/${each[0]}"
    run_python "tests/restore/${each[0]}" "$program" "$scratch/${each[0]}" "${each[@]:1}"
    rm -rf "${scratch:?}/${each[0]}"
done
finish
