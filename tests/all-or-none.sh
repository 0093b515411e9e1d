#!/usr/bin/env bash
# Calls with --all-or-none: where a command is refused or a fault comes, the replies and the status are those of a call that keeps what it
# can, and the book holds nothing of them; else all is kept, in one commit, behind which the replies are written. SQLite's own library
# looks into the files.
source "$(dirname "$(readlink -f "${BASH_SOURCE[0]}")")/lib/books.sh"
need_program

first=$examples/first-purchase.ledger
book=$scratch/family.book

# entries FILE: how many commands a book holds, read in a copy of its files.
entries() {
    rm -f "$scratch/looked"*
    cp "$1" "$scratch/looked" && if [[ -e $1-wal ]]; then cp "$1-wal" "$scratch/looked-wal"; fi
    tables rows "$scratch/looked" "SELECT count(*) FROM entry" 2>&1
}

# whole NAME INPUT COUNT WORDS..: the words on the book, with --all-or-none; the answer is that of the call without it on a copy, and the
# book then holds so many commands. Where these are as many as before, no byte of its file changed. Standard error says that nothing is
# kept where a command was refused.
whole() {
    local wanted status_wanted before count
    rm -f "$scratch/real"*
    if [[ -e $book ]]; then cp "$book" "$scratch/real"; fi
    if [[ -e $book-wal ]]; then cp "$book-wal" "$scratch/real-wal"; fi
    timeout 600 "$program" "${@:4}" --book "$scratch/real" <"$2" >"$scratch/expected" 2>/dev/null
    status_wanted=$?
    before=$(kept "$book") count=$(entries "$book")
    run "${@:4}" --book "$book" --all-or-none <"$2"
    expect "$1" "$status_wanted" "$scratch/expected"
    if [[ $count == "$3" ]]; then same "$1: the file is as it was" "$book" "$before"; fi
    if ((status == 1)); then
        wanted="lotbook: $book: $nothing_kept"
        if grep -qxF "$wanted" "$scratch/err"; then pass "$1: it says so"; else fail "$1: it says so" "$(tail -n 1 "$scratch/err")"; fi
    fi
    if [[ $(entries "$book") == "$3" ]]; then pass "$1: $3 commands"; else fail "$1: $3 commands" "there are $(entries "$book")"; fi
}

printf '2020-01-31 open Assets:Euro EUR\n2020-01-01 open Assets:Broker\n2020-02-01 open Assets:Won\n' >"$scratch/mixed"
printf '2020-01-31 open Assets:Euro EUR\n2020-13-01 open Assets:Pound\n' >"$scratch/faulty"
printf '2020-01-31 open Assets:Euro EUR\n2020-02-01 open Assets:Won\n' >"$scratch/right"
printf '2020-01-01 open Expenses:Fees\n2020-01-01 open Income:Gains\n' >"$scratch/more"
{ echo "$header" && printf 'R-1,2020-02-0%d,BUY,HOOL,1,100,USD,\n' 3 2; } >"$scratch/refused.csv"
{ echo "$header" && printf 'R-%d,2020-02-03,BUY,HOOL,1,100,USD,\n' 1 2; } >"$scratch/rows.csv"
awk 'BEGIN { for (n = 0; n < 2000; n++) printf "2020-01-01 open Assets:A%d\n", n }' >"$scratch/many"

# ---- a book

new_book "$book"
whole "a first batch" "$first" 3 post --batch a
whole "the same once more" "$first" 3 post --batch a
whole "accounts" "$scratch/more" 5 post --batch accounts
whole "a batch with a refusal" "$scratch/mixed" 5 post --batch b
whole "the same once more, still new" "$scratch/mixed" 5 post --batch b
whole "a faulty text" "$scratch/faulty" 5 post --batch b
whole "no commands" /dev/null 5 post --batch b
whole "the batch put right" "$scratch/right" 7 post --batch b
prints "the batch put right, sent again" 0 $'1 repeat\n2 repeat' post --book "$book" --batch b --all-or-none <"$scratch/right"
whole "a command that isn't the one of its key" "$scratch/more" 7 post --batch b
whole "a broker file with a refusal" "$scratch/refused.csv" 7 import --batch deals "${accounts[@]}"
whole "a broker file" "$scratch/rows.csv" 9 import --batch deals "${accounts[@]}"
whole "the same file once more" "$scratch/rows.csv" 9 import --batch deals "${accounts[@]}"
whole "only its last row" "$scratch/rows.csv" 9 import --batch deals --from 2 "${accounts[@]}"
whole "from behind its end" "$scratch/rows.csv" 9 import --batch deals --from 3 "${accounts[@]}"
sed s/Euro/Franc/\;s/Won/Krone/ "$scratch/mixed" >"$scratch/francs"
whole "from a refused command on" "$scratch/francs" 9 post --batch francs --from 2
whole "from behind it on" "$scratch/francs" 10 post --batch francs --from 3
whole "all of it, the last of which is there" "$scratch/francs" 10 post --batch francs
head -c 16777217 /dev/zero | prints "an input that is too long" 3 "fault K2 TooLong" post --book "$book" --batch c --all-or-none
prints "an input that can't be read" 3 "fault K1 Read" post --book "$book" --batch c --all-or-none <"$root"
cat "$scratch/many" | run post --book "$book" --batch c --all-or-none
if ((status == 0)) && [[ $(grep -c ' accepted$' "$scratch/out") == 2000 && $(entries "$book") == 2010 ]]; then
    pass "2,000 commands through a pipe"
else
    fail "2,000 commands through a pipe" "status $status, $(tail -n 1 "$scratch/out")"
fi
printf '2020-03-01 open Assets:Yen\n' >"$scratch/yen"
prints "with --dry-run, too, nothing is kept" 0 "1 accepted" post --book "$book" --batch d --all-or-none --dry-run <"$scratch/yen"
whole "so it isn't there" "$scratch/yen" 2011 post --batch d
run post --book "$book" --batch e --all-or-none --quiet <"$scratch/mixed"
if ((status == 1)) && [[ ! -s $scratch/err ]]; then pass "nothing is said with --quiet"; else fail "nothing is said with --quiet" "$(head -n 1 "$scratch/err")"; fi

# ---- no book

prints "no book" 4 "fault S1 NotABook" post --book "$scratch/missing.book" --batch a --all-or-none <"$first"
no_file "none is made" "$scratch/missing.book"
tables foreign "$scratch/foreign.book" notes
prints "a database of another program" 4 "fault S1 NotABook" post --book "$scratch/foreign.book" --batch a --all-or-none <"$first"
tables older "$scratch/older.book"
run post --book "$scratch/older.book" --batch a --all-or-none <"$first"
older "a book of edition 1"
echo "no database" >"$scratch/text.book"
run post --book "$scratch/text.book" --batch a --all-or-none <"$first"
unopened "a text file"

# ---- another program; an input of which no byte is read where the file is in use

slow_call "$book" post --batch slow --all-or-none
exec 9<"$first"
timeout 600 "$program" post --book "$book" --batch a --all-or-none <&9 >"$scratch/out" 2>"$scratch/err" && status=0 || status=$?
cat <&9 >"$scratch/unread" && exec 9<&-
if ((status == 4)) && [[ $(<"$scratch/out") == "fault open" ]] && cmp -s "$first" "$scratch/unread"; then
    pass "a book that another program has open"
else
    fail "a book that another program has open" "status $status, $(head -n 1 "$scratch/out")"
fi
cat "$scratch/many" >&8 && printf '2020-01-01 open Assets:A1\n' >&8 && exec 8>&-
wait
if [[ $(tail -n 1 "$scratch/posted") == "lotbook: $book: $nothing_kept" && $(entries "$book") == 2011 ]]; then
    pass "that program keeps nothing, since its last command was refused"
else
    fail "that program keeps nothing" "$(tail -n 1 "$scratch/posted"), $(entries "$book") commands"
fi

# ---- damage

cp "$book" "$scratch/sound"
tables damage "$book"
stood=$(entries "$book")
printf '2020-04-01 open Assets:Copper\n2020-04-01 *\n  Assets:Cash 5 USD\n  Assets:Cash\n2020-04-01 open Assets:Tin\n' >"$scratch/touching"
prints "a command that touches damage" 4 $'1 accepted\n2 fault S7 Damaged' post --book "$book" --batch g --all-or-none <"$scratch/touching"
if [[ $(tail -n 1 "$scratch/err") == "lotbook: $book: nothing is kept, since the call stopped: send it again whole" && $(entries "$book") == "$stood" ]]; then
    pass "nothing is kept of those before it"
else
    fail "nothing is kept of those before it" "$(entries "$book") commands, $(tail -n 1 "$scratch/err")"
fi
rm -f "$book"* && cp "$scratch/sound" "$book"

# ---- output that can't be written

again='the same call, sent again, tells: where all is kept, each line says `repeat`'
stood=$(entries "$book")
run_full post --book "$book" --batch f --all-or-none <"$scratch/mixed"
if ((status == 4)) && [[ $(entries "$book") == "$stood" && $(tail -n 2 "$scratch/err") == "lotbook: $book: $nothing_kept
lotbook: standard output: No space left on device (os error 28): the output is cut short" ]]; then
    pass "refused, with a full disk"
else
    fail "refused, with a full disk" "status $status, $(tail -n 1 "$scratch/err")"
fi

# unheard NAME COUNT INPUT BATCH: the call before ended since its output couldn't be written, all so many commands of the input stand
# all the same, and the same call again says so.
unheard() {
    local batch=$4
    stops "$1" "$again"
    if [[ $(entries "$book") == "$((stood + $2))" ]]; then pass "$1: all stand"; else fail "$1: all stand" "$(entries "$book") commands"; fi
    stood=$((stood + $2))
    prints "$1: sent again" 0 "$(seq -f '%g repeat' "$2")" post --book "$book" --batch "$batch" --all-or-none <"$3"
}
printf '2020-03-01 open Assets:Gold\n2020-03-01 open Assets:Silver\n' >"$scratch/metals"
run_full post --book "$book" --batch metals --all-or-none <"$scratch/metals"
unheard "accepted, with a full disk" 2 "$scratch/metals" metals
mkfifo "$scratch/closed" && exec 7<>"$scratch/closed" && exec 8>"$scratch/closed" && exec 7>&- # a pipe that nobody reads
sed s/Assets/Equity/ "$scratch/many" >"$scratch/others"
"$program" post --book "$book" --batch others --all-or-none <"$scratch/others" >&8 2>"$scratch/err" && status=0 || status=$?
exec 8>&-
unheard "a pipe that is closed" 2000 "$scratch/others" others
room=67108864
rm -f "$scratch/limited" && truncate -s $((room - 25)) "$scratch/limited"
sed s/Assets/Income/ "$scratch/many" >"$scratch/others"
limited $((room / 1024)) post --book "$book" --batch cut --all-or-none <"$scratch/others" >>"$scratch/limited" 2>"$scratch/err"
status=$?
if [[ $(tail -c 25 "$scratch/limited") == $'1 accepted\n2 accepted\n3 a' ]]; then pass "a reply cut in its middle"; else fail "a reply cut in its middle" "$(tail -c 25 "$scratch/limited")"; fi
unheard "a reply cut in its middle" 2000 "$scratch/others" cut

# ---- a disk without room

# in_room ROOM INPUT: the input is posted to a new book, all or none, with files of at most so many KiB. Sets `at` to the number of the
# command at which there was a fault, and `stood` to how many commands the book has then.
in_room() {
    new_book "$book"
    limited "$1" post --book "$book" --batch a --all-or-none <"$2" >"$scratch/out" 2>"$scratch/err"
    status=$?
    at=$(wc -l <"$scratch/out") stood=$(entries "$book")
}

# sent_again NAME COUNT INPUT: with room, the input is kept whole, or is there.
sent_again() {
    local word=accepted
    if ((stood)); then word=repeat; fi
    prints "$1" 0 "$(seq -f "%g $word" "$2")" post --book "$book" --batch a --all-or-none <"$3"
    if [[ $(entries "$book") == "$2" ]]; then pass "$1: all stand"; else fail "$1: all stand" "$(entries "$book") commands"; fi
}

met=""
for room in {0..1600..100}; do
    in_room "$room" "$scratch/many"
    last=$(tail -n 1 "$scratch/out")
    if ((status == 0 && at == 2000 && stood == 2000)); then
        met+=" kept" && pass "with room for $room KiB, kept"
    elif ((status == 4 && at == 1)) && [[ $last == "1 fault S5 InDoubt" && $stood =~ ^(0|2000)$ ]] &&
        [[ $(tail -n 1 "$scratch/err") == "lotbook: $book: all is kept or nothing: send the call again whole, and what is kept is a repeat" ]] &&
        grep -qxE 'lotbook: line 1, command 1: S5 InDoubt: .*: File too large \(os error 27\): 2020-01-01 open Assets:A0' "$scratch/err"; then
        met+=" doubt" && pass "with room for $room KiB, a commit in doubt"
    elif ((status == 4 && at <= 1 && stood == 0)) && [[ $last == "" || $last == *"fault open" || $last == *"fault S4 Device" ]]; then
        met+=" none" && pass "with room for $room KiB, none"
    else
        fail "with room for $room KiB" "status $status, $at lines, the last $last, $stood commands; $(tail -n 1 "$scratch/err")"
    fi
    sent_again "with room again, after $room KiB" 2000 "$scratch/many"
done
if [[ $met == *doubt*kept* ]]; then pass "a commit in doubt, and one that is kept"; else fail "a commit in doubt, and one that is kept" "met are$met"; fi

# What a transaction writes goes to the log ahead of its commit where it is much. There the disk refuses before the commit.
awk 'BEGIN {
    pad = sprintf("%1000s", "")
    gsub(/ /, "x", pad)
    print "2020-01-01 open Assets:A"
    for (n = 1; n < 4500; n++) printf "2020-01-02 * \"%s\" \"%s\"\n  Assets:A 1 USD\n  Assets:A -1 USD\n", pad, pad
}' >"$scratch/long"
in_room 6000 "$scratch/long"
if ((status == 4 && at > 1 && at < 4500 && stood == 0)) && cmp -s "$scratch/out" <(seq -f '%g accepted' $((at - 1)) && echo "$at fault S4 Device"); then
    pass "a disk without room ahead of the commit"
else
    fail "a disk without room ahead of the commit" "status $status, $at lines, the last $(tail -n 1 "$scratch/out"), $stood commands"
fi
if [[ $(tail -n 1 "$scratch/err") == "lotbook: $book: nothing is kept, since the call stopped: send it again whole" ]]; then
    pass "a disk without room ahead of the commit: it says so"
else
    fail "a disk without room ahead of the commit: it says so" "$(tail -n 1 "$scratch/err")"
fi
sent_again "with room for all of it" 4500 "$scratch/long"
prints "the book is sound" 0 "book verified" verify --book "$book" </dev/null
finish
