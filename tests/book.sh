#!/usr/bin/env bash
# Books in files: they are made and posted to, their lots are numbered as they are opened, batches are sent again, calls are stopped at
# any moment, and SQLite's own library looks into the files.
source "$(dirname "$(readlink -f "${BASH_SOURCE[0]}")")/lib/books.sh"
need_program

first=$examples/first-purchase.ledger
printf '2020-01-01 open Assets:Other\n' >"$scratch/good"
printf '2020-13-01 open Assets:Other\n' >"$scratch/faulty"
accepted=$'1 accepted\n2 accepted\n3 accepted'

# ---- a book, and the same text again

book=$scratch/family.book
prints "a book is made" 0 "book ready" init --book "$book" </dev/null
prints "it isn't made again" 4 "fault S1 NotABook" init --book "$book" </dev/null
prints "a first batch" 0 "$accepted" post --book "$book" --batch a <"$first"
prints "the same batch again" 0 $'1 repeat\n2 repeat\n3 repeat' post --book "$book" --batch a <"$first"
prints "its last command again" 0 "3 repeat" post --book "$book" --batch a --from 3 <"$first"
run post --book "$book" --batch a --from 4 <"$first"
expect "from behind its end" 0 /dev/null
run post --from 10000000 --batch=-a.1 "--book=$book" <"$first"
expect "from the last number of all, to a batch that begins with a dash" 0 /dev/null
run post --book "$book" --batch a </dev/null
expect "no commands" 0 /dev/null
prints "the same text as another batch" 1 $'1 refused L2 AlreadyOpen\n2 refused L2 AlreadyOpen\n3 accepted' \
    post --book "$book" --batch b <"$first"
prints "another text under a key" 1 "1 refused L1 KeyReused" post --book "$book" --batch a <"$scratch/good"
prints "a faulty row before the first that is run" 3 "fault line 1 X6 BadDay" post --book "$book" --batch c --from 2 <"$scratch/faulty"
head -c 16777217 /dev/zero | prints "an input that is too long" 3 "fault K2 TooLong" post --book "$book" --batch c
prints "an input that can't be read" 3 "fault K1 Read" post --book "$book" --batch c <"$root"
shows "one lot of 20" "Assets:Broker|HOOL|2000000000" rows "$book" "SELECT account, commodity, units FROM lot"
shows "four entries" "1|post:a|1
2|post:a|2
3|post:a|3
4|post:b|3" rows "$book" "SELECT number, source, name FROM entry ORDER BY number"
shows "what is held" $'Assets:Broker 20 HOOL {502.12 USD, 2020-01-02}\nAssets:Cash -10042.40 USD\ntotal cost 10042.40 USD' holdings "$book"
shows "integrity" ok sound "$book"
shows "the edition" "lot-book|2" rows "$book" "SELECT mark, edition FROM book"
shows "no entry was migrated" 0 rows "$book" "SELECT entries FROM migration"
shows "thirteen tables, in the order of their making" \
    "book account allowed commodity price entry leg sale lot plain head opening migration" \
    rows "$book" "SELECT group_concat(name, ' ') FROM (SELECT name FROM sqlite_schema WHERE type = 'table' ORDER BY rootpage)"

# ---- opening numbers: 64 for each entry before, and the place of the posting, of the last leg before which the lot was empty

# numbers NAME TEXT: the rows of `opening` of the book in `book`, which are those that its legs leave.
numbers() {
    shows "$1" "$2" openings "$book"
    shows "$1, by the legs" "$2" numbered "$book"
}
book=$scratch/openings.book
new_book "$book"
{
    two_lots
    printf '2020-01-02 *\n  Assets:Broker -5 HOOL {"b"}\n  Assets:Cash\n'
    printf '2020-01-02 *\n  Assets:Broker 5 HOOL {100 USD, "b"}\n  Equity:Start\n'
} | prints "a lot that is emptied, and opened again behind another one" 0 "$(seq -f '%g accepted' 8)" post --book "$book" --batch a
# Entry 8, posting 1: 64 * 7 + 1. The other lot is of entry 6.
numbers "its opening number" 'Assets:Broker HOOL {100 USD, 2020-01-02, "a"} 321
Assets:Broker HOOL {100 USD, 2020-01-02, "b"} 449'
# Entries 9 to 12, since a refused command is none: the lots are opened by posting 4 of entry 10, 64 * 9 + 4, and by posting 3 of
# entry 12, 64 * 11 + 3.
prints "openings within transactions" 1 "1 accepted
2 refused L14 NotBalanced USD
3 accepted
4 accepted
5 accepted" post --book "$book" --batch b <<'END'
2020-01-02 * "One is emptied, and the third posting opens it again; the other is added to. The fill has no leg"
  Equity:Start
  Assets:Broker -5 HOOL {"a"}
  Assets:Broker 5 HOOL {100 USD, "a"}
  Assets:Broker 1 HOOL {100 USD, "b"}
  Assets:Broker -1 HOOL {100 USD, "b"}
2020-01-02 *
  Assets:Broker 5 HOOL {100 USD, "c"}
2020-01-02 * "Twice in one transaction"
  Assets:Broker -5 HOOL {"a"}
  Assets:Broker 2 HOOL {100 USD, "a"}
  Assets:Broker -2 HOOL {"a"}
  Assets:Broker 1 HOOL {100 USD, "a"}
  Assets:Broker 1 HOOL {100 USD, "a"}
  Equity:Start
2020-01-01 open Assets:Any "NONE"
2020-01-02 * "Without a method a lot of the other sign empties it"
  Assets:Any 5 HOOL {100 USD}
  Assets:Any -5 HOOL {100 USD}
  Assets:Any -3 HOOL {100 USD}
  Equity:Start
END
numbers "their opening numbers" 'Assets:Any HOOL {100 USD, 2020-01-02} 707
Assets:Broker HOOL {100 USD, 2020-01-02, "a"} 580
Assets:Broker HOOL {100 USD, 2020-01-02, "b"} 449'
# Lots of another label are opened by posting 64 of entry 13 and by posting 1 of entry 14: 64 * 12 + 64 and 64 * 13 + 1.
{
    echo '2020-01-02 * "64 postings"' && yes '  Equity:Start 0 USD' | head -n 62
    printf '  Equity:Start -1 USD\n  Assets:Broker 1 HOOL {1 USD, "z"}\n'
    printf '2020-01-02 *\n  Assets:Broker 1 HOOL {1 USD, "y"}\n  Equity:Start\n'
    printf '2020-01-03 *\n  Assets:Broker -8 HOOL {}\n  Equity:Start\n'
} | prints "openings on either side of a multiple of 64" 0 "$(seq -f '%g accepted' 3)" post --book "$book" --batch c
# The sale takes 5 of "b", 2 of "a" and 1 of "z": "y" was opened last.
numbers "what the sale leaves" 'Assets:Any HOOL {100 USD, 2020-01-02} 707
Assets:Broker HOOL {1 USD, 2020-01-02, "y"} 833'
shows "from which it took in the order of their openings" $'0|b|-5\n1|a|-2\n2|z|-1' \
    rows "$book" "SELECT place, cost_label, units / 100000000 FROM leg WHERE entry = 15 AND posting = 1 ORDER BY place"
shows "the number of a lot is gone with it" 2 rows "$book" "SELECT count(*) FROM opening"
book=$scratch/family.book

# ---- the stored cases, on a file

run_python tests/book/batches.py "$program" "$root/tests/cases" "$scratch"

# ---- files of every kind

# on NAME FILE STATUS LINE WORDS..: the program writes the line, and the file is afterwards what it was.
on() {
    local before
    before=$(kept "$2")
    prints "$1" "$3" "$4" "${@:5}"
    same "$1: the file is as it was" "$2" "$before"
}

# refused KIND FILE INIT POST: `init`, and `post` with a good and with a faulty text, on a file that is no book.
refused() {
    on "init on $1" "$2" 4 "$3" init --book "$2" </dev/null
    on "post on $1" "$2" 4 "$4" post --book "$2" --batch a <"$scratch/good"
    on "a faulty text on $1" "$2" 3 "fault line 1 X6 BadDay" post --book "$2" --batch a <"$scratch/faulty"
}

# closed KIND FILE: nothing is read where the file can't be opened, standard error says why, and the file is as it was.
closed() {
    local before
    before=$(kept "$2")
    unopened_by "init on $1" init --book "$2"
    unopened_by "post on $1" post --book "$2" --batch a
    same "$1 is as it was" "$2" "$before"
}
mkfifo "$scratch/nothing" && exec 7<>"$scratch/nothing" # an input of which no byte ever comes
unopened_by() {
    run "${@:2}" <&7
    unopened "$1"
}

missing=$scratch/missing.book
on "post on a missing file" "$missing" 4 "fault S1 NotABook" post --book "$missing" --batch a <"$scratch/good"
on "a faulty text on a missing file" "$missing" 3 "fault line 1 X6 BadDay" post --book "$missing" --batch a <"$scratch/faulty"
no_file "no file is left" "$missing"

: >"$scratch/empty.book" # opening it makes an empty database of it
prints "post on an empty file" 4 "fault S1 NotABook" post --book "$scratch/empty.book" --batch a <"$scratch/good"
on "post on an empty database" "$scratch/empty.book" 4 "fault S1 NotABook" post --book "$scratch/empty.book" --batch a <"$scratch/good"
on "a faulty text on an empty database" "$scratch/empty.book" 3 "fault line 1 X6 BadDay" \
    post --book "$scratch/empty.book" --batch a <"$scratch/faulty"
prints "init on an empty database" 0 "book ready" init --book "$scratch/empty.book" </dev/null
: >"$scratch/zero.book"
prints "a faulty text on an empty file" 3 "fault line 1 X6 BadDay" post --book "$scratch/zero.book" --batch a <"$scratch/faulty"
shows "an empty database after a faulty text" 0 rows "$scratch/zero.book" "SELECT count(*) FROM sqlite_master"
prints "init on it" 0 "book ready" init --book "$scratch/zero.book" </dev/null
printf x >"$scratch/letter.txt"
closed "a file of one letter" "$scratch/letter.txt"
printf '\n' >"$scratch/line.txt"
closed "a file of one line end" "$scratch/line.txt"
printf '\0' >"$scratch/begun.book" # an `init` that was stopped may leave such a file
prints "init on a file of one zero byte" 0 "book ready" init --book "$scratch/begun.book" </dev/null

tables foreign "$scratch/taken.db" account
refused "a database with a table of that name" "$scratch/taken.db" "fault S1 NotABook" "fault S1 NotABook"
tables foreign "$scratch/other.db" notes
refused "a database of another program" "$scratch/other.db" "fault S1 NotABook" "fault S1 NotABook"
shows "the other table" kept rows "$scratch/other.db" "SELECT content FROM notes"

new_book "$scratch/newer.book"
tables edition "$scratch/newer.book" 9
refused "a book of edition 9" "$scratch/newer.book" "fault S1 NotABook" "fault S2 NewerEdition"
new_book "$scratch/next.book"
tables edition "$scratch/next.book" 3
refused "a book of edition 3" "$scratch/next.book" "fault S1 NotABook" "fault S2 NewerEdition"
new_book "$scratch/none.book"
tables edition "$scratch/none.book" 0
refused "a book of edition 0" "$scratch/none.book" "fault S1 NotABook" "fault S1 NotABook"

# One that a program of edition 1 left, of eleven tables, and one that only says so.
tables older "$scratch/older.book"
new_book "$scratch/back.book"
tables edition "$scratch/back.book" 1
for file in "$scratch/older.book" "$scratch/back.book"; do
    name="a book of edition 1, ${file##*/}"
    on "init on $name" "$file" 4 "fault S1 NotABook" init --book "$file" </dev/null
    on "a faulty text on $name" "$file" 3 "fault line 1 X6 BadDay" post --book "$file" --batch a <"$scratch/faulty"
    before=$(kept "$file")
    run post --book "$file" --batch b <"$scratch/good"
    older "post on $name"
    run post --book "$file" --batch a --from 7 </dev/null
    older "post of nothing on $name"
    same "$name is as it was" "$file" "$before"
done

mkdir "$scratch/folder"
closed "a folder" "$scratch/folder"
closed "a folder that isn't there" "$scratch/nowhere/family.book"
unopened_by "init in a folder that takes no files" init --book /proc/self/family.book
closed "no path" ""
head -c 3000 /dev/urandom | base64 >"$scratch/text.book"
closed "a text file" "$scratch/text.book"
head -c 5000 "$book" >"$scratch/half.book"
closed "half a database" "$scratch/half.book"

without_rights
cp "$book" "$scratch/locked.book" && chmod 000 "$scratch/locked.book"
mkdir -m 555 "$scratch/fixed"
program=$unprivileged closed "a file without permission" "$scratch/locked.book"
program=$unprivileged unopened_by "init in a folder without permission" init --book "$scratch/fixed/family.book"
program=$unprivileged on "post on a missing file in a folder without permission" "$scratch/fixed/family.book" 4 "fault S1 NotABook" \
    post --book "$scratch/fixed/family.book" --batch a <"$scratch/good"

# ---- two at once

new_book "$scratch/shared.book"
slow_call "$scratch/shared.book" post --batch a
run post --book "$scratch/shared.book" --batch b </dev/null
unopened "a second post"
exec 9<"$first" # the program and this shell share the place in the file, so a byte that the one reads is gone for the other
run post --book "$scratch/shared.book" --batch b <&9
cat <&9 >"$scratch/unread" && exec 9<&-
if ((status == 4)) && [[ $(<"$scratch/out") == "fault open" && -s $scratch/err ]] && cmp -s "$first" "$scratch/unread"; then
    pass "a second post reads no byte of its input"
else
    fail "a second post reads no byte of its input" "status $status, $(head -n 1 "$scratch/out"), $(wc -c <"$scratch/unread") bytes left"
fi
cat "$first" >&8 && exec 8>&-
wait && [[ $(<"$scratch/posted") == "$accepted" ]] && pass "the first post goes on" || fail "the first post goes on" "$(<"$scratch/posted")"

# Ten posts side by side, each of which waits for its turn: all of them are kept.
new_book "$scratch/turns.book"
for number in {1..10}; do
    printf '2020-01-01 open Assets:A%d\n2020-01-02 price A%d 1 USD\n' "$number" "$number" |
        flock "$scratch/turns.lock" "$program" post --book "$scratch/turns.book" --batch "b$number" >"$scratch/turn.$number" 2>&1 &
done
wait
if [[ $(cat "$scratch"/turn.* | sort | uniq -c | tr -s ' \n' ' ') == " 10 1 accepted 10 2 accepted " ]]; then
    pass "ten posts that wait for their turn"
else
    fail "ten posts that wait for their turn" "$(cat "$scratch"/turn.* | sort | uniq -c | tr '\n' '|')"
fi
shows "each is in the book" "10|20" rows "$scratch/turns.book" "SELECT count(DISTINCT source), count(*) FROM entry"

# ---- damage

new_book "$scratch/damaged.book"
"$program" post --book "$scratch/damaged.book" --batch a <"$first" >"$scratch/out"
tables damage "$scratch/damaged.book"
prints "an opening elsewhere" 0 "1 accepted" post --book "$scratch/damaged.book" --batch b <"$scratch/good"
printf '2020-02-01 *\n  Assets:Cash 5 USD\n  Assets:Cash\n2020-02-01 open Assets:Third\n' >"$scratch/touching"
prints "a command that touches the damage" 4 "1 fault S7 Damaged" post --book "$scratch/damaged.book" --batch c <"$scratch/touching"
shows "nothing of it stands" 4 rows "$scratch/damaged.book" "SELECT count(*) FROM entry"

# ---- a disk without room

# Each command is a commit of some pages, so a limit on the size of files stops a run between two of them.
awk 'BEGIN { for (n = 0; n < 2000; n++) printf "2020-01-01 open Assets:A%d\n", n }' >"$scratch/many"
new_book "$scratch/full.book"
limited 600 post --book "$scratch/full.book" --batch a <"$scratch/many" >"$scratch/out" 2>"$scratch/err"
status=$?
last=$(tail -n 1 "$scratch/out") at=$(wc -l <"$scratch/out")
if ((status == 4)) && [[ $last == "$at fault S4 Device" || $last == "$at fault S5 InDoubt" ]] && ! grep -qv ' accepted$' <(head -n -1 "$scratch/out"); then
    pass "a disk without room: $last"
else
    fail "a disk without room" "status $status, last line '$last'"
fi
says "it says which the system named" "lotbook: line $at, command $at: S[45] [A-Za-z]+: .*: File too large \(os error 27\): 2020-01-01 open Assets:A$((at - 1))"
run post --book "$scratch/full.book" --batch a --from "$at" <"$scratch/many"
if ((status == 0)) && [[ $(wc -l <"$scratch/out") == $((2001 - at)) ]] && grep -qx "$at accepted\|$at repeat" "$scratch/out"; then
    pass "sent on with room"
else
    fail "sent on with room" "status $status, $(head -n 1 "$scratch/out")"
fi
shows "all entries stand" 2000 rows "$scratch/full.book" "SELECT count(*) FROM entry"

# Without room for the log a new file can't even be opened. What is left of it is made into a book once there is room. What the
# program says goes through a pipe, since the limit is one of each file.
for room in {0..200..20}; do
    rm -f "$scratch/roomless.book"*
    said=$(limited "$room" init --book "$scratch/roomless.book" </dev/null 2>&1)
    status=$? size=$(stat -c %s "$scratch/roomless.book" 2>/dev/null || echo none)
    if ((status == 4)) && [[ $said == *"fault open"* && $said == *"lotbook: $scratch/roomless.book: File too large (os error 27)" && $size =~ ^(none|0|4096)$ ]]; then
        pass "init with room for $room KiB"
    else
        fail "init with room for $room KiB" "status $status, a file of $size bytes, $(tr '\n' '|' <<<"$said")"
    fi
    prints "init with room again, after $room KiB" 0 "book ready" init --book "$scratch/roomless.book" </dev/null
    prints "a batch after $room KiB" 0 "1 accepted" post --book "$scratch/roomless.book" --batch a <"$scratch/good"
done

# ---- output that can't be written

new_book "$scratch/unheard.book"
run_full post --book "$scratch/unheard.book" --batch a <"$first"
stops "output to a full disk" "command 1 is the last of this call in the book; --from 1 goes on"
prints "the command whose reply couldn't be written stands, and no other" 0 $'1 repeat\n2 accepted\n3 accepted' \
    post --book "$scratch/unheard.book" --batch a <"$first"
run_full init --book "$scratch/unsaid.book" </dev/null
stops "making a book with output to a full disk" "the book is made"
prints "it was made" 4 "fault S1 NotABook" init --book "$scratch/unsaid.book" </dev/null

new_book "$scratch/cut.book"
"$program" post --book "$scratch/cut.book" --batch a <"$scratch/many" 2>"$scratch/err" | head -n 20 >"$scratch/taken"
status=${PIPESTATUS[0]}
seq -f '%g accepted' 20 >"$scratch/expected"
stops "a pipe that is closed in the middle" "command ([0-9]+) is the last of this call in the book; --from \1 goes on"
if cmp -s "$scratch/taken" "$scratch/expected"; then
    pass "its first lines"
else
    fail "its first lines" "$(tail -n 1 "$scratch/taken")"
fi
run post --book "$scratch/cut.book" --batch a <"$scratch/many"
if ((status == 0)) && [[ $(head -n 20 "$scratch/out" | grep -c ' repeat$') == 20 && $(wc -l <"$scratch/out") == 2000 ]]; then
    pass "sent again after it"
else
    fail "sent again after it" "status $status, $(wc -l <"$scratch/out") lines"
fi

# What was told completes the book: it is that of a post that wasn't disturbed.
"$program" journal --book "$scratch/cut.book" >"$scratch/whole"
new_book "$scratch/cut.book"
"$program" post --book "$scratch/cut.book" --batch a <"$scratch/many" 2>"$scratch/err" | grep -q accepted
status=${PIPESTATUS[0]}
stops "a search that ends at the first reply" "command ([0-9]+) is the last of this call in the book; --from \1 goes on"
from=$(sed -E 's/.* --from ([0-9]+) goes on/\1/' "$scratch/err")
run post --book "$scratch/cut.book" --batch a --from "$from" <"$scratch/many"
if ((status == 0)) && [[ $(head -n 1 "$scratch/out") == "$from repeat" && $(tail -n 1 "$scratch/out") == "2000 accepted" ]]; then
    pass "sent on behind it"
else
    fail "sent on behind it" "status $status, $(head -n 1 "$scratch/out")"
fi
prints "the book is whole" 0 "$(<"$scratch/whole")" journal --book "$scratch/cut.book" </dev/null
run_full post --book "$scratch/unheard.book" --batch b --quiet <"$first"
if ((status == 4)) && [[ ! -s $scratch/err ]]; then pass "nothing is said with --quiet"; else fail "nothing is said with --quiet" "status $status, $(head -n 1 "$scratch/err")"; fi

# ends NAME COUNT INPUT REMAINS LAST WORDS..: the call on a new book, whose output is a file that takes COUNT bytes more; standard error
# says REMAINS in its last line, and the output ends with the text LAST.
room=67108864
ends() {
    book_of "$scratch/ended.book" accounts <"$examples/broker/accounts.ledger"
    rm -f "$scratch/limited" && truncate -s $((room - $2)) "$scratch/limited"
    limited $((room / 1024)) "${@:6}" --book "$scratch/ended.book" <"$3" >>"$scratch/limited" 2>"$scratch/err"
    status=$?
    sed -i '$!d' "$scratch/err"
    stops "$1" "$4"
    if [[ $(tail -c "${#5}" "$scratch/limited" && echo .) == "$5." && $(stat -c %s "$scratch/limited") -le $room ]]; then pass "$1: its end"; else fail "$1: its end" "$(tail -c 20 "$scratch/limited")"; fi
}
reached() { echo "$1 $2 is the last of this call in the book; --from $3 goes on"; }
{ seq -f '2020-01-01 open Assets:A%g' 9 && echo '2020-01-01 open Assets:A1' && echo '2020-01-01 open Assets:B'; } >"$scratch/twelve"
ends "a reply cut in its middle" 100 "$scratch/many" "$(reached command 10 10)" $'9 accepted\n1' post --batch a
ends "a reply of which nothing is written" 99 "$scratch/many" "$(reached command 10 10)" $'9 accepted\n' post --batch a
ends "a reply but for its line end" 110 "$scratch/many" "$(reached command 10 10)" $'10 accepted' post --batch a
ends "a refusal cut in its middle" 105 "$scratch/twelve" "$(reached command 9 10)" $'9 accepted\n10 ref' post --batch a
ends "the reply behind a refusal" 125 "$scratch/twelve" "$(reached command 11 11)" $'10 refused L2 AlreadyOpen\n' post --batch a
ends "nothing stands" 5 "$examples/broker/accounts.ledger" "no command of this call is in the book; --from 1 goes on" '1 ref' post --batch a
ends "a repeat" 5 "$examples/broker/accounts.ledger" "$(reached command 1 1)" '1 rep' post --batch accounts
ends "from a later command on" 3 "$scratch/twelve" "$(reached command 5 5)" '5 a' post --batch a --from 5
{ echo "$header" && seq -f 'R-%g,2024-01-15,BUY,HOOL,1,100,USD,' 20; } >"$scratch/rows.csv"
ends "rows" 105 "$scratch/rows.csv" "$(reached row 10 10)" $'9 accepted\n10 acc' import --batch deals "${accounts[@]}"

# ---- progress

new_book "$scratch/watched.book"
awk 'BEGIN { for (n = 0; n < 4000; n++) printf "2020-01-01 open Assets:A%d\n", n }' >"$scratch/more"
watched "progress on a terminal" "$scratch/out" "$scratch/more" $'^\r[0-9]+ commands, [0-9]+ a second' post --book "$scratch/watched.book" --batch a
watched "no progress of a short run" "$scratch/out" "$scratch/good" $'^1 accepted, 0 repeated, 0 refused in [0-9]+\\.[0-9] s\r$' post --book "$scratch/watched.book" --batch b
# The rows add up in one lot.
book_of "$scratch/broker.book" accounts <"$examples/broker/accounts.ledger"
{ echo "$header" && seq -f 'R-%g,2024-01-15,BUY,HOOL,1,100,USD,' 4000; } >"$scratch/rows.csv"
watched "progress of an import on a terminal" "$scratch/out" "$scratch/rows.csv" $'^\r[0-9]+ rows, [0-9]+ a second' \
    import --book "$scratch/broker.book" --batch deals "${accounts[@]}"

# ---- stops

run_python tests/book/stops.py "$program" "$scratch" --kills 30
if takes_crumbs; then
    mkdir "$scratch/crumbs"
    run_python tests/book/stops.py "$program" "$scratch/crumbs" --kills 15 --crumbs
    mkdir "$scratch/crumbs/batch"
    run_python tests/book/stops.py "$program" "$scratch/crumbs/batch" --kills 10 --crumbs --all-or-none
fi
mkdir "$scratch/batch"
run_python tests/book/stops.py "$program" "$scratch/batch" --kills 20 --all-or-none
finish
