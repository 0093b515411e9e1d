#!/usr/bin/env bash
# Reports of books that may not be written: a file or a folder without that right, a file system that is read-only or full, another program that
# writes the book meanwhile. And what standard error says where a file can't be opened or holds no book.
source "$(dirname "$(readlink -f "${BASH_SOURCE[0]}")")/lib/books.sh"
need_program

first=$examples/first-purchase.ledger

reports=(holdings gains "register --account Assets:" activity journal page dump verify)

# printed BOOK: what the reports of the book print is kept.
printed() {
    local word words
    for word in "${reports[@]}"; do
        read -ra words <<<"$word"
        "$program" "${words[@]}" --book "$1" </dev/null >"$scratch/$word"
    done
}

# reports NAME FOLDER: the reports of the book there are those that were printed before, and no file changes.
reports() {
    local word words before
    before=$(state "$2")
    for word in "${reports[@]}"; do
        read -ra words <<<"$word"
        run "${words[@]}" --book "$2/family.book" </dev/null
        expect "$1: $word" 0 "$scratch/$word"
    done
    if [[ $(state "$2") == "$before" ]]; then pass "$1: as it was"; else fail "$1: as it was" "a file changed"; fi
}

home=$scratch/home book=$scratch/home/family.book
mkdir "$home"
book_of "$book" a <"$first"
printed "$book"

# ---- without rights

without_rights
chmod 444 "$book" "$book-wal" && chmod 555 "$home"
program=$unprivileged reports "files and a folder that may only be read" "$home"
program=$unprivileged run post --book "$book" --batch b <"$first"
says "a post needs the right to write" "lotbook: $book: no permission"
chmod 755 "$home" && rm "$book-wal" && chmod 555 "$home"
program=$unprivileged reports "without a log" "$home"
chmod 755 "$home" && cp "$book" "$scratch/whole"
seq -f '2020-01-01 open Assets:A%g' 2000 | limited 6000 post --book "$book" --batch many >/dev/null 2>&1
cp -a "$home" "$scratch/copy" && printed "$scratch/copy/family.book" && rm -r "$scratch/copy"
chmod 444 "$book" "$book-wal" && chmod 555 "$home"
program=$unprivileged reports "a long log that may only be read" "$home"
if (($(wc -l <"$scratch/journal") > 100)); then pass "what stands in the log is there"; else fail "what stands in the log is there" "it isn't"; fi
chmod 755 "$home" && chmod 644 "$book" "$book-wal"

# ---- a file system that is read-only

if unshare -m mount --bind "$home" "$home" 2>/dev/null; then
    cat >"$scratch/mounted" <<END
#!/usr/bin/env bash
mount --bind "$home" "$home" && mount -o remount,bind,ro "$home" && exec "$program" "\$@"
END
    chmod +x "$scratch/mounted"
    cat >"$scratch/apart" <<END
#!/usr/bin/env bash
exec unshare -m "$scratch/mounted" "\$@"
END
    chmod +x "$scratch/apart"
    program=$scratch/apart reports "a file system that is read-only" "$home"
    program=$scratch/apart run post --book "$book" --batch b <"$first"
    says "a post says so" "lotbook: $book: the file system is read-only"
else
    echo "skipped: a file system that is read-only can't be mounted here"
fi

# ---- a file system without room: standard error says which the system named

full="No space left on device \\(os error 28\\)"
cat >"$scratch/roomless" <<END
#!/usr/bin/env bash
mkdir -p "$scratch/room" && mount -t tmpfs -o size=1m lotbook "$scratch/room" && cp "$scratch/whole" "$scratch/room/family.book" || exit 9
exec "$program" "\$@"
END
chmod +x "$scratch/roomless"
cat >"$scratch/alone" <<END
#!/usr/bin/env bash
exec unshare -m "$scratch/roomless" "\$@"
END
chmod +x "$scratch/alone"
if unshare -m mount -t tmpfs -o size=1m lotbook /tmp 2>/dev/null; then
    program=$scratch/alone run post --book "$scratch/room/family.book" --batch many < <(seq -f '2020-01-01 open Assets:A%g' 2000)
    if ((status == 4)) && [[ $(tail -n 1 "$scratch/out") =~ ^[0-9]+' fault S'[45] ]]; then
        says "a post says that there is no room" "lotbook: line ([0-9]+), command \\1: S[45] [A-Za-z]+: .*: $full: 2020-01-01 open .*"
    else
        fail "a post without room" "status $status, $(tail -n 1 "$scratch/out")"
    fi
else
    echo "skipped: a file system without room can't be mounted here"
fi

# ---- another program that writes the book meanwhile: each journal is a part of the last one, from its start on

slow_call "$book" post --batch more
seq -f '2020-01-01 open Assets:B%g' 3000 >&8 && exec 8>&-
count=0
while kill -0 "$begun" 2>/dev/null; do
    if ! "$program" journal --book "$book" </dev/null >"$scratch/journal.$count" 2>"$scratch/err"; then
        fail "a journal meanwhile" "$(head -n 1 "$scratch/err")"
        break
    fi
    count=$((count + 1))
done
wait
"$program" journal --book "$book" </dev/null >"$scratch/last"
wrong=0
for ((at = 0; at < count; at++)); do
    cmp -s -n "$(stat -c %s "$scratch/journal.$at")" "$scratch/journal.$at" "$scratch/last" || wrong=$((wrong + 1))
done
if ((count > 0 && wrong == 0)); then pass "journals while another program writes"; else fail "journals while another program writes" "$wrong of $count are wrong"; fi
if [[ $(grep -c ' accepted$' "$scratch/posted") == 3000 ]]; then pass "that program isn't disturbed"; else fail "that program isn't disturbed" "$(tail -n 1 "$scratch/posted")"; fi

# ---- why a file can't be opened

# cause NAME FILE TEXT: a post to that file says so, and so does a report.
cause() {
    local word
    for word in "post --batch a" journal; do
        read -ra words <<<"$word"
        run "${words[@]}" --book "$2" <"$first"
        if [[ $(<"$scratch/out") == "fault open" ]]; then
            says "${words[0]}: $1" "lotbook: $2: $3"
        else
            fail "${words[0]}: $1" "$(head -n 1 "$scratch/out")"
        fi
    done
}
cause "a folder that isn't there" "$scratch/nowhere/family.book" "there is no such folder"
run journal --book '' </dev/null
says "an empty path" "lotbook: the path of the book is empty"
cause "a folder" "$home" "it is a folder"
mkfifo "$scratch/pipe.book"
cause "a pipe" "$scratch/pipe.book" "it is a pipe, a device or the like"
ln "$book" "$scratch/other.book"
cause "a file with a second name" "$book" "the file has a second name"
rm "$scratch/other.book"
echo journal >"$book-journal"
cause "a file beside a journal" "$book" "another program left a journal beside it: open it there first"
rm "$book-journal"
echo "a text" >"$scratch/text.book"
cause "a text" "$scratch/text.book" "it is no database"
head -c 5000 "$book" >"$scratch/half.book"
cause "half a database" "$scratch/half.book" "it is a damaged database, or a part of one"
printf x >"$scratch/letter.book"
cause "a letter" "$scratch/letter.book" "one byte is no database"
chmod 000 "$book"
program=$unprivileged cause "a file that may not be read" "$book" "no permission"
chmod 644 "$book"
chmod 555 "$home"
program=$unprivileged run init --book "$home/new.book" </dev/null
says "init in a folder that takes no files" "lotbook: $home/new.book: no permission"
chmod 755 "$home"
run journal --book "$scratch/text.book" --quiet </dev/null
if ((status == 4)) && [[ ! -s $scratch/err ]]; then pass "nothing is said with --quiet"; else fail "nothing is said with --quiet" "$(head -n 1 "$scratch/err")"; fi
slow_call "$book" post --batch slow
run init --book "$book" </dev/null
says "a book that another program has open" "lotbook: $book: another program has it open"
exec 8>&-
wait

# ---- what isn't a book

# nobook NAME FILE TEXT WORDS..: the words end with S1, and standard error says so.
nobook() {
    run "${@:4}" --book "$2" <"$first"
    if ((status == 4)) && [[ $(<"$scratch/out") == "fault S1 NotABook" ]]; then
        says "$1" "lotbook: $2$3"
    else
        fail "$1" "status $status, $(head -n 1 "$scratch/out")"
    fi
}
for word in "post --batch a" migrate journal; do
    read -ra words <<<"$word"
    file=$scratch/missing.book
    nobook "${words[0]}: a missing file" "$file" ": there is no such file: \`lotbook init --book $file\` makes a book" "${words[@]}"
    file=$scratch/empty.book
    rm -f "$file"* && : >"$file"
    nobook "${words[0]}: an empty file" "$file" " is empty, as after a \`restore\` that made no book, which can be called again: \`lotbook init --book $file\` makes an empty book of it" "${words[@]}"
    if [[ ${words[0]} == journal ]]; then
        if [[ ! -s $file && ! -e $file-wal ]]; then pass "it stays empty"; else fail "it stays empty" "$(stat -c %s "$file")"; fi
    fi
    file=$scratch/foreign.book
    rm -f "$file"* && tables foreign "$file" notes
    nobook "${words[0]}: another database" "$file" " is a database of another program: its tables aren't those of a book" "${words[@]}"
done
nobook "init: a book" "$book" " is a book already" init
nobook "init: another database" "$file" " is a database of another program: its tables aren't those of a book" init
tables older "$scratch/older.book"
nobook "init: a book of edition 1" "$scratch/older.book" " is a book already" init

# ---- the sum of a call, on a terminal

# sums NAME PATTERN INPUT WORDS..: the last line there matches the pattern whole.
sums() {
    local found
    found=$(on_terminal /dev/null "${@:3}" | tr -d '\r' | tail -n 1)
    if grep -qxE "$2" <<<"$found"; then pass "$1"; else fail "$1" "$found"; fi
}
time='in [0-9]+\.[0-9] s'
sums "the sum of a post" "0 accepted, 3 repeated, 0 refused $time" "$first" post --book "$book" --batch a
sums "of a post with refusals" "1 accepted, 0 repeated, 2 refused $time" "$first" post --book "$book" --batch c
sums "of a dry run" "1 accepted, 0 repeated, 2 refused $time: a dry run, of which nothing is kept" "$first" \
    post --book "$book" --batch d --dry-run
sums "of all or none" "lotbook: $book: $nothing_kept" "$first" post --book "$book" --batch d --all-or-none
printf '2020-01-01 open Assets:Kept\n' >"$scratch/kept"
sums "of all or none that is kept" "1 accepted, 0 repeated, 0 refused $time" "$scratch/kept" post --book "$book" --batch e --all-or-none
sums "none with --quiet" "" "$first" post --book "$book" --batch a --quiet
sums "none of a report" "" /dev/null journal --book "$book"
finish
