#!/usr/bin/env bash
# The scripts `lotbook`, `test`, and those of tools/, bench/ and tests/ that stand on no program. They run on a repository of their own
# whose kit is a stand-in: it notes each call, builds a program that prints its words and its input, fails in a crate with a file
# `broken`, and takes its time in one with a file `slow`.
source "$(dirname "$(readlink -f "${BASH_SOURCE[0]}")")/lib/cases.sh"

repo=$scratch/repo
mkdir -p "$scratch/kit/bin" "$repo"/crates/{lotbook,low,left,right,other}/src "$repo"/crates/{low,left}/specs "$repo/tests/whole"
mkdir "$repo/.git"
cp "$root/lotbook" "$root/test" "$repo/"
cp -r "$root/tools" "$repo/"
printf '%s\n' '# name: libraries' 'right: low std' 'low:' 'left: low' 'lotbook: left right' 'other: low' >"$repo/crates.txt"
for crate in low left right other; do echo "fn $crate()" >"$repo/crates/$crate/src/lib.rt"; done
echo "fn main()" >"$repo/crates/lotbook/src/main.rt"
touch "$repo"/crates/{low,left}/specs/Lib.antt
printf '#!/bin/sh\necho "1 passed, 0 failed"\n' >"$repo/tests/one.sh"
printf '#!/bin/sh\necho "10 passed, 0 failed"\n' >"$repo/tests/whole/two.sh"
chmod +x "$repo/tests/one.sh" "$repo/tests/whole/two.sh"
echo "kit 1" >"$scratch/kit/KIT-ID"
cat >"$scratch/kit/bin/rt" <<'END'
#!/usr/bin/env bash
case $1 in
    version) cat "$(dirname "$(readlink -f "$0")")/../KIT-ID" && exit ;;
    ci)
        if (($# == 1)); then
            if [[ -e $CI.makes ]]; then source "$CI.makes"; fi
            cat "$CI" && exit "$(<"$CI.status")"
        fi
        if [[ $(<"$CI.status") != 0 ]]; then echo "rt: FAILED: $2" && exit 1; fi
        echo "rt: $2 is kept: an earlier run proved it"
        for crate in "${@:3}"; do echo "rt: $crate proved"; done
        for edit in crates/*/must-fail/*.edit; do echo "rt: must-fail ${edit//\/must-fail/}: $(<"$edit")"; done | sed 's|crates/||'
        exit ;;
esac
crate=$(basename "$PWD")
echo "$crate $*" >>"$CALLS"
# The libraries below were built, of sources that stand here.
for below in $(sed -n "s/^$crate://p" ../../crates.txt); do
    if [[ -d ../$below ]] && ! cmp -s "../$below/src/lib.rt" "../$below/out/rlib/stamp"; then echo "no library $below" && exit 2; fi
done
echo "rt: chose --jobs 2 for $crate"
echo "fn $crate::f: proved"
mkdir -p out/incremental
echo "$crate" >>out/incremental/kept
if [[ -e src/slow ]]; then echo $$ >>"$CALLS.slow" && sleep 60; fi
if [[ -e src/broken ]]; then echo "fn $crate::g: open goal" && exit 1; fi
echo "logic=proved functions=3 sum=x"
if [[ $1 == lib ]]; then
    mkdir -p out/rlib/"$crate.rlib" && cat src/lib.rt >out/rlib/stamp && exit
fi
printf '#!/bin/sh\nif [ $# = 0 ]; then echo "nothing held"; exit; fi\necho "words: $*"\ncat\nexit 7\n# %s\n' "$(<src/main.rt)" >out/lotbook
chmod +x out/lotbook
END
chmod +x "$scratch/kit/bin/rt"
mkdir "$scratch/tools"
for tool in awk bash sh basename cat chmod cmp cp cut date dirname find getconf grep gzip head ls mkdir mktemp mv nproc ps readlink rm rmdir sed setsid sha256sum sleep \
    sort stat tail tee touch tr uname wc xargs; do
    ln -s "$(command -v "$tool")" "$scratch/tools/$tool"
done
printf '#!/bin/sh\nexec %s "$@"\n' "$(python3 -c 'import sys; print(sys.executable)')" >"$scratch/tools/python3"
chmod +x "$scratch/tools/python3"
export CALLS=$scratch/calls CI=$scratch/ci
calls() { if [[ -e $CALLS ]]; then wc -l <"$CALLS"; else echo 0; fi; }
with=$scratch/kit/bin:$scratch/tools without=$scratch/tools # a path with the kit and one without it

# wrapped NAME STATUS CALLS WORDS..: the script called with these words and the input `in`: its status, the calls of the
# kit so far, and on standard output the program's own words alone.
wrapped() {
    local name=$1 wanted=$2 built=$3
    shift 3
    printf 'in\n' | PATH=$path "$repo/lotbook" "$@" >"$scratch/out" 2>"$scratch/err"
    status=$?
    if ((wanted == 7)); then printf 'words: %s\nin\n' "$*"; fi >"$scratch/expected"
    if ((status != wanted || $(calls) != built)); then
        fail "$name" "status $status, $(calls) calls of the kit; $(tail -n 1 "$scratch/err")"
    elif ! cmp -s "$scratch/out" "$scratch/expected"; then
        fail "$name" "standard output: $(head -n 3 "$scratch/out" | tr '\n' '|')"
    else
        pass "$name"
    fi
}

# messages NAME COUNT: so many lines on standard error.
messages() {
    local lines
    lines=$(wc -l <"$scratch/err")
    if (($2 == lines)); then pass "$1"; else fail "$1" "$lines lines of messages"; fi
}

# says NAME PATTERN: standard error has such a line.
says() { if grep -qE "$2" "$scratch/err"; then pass "$1"; else fail "$1" "$(tail -n 1 "$scratch/err")"; fi; }

# ---- the program that is proved and built here

path=$without
wrapped "no kit and no program" 4 0
messages "no kit: one sentence" 1
says "no kit: the reason, too" "^lotbook: there is no program yet, and release/ holds no program; and the Rattle kit is missing"
path=$with
touch "$repo/crates/lotbook/src/broken"
wrapped "a build that fails" 4 4
says "a build that fails: its last lines" "^fn lotbook::g: open goal$"
rm "$repo/crates/lotbook/src/broken"
wrapped "the next call goes on from there" 7 5 a "b c"
says "it reports how far it is" "; 3 of 4 crates, 9 of [0-9]+ functions; .* so far, about .* more$"
sort "$CALLS" | cut -d ' ' -f 1,2 | uniq -c | awk '{ print $1, $2, $3 }' >"$scratch/out"
printf '%s\n' "1 left lib" "2 lotbook run" "1 low lib" "1 right lib" >"$scratch/expected"
if cmp -s "$scratch/out" "$scratch/expected"; then pass "each crate is proved once"; else fail "each crate is proved once" "$(tr '\n' '|' <"$scratch/out")"; fi
if [[ $(<"$repo/crates/lotbook/out/incremental/kept") == $'lotbook\nlotbook' && ! -e $repo/.git/rooms ]]; then
    pass "what the kit kept goes to the crates"
else
    fail "what the kit kept goes to the crates" "$(ls "$repo/crates/lotbook/out" | tr '\n' '|')"
fi
sleep 0.1
wrapped "the second call builds nothing" 7 5 a
messages "the second call says nothing" 0
path=$without
wrapped "a program that stands needs no kit" 7 5 x
path=$with
echo changed >>"$repo/crates/left/specs/Lib.antt"
wrapped "a newer definition: this crate and those above" 7 7 y
sed -i 's/^right: low std/right: low/' "$repo/crates.txt"
wrapped "a newer list of crates: what it changes" 7 9 y
echo new >"$repo/crates/low/specs/More.antt"
wrapped "a new file at the bottom: all" 7 13 y
rm "$repo/crates/low/specs/More.antt"
wrapped "a file taken away" 7 17 y
wrapped "and then nothing" 7 17 y
echo "// more" >>"$repo/crates/other/src/lib.rt"
wrapped "a crate that the program doesn't stand on" 7 17 y
touch "$repo/crates/lotbook/src/main.rt"
wrapped "a date alone" 7 17 y
echo "kit 2" >"$scratch/kit/KIT-ID"
wrapped "another kit: all" 7 21 y
wrapped "the same kit again" 7 21 y
mv "$repo/crates/lotbook/out/sums" "$scratch/sums"
wrapped "nothing says from what the program was built" 7 22 y
cmp -s "$scratch/sums" "$repo/crates/lotbook/out/sums" && pass "it is said again" || fail "it is said again" "$(tr '\n' ' ' <"$repo/crates/lotbook/out/sums")"
echo "# another" >>"$repo/crates/lotbook/out/lotbook"
wrapped "another program than its sums name" 7 23 y
cp -p "$repo/crates/lotbook/src/main.rt" "$scratch/main.rt"
echo "// other" >>"$repo/crates/lotbook/src/main.rt" && touch -d 2001-01-01 "$repo/crates/lotbook/src/main.rt" && path=$without
wrapped "a changed source with an older date, and no kit" 4 23 y
says "that is the reason" "^lotbook: its sources changed, and release/ holds no program; and the Rattle kit is missing"
cp -p "$scratch/main.rt" "$repo/crates/lotbook/src/"
wrapped "the sources as they were" 7 23 y
path=$with
echo "// other" >>"$repo/crates/lotbook/src/main.rt" && touch -d 2001-01-01 "$repo/crates/lotbook/src/main.rt"
wrapped "a changed source with an older date" 7 24 y

# ---- stops, and two at once

# begun COUNT: the stand-in has begun so often with a crate that takes its time.
begun() { wait_until has_begun "$1"; }
has_begun() { [[ -e $CALLS.slow ]] && (($(wc -l <"$CALLS.slow") >= $1)); }
# ended NAME: none of the stand-in's calls that take their time goes on.
ended() { if wait_until has_ended; then pass "$1"; else fail "$1" "it goes on"; fi; }
has_ended() { ! xargs -r ps -o pid= -p <"$CALLS.slow" >/dev/null; }
echo "// more" >>"$repo/crates/lotbook/src/main.rt" && touch "$repo/crates/lotbook/src/slow"
PATH=$path setsid "$repo/lotbook" a >"$scratch/out" 2>"$scratch/err" </dev/null &
begun 1
kill -TERM -- -$! && wait $! && status=0 || status=$?
if ((status == 143)); then pass "a build that is ended by a signal"; else fail "a build that is ended by a signal" "status $status"; fi
ended "nothing of it goes on"
wait_until grep -q stopped "$scratch/err" # what builds ends a little later than the script
says "it says so" "^lotbook: stopped; the next call goes on from here$"
if [[ ! -e $repo/.git/rooms && $(wc -l <"$repo/crates/lotbook/out/incremental/kept") == 11 ]]; then
    pass "what it kept goes to the crate"
else
    fail "what it kept goes to the crate" "$(wc -l <"$repo/crates/lotbook/out/incremental/kept") times"
fi
rm "$CALLS.slow"
PATH=$path setsid "$repo/lotbook" a >"$scratch/out" 2>"$scratch/err" </dev/null &
begun 1
kill -KILL "$(ps -o pid=,args= -g $! | awk '/tools\/build.py/ { print $1 }')"
wait $! && status=0 || status=$?
if ((status == 4)); then pass "a build that is killed"; else fail "a build that is killed" "status $status"; fi
ended "nothing of that goes on"
rm "$CALLS.slow" "$repo/crates/lotbook/src/slow"
built=$(calls)
wrapped "the next one goes on" 7 $((built + 1)) y
if [[ ! -e $repo/.git/rooms && $(wc -l <"$repo/crates/lotbook/out/incremental/kept") == 13 ]]; then
    pass "from what that one kept"
else
    fail "from what that one kept" "$(wc -l <"$repo/crates/lotbook/out/incremental/kept") times"
fi

echo more >>"$repo/crates/low/src/lib.rt"
for which in one two; do
    PATH=$path "$repo/lotbook" "$which" </dev/null >"$scratch/$which" 2>>"$scratch/err" &
done
wait
if [[ $(<"$scratch/one") == "words: one" && $(<"$scratch/two") == "words: two" && $(calls) == $((built + 5)) ]]; then
    pass "two at once build once"
else
    fail "two at once build once" "$(calls) calls of the kit, '$(<"$scratch/one")', '$(<"$scratch/two")'"
fi

# A library of a first build keeps its statements alone. A command of another make than the kit's is called as it is.
mkdir "$scratch/library"
printf '%s\n' 'class Crate:' '    def call(self, *words): print(*words)' 'class rtlib: Crate, KEPT = Crate, ["--incremental", "kept"]' 'def main(words):' \
    '    print(*words)' '    Crate().call("build", "--incremental", "kept", "-o", "made")' '    Crate().call("check", "--incremental", "kept")' '    return 5' >"$scratch/library/rt"
printf '%s\n' '#!/bin/sh' 'echo "as it is: $*"' 'exit 6' >"$scratch/library/other" && chmod +x "$scratch/library/other"
for it in "rt 5 lib --jobs 3,build -o made --statements,check --incremental kept" "other 6 as it is: lib --jobs 3"; do
    read -r name wanted expected <<<"$it"
    said=$(python3 -B tools/library.py "$scratch/library/$name" 3 | paste -sd, -; exit "${PIPESTATUS[0]}")
    status=$?
    if ((status == wanted)) && [[ $said == "$expected" ]]; then pass "tools/library.py with $name"; else fail "tools/library.py with $name" "status $status, '$said'"; fi
done

# The kit's stamp beside a program says whether it is of what stands there.
mkdir -p "$scratch/stamped/kit" "$scratch/stamped/it/out" && echo program >"$scratch/stamped/it/out/it" && echo source >"$scratch/stamped/source"
printf '%s\n' 'import os' 'text_of = lambda file: open(file).read() if os.path.isfile(file) else None' 'sum_of = lambda file: repr(text_of(file))' 'class Crate:' \
    '    def __init__(self, name): self.name = name' '    def stamp(self): return self.name + text_of("source")' \
    'crates_below = lambda folder: [Crate("below"), Crate(os.path.basename(folder))]' >"$scratch/stamped/kit/rtlib.py"
stamped() {
    (cd "$scratch/stamped" && python3 -B "$root/tools/stamped.py" "$scratch/stamped/kit/rt" "$scratch/stamped/it") 2>"$scratch/err" && status=0 || status=$?
    if ((status == $2)); then pass "tools/stamped.py: $1"; else fail "tools/stamped.py: $1" "status $status"; fi
}
stamped "no stamp" 1
printf 'itsource\n%s' "'program\\n'" >"$scratch/stamped/it/out/it.stamp"
stamped "the program of these sources" 0
echo other >"$scratch/stamped/source"
stamped "other sources" 1
echo source >"$scratch/stamped/source" && echo other >"$scratch/stamped/it/out/it"
stamped "another program" 1

# ---- release/

release() { PATH=$path "$repo/tools/release.sh" >"$scratch/out" 2>"$scratch/err" </dev/null; }
# fresh: nothing was built or unpacked here.
fresh() { rm -rf "$repo"/crates/*/out; }
release && pass "release/ is made" || fail "release/ is made" "$(tail -n 1 "$scratch/err")"
cp -r "$repo/release" "$scratch/first"
sleep 1.1
touch "$repo/crates/lotbook/out/lotbook"
release && diff -r "$repo/release" "$scratch/first" >/dev/null && pass "made again it is the same" || fail "made again it is the same" "it isn't"
built=$(calls)
for path in "$without" "$with"; do
    fresh
    name="with a kit" && if [[ $path == "$without" ]]; then name="without a kit"; fi
    wrapped "a fresh copy runs it, $name" 7 "$built" a "b c"
    messages "it says nothing, $name" 0
    wrapped "again, $name" 7 "$built" x
done
echo changed >>"$repo/crates/low/specs/Lib.antt"
touch "$repo/crates/other/src/lib.rt"
wrapped "another definition, and another crate: it is of these sources all the same" 7 "$built" x
LOTBOOK_BUILD=1 wrapped "but for who wants it built here" 7 $((built + 4)) x
says "that says why it is built" "since there is no program yet$"
built=$((built + 4))
# passed_over NAME WHY: it isn't run; without a kit that is all.
passed_over() {
    fresh
    path=$without wrapped "$1, without a kit" 4 "$built" x
    path=$with wrapped "$1" 7 $((built + 4)) x
    says "$1: the reason" "since there is no program yet, and the program in release/ $2$"
    built=$((built + 4))
}
echo more >>"$repo/crates/right/src/lib.rt"
passed_over "another source" "is of other sources"
release
sed -i 's/^left: low/left: low std/' "$repo/crates.txt"
passed_over "another line of a crate" "is of other sources"
release
echo "kit 3" >"$scratch/kit/KIT-ID"
fresh
path=$without wrapped "where there is no kit the sources decide" 7 "$built" x
path=$with wrapped "another kit" 7 $((built + 4)) x
says "another kit: the reason" "the program in release/ is of another kit$"
built=$((built + 4))
release
cp -r "$repo/release" "$scratch/release"
echo x | gzip -9n >"$repo/release/lotbook.gz"
passed_over "a program of another sum" "isn't the one that release/sums names"
head -c 100 "$scratch/release/lotbook.gz" >"$repo/release/lotbook.gz"
passed_over "a program that is cut off" "can't be unpacked"
printf '#!/bin/sh\nexit 1\n' >"$scratch/bad"
gzip -9n <"$scratch/bad" >"$repo/release/lotbook.gz"
sed -i "s/^program .*/program $(sha256sum <"$scratch/bad" | cut -d ' ' -f 1)/" "$repo/release/sums"
passed_over "a program that doesn't run" "doesn't run here"
rm -r "$repo/release" && cp -r "$scratch/release" "$repo/"
mv "$scratch/tools/uname" "$scratch/uname"
printf '#!/bin/sh\necho Linux aarch64\n' >"$scratch/tools/uname" && chmod +x "$scratch/tools/uname"
passed_over "another machine" "is for x86-64 Linux with glibc"
mv "$scratch/uname" "$scratch/tools/uname"

# ---- release/ in a checkout that the caller can't write

# Another user calls where this one may become one; else this one, whose right to write the checkout is taken away.
fresh
mkdir "$scratch/others" && chmod 755 "$scratch" && chmod -R a+rX "$repo" "$scratch/kit" "$scratch/tools"
other=() own=$EUID
if ((EUID == 0)) && command -v setpriv >/dev/null; then
    own=12345
    other=("$(command -v setpriv)" --reuid "$own" --regid "$own" --clear-groups --)
    chown "$own:$own" "$scratch/others"
else
    find "$repo" -type d ! -path '*/.git*' -exec chmod a-w {} +
fi
# belongs NAME: makes a folder of that user's.
belongs() { "${other[@]}" mkdir -p "$1"; }
place=$scratch/others
their_home=$place/home their_temporary=$place/tmp
belongs "$place/home" && belongs "$place/tmp"
settings=(HOME="$place/home" TMPDIR="$place/tmp")
around=() # what the call is made in
# called NAME STATUS WORDS..: the user's call, with the path, the settings and the checkout at hand.
called() {
    local name=$1 wanted=$2
    shift 2
    printf 'in\n' | "${around[@]}" "${other[@]}" "$(command -v env)" -u HOME -u XDG_CACHE_HOME -u TMPDIR PATH="$path" "${settings[@]}" \
        "$(command -v bash)" "$checkout/lotbook" "$@" >"$scratch/out" 2>"$scratch/err"
    status=$?
    if ((wanted == 7)); then printf 'words: %s\nin\n' "$*"; fi >"$scratch/expected"
    if ((status != wanted)) || ! cmp -s "$scratch/out" "$scratch/expected"; then
        fail "$name" "status $status; $(head -n 3 "$scratch/out" "$scratch/err" | tr '\n' '|')"
    elif ((status == 7)) && [[ -s $scratch/err ]]; then
        fail "$name" "on standard error: $(head -n 3 "$scratch/err" | tr '\n' '|')"
    elif [[ -e $checkout/crates/lotbook/out ]]; then
        fail "$name" "it wrote into the checkout"
    else
        pass "$name"
    fi
}
# unpacked NAME FILES: these files and no others are below the user's folder, but for the folders named as `left`.
left=none
unpacked() {
    local found
    found=$(cd "$place" && find . -type f ! -path "$left" | sed -E 's/released-[0-9a-f]{64}$/released/; s/lotbook-[0-9]+\.[A-Za-z0-9]{10}/lotbook-N.X/' | sort | tr '\n' ' ')
    if [[ $found == "$2" ]]; then pass "$1"; else fail "$1" "$found"; fi
}
cached=./home/.cache/lotbook/released temporary=./tmp/lotbook-N.X/released
path=$without checkout=$repo
called "a checkout that can't be written" 7 a "b c"
unpacked "its program is in the cache" "$cached "
is_private=$(stat -c '%a %u' "$place/home/.cache/lotbook")
if [[ $is_private == "700 $own" ]]; then pass "the folder is the user's alone"; else fail "the folder is the user's alone" "$is_private"; fi
was=$(stat -c '%i %y' "$their_home"/.cache/lotbook/*)
called "again" 7 x
if [[ $(stat -c '%i %y' "$their_home"/.cache/lotbook/*) == "$was" ]]; then pass "it is unpacked once"; else fail "it is unpacked once" "$was"; fi
path=$with called "with a kit" 7 x
for kept in "$their_home"/.cache/lotbook/*; do printf 'echo changed\n' >>"$kept"; done
called "one that was changed there isn't run" 7 x
printf '#!/bin/sh\necho evil\n' >"$scratch/evil" && chmod 755 "$scratch/evil"
cp "$kept" "$scratch/same" && chmod 755 "$scratch/same" && "${other[@]}" ln -sf "$scratch/same" "$kept"
called "nor what a link there leads to" 7 x
if [[ ! -L $kept ]]; then pass "the link is gone"; else fail "the link is gone" "$(readlink "$kept")"; fi
"${other[@]}" touch -d '40 days ago' "${kept%/*}/released-0" && "${other[@]}" touch -d '2 hours ago' "${kept%/*}/unpacked.0" && rm "$kept"
called "what older calls left there goes" 7 x
unpacked "it is gone" "$cached "
rm -r "$place/home/.cache"
for which in one two three; do
    "${other[@]}" env PATH="$path" "${settings[@]}" "$(command -v bash)" "$repo/lotbook" "$which" </dev/null >"$scratch/$which" 2>&1 &
done
wait
if [[ "$(<"$scratch/one") $(<"$scratch/two") $(<"$scratch/three")" == "words: one words: two words: three" ]]; then
    pass "three first calls at once"
else
    fail "three first calls at once" "$(cat "$scratch"/{one,two,three} | tr '\n' '|')"
fi
unpacked "they leave one program" "$cached "
rm -r "$place/home/.cache"

settings=(HOME="$place/home" XDG_CACHE_HOME="$place/a cache" TMPDIR="$place/tmp")
called "a cache with a blank in its name, that isn't there yet" 7 x
unpacked "that is made" "./a cache/lotbook/released "
rm -r "$place/a cache"
settings=(HOME="$place/home" XDG_CACHE_HOME="cache" TMPDIR="$place/tmp")
called "a cache that is no whole path" 7 x
unpacked "the home's is taken" "$cached "
rm -r "$place/home/.cache"
settings=(TMPDIR="$place/tmp")
called "no HOME" 7 x
was=$(stat -c '%i %y' "$their_temporary"/*/*)
called "again without it" 7 y
if [[ $(stat -c '%i %y' "$their_temporary"/*/*) == "$was" ]]; then pass "it is unpacked once there, too"; else fail "it is unpacked once there, too" "$was"; fi
unpacked "one among the temporary files" "$temporary "
settings=(HOME=/nowhere TMPDIR="$place/tmp")
called "a HOME that isn't there" 7 x
settings=(HOME=/ TMPDIR="$place/tmp")
called "another user's HOME" 7 x
settings=(HOME="$scratch/evil" TMPDIR="$place/tmp")
called "a HOME that is a file" 7 x
settings=(HOME="$place/home" TMPDIR="$place/tmp")
left="./tmp/*"
# passed_by NAME: the folder in the cache isn't used, though there is no other yet.
passed_by() {
    rm -rf "$their_temporary"/*
    called "$1" 7 x
    unpacked "$1: it isn't used" ""
    rm -rf "$place/home/.cache"
}
belongs "$place/home/.cache/lotbook" && chmod 777 "$place/home/.cache/lotbook"
passed_by "a folder that others can write"
belongs "$place/home/.cache" && belongs "$place/elsewhere" && chmod 700 "$place/elsewhere" && "${other[@]}" ln -s "$place/elsewhere" "$place/home/.cache/lotbook"
passed_by "a link in place of the folder"
belongs "$place/home/.cache/lotbook" && chmod 700 "$place/home/.cache/lotbook" && chmod 777 "$place/home/.cache"
passed_by "a folder that others can replace"
belongs "$place/home/.cache" && chmod a-w "$place/home/.cache"
((EUID == 0 && own == 0)) || passed_by "a cache that can't be written"
if ((own != EUID)); then
    mkdir -p "$place/home/.cache/lotbook" && chmod -R 700 "$place/home/.cache/lotbook" && chmod 755 "$place/home/.cache"
    passed_by "another user's folder in the cache"
    settings=(TMPDIR="$place/tmp")
    rm -r "$their_temporary"/* && chmod 1777 "$place/tmp" && mkdir -m 755 "$place/tmp/lotbook-$own.AAAAAAAAAA"
    cp "$scratch/evil" "$place/tmp/lotbook-$own.AAAAAAAAAA/released-$(sed -n 's/^program //p' "$repo/release/sums")"
    called "another user's folder among the temporary files" 7 x
    rm -r "$place/tmp/lotbook-$own.AAAAAAAAAA"
    left=none unpacked "it isn't used" "$temporary "
else
    echo "skipped: this user may not call as another one"
fi
rm -r "$their_temporary"/* && chmod 777 "$place/tmp"
settings=(HOME="$place/home" TMPDIR="$place/tmp")
called "the cache again" 7 x
rm -r "$place/home/.cache"
settings=(HOME=/nowhere TMPDIR="$place/tmp")
called "temporary files that others can replace" 4 x
says "the reason is said" "the program in release/ finds no folder of yours to run in"
chmod 755 "$place/tmp"
settings=(HOME=/nowhere TMPDIR=/nowhere)
called "no folder" 4 x
messages "no folder: one sentence" 1
says "no folder: the reason" "^lotbook: there is no program yet, and the program in release/ finds no folder of yours to run in: XDG_CACHE_HOME or TMPDIR may name one; and the Rattle kit is missing"
path=$with called "no folder, with a kit" 4 x
says "no folder, with a kit: the reason" "; and it can't be built, since .*/crates/lotbook/out can't be written$"
path=$without

settings=(HOME="$place/home" TMPDIR="$place/tmp")
cp -r "$repo" "$scratch/a checkout" && chmod u+w "$scratch/a checkout/crates/right/src" && checkout="$scratch/a checkout"
called "a checkout with a blank in its name" 7 "a b"
cp "$checkout/crates/right/src/lib.rt" "$scratch/lib.rt"
echo "fn changed()" >"$checkout/crates/right/src/lib.rt" && touch -d 2001-01-01 "$checkout/crates/right/src/lib.rt"
called "a changed source with an older date" 4 x
says "it is of other sources" "the program in release/ is of other sources; and the Rattle kit is missing"
cp "$scratch/lib.rt" "$checkout/crates/right/src/"
rm -r "$place/home/.cache"
if ((own != EUID)); then
    # Who rules the machine leaves nothing in another user's checkout or cache.
    chown "$own" "$checkout/crates/lotbook" && mkdir -p -m 700 "$scratch/cache/lotbook" && mkdir "$scratch/roots" && chown "$own" "$scratch/cache/lotbook"
    their=("${other[@]}") other=() settings=(XDG_CACHE_HOME="$scratch/cache" TMPDIR="$scratch/roots")
    called "root in another user's checkout" 7 x
    if [[ $(ls -A "$scratch/cache/lotbook") == "" && $(ls "$scratch/roots") == lotbook-0.* ]]; then
        pass "nor in another user's folder"
    else
        fail "nor in another user's folder" "$(ls "$scratch/cache/lotbook" "$scratch/roots" | tr '\n' ' ')"
    fi
    other=("${their[@]}") settings=(HOME="$place/home" TMPDIR="$place/tmp")
fi
checkout=$repo

# What a mount makes of it: a read-only checkout, a cache where no program runs, one that is full.
mounts=(unshare -m)
((EUID == 0)) || mounts=(unshare -rm)
mkdir "$scratch/mount" && chmod 755 "$scratch/mount"
if "${mounts[@]}" mount -t tmpfs tmpfs "$scratch/mount" 2>/dev/null; then
    # mounting [FOLDER OPTIONS]: around the calls, the checkout is read-only, and in place of the folder stands a file system that is made with
    # the options and has a page of bytes.
    mounting() {
        around=("${mounts[@]}" "$(command -v bash)" -c 'PATH=$1 checkout=$2 place=$3 options=$4
            mount --bind "$checkout" "$checkout" && mount -o remount,ro,bind "$checkout" || exit 99
            if [[ $place ]]; then mount -t tmpfs -o "$options" tmpfs "$place" && head -c 4096 /dev/zero >"$place/more" 2>/dev/null; fi
            shift 4
            "$@"' bash "$PATH" "$repo" "${1:-}" "${2:-}")
    }
    belongs "$place/home/.cache"
    belongs "$place/home/.cache/lotbook" && chmod 700 "$place/home/.cache/lotbook"
    whose=uid=$own,gid=$own
    ((own != EUID)) || whose=uid=0
    mounting "$place/home/.cache/lotbook" "mode=700,$whose,noexec"
    called "a cache where no program runs" 7 x
    mounting "$place/home/.cache/lotbook" "mode=700,$whose,size=4k"
    rm -rf "$their_temporary"/*
    called "a full cache" 7 x
    left=none unpacked "one among the temporary files in its place" "$temporary "
    settings=(HOME="$place/home" TMPDIR=/nowhere)
    mounting "$place/home/.cache/lotbook" "mode=700,$whose,noexec"
    called "no other folder" 4 x
    says "no other folder: the reason" "finds no folder of yours to run in, $place/home/.cache/lotbook allows no programs: "
    mounting
    settings=(HOME="$place/home" TMPDIR="$place/tmp")
    called "a read-only checkout" 7 x
    around=()
else
    echo "skipped: no file system can be mounted here"
fi
chmod -R u+w "$repo" "$scratch/a checkout" && path=$with

# counts NAME STATUS LASTLINE COMMAND..: the command ends with that status, and this is the last line of its output.
counts() {
    PATH=$path "${@:4}" >"$scratch/out" 2>"$scratch/err" </dev/null
    status=$?
    if ((status == $2)) && [[ $(tail -n 1 "$scratch/out") == "$3" ]]; then pass "$1"; else fail "$1" "status $status, $(tail -n 2 "$scratch/out" | tr '\n' '|')"; fi
}

# compared NAME STATUS LASTLINE: tests/release.sh of the repository.
mkdir "$repo/examples" && cp -r "$root/tests/lib" "$root/tests/release.sh" "$repo/tests/"
compared() { counts "$@" "$repo/tests/release.sh"; }
compared "compared: the same program" 0 "2 passed, 0 failed"
echo "# another" >>"$repo/crates/lotbook/out/lotbook"
sed -i "s/^program .*/program $(sha256sum <"$repo/crates/lotbook/out/lotbook" | cut -d ' ' -f 1)/" "$repo/crates/lotbook/out/sums"
compared "compared: another program of the same sources" 1 "1 passed, 1 failed"
echo more >>"$repo/crates/low/src/lib.rt"
compared "compared: a program of other sources" 0 "1 passed, 0 failed"
echo x | gzip -9n >"$repo/release/lotbook.gz"
compared "compared: a program that release/ doesn't name" 1 "0 passed, 1 failed"
rm -r "$repo/release"
compared "compared: no release" 0 "0 passed, 0 failed"
rm -r "$repo"/tests/{lib,release.sh}

# ---- test

# tested NAME STATUS LASTLINE WORDS..: the test command, with the output of the stand-in's gate in the file `ci`, and its status
# beside it.
tested() { counts "${@:1:3}" "$repo/test" "${@:4}"; }

path=$without
tested "test: no kit" 1 "0 passed, 1 failed"
messages "test: no kit, one sentence" 1
path=$with
echo 0 >"$CI.status"
printf 'some lines\n4 passed, 0 failed\n' >"$CI"
tested "test: all counts are added" 0 "5 passed, 0 failed"
tested "test: the whole" 0 "15 passed, 0 failed" whole
rm "$repo/crates/lotbook/out/sums"
tested "test: the gate stops at once" 0 "5 passed, 0 failed"
if [[ ! -e $repo/crates/lotbook/out/sums ]]; then pass "test: nothing is said of an earlier program"; else fail "test: nothing is said of an earlier program" "$(<"$repo/crates/lotbook/out/sums")"; fi
echo "rm -r crates/lotbook/out && mkdir crates/lotbook/out && printf '#!/bin/sh\\necho built\\n' >crates/lotbook/out/lotbook && chmod +x crates/lotbook/out/lotbook" >"$CI.makes"
tested "test: the gate leaves a program" 0 "5 passed, 0 failed"
printf 'built\n' >"$scratch/expected" && PATH=$without "$repo/lotbook" >"$scratch/out" 2>"$scratch/err" && status=0 || status=$?
expect "test: it is run" 0 "$scratch/expected"
echo "echo // more >>crates/left/src/lib.rt" >>"$CI.makes"
tested "test: a source is changed meanwhile" 0 "5 passed, 0 failed"
if [[ ! -e $repo/crates/lotbook/out/sums ]]; then pass "test: then nothing is said of it"; else fail "test: then nothing is said of it" "$(<"$repo/crates/lotbook/out/sums")"; fi
rm "$CI.makes"
tested "test: another word" 2 "0 passed, 1 failed" all
printf '4 passed, 2 failed\n' >"$CI" && echo 1 >"$CI.status"
tested "test: a failure of the gate" 1 "5 passed, 2 failed"
printf '4 passed, 0 failed\n' >"$CI"
tested "test: a gate that fails and counts none" 1 "5 passed, 1 failed"
printf 'stopped\n' >"$CI" && echo 0 >"$CI.status"
tested "test: a gate without a count" 1 "1 passed, 1 failed"
printf '4 passed, 0 failed\n' >"$CI"
printf '#!/bin/sh\necho "3 passed, 1 failed"\nexit 1\n' >"$repo/tests/one.sh"
tested "test: a failure of a script" 1 "7 passed, 1 failed"
printf '#!/bin/sh\nexit 0\n' >"$repo/tests/one.sh"
tested "test: a script without a count" 1 "4 passed, 1 failed"
rm "$repo/tests/one.sh"
tested "test: no script" 1 "4 passed, 1 failed"

# ---- the edits beside the gate, in a copy

cp -r "$root/tests/lib" "$repo/tests/" && cp "$root/tests/whole/edits.sh" "$repo/tests/whole/"
# tried NAME STATUS LASTLINE: the script of the edits, where the stand-in answers for each what it holds.
tried() { counts "$@" "$repo/tests/whole/edits.sh"; }
tried "edits: none" 0 "0 passed, 0 failed"
mkdir "$repo"/crates/{left,low}/edits
echo "refused, as it must be: x" >"$repo/crates/left/edits/one.edit"
echo "refused, as it must be" >"$repo/crates/low/edits/two.edit"
tried "edits: all refused" 0 "4 passed, 0 failed"
if [[ $(ls "$repo/.git/edits/crates" | tr '\n' ' ') == "left low " && ! -e $repo/crates/low/must-fail ]]; then
    pass "edits: the copy has the crates that it needs"
else
    fail "edits: the copy has the crates that it needs" "$(ls "$repo/.git/edits/crates" | tr '\n' ' ')"
fi
echo "NOT REFUSED: the crate is still proved with this edit" >"$repo/crates/low/edits/two.edit"
tried "edits: one that isn't refused" 1 "3 passed, 1 failed"
echo 1 >"$CI.status"
tried "edits: a copy that isn't proved" 1 "0 passed, 1 failed"

# ---- what the gate costs, on a log

cat >"$scratch/log" <<'END'
== low
rt: low proved
rt: must-fail low/one.edit: refused, as it must be: x
rt: must-fail low/two.edit: refused, as it must be: x
5 passed, 0 failed
cost low edits 60.0
cost low proofs 90.0
cost lotbook tests 30.0
kit 90.0 210.0
total 120.0 240.0 4
END
cat >"$scratch/expected" <<'END'
processor minutes
crate            proofs    tests    edits      all    tried    s an edit
low                 1.5      0.0      1.0      2.5        2         30.0
lotbook             0.0      0.5      0.0      0.5        0            -
all                 1.5      0.5      1.0      3.0        2         30.0
linking, runs                                  0.5                      
scripts                                        0.5                      
total                                          4.0                      
2.0 minutes by the clock on 4 processors, 0.5 of them for the scripts; 5 passed, 0 failed
END
"$root/bench/gate.sh" "$scratch/log" >"$scratch/out" 2>"$scratch/err" && status=0 || status=$?
expect "gate: the table of a log" 0 "$scratch/expected"
touch -d 2026-01-31 "$scratch/log"
cat >"$scratch/expected" <<'END'
{
"day": "2026-01-31",
"processors": 4,
"seconds": {
"low": 90.0
}
}
END
"$root/bench/gate.sh" --proofs "$scratch/log" >"$scratch/out" 2>"$scratch/err" && status=0 || status=$?
expect "gate: the proofs of a log" 0 "$scratch/expected"
echo "5 passed, 0 failed" >"$scratch/log"
"$root/bench/gate.sh" "$scratch/log" >"$scratch/out" 2>"$scratch/err" && status=0 || status=$?
if ((status == 1)); then pass "gate: a log without costs"; else fail "gate: a log without costs" "status $status"; fi
"$root/bench/gate.sh" --proofs "$scratch/log" >"$scratch/out" 2>"$scratch/err" && status=0 || status=$?
if ((status == 1)); then pass "gate: the proofs of a log without costs"; else fail "gate: the proofs of a log without costs" "status $status"; fi

# A run of it, on a stand-in of the test command.
mkdir -p "$scratch/cost/bench" && cp "$root/bench/gate.sh" "$scratch/cost/bench/"
printf '%s\n' '#!/bin/sh' 'echo "== rt ci"' 'echo "cost low proofs 60.0"' 'echo "== ./tests/one.sh"' 'echo "3 passed, 0 failed"' >"$scratch/cost/test"
chmod +x "$scratch/cost/test"
"$scratch/cost/bench/gate.sh" >"$scratch/out" 2>"$scratch/err" </dev/null && status=0 || status=$?
if ((status == 0)) && grep -qE '^kit [0-9.]+ [0-9.]+$' "$scratch/cost/bench/out/gate.log" &&
    [[ $(tail -n 1 "$scratch/out") =~ ^[0-9.]+\ minutes\ by\ the\ clock\ on\ [0-9]+\ processors,\ .*\;\ 3\ passed,\ 0\ failed$ ]]; then
    pass "gate: a run"
else
    fail "gate: a run" "status $status, $(tail -n 1 "$scratch/out")"
fi

# ---- the graph of the crates

mkdir "$repo/bench" && cp "$root/bench/graph.sh" "$repo/bench/"
printf '// a comment\nfn a() {\n}\n\npub const fn b() {}\n' >"$repo/crates/low/src/lib.rt"
printf '#[test]\nfn t() {}\n' >"$repo/crates/low/src/tests.rt"
printf -- '-- a comment\npub mod A\n' >"$repo/crates/low/specs/Lib.antt"
cat >"$scratch/expected" <<'END'
crate            level functions   code definitions  proofs  tests  again
right                2         1      2           0       0      0      2
low                  1         2      3           1       0      2      5
left                 2         1      1           1       0      0      2
lotbook              3         1      1           0       0      0      1
other                2         1      1           0       0      0      1
all                            6      8           2       0      2
5 crates, 3 levels
END
"$repo/bench/graph.sh" >"$scratch/out" 2>"$scratch/err" && status=0 || status=$?
expect "graph: the table" 0 "$scratch/expected"
echo "left: 2 of 5: left lotbook" >"$scratch/expected"
"$repo/bench/graph.sh" left >"$scratch/out" 2>"$scratch/err" && status=0 || status=$?
expect "graph: what is proved again" 0 "$scratch/expected"
"$repo/bench/graph.sh" none >"$scratch/out" 2>"$scratch/err" && status=0 || status=$?
if ((status != 0)); then pass "graph: no such crate"; else fail "graph: no such crate" "status $status"; fi

finish
