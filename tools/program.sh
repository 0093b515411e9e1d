# Finds the program of this checkout, for the scripts that run or install it: they source this file with `root` set to the checkout's
# folder, and `find_program` leaves the name of the file in `program`.
#
# It is the program that was proved and built here, where that is of the sources that stand here; else the one that release/ holds,
# where that is; else it is proved and built first, with its progress on standard error. With LOTBOOK_BUILD=1 in the environment the
# one of release/ isn't used.
#
# What a program is made from is said by its sums (tools/sums): release/sums, and crates/lotbook/out/sums of the one that was built
# here. They are compared at each call, whatever the dates of files are: a program of other sources isn't run. Of definitions and
# proofs no byte of the program is. Where one is newer than the sums, all is proved again.

out=$root/crates/lotbook/out
packed=$root/release/lotbook.gz

say() { printf 'lotbook: %s\n' "$*" >&2 || :; } # a message that can't be written is no failure

# ---- sums

# The line that names the kit. The kit's own command for it takes a third of a second, and this runs at each call.
kit_id() {
    local rt
    rt=$(command -v rt) && rt=$(readlink -f "$rt") && { printf '%s' "$(<"${rt%/*}/../KIT-ID")"; } 2>/dev/null
}

declare -A held=()
# read_sums FILE: takes what such a file says into `held`.
read_sums() {
    local word rest
    held=()
    [[ -r $1 ]] || return
    while read -r word rest; do held[${word:-none}]=$rest; done <"$1"
    [[ ${held[program]:-} && ${held[sources]:-} && ${held[kit]:-} ]]
}

# is_of_another_kit: whether `held` names another kit than the one that is here. Where there is none the sources alone decide.
is_of_another_kit() { [[ $kit && $kit != "${held[kit]}" ]]; }

sources="" sources_kit=""
# is_of_these_sources: whether `held` names the sources that stand here.
is_of_these_sources() {
    if [[ ! $sources || $sources_kit != "${held[kit]}" ]]; then
        sources_kit=${held[kit]}
        sources=$("$root/tools/sources" "$sources_kit")
    fi
    [[ $sources && $sources == "${held[sources]}" ]]
}

# sum_ahead FILE: begins to sum the file that `is_whole` is asked for next, beside what is done meanwhile.
summing=""
sum_ahead() { summing=$1 && exec {sum_of}< <(sha256sum <"$1" 2>/dev/null); }

# is_whole FILE: whether it has the sum of the program that `held` names.
is_whole() {
    local sum=""
    if [[ $summing == "$1" ]]; then
        read -r sum <&"$sum_of"
        exec {sum_of}<&-
        summing=""
    else
        sum=$(sha256sum <"$1" 2>/dev/null)
    fi
    [[ $sum == "${held[program]} "* ]]
}

# ---- the program that was built here

# newer FILE PLACES..: a file or folder in these places is newer than FILE.
newer() { (($# > 1)) && [[ -n $(find "${@:2}" -newer "$1" -print -quit) ]]; }

# is_built: the program that was built here can be run; else why not, in `why`.
is_built() {
    local of_these=1 proved
    program=$out/lotbook
    why="there is no program yet"
    [[ -x $program ]] || return
    why="nothing says from which sources its program was built"
    read_sums "$out/sums" || return
    sum_ahead "$program"
    is_of_these_sources && of_these=0
    is_whole "$program" || return
    why="another kit built the program"
    if is_of_another_kit; then return 1; fi
    why="its sources changed"
    ((of_these == 0)) || return
    why="a definition or a proof is newer than the program"
    shopt -s nullglob
    proved=("$root"/crates/*/specs "$root"/crates/*/proofs)
    shopt -u nullglob
    if newer "$out/sums" "${proved[@]}"; then return 1; fi
    why=""
}

# ---- folders for the program that release/ holds

# is_private FOLDER: it is the caller's, no one else has a right to it, and no other user can put another folder in its place.
is_private() {
    local at=$1 above=() system owner mode
    [[ -d $at && ! -L $at && -O $at ]] || return
    while [[ $at ]]; do at=${at%/*} && above+=("${at:-/}"); done
    stat -c '%u %a' -- / "$1" "${above[@]}" 2>/dev/null | {
        read -r system mode && read -r owner mode && [[ $mode == 700 ]] || exit 1
        while read -r owner mode; do
            [[ $owner == "$EUID" || $owner == "$system" ]] || exit 1
            ((!(0$mode & 022) || 0$mode & 01000)) || exit 1
        done
    }
}

# Each of these prints a folder where the program may stand. With the word `make` it is made where it isn't there.

# Where it is built. It is made by the owner of the checkout alone: another one's files there would be in the owner's way.
folder_here() {
    if [[ ${1:-} ]]; then [[ -O $root/crates/lotbook ]] && mkdir -p "$out" 2>/dev/null || return; fi
    printf '%s' "$out"
}

# The caller's own below $XDG_CACHE_HOME or ~/.cache. Nothing is made in another user's folder.
folder_in_cache() {
    local cache=${XDG_CACHE_HOME:-} at
    [[ $cache == /* ]] || cache=${HOME:+$HOME/.cache}
    [[ $cache == /* ]] || return
    at=$cache
    while [[ $at && ! -e $at ]]; do at=${at%/*}; done
    if [[ ${1:-} && -O $at && ! -e $cache/lotbook ]]; then (umask 077 && mkdir -p -- "$cache/lotbook" 2>/dev/null); fi
    cache=$(readlink -f -- "$cache")/lotbook && is_private "$cache" && printf '%s' "$cache"
}

# The caller's own among the temporary files. No one can tell its name before it is made.
folder_in_tmp() {
    local top at
    top=$(readlink -f -- "${TMPDIR:-/tmp}") || return
    for at in "$top/lotbook-$EUID".*; do
        if is_private "$at"; then printf '%s' "$at" && return; fi
    done
    [[ ${1:-} ]] && at=$(mktemp -d "$top/lotbook-$EUID.XXXXXXXXXX" 2>/dev/null) || return
    if is_private "$at"; then printf '%s' "$at"; else rmdir "$at" && return 1; fi
}

# ---- the program that release/ holds

# unpack FILE: has that program stand there, whole from its first moment on. The status is 1 where the folder doesn't take it, which
# `problem` says, and 2 where the program doesn't run.
unpack() {
    local folder=${1%/*} scratch status=1
    problem="can't be written"
    # What a call left that was killed, and programs of other versions, which are unpacked again where they are needed.
    find "$folder" -maxdepth 1 -type f \( -name 'unpacked.*' -mmin +60 -o -name 'released-*' -mtime +30 \) -delete 2>/dev/null
    scratch=$(mktemp "$folder/unpacked.XXXXXXXXXX" 2>/dev/null) || return
    if gzip -dc "$packed" 2>/dev/null >|"$scratch" && is_whole "$scratch" && chmod =rwx "$scratch"; then
        if [[ ! -x $scratch ]]; then
            problem="allows no programs"
        elif [[ $("$scratch" </dev/null 2>/dev/null) != "nothing held" ]]; then
            status=2
        elif mv -f "$scratch" "$1" 2>/dev/null; then
            return
        fi
    fi
    rm -f "$scratch"
    return "$status"
}

# unpack_somewhere: has that program stand in the first folder that takes it; else why there is none, in `why`.
unpack_somewhere() {
    local place folder problem problems=""
    for place in folder_here folder_in_cache folder_in_tmp; do
        folder=$($place make) || continue
        program=$folder/released-${held[program]}
        unpack "$program" && return
        case $? in
            2) why="the program in release/ doesn't run here" && return 1 ;;
            *) problems+=", $folder $problem" ;;
        esac
    done
    why="the program in release/ finds no folder of yours to run in$problems: XDG_CACHE_HOME or TMPDIR may name one"
    return 1
}

# is_released: the program that release/ holds can be run; else why not, in `why`.
is_released() {
    local place folder standing=() right="" of_these=1 sum
    why="release/ holds no program"
    [[ -f $packed ]] && read_sums "$root/release/sums" || return
    why="the program in release/ is of another kit"
    if is_of_another_kit; then return 1; fi
    for place in folder_here folder_in_cache folder_in_tmp; do
        folder=$($place) && program=$folder/released-${held[program]} || continue
        if [[ ! -L $program && -f $program && -x $program ]]; then standing+=("$program"); fi
    done
    if ((${#standing[@]})); then sum_ahead "${standing[0]}"; fi
    is_of_these_sources && of_these=0
    for program in "${standing[@]}"; do
        if is_whole "$program"; then right=$program && break; fi
    done
    why="the program in release/ is of other sources"
    ((of_these == 0)) || return
    why=""
    program=$right
    if [[ $right ]]; then return; fi
    why="the program in release/ is for x86-64 Linux with glibc"
    [[ $(uname -sm) == "Linux x86_64" && $(getconf GNU_LIBC_VERSION 2>/dev/null) == glibc* ]] || return
    why="the program in release/ can't be unpacked"
    sum=$(gzip -dc "$packed" 2>/dev/null | sha256sum) || return
    why="the program in release/ isn't the one that release/sums names"
    [[ $sum == "${held[program]}  -" ]] || return
    unpack_somewhere
}

# ---- the call

# build WHY: proves and builds the program.
build() {
    local status=3
    program=$out/lotbook
    if ! command -v rt >/dev/null; then
        say "$1; and the Rattle kit is missing, which builds it: there is no command 'rt' on the PATH"
        return 1
    fi
    if ! mkdir -p "$out" 2>/dev/null || [[ ! -w $out ]]; then
        say "$1; and it can't be built, since $out can't be written"
        return 1
    fi
    while ((status == 3)); do
        say "proving and building the program, since $1"
        python3 -B "$root/tools/build.py"
        status=$?
        if ((status == 3)) && is_built; then return; fi # another call was building it, and has ended
    done
    return "$status"
}

# find_program: leaves the name of the program's file in `program`. The status is 1 where there is none, which is said.
find_program() {
    local kit why since
    kit=$(kit_id) || kit=""
    if is_built; then return; fi
    since=$why
    if [[ ${LOTBOOK_BUILD:-} != 1 ]]; then
        if is_released; then return; fi
        since+=", and $why"
    fi
    build "$since"
}
