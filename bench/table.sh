#!/usr/bin/env bash
# What calls cost, as tables in Markdown for README.md and docs/GUIDE.md: counted instructions, memory and written bytes, with the
# ratios of larger work to smaller. Say which tables are wanted (check beside sales wide post growth), or nothing for all of them.
# Instructions need valgrind, written bytes strace; other programs are measured where they are there. With LOTBOOK_PROGRAM=FILE
# another program is measured than the one that is built here; with LARGEST=10000 work of more than so many transactions or entries is
# left out. All takes some 20 minutes on a machine that does nothing else. Of interest are the counts and the ratios, not the
# seconds of this machine.
source "$(dirname "$(readlink -f "${BASH_SOURCE[0]}")")/lib/runs.sh"

export LC_ALL=C
sizes=()
for size in 1000 10000 100000; do
    if ((size <= ${LARGEST:-100000})); then sizes+=("$size"); fi
done

# row CELL..: a line of a table.
row() {
    printf '|'
    printf ' %s |' "$@"
    echo
}

# heading CELL..: the first two lines of a table.
heading() {
    echo
    row "$@"
    printf '|'
    printf -- '---|%.0s' "$@"
    echo
}

# grouped NUMBER: a whole number with commas between its groups of three digits.
grouped() { sed -e ':again' -e 's/\(.*[0-9]\)\([0-9]\{3\}\)/\1,\2/' -e 't again' <<<"$1"; }

# once FILE COMMAND..: the seconds of processor time of one run of a command on a file.
once() {
    local TIMEFORMAT=%U
    { time "${@:2}" <"$1" >/dev/null 2>&1; } 2>&1
}

# trades TRANSACTIONS SYNTAX: the entries of a ledger, in the syntax of Beancount and this program, of ledger, or of hledger.
# Rounds of two purchases on two days, a sale that takes the first lot and half of the second, and a sale of the rest, of 50
# commodities in turn. So what is held doesn't grow. The lots of a sale are found under FIFO; ledger is told them, and hledger
# keeps none.
trades() {
    awk -v transactions="$1" -v syntax="$2" '
        function day(n) { return sprintf("%04d-%02d-%02d", 2000 + int(n / 336), 1 + int(n / 28) % 12, 1 + n % 28) }
        function lot(units, cost, bought) {
            if (syntax == "ledger") return units " " name " {" cost " USD} [" day(bought) "]"
            if (syntax == "hledger") return units " " name
            return units " " name " {" (units < 0 ? "" : cost " USD") "}"
        }
        function header(n, narration) { printf syntax ? "%s * %s\n" : "%s * \"%s\"\n", day(n), narration }
        function buy(n, cost) {
            header(n, "Buy")
            printf "  Assets:Broker  %s%s\n  Assets:Cash  -%d.50 USD\n", lot(10, cost, n), syntax ? " @ " cost " USD" : "", 10 * cost
        }
        function sell(n, units, first_units, first, second) {
            header(n, "Sell")
            if (syntax == "ledger" && first_units)
                printf "  Assets:Broker  %s @ 120.00 USD\n  Assets:Broker  %s @ 120.00 USD\n", lot(-first_units, first, n - 1), lot(-(units - first_units), second, n)
            else
                printf "  Assets:Broker  %s @ 120.00 USD\n", lot(-units, second, n)
            printf "  Assets:Cash  %d.00 USD\n  Income:Gains\n", 120 * units
        }
        BEGIN {
            if (!syntax) print "2000-01-01 open Assets:Broker \"FIFO\"\n2000-01-01 open Assets:Cash\n2000-01-01 open Income:Gains"
            for (round = 0; 4 * round < transactions; round++) {
                name = sprintf("C%c%c", 65 + round % 50 % 25, 65 + int(round % 50 / 25))
                n = 2 * int(round / 50) + 1
                first = 100 + round % 7 ".05"
                second = 110 + round % 5 ".05"
                buy(n, first)
                buy(n + 1, second)
                sell(n + 1, 15, 10, first, second)
                sell(n + 1, 5, 0, first, second)
            }
        }'
}

check_table() {
    local text=$scratch/text transactions all reading judging time room last_all=- last_time=- last_room=-
    echo "A check (\`lotbook < text\`) of purchases and FIFO sales: the instructions of a transaction and of a byte, the shares of reading"
    echo "the text and of judging its commands, processor time and the most memory; then each as a ratio to a tenth of the transactions."
    heading transactions MiB "instructions each" "for a byte" reading judging seconds "MiB of memory" "instructions, ratio" "time, ratio" "memory, ratio"
    for transactions in "${sizes[@]}"; do
        trades "$transactions" "" >"$text"
        all=$(profile "$text")
        accepted
        reading=$(within lot_read::reader::read)
        judging=$(within lot_check::batch::judge)
        time=$(seconds "$text" 1)
        room=$(peak "$text")
        row "$(grouped "$transactions")" "$(mib "$(($(wc -c <"$text") / 1024))")" "$(grouped "$(apart "$all" 0 "$transactions")")" \
            "$(apart "$all" 0 "$(wc -c <"$text")")" "$(ratio "$reading" "$all")" "$(ratio "$judging" "$all")" "$time" "$(mib "$room")" \
            "$(ratio "$all" "$last_all")" "$(ratio "$time" "$last_time")" "$(ratio "$room" "$last_room")"
        last_all=$all last_time=$time last_room=$room
    done
}

# beside NAME SYNTAX COMMAND..: two rows on a program, whose command has the entries as its input, or as a file in the place of the
# word FILE; or one that it isn't there.
beside() {
    local name=$1 syntax=$2 entries=$scratch/entries.journal transactions time room
    shift 2
    if ! command -v "$1" >/dev/null; then
        row "$name" "isn't there" - - - -
        return
    fi
    for transactions in "${sizes[@]:1}"; do
        trades "$transactions" "$syntax" >"$entries"
        read -r time room <<<"$(used "$entries" "${@/#FILE/$entries}")"
        own_time[$transactions]=${own_time[$transactions]:-$time} own_room[$transactions]=${own_room[$transactions]:-$room}
        row "$name" "$(grouped "$transactions")" "$time" "$(mib "$room")" "$(ratio "$time" "${own_time[$transactions]}")" "$(ratio "$room" "${own_room[$transactions]}")"
    done
}

beside_table() {
    declare -A own_time=() own_room=() # those of the first program
    echo "The same entries in the syntax of other programs, one run each: processor time and the most memory, and their ratios to lotbook."
    echo "Beancount finds the lots of a sale by FIFO, as lotbook does. ledger is told them. hledger keeps no lots."
    heading program transactions seconds MiB "time, ratio" "memory, ratio"
    beside lotbook "" "$program"
    beside Beancount "" bean-check -C FILE
    beside ledger ledger ledger -f FILE balance
    beside hledger hledger hledger -f FILE check
}

# purchases METHOD LOTS DAYS LABELS POSTINGS: the accounts, and so many lots of one commodity, on a day each or on one, with labels or
# without, so many to a transaction.
purchases() {
    awk -v method="$1" -v lots="$2" -v days="$3" -v labels="$4" -v postings="$5" 'BEGIN {
        printf "1970-01-01 open Assets:Broker \"%s\"\n1970-01-01 open Assets:Cash\n", method
        for (lot = 0; lot < lots; lot++) {
            n = days ? lot : 0
            if (lot % postings == 0) printf "%04d-%02d-%02d *\n", 1970 + int(n / 336), 1 + int(n / 28) % 12, 1 + n % 28
            printf "  Assets:Broker 20000 CA {0.%08d USD%s}\n", 1 + lot * 7919 % lots, labels ? ", \"L" lot "\"" : ""
            if (lot % postings == postings - 1 || lot == lots - 1) print "  Assets:Cash"
        }
    }'
}

# sales COUNT LOTS LABELS POSTINGS: so many sales of a part of a lot, by the method, or each of a lot by its label; so many to a
# transaction.
sales() {
    awk -v count="$1" -v lots="$2" -v labels="$3" -v postings="$4" 'BEGIN {
        for (n = 0; n < count; n++) {
            if (n % postings == 0) print "2020-01-02 *"
            printf "  Assets:Broker -1 CA {%s}\n", labels ? "\"L" n * 31 % lots "\"" : ""
            if (n % postings == postings - 1 || n == count - 1) print "  Assets:Cash"
        }
    }'
}

# sale METHOD LOTS DAYS COUNT POSTINGS BASE: the instructions of one of so many sales from a pair with so many lots. BASE counts the
# purchases alone.
sale() {
    local labels=0
    if [[ $1 == STRICT ]]; then labels=1; fi
    { purchases "$1" "$2" "$3" "$labels" 1 && sales "$4" "$2" "$labels" "$5"; } >"$scratch/with"
    apart "$(count "$scratch/with")" "$6" "$4"
    accepted
}

# base METHOD LOTS DAYS LABELS: the instructions of the purchases alone.
base() {
    purchases "$1" "$2" "$3" "$4" 1 >"$scratch/without"
    count "$scratch/without"
    accepted
}

sales_table() {
    local days method lots cells first plain labelled
    declare -A bases
    echo "The instructions of a sale of a part of a lot, from a pair that holds so many lots, and as a ratio to the sale from 10 lots. Under"
    echo "STRICT the sale names its lot by the label."
    heading method "lots on" 10 100 1,000 9,999 "100, ratio" "1,000, ratio" "9,999, ratio"
    for days in 1 0; do
        for lots in 10 100 1000 9999; do
            bases[$lots]=$(base FIFO "$lots" "$days" 0)
            bases[label$lots]=$(base STRICT "$lots" "$days" 1)
        done
        for method in FIFO LIFO HIFO STRICT; do
            cells=() first=
            for lots in 10 100 1000 9999; do
                plain=${bases[$lots]} labelled=${bases[label$lots]}
                cells+=("$(sale "$method" "$lots" "$days" 100 1 "$([[ $method == STRICT ]] && echo "$labelled" || echo "$plain")")")
                first=${first:-${cells[0]}}
            done
            row "$method" "$( ((days)) && echo "days of their own" || echo "one day")" "$(grouped "${cells[0]}")" "$(grouped "${cells[1]}")" \
                "$(grouped "${cells[2]}")" "$(grouped "${cells[3]}")" "$(ratio "${cells[1]}" "$first")" "$(ratio "${cells[2]}" "$first")" "$(ratio "${cells[3]}" "$first")"
        done
    done
}

wide_table() {
    local lots first one
    echo "Transactions of 63 postings of one pair: the instructions of one posting, and as a ratio to the smallest number of lots."
    heading "63 postings to a transaction" lots "instructions each" ratio
    first=
    for lots in 126 1000 2000 9999; do
        purchases FIFO "$lots" 0 0 63 >"$scratch/with"
        one=$(apart "$(count "$scratch/with")" 0 "$lots")
        accepted
        first=${first:-$one}
        row purchases "$(grouped "$lots")" "$(grouped "$one")" "$(ratio "$one" "$first")"
    done
    first=
    for lots in 126 1000 2000 9999; do
        one=$(sale FIFO "$lots" 0 63 63 "$(base FIFO "$lots" 0 0)")
        first=${first:-$one}
        row "FIFO sales" "$(grouped "$lots")" "$(grouped "$one")" "$(ratio "$one" "$first")"
    done
}

# posted NAME INSTRUCTIONS MILLIS COMMANDS LOG ZEROS FILE SYNCS: a row on commands that are written to a file.
posted() {
    row "$1" "$(grouped "$2")" "$3" "$(grouped "$(apart "$5" 0 "$4")")" "$(awk -v b="$5" -v n="$4" 'BEGIN { if (b == "-") print b; else printf "%.1f\n", b / 4096 / n }')" \
        "$(grouped "$(apart "$6" 0 "$4")")" "$(grouped "$(apart "$7" 0 "$4")")" "$(awk -v s="$8" -v n="$4" 'BEGIN { if (s == "-") print s; else printf "%.2f\n", s / n }')"
}

post_table() {
    local commands=203 all none millis plain counts
    echo "A posted command, of 200 purchases and FIFO sales on a new book, a commit each: instructions, milliseconds by the clock, bytes"
    echo "written to the log and in pages of 4,096 bytes, zeros written ahead in the log, bytes copied to the file, and syncs. Beside it"
    echo "Python's module \`sqlite3\`, which reads and writes the same rows with the same pragmas, and judges nothing. Instructions and"
    echo "milliseconds are without those of a call that posts nothing."
    heading "" instructions milliseconds "bytes to the log" "in pages" zeros "bytes to the file" syncs
    trades 200 "" >"$scratch/text"
    "$program" init --book "$scratch/none.book" >/dev/null
    cp "$scratch/none.book" "$scratch/copy.book"
    none=$(count /dev/null post --book "$scratch/copy.book" --batch measured)
    all=$(count "$scratch/text" post --book "$scratch/copy.book" --batch measured)
    accepted
    millis=$(each "$scratch/none.book" "$scratch/text" "$commands")
    cp "$scratch/none.book" "$scratch/copy.book"
    read -r -a counts <<<"$(written "$scratch/text" "$program" post --book "$scratch/copy.book" --batch measured)"
    posted lotbook "$(apart "$all" "$none" "$commands")" "$millis" "$commands" "${counts[@]}"
    plain=$(python3 -B bench/book/plain.py --reads "$scratch/copy.book" "$scratch/plain.book" 3) || exit 1
    read -r -a counts <<<"$(written /dev/null python3 -B bench/book/plain.py --reads "$scratch/copy.book" "$scratch/plain.book" 1)"
    posted "Python's sqlite3" - "$plain" "$commands" "${counts[@]}"
}

# grown NAME CELL..: a row with the ratios of each cell to the one before.
grown() {
    local cells=("${@:2}") ratios=() at
    for ((at = 1; at < ${#cells[@]}; at++)); do ratios+=("$(ratio "${cells[at]}" "${cells[at - 1]}")"); done
    row "$1" "${cells[@]}" "${ratios[@]}"
}

growth_table() {
    local entries call cells=() ratios=() batch none
    echo "How calls on a book grow with its entries: the processor seconds of a call, then its ratios to a tenth of the entries. \`post\` posts"
    echo "nothing. A posted command is one of 100 in a call, in instructions; a call that posts nothing is taken off."
    for entries in "${sizes[@]}"; do
        cells+=("$(grouped "$entries")") ratios+=("$(grouped "$entries"), ratio")
    done
    heading call "${cells[@]}" "${ratios[@]:1}"
    for entries in "${sizes[@]}"; do
        trades "$entries" "" | made "$scratch/$entries.book"
    done
    for call in post holdings gains journal verify; do
        cells=()
        for entries in "${sizes[@]}"; do
            batch=()
            if [[ $call == post ]]; then batch=(--batch none); fi
            cells+=("$(once /dev/null "$program" "$call" --book "$scratch/$entries.book" "${batch[@]}")")
        done
        grown "\`$call\`" "${cells[@]}"
    done
    trades 100 "" | sed -e 1,3d -e 's/^20../2090/' >"$scratch/text"
    cells=()
    for entries in "${sizes[@]}"; do
        none=$(count /dev/null post --book "$scratch/$entries.book" --batch none)
        cells+=("$(apart "$(count "$scratch/text" post --book "$scratch/$entries.book" --batch measured)" "$none" 100)")
        accepted
    done
    grown "a posted command, instructions" "${cells[@]}"
}

if (($# == 0)); then set -- check beside sales wide post growth; fi
for table in "$@"; do
    case $table in
        check | beside | sales | wide | post | growth) "${table}_table" && echo ;;
        *) echo "table.sh: there is no table '$table'" >&2 && exit 2 ;;
    esac
done
