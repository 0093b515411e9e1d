#!/usr/bin/env bash
# What an import of a broker file costs, row by row: reading alone, which is what a file costs whose last row is faulty, since none
# of it is applied; and the whole, a commit for each row. What a file costs that has no rows, or whose first row is faulty, is
# taken off. Of interest are the ratios, not the times of this machine.
source "$(dirname "$(readlink -f "${BASH_SOURCE[0]}")")/lib/runs.sh"

header=ref,date,action,symbol,units,price,currency,fee,lot
accounts=(--invest Assets:Broker --cash Assets:Cash --fees Expenses:Fees --gains Income:Gains)

# rows COUNT: so many rows; three purchases of a commodity, then a sale of some of it.
rows() {
    awk -v count="$1" 'BEGIN {
        for (n = 0; n < count; n++) {
            action = n % 4 == 3 ? "SELL" : "BUY"
            printf "D-%d,2020-01-02,%s,C%d,%d,%d.%02d,USD,%s,\n", n, action, int(n / 4) % 5000, n % 4 == 3 ? 1 : 2, 10 + n % 90, n % 100, n % 3 ? "0.95" : ""
        }
    }'
}

# imported TURNS RUNS FILE: the microseconds of an import of a file into a copy of the empty book, by the clock, as the mean of so
# many one after another, the least of some such. The output of the last one is kept.
imported() {
    local turn
    for ((turn = 0; turn < $1; turn++)); do
        copied "$scratch/empty.book"
        micros "$3" "$2" import --book "$scratch/copy.book" --batch measured "${accounts[@]}"
    done | lowest
}

# answered PATTERN: each line that the last import printed is such a line.
answered() {
    if grep -q -m 1 -v -e "$1" "$scratch/out"; then
        echo "import.sh: $(grep -m 1 -v -e "$1" "$scratch/out")" >&2
        exit 1
    fi
}

printf '2020-01-01 open %s\n' 'Assets:Broker "FIFO"' Assets:Cash Expenses:Fees Income:Gains | made "$scratch/empty.book" || exit 1
echo "$header" >"$scratch/none.csv"
printf '%s\n' "$header" x >"$scratch/first.csv"
none=$(imported 5 1 "$scratch/none.csv")

printf '%9s %14s %7s %15s %14s %7s %15s\n' "" reading "" "" import "" ""
printf '%9s %14s %7s %15s %14s %7s %15s %9s\n' rows 'us a row' ratio 'rows a second' 'us a row' ratio 'rows a second' share
first_read="" first_all=""
for count in 1000 10000 100000; do
    { echo "$header" && rows "$count"; } >"$scratch/rows.csv"
    { head -n "$count" "$scratch/rows.csv" && echo x; } >"$scratch/faulty.csv"
    runs=$((100000 / count))
    at_once=$(imported 5 "$runs" "$scratch/first.csv")
    reading=$(imported 5 "$runs" "$scratch/faulty.csv")
    answered "^fault row $count C2 BadRow Length$"
    all=$(imported $((count < 100000 ? 3 : 1)) 1 "$scratch/rows.csv")
    answered ' accepted$'
    awk -v n="$count" -v read=$((reading - at_once)) -v all=$((all - none)) -v first_read="$first_read" -v first_all="$first_all" '
        function column(us, first) { printf " %14.2f %7.2f %15d", us, us / first, 1000000 / us }
        BEGIN {
            read /= n
            all /= n
            if (first_read == "") { first_read = read; first_all = all }
            printf "%9d", n
            column(read, first_read)
            column(all, first_all)
            printf " %9.3f\n", read / all
            print first_read, first_all >"/dev/stderr"
        }' 2>"$scratch/first"
    read -r first_read first_all <"$scratch/first"
done
