#!/usr/bin/env bash
# Long texts, names, numbers and lists. The expected output is made here, by other means than the program's.
source "$(dirname "$(readlink -f "${BASH_SOURCE[0]}")")/lib/cases.sh"
need_program

# compared NAME SCRIPT: an awk script writes the ledger text to standard output and the expected lines to the file `expected`.
compared() {
    rm -f "$scratch/expected"
    awk -v expected="$scratch/expected" "$2" </dev/null >"$scratch/ledger"
    run <"$scratch/ledger"
    expect "$1" 0 "$scratch/expected"
}

# 5,000 accounts, each with a lot and plain units: 10,000 commands, 10,000 rows. The accounts are opened and used in another
# order than that of their names.
compared "10,000 commands and 10,000 rows" 'BEGIN {
    for (n = 0; n < 5000; n++) printf "2020-01-01 open Assets:A%04d\n", n * 7 % 5000
    for (n = 0; n < 5000; n++) {
        account = n * 4999 % 5000
        printf "2020-01-02 * \"Buy %d\"\n  Assets:A%04d %d HOOL {1.5 USD}\n  Assets:A%04d\n", n, account, account + 1, account
    }
    for (n = 1; n <= 10000; n++) print n " accepted" >expected
    for (n = 0; n < 5000; n++) {
        printf "Assets:A%04d %d HOOL {1.5 USD, 2020-01-02}\n", n, n + 1 >expected
        printf "Assets:A%04d -%.2f USD\n", n, 1.5 * (n + 1) >expected
    }
    printf "total cost %.2f USD\n", 1.5 * 5000 * 5001 / 2 >expected
}'

# The same number of refused commands, each with a reply of its own.
awk -v expected="$scratch/expected" 'BEGIN {
    print "2020-01-01 open Assets:A"
    print "1 accepted" >expected
    for (n = 2; n <= 10001; n++) {
        printf "2020-01-02 *\n  Assets:A %d C%d\n", n, n
        printf "%d refused L14 NotBalanced C%d\n", n, n >expected
    }
    print "nothing held" >expected
}' >"$scratch/ledger"
run <"$scratch/ledger"
expect "10,000 refused commands" 1 "$scratch/expected"

# Names and notes of each length.
compared "accounts of 8 to 128 bytes" 'BEGIN {
    print "2020-01-01 open Equity:Start"
    for (n = 1; n <= 121; n++) { rest = rest "A"; print "2020-01-01 open Assets:" rest }
    rest = ""
    for (n = 1; n <= 121; n++) {
        rest = rest "A"
        printf "2020-01-02 *\n  Assets:%s %d USD\n  Equity:Start\n", rest, n
        rows = rows "Assets:" rest " " n ".00 USD\n"
    }
    for (n = 1; n <= 243; n++) print n " accepted" >expected
    printf "%s", rows >expected
    printf "Equity:Start -%d.00 USD\n", 121 * 122 / 2 >expected
}'
compared "commodities and currencies of 1 to 24 bytes" 'BEGIN {
    print "2020-01-01 open Assets:A"
    print "1 accepted" >expected
    for (n = 1; n <= 24; n++) {
        name = name "C"
        printf "2020-01-02 *\n  Assets:A 2 %s {1 %s}\n  Assets:A -2 %s\n", name, name, name
        print n + 1 " accepted" >expected
        rows = rows "Assets:A -2.00 " name "\nAssets:A 2 " name " {1 " name ", 2020-01-02}\n"
        totals = totals "total cost 2.00 " name "\n"
    }
    printf "%s%s", rows, totals >expected
}'
compared "notes of 0 to 1,000 bytes" 'BEGIN {
    for (n = 0; n <= 1000; n++) {
        print "2020-01-01 * \"" note "\""
        print n + 1 " accepted" >expected
        note = note "n"
    }
    print "nothing held" >expected
}'
compared "notes of 0 to 1,000 escaped bytes" 'BEGIN {
    for (n = 0; n <= 1000; n++) {
        print "2020-01-01 ! \"" note "\" \"" note "\""
        print n + 1 " accepted" >expected
        note = note (n % 2 ? "\\\"" : "\\\\")
    }
    print "nothing held" >expected
}'
compared "labels of 1 to 64 bytes" 'BEGIN {
    print "2020-01-01 open Assets:A"
    print "1 accepted" >expected
    for (n = 1; n <= 64; n++) {
        label = label "L"
        printf "2020-01-02 *\n  Assets:A 1 HOOL {%d USD, \"%s\"}\n  Assets:A\n", n, label
        print n + 1 " accepted" >expected
        rows = rows "Assets:A 1 HOOL {" n " USD, 2020-01-02, \"" label "\"}\n"
    }
    printf "%sAssets:A -2080.00 USD\ntotal cost 2080.00 USD\n", rows >expected
}'
compared "openings with 0 to 64 currencies" 'BEGIN {
    print "2020-01-01 open Assets:A"
    print "1 accepted" >expected
    for (n = 1; n <= 64; n++) {
        currencies = currencies (n > 1 ? "," : " ") sprintf("C%02d", n)
        printf "2020-01-01 open Assets:A%02d%s \"FIFO\"\n", n, currencies
        printf "2020-01-02 *\n  Assets:A%02d 1 C%02d\n  Assets:A\n", n, n
        printf "%d accepted\n%d accepted\n", 2 * n, 2 * n + 1 >expected
        fills = fills sprintf("Assets:A -1.00 C%02d\n", n)
        rows = rows sprintf("Assets:A%02d 1.00 C%02d\n", n, n)
    }
    printf "%s%s", fills, rows >expected
}'
compared "transactions of 1 to 64 postings" 'BEGIN {
    print "2020-01-01 open Assets:A\n2020-01-01 open Equity:B"
    for (n = 1; n <= 64; n++) {
        print "2020-01-02 *\n  Equity:B"
        for (k = 2; k <= n; k++) print "  Assets:A 1 USD"
    }
    for (n = 1; n <= 66; n++) print n " accepted" >expected
    print "Assets:A 2016.00 USD\nEquity:B -2016.00 USD" >expected
}'
{ printf '2020-01-01 open Assets:A\n2020-01-02 *\n' && yes '  Assets:A 0 USD' | head -n 2001; } |
    prints "a transaction of 2,001 postings" 1 $'1 accepted\n2 refused L8 TooManyPostings\nnothing held'

# Numbers and lists of each length around a power of two.
lengths="31 32 33 63 64 65 127 128 129 255 256 257 511 512 513 1023 1024 1025 2047 2048 2049"
for length in $lengths; do
    compared "a number of $length digits" 'BEGIN {
        for (n = 0; n < '"$length"' - 1; n++) zeros = zeros "0"
        printf "2020-01-01 open Assets:A\n2020-01-01 *\n  Assets:A %s7 USD\n  Assets:A -7.%s0 USD\n  Assets:A 0.5 EUR\n  Assets:A\n", zeros, zeros
        print "1 accepted\n2 accepted\nnothing held" >expected
    }'
done
compared "lines of 4,096 bytes, of a number each" 'BEGIN {
    printf "2020-01-01 open Assets:A\n2020-01-01 *\n  Assets:A %04081d USD\n  Assets:A -7.%04078d USD\n", 7, 0
    print "1 accepted\n2 accepted\nnothing held" >expected
}'
{ printf '2020-01-01 open Assets:A\n2020-01-01 *\n  Assets:A ' && printf '%04082d USD\n' 7; } |
    prints "a line of 4,097 bytes" 3 "fault line 3 X7 LineTooLong"
for length in $lengths 4095 4096 4097 5000; do
    compared "$length openings, and as many lots of one account" 'BEGIN {
        for (n = 1; n <= '"$length"'; n++) { printf "2020-01-01 open Assets:A%d\n", n; print n " accepted" >expected }
        for (n = 1; n <= '"$length"'; n++) {
            printf "2020-01-02 *\n  Assets:A1 1 HOOL {%d USD}\n  Assets:A1\n", n
            print '"$length"' + n " accepted" >expected
        }
        for (n = 1; n <= '"$length"'; n++) printf "Assets:A1 1 HOOL {%d USD, 2020-01-02}\n", n >expected
        printf "Assets:A1 -%d.00 USD\n", n * (n - 1) / 2 >expected
        printf "total cost %d.00 USD\n", n * (n - 1) / 2 >expected
    }'
done

# Sales of as many lots less one, or of all under STRICT, each lot of a day and a cost of its own: FIFO leaves the last one, LIFO and
# HIFO leave the first.
for length in $lengths; do
    compared "a sale of $length lots by each method" 'function lot(n) {
        return sprintf("%d USD, %04d-%02d-%02d", n, 1900 + int(n / 336), 1 + int(n / 28) % 12, 1 + n % 28)
    }
    BEGIN {
        print "2020-01-01 open Assets:Cash"
        replies = 1
        count = split("Fifo Hifo Lifo Strict", methods)
        for (m = 1; m <= count; m++) {
            account = "Assets:" methods[m]
            printf "2020-01-01 open %s \"%s\"\n", account, toupper(methods[m])
            for (n = 1; n <= '"$length"'; n++) {
                if (n % 63 == 1) { print "2020-01-02 *\n  Assets:Cash"; replies++ }
                printf "  %s 1 HOOL {%s}\n", account, lot(n)
            }
            printf "2020-01-03 *\n  %s -%d HOOL {}\n  Assets:Cash\n", account, '"$length"' - (m < count)
            replies += 2
        }
        for (n = 1; n <= replies; n++) print n " accepted" >expected
        printf "Assets:Cash -%d.00 USD\n", '"$length"' + 2 >expected
        printf "Assets:Fifo 1 HOOL {%s}\n", lot('"$length"') >expected
        printf "Assets:Hifo 1 HOOL {%s}\nAssets:Lifo 1 HOOL {%s}\n", lot(1), lot(1) >expected
        printf "total cost %d.00 USD\n", '"$length"' + 2 >expected
    }'
done

finish
