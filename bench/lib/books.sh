# What the scripts of bench/ share that post to books in files. runs.sh sources it.

# copied BOOK: a copy of a book, `copy.book`, in the place of the one that was there.
copied() {
    rm -f "$scratch/copy.book-wal"
    cp "$1" "$scratch/copy.book"
}

# least COUNT BOOK TEXT: the milliseconds of a post of a text to a copy of a book, the least of so many.
least() {
    local turn
    for ((turn = 0; turn < $1; turn++)); do
        copied "$2"
        millis "$3" post --book "$scratch/copy.book" --batch measured || echo failed
    done | lowest
}

# each BOOK TEXT COMMANDS: the milliseconds of one command of a post to a book, without those of a post of nothing.
each() {
    local none all
    none=$(least 3 "$1" /dev/null)
    all=$(least 3 "$1" "$2")
    accepted "$3"
    awk -v all="$all" -v none="$none" -v commands="$3" 'BEGIN { printf "%.4f\n", (all - none) / commands }'
}

# made BOOK: makes a book, and posts this call's standard input to it.
made() {
    rm -f "$1" "$1-wal"
    "$program" init --book "$1" </dev/null >/dev/null && "$program" post --book "$1" --batch made >/dev/null
}

# thirds COUNT [PRICES]: the accounts, then so many transactions, two purchases and a sale of one of them in turn; with a second word a price
# of each commodity, too. A third of them is a lot that is held, a third a sale; a commodity has at most ten lots.
thirds() {
    awk -v count="$1" -v prices="${2:-}" 'BEGIN {
        print "2020-01-01 open Assets:Broker \"FIFO\"\n2020-01-01 open Assets:Cash\n2020-01-01 open Income:Gains"
        for (n = 0; n < count; n++) {
            if (prices && n % 30 == 0) printf "2020-01-02 price C%d 120 USD\n", n / 30
            if (n % 3 < 2) printf "2020-01-02 * \"Buy\"\n  Assets:Broker 2 C%d {%d.%02d USD}\n  Assets:Cash\n", n / 30, 100 + n % 30, n % 100
            else printf "2020-01-02 * \"Sell\"\n  Assets:Broker -2 C%d {} @ 130 USD\n  Assets:Cash 260 USD\n  Income:Gains\n", n / 30
        }
    }'
}
