#!/usr/bin/env bash
# What an import by a profile costs beside one of a broker file in the program's own format: the same trades in both forms, all or
# none. Showing a file by its profile, which opens no book, is measured too. Of interest are the ratios, not the times of this machine.
source "$(dirname "$(readlink -f "${BASH_SOURCE[0]}")")/lib/runs.sh"

profile=examples/profile/maple.toml
fixed=(--invest Assets:Maple:Shares --cash Assets:Maple:Cash --fees Expenses:Fees --gains Income:Gains)

# trades COUNT FORM: so many trades, each purchase with its sale behind it; as the profile has them, the newest first, or in the
# program's own format.
trades() {
    awk -v count="$1" -v form="$2" 'BEGIN {
        if (form == "profile") {
            print "Date;What;Symbol;Pieces;Price;Costs;Value;Currency;No."
            for (n = count - 1; n >= 0; n--)
                printf n % 2 ? "03.05.2024;Sale;ALV;10;262,00;9,90;2.610,10;EUR;%d\n" : "03.05.2024;Purchase;ALV;10;245,00;9,90;-2.459,90;EUR;%d\n", n
        } else {
            print "ref,date,action,symbol,units,price,currency,fee"
            for (n = 0; n < count; n++)
                printf n % 2 ? "%d,2024-05-03,SELL,ALV,10,262.00,EUR,9.90\n" : "%d,2024-05-03,BUY,ALV,10,245.00,EUR,9.90\n", n
        }
    }'
}

# measured FILE WORDS..: the microseconds of an import of a file, by the clock, the least of three. Each has to be accepted.
measured() {
    local turn
    for turn in 1 2 3; do
        copied "$scratch/empty.book"
        micros "$1" 1 import "${@:2}" || exit 1
    done | lowest
}

made "$scratch/empty.book" <examples/profile/accounts.ledger || exit 1
printf '%9s %12s %12s %12s %15s %14s\n' rows 'own: us' 'profile: us' 'shown: us' 'profile to own' 'shown to own'
for count in 1000 10000 100000; do
    trades "$count" own >"$scratch/own.csv"
    trades "$count" profile >"$scratch/profile.csv"
    book=(--book "$scratch/copy.book" --batch measured --all-or-none)
    own=$(measured "$scratch/own.csv" "${book[@]}" "${fixed[@]}")
    by_profile=$(measured "$scratch/profile.csv" "${book[@]}" --profile "$profile")
    shown=$(measured "$scratch/profile.csv" --profile "$profile" --show)
    awk -v n="$count" -v own="$own" -v profile="$by_profile" -v shown="$shown" 'BEGIN {
        printf "%9d %12.2f %12.2f %12.2f %15.2f %14.2f\n", n, own / n, profile / n, shown / n, profile / own, shown / own
    }'
done
