#!/usr/bin/env bash
# How time and memory grow with the commands of a ledger with sales: 1,000, 10,000 and 100,000 of them, in one run. Half are
# purchases and half are sales, which take one to three lots each, of 50 commodities in two accounts of one method. In the first
# table all that is bought is sold again, so what is held doesn't grow; in the second every third lot is kept, so it does. Of
# interest are the ratios to a tenth of the commands, not the times of this machine.
source "$(dirname "$(readlink -f "${BASH_SOURCE[0]}")")/lib/runs.sh"

# ledger METHOD KEPT COMMANDS: rounds of three purchases and three sales of one commodity in one account. KEPT is 1 where the
# lot of the third purchase is to stay, else 0: then the second and the third are at one cost, on different days.
ledger() {
    awk -v method="$1" -v kept="$2" -v commands="$3" '
        function post(n, units, cost) {
            printf "%04d-%02d-%02d *\n  Assets:Broker%d %d C%d {%s}\n  Assets:Cash\n",
                2000 + int(n / 336), 1 + int(n / 28) % 12, 1 + n % 28, account, units, commodity, cost
        }
        BEGIN {
            print "2000-01-01 open Assets:Cash"
            for (account = 1; account <= 2; account++) printf "2000-01-01 open Assets:Broker%d \"%s\"\n", account, method
            for (round = 0; 6 * round < commands; round++) {
                account = 1 + round % 2
                commodity = int(round / 2) % 50
                turn = int(round / 100)
                first = 3 * turn + 1 " USD"
                second = 3 * turn + 2 " USD"
                third = kept ? 3 * turn + 3 " USD" : second
                post(2 * turn, 2, first)
                post(2 * turn, 2, second)
                post(2 * turn + 1, 2, third)
                strict = method == "STRICT"
                post(2 * turn + 1, -1, strict ? first : "")
                post(2 * turn + 1, strict ? -1 : kept ? -2 : -4, strict ? first : "")
                post(2 * turn + 1, strict ? (kept ? -2 : -4) : -1, strict ? second : "")
            }
        }'
}

# table KEPT: for each method and size the seconds and MiB, and their ratios to those of the size before.
table() {
    local method commands time room last_time last_room
    printf '%-8s %9s %10s %10s %12s %13s\n' method commands seconds MiB 'time ratio' 'memory ratio'
    for method in FIFO LIFO HIFO STRICT; do
        last_time= last_room=
        for commands in 1000 10000 100000; do
            ledger "$method" "$1" "$commands" >"$scratch/text"
            time=$(seconds "$scratch/text" $((100000 / commands)))
            room=$(peak "$scratch/text")
            accepted
            printf '%-8s %9d %10.3f %10s %12s %13s\n' "$method" "$commands" "$time" "$(mib "$room")" \
                "$(ratio "$time" "$last_time")" "$(ratio "$room" "$last_room")"
            last_time=$time last_room=$room
        done
    done
}

echo "all is sold again"
table 0
echo
echo "every third lot is kept"
table 1
