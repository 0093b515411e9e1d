#!/usr/bin/env bash
# Makes the books of this folder from their texts, with the last program of edition 1, which isn't part of this repository; and keeps
# what it prints of them. No test calls it: a later program makes other books.
#
#   tests/migrate/make.sh PROGRAM
#
# Of each book the texts in posts/ are posted in the order of their names, each as a batch of its name; a .csv is imported. Its folder
# then has the file of the book, book.gz, and the holdings, the values at a day, the gains and the journal.
set -eu -o pipefail
export LC_ALL=C
program=$(readlink -f "$1")
cd "$(dirname "$(readlink -f "${BASH_SOURCE[0]}")")"
scratch=$(mktemp -d)
trap 'rm -rf "$scratch"' EXIT

for folder in */posts; do
    name=${folder%/posts} book=$scratch/${folder%/posts}.book
    "$program" init --book "$book" </dev/null >/dev/null
    for text in "$folder"/*; do
        batch=${text##*/} batch=${batch%.*}
        if [[ $text == *.csv ]]; then
            "$program" import --book "$book" --batch "$batch" --invest Assets:Broker --cash Assets:Cash --fees Expenses:Fees \
                --gains Income:Gains <"$text"
        else
            "$program" post --book "$book" --batch "$batch" <"$text"
        fi | { ! grep -v ' accepted$' >&2; }
    done
    "$program" holdings --book "$book" >"$name/holdings"
    "$program" holdings --book "$book" --day 2024-12-31 >"$name/values"
    "$program" gains --book "$book" >"$name/gains"
    "$program" journal --book "$book" >"$name/journal"
    gzip -n9 <"$book" >"$name/book.gz"
done
