#!/bin/sh
# The manual page and --help: made from the documents, complete, and clean.
set -eu
# shellcheck source=lib/results
. "$TESTS/lib/results"

home=${TESTS%/*}
page=$home/docs/povfix.1

if said=$("$home/tools/manual" --check); then
    passed 'the page and --help have what the documents have'
else
    failed 'the page and --help have what the documents have' "$said"
fi

# Every word in a table of the options, and every status, as the tables have them. Names that share a row stand together.
words=$(awk -F '|' '/^\| `/ { gsub(/`/, "", $2); gsub(/^ | $/, "", $2); gsub(/, /, ",", $2); print $2 }' "$home/docs/OPTIONS.md")
statuses=$(awk '/^## / { exit } /^\| [0-9]/ { print $2 }' "$home/docs/FAULTS.md")
help=$("$POVFIX" --help)
missing=
for row in $words; do
    word=$(printf '%s\n' "$row" | sed 's/,/, /g')
    printf '%s\n' "$help" | grep -q -F -e "  $word " || missing="$missing $word in --help;"
    grep -q -x -F -e ".B $word" "$page" || missing="$missing $word in the page;"
done
for status in $statuses; do
    printf '%s\n' "$help" | grep -q -e "^  $status  *[a-z]" || missing="$missing $status in --help;"
    grep -q -x -F -e ".B $status" "$page" || missing="$missing $status in the page;"
done
equal 'each word and each status is in both' '' "$missing"
equal 'no line of --help is longer than 80 signs' '' "$(printf '%s\n' "$help" | awk 'length($0) > 80 && !/^Documents/')"
equal '--help says nothing on standard error' '' "$("$POVFIX" --help 2>&1 >/dev/null)"

if command -v mandoc >/dev/null; then
    equal 'mandoc finds nothing in the page' '' "$(mandoc -Tlint "$page" 2>&1 || true)"
else
    skipped 'mandoc on the page' 'it is not installed'
fi
if command -v groff >/dev/null; then
    equal 'groff finds nothing in the page' '' "$(groff -ww -man -Tutf8 "$page" 2>&1 >/dev/null || true)"
else
    skipped 'groff on the page' 'it is not installed'
fi
if command -v man >/dev/null; then
    holds 'man -l shows the page' "$(man -l "$page" 2>/dev/null | col -b)" NAME OPTIONS 'EXIT STATUS' EXAMPLES
else
    skipped 'man -l on the page' 'it is not installed'
fi
