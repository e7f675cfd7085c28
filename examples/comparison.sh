#!/bin/sh
# Runs ./gsi reading and, where it is installed, Total Open Station (Debian's package totalopenstation) on the same blocks; docs/COMPARISON.md
# has what they said.
set -u
here=$(CDPATH='' cd -- "$(dirname -- "$0")" && pwd)
for file in "$here"/comparison/*.gsi; do
    echo "== $(basename "$file")"
    tr -d '\r' <"$file"
    echo '-- reading'
    "$here/../gsi" reading <"$file"
    if command -v totalopenstation-cli-parser >/dev/null 2>&1; then
        for form in '-t csv' '-r -t csv'; do
            echo "-- totalopenstation-cli-parser -f leica_gsi $form"
            # shellcheck disable=SC2086
            totalopenstation-cli-parser -i "$file" -f leica_gsi $form 2>&1 | tr -d '\r' | tail -n 3
            echo
        done
    fi
done
