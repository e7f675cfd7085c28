#!/bin/sh
# The program sheet at the edges of its input: nothing, a last piece without CR, 65,536 bytes, and one more; and with a minus nought.
set -eu
cd "$(dirname "$0")/.."
work=$(mktemp -d)
trap 'rm -rf "$work"' EXIT

fail() {
    echo "tests/sheet.sh: $1" >&2
    exit 1
}

# prints N bytes of input: lines of nine bytes, the last of them cut short
lines() { awk -v n="$1" 'BEGIN { for (i = 0; i < n; i++) printf "%s", substr("SET/30/1\r", i % 9 + 1, 1) }'; }

./gsi sheet </dev/null >"$work/none"
[ "$(wc -c <"$work/none")" -eq 187 ] || fail "the factory's sheet doesn't have 187 bytes"
grep -qx 's30=0' "$work/none" || fail "the factory's setting 30 isn't 0"

printf 'SET/30/1\rKEEP' | ./gsi sheet >"$work/piece"
grep -qx 's30=1' "$work/piece" || fail "a line before a last piece without CR isn't played"

printf 'PUT/83...0+00000000 \rPUT/83...0-00000000 \r' | ./gsi sheet >"$work/nought"
grep -qx 'v83=83..10-00000000' "$work/nought" || fail "the sheet doesn't hold a minus nought"
printf 'PUT/83...0+00000000 \rPUT/83...0-00000000 \rUNDO\r' | ./gsi sheet >"$work/nought"
grep -qx 'v83=83..10+00000000' "$work/nought" || fail "UNDO of a minus nought doesn't bring back nought"

lines 65536 | ./gsi sheet >"$work/most"
grep -qx 's30=1' "$work/most" || fail "65,536 bytes aren't played"
[ "$(wc -c <"$work/most")" -eq 187 ] || fail "the sheet of 65,536 bytes doesn't have 187 bytes"

lines 65537 | ./gsi sheet >"$work/over"
printf 'refused=input\n' | cmp -s - "$work/over" || fail "65,537 bytes aren't refused"

./gsi sheet <examples/trial.lines | cmp -s - crates/sheet/stdout || fail "the example's sheet is another"
echo "tests/sheet.sh: ok"
