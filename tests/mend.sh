#!/bin/sh
# The program mend on 003's two listings, however the bytes come in; on lines that lack one thing, several or none; on lines that can't be mended; on a large
# listing with overlong lines; and where nothing can be written.
set -eu
cd "$(dirname "$0")/.."
work=$(mktemp -d)
trap 'rm -rf "$work"' EXIT

fail() {
    echo "tests/mend.sh: $1" >&2
    exit 1
}

# same BLOCKS TOLD WHAT [ARGUMENT]: of standard input the program writes the one file, and tells the other
same() {
    ./gsi mend ${4+"$4"} >"$work/out" 2>"$work/err"
    cmp -s "$1" "$work/out" || fail "$3: $(cmp "$1" "$work/out" 2>&1 || :)"
    cmp -s "$2" "$work/err" || { diff "$2" "$work/err" | head -n 20 >&2 && fail "$3: what is told"; }
    echo "$3" >>"$work/passed"
}

# line TEXT BLOCK TOLD WHAT [ARGUMENT]: the same of texts, each as printf's first argument
line() {
    printf "$2" >"$work/blocks"
    printf "$3" >"$work/told"
    printf "$1" | same "$work/blocks" "$work/told" "$4" ${5+"$5"}
}

# usage WHAT ARGUMENT ..: the program answers the arguments with its usage on standard error, and writes nothing
usage() {
    what=$1 && shift
    ./gsi mend "$@" <examples/listing-level.txt >"$work/out" 2>"$work/err"
    [ ! -s "$work/out" ] || fail "$what: something is written"
    printf '%s\n' 'usage: mend [level] < LISTING > FILE' 'docs/REFUSALS.md says what the number of each refusal means.' | cmp -s - "$work/err" || fail "$what: $(cat "$work/err")"
    echo "$what" >>"$work/passed"
}

# hands on the bytes of a file, a given number at a time
slowly() {
    i=0
    n=$(($(wc -c <"$1") / $2))
    while [ $i -le $n ]; do
        dd if="$1" bs="$2" skip=$i count=1 2>/dev/null
        i=$((i + 1))
    done
}

# prints a text N times
repeat() { awk -v n="$1" -v text="$2" 'BEGIN { for (i = 0; i < n; i++) printf "%s", text }'; }

# Built first, where it isn't: what the launcher says of that goes to standard error too.
./gsi mend </dev/null >/dev/null 2>&1

# The office's way: mend, look at the edits, read. The listings are 003's, as they were printed.
same crates/mend/stdout tests/listing-tps.told "a total station's listing" <examples/listing-tps.txt
slowly examples/listing-tps.txt 7 | same crates/mend/stdout tests/listing-tps.told "the same, 7 bytes at a time"
./gsi reading <crates/mend/stdout | tail -n 1 | grep -qx 'blocks=14 accepted=14 refused=0' || fail "the mended blocks don't read"
printf 'lines=14 unchanged=14 mended=0 refused=0\n' >"$work/unchanged"
same crates/mend/stdout "$work/unchanged" "mended again" <crates/mend/stdout
same examples/level.gsi tests/listing-level.told "a level's listing, mended to the level's own file" level <examples/listing-level.txt
same examples/level.gsi "$work/unchanged" "a level's file, as it is" level <examples/level.gsi
usage "another word" levels
usage "an empty word" ''
usage "two words" level level
printf 'lines=0 unchanged=0 mended=0 refused=0\n' >"$work/none"
same /dev/null "$work/none" "an empty listing" </dev/null

# One thing, several, none; the ends of lines mixed.
tally() { printf 'lines=%s unchanged=%s mended=%s refused=%s\\n' "$1" "$2" "$3" "$4"; }
line '110014+00000003\r\n' '110014+00000003 \r\n' \
    "line=1 place=15 added=blank\n110014+00000003\n               ^\n$(tally 1 0 1 0)" "the last blank alone"
line '110014+00000003 \n' '110014+00000003 \r\n' "line=1 place=16 added=CR\n110014+00000003 \n                ^\n$(tally 1 0 1 0)" "LF alone"
line '42...+00007142 \r' '42....+00007142 \r' "line=1 place=5 added=dot\n42...+00007142 \n     ^\n$(tally 1 0 1 0)" "a dot"
line '*42...+000000000PNC0058\n' '*42....+000000000PNC0058 \r\n' \
    "line=1 place=6 added=dot\nline=1 place=23 added=blank\nline=1 place=23 added=CR\n*42...+000000000PNC0058\n      ^                ^\n$(tally 1 0 1 0)" "a wide word"
line '110014+00000003 \r110015+00000002 \r\n110016+00000002 \n110017+00000002\r' \
    '110014+00000003 \r110015+00000002 \r\n110016+00000002 \r\n110017+00000002 \r' \
    "line=3 place=16 added=CR\n110016+00000002 \n                ^\nline=4 place=15 added=blank\n110017+00000002\n               ^\n$(tally 4 2 2 0)" \
    "four ends of lines"

# What isn't one of the three is told at its place in the mended text, and no block of it is written.
line '42...+00007142 83..10+000A5320\n110014+00000003 \r\n' '110014+00000003 \r\n' \
    "line=1 refused=8 place=26\n42....+00007142 83..10+000A5320 \n                          ^\n$(tally 2 1 0 1)" "a damaged height"
line '110014+0000000321.324+27952530 \r\n' '' "line=1 refused=9 place=15\n110014+0000000321.324+27952530  \n               ^\n$(tally 1 0 0 1)" "a blank in the middle"
line '\n\r\n' '' "line=1 refused=3 place=0\n\n^\nline=2 refused=3 place=0\n\n^\n$(tally 2 0 0 2)" "empty lines"
line '110014+00000003 ' '' "line=1 refused=2 place=16\n110014+00000003 \n                ^\n$(tally 1 0 0 1)" "a last line without an end"
line '41....+COD.\033\311 1 \n' '' "line=1 refused=8 place=11\n41....+COD... 1 \n           ^\n$(tally 1 0 0 1)" "bytes that aren't graphic"

# The longest block with every edit that there can be, and a word more.
dots=$(repeat 32 '42...+0123456789ABCDEF ') whole=$(repeat 32 '42....+0123456789ABCDEF ')
(printf '*%s\n*%s42...+0123456789ABCDEF \n' "${dots% }" "$dots") >"$work/most"
printf '*%s\r\n' "$whole" >"$work/blocks"
./gsi mend <"$work/most" >"$work/out" 2>"$work/err"
cmp -s "$work/blocks" "$work/out" || fail "the longest block"
[ "$(grep -c '^line=1 place=.* added=' "$work/err")" -eq 34 ] || fail "the longest block has 34 edits"
grep -qx 'line=2 refused=4 place=769' "$work/err" || fail "a block of 33 words"
tail -n 1 "$work/err" | grep -qx 'lines=2 unchanged=0 mended=1 refused=1' || fail "the longest block's counts"
echo "34 edits, and 33 words" >>"$work/passed"

# 5 MB of lines with 200,000 bytes without an end in their midst.
(repeat 70000 '110014+00000003 82..00-00213159 \r\n' && repeat 200000 x && printf '\n' && repeat 70000 '110014+00000003 82..00-00213159\n') >"$work/large"
repeat 140000 '110014+00000003 82..00-00213159 \r\n' >"$work/blocks"
(
    printf 'line=70001 refused=5 place=0\n%s\n^\n' "$(repeat 512 x)"
    awk 'BEGIN {
        for (n = 70002; n <= 140001; n++)
            printf "line=%d place=31 added=blank\nline=%d place=31 added=CR\n110014+00000003 82..00-00213159\n%31s^\n", n, n, ""
    }'
    printf 'lines=140001 unchanged=70000 mended=70000 refused=1\n'
) >"$work/told"
same "$work/blocks" "$work/told" "5 MB of lines with an overlong one" <"$work/large"

# A read that fails isn't the end of a listing: nothing is counted up.
same /dev/null /dev/null "a folder for the listing" <"$work"

# Nothing is mended unseen: where nothing can be told, no block is written.
if [ -c /dev/full ]; then
    ./gsi mend <"$work/large" >/dev/full 2>"$work/err" || fail "it stumbles where nothing can be written"
    printf '110014+00000003\n110015+00000002 \r\n' | ./gsi mend >"$work/out" 2>/dev/full || fail "it stumbles where nothing can be told"
    [ ! -s "$work/out" ] || fail "a block is written whose edits weren't told"
    echo "no room" >>"$work/passed"
fi
echo "mend: $(wc -l <"$work/passed") checks passed"
