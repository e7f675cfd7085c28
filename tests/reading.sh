#!/bin/sh
# The program reading on its example, however the bytes come in; on refused blocks; on a large file with overlong pieces; and at the edges of its
# input.
set -eu
cd "$(dirname "$0")/.."
work=$(mktemp -d)
trap 'rm -rf "$work"' EXIT

fail() {
    echo "tests/reading.sh: $1" >&2
    exit 1
}

# same FILE WHAT [ARGUMENT]: what the program prints of standard input is the file
same() {
    ./gsi reading ${3+"$3"} >"$work/out"
    cmp -s "$1" "$work/out" || fail "$2: $(cmp "$1" "$work/out" 2>&1 || :)"
    echo "$2" >>"$work/passed"
}

# usage WHAT ARGUMENT ..: the program answers the arguments with its usage on standard error, and prints nothing
usage() {
    what=$1 && shift
    ./gsi reading "$@" <examples/level.gsi >"$work/out" 2>"$work/err"
    [ ! -s "$work/out" ] || fail "$what: something is printed"
    printf '%s\n' 'usage: reading [level] < FILE' 'docs/REFUSALS.md says what the number of each refusal means.' | cmp -s - "$work/err" || fail "$what: $(cat "$work/err")"
    echo "$what" >>"$work/passed"
}

# hands on the bytes of a file, a given number at a time
slowly() {
    i=0
    n=$(($(wc -c <"$1") / $2))
    while [ $i -le $n ]; do
        dd if="$1" bs="$2" skip=$i count=1 2>/dev/null
        i=$((i + 1))
    done
}

# told NUMBER AT REFUSED PLACE TEXT: prints what is printed of a refused block
told() { printf "block=%s at=%s refused=%s place=%s\n%s\n%${4}s^\n" "$1" "$2" "$3" "$4" "$5" ''; }

# prints a text N times
repeat() { awk -v n="$1" -v text="$2" 'BEGIN { for (i = 0; i < n; i++) printf "%s", text }'; }

example=crates/reading/stdin
same crates/reading/stdout "the example" <"$example"
slowly "$example" 7 | same crates/reading/stdout "the example, 7 bytes at a time"
slowly "$example" 800 | same crates/reading/stdout "the example, 800 bytes at a time"

same tests/level.txt "a level's listing" level <examples/level.gsi
slowly examples/level.gsi 7 | same tests/level.txt "a level's listing, 7 bytes at a time" level
(told 1 0 6 34 '110006+00003000 32..00+00016380 331106+00010198 ' && printf 'blocks=1 accepted=0 refused=1\n') >"$work/station"
printf '110006+00003000 32..00+00016380 331106+00010198 \r\n' | same "$work/station" "a level's block as a total station's"
printf 'block=1 at=0 width=8 end=CR words=1 bytes=17\nword=1 index=332 info=.09 count=-101981 step=1/2000in reads=-50.9905in\nblocks=1 accepted=1 refused=0\n' >"$work/inch"
printf '332.09-00101981 \r' | same "$work/inch" "inches" level
printf 'block=1 at=0 width=8 end=CR words=2 bytes=33\nword=1 index=573 info=..0 count=-0 step=1/1000m reads=-0.000m\nword=2 index=332 info=.09 count=-0 step=1/2000in reads=-0.0000in\nblocks=1 accepted=1 refused=0\n' >"$work/level-nought"
printf '573..0-00000000 332.09-00000000 \r' | same "$work/level-nought" "a level's minus nought" level
printf 'block=1 at=0 width=16 end=CR words=3 bytes=74\nword=1 index=21 info=.104 count=-0 step=1/10s reads=-0-00-00.0\nword=2 index=51 info=..1. ppm=-0 mm=-0\nword=3 index=58 info=..16 count=-0 step=1/10mm reads=-0.0mm\nblocks=1 accepted=1 refused=0\n' >"$work/nought"
printf '*21.104-0000000000000000 51..1.-000000000000-000 58..16-0000000000000000 \r' | same "$work/nought" "minus nought of a total station, wide"
usage "another word" levels
usage "a longer word" a-word-that-is-longer-than-any-that-counts
usage "an empty word" ''
usage "two words" level level

printf 'blocks=0 accepted=0 refused=0\n' >"$work/none"
same "$work/none" "empty input of a level" level </dev/null
same "$work/none" "empty input" </dev/null

printf 'block=1 at=0 width=8 end=CRLF words=1 bytes=18\nword=1 index=11 info=.... text=00000058\nblocks=1 accepted=1 refused=0\n' >"$work/apart"
(printf '11....+00000058 \r' && sleep 1 && printf '\n') | same "$work/apart" "an LF that comes later than its CR"

# Where a block is refused: under its text a caret at the byte, and bytes that aren't graphic as dots.
(
    told 1 0 8 26 '110014+00000003 83..10+000A5320 '
    told 2 34 8 43 '*110002+000000000PNC0058 21.102+00000000123x5678 '
    told 3 85 5 1 '1I0014+00000003 '
    told 4 103 15 0 '990014+00000003 '
    told 5 121 6 19 '110014+00000003 21.924+27952530 '
    told 6 155 9 15 '110014+00000003.82..00-00213159 '
    told 7 189 10 23 '110014+00000003 21.102+40000000 '
    told 8 223 8 11 '41....+COD... 1 '
    printf 'blocks=8 accepted=0 refused=8\n'
) >"$work/where"
(
    printf '110014+00000003 83..10+000A5320 \r\n*110002+000000000PNC0058 21.102+00000000123x5678 \r\n1I0014+00000003 \r\n'
    printf '990014+00000003 \r\n110014+00000003 21.924+27952530 \r\n110014+00000003\t82..00-00213159 \r\n'
    printf '110014+00000003 21.102+40000000 \r\n41....+COD.\033\311 1 \r\n'
) | same "$work/where" "the byte of each refusal"
(told 1 0 2 0 . && printf 'blocks=1 accepted=0 refused=1\n') >"$work/feed"
printf '\n' | same "$work/feed" "an LF alone"
(told 1 0 5 0 "$(repeat 770 x)" && printf 'blocks=1 accepted=0 refused=1\n') >"$work/open"
repeat 2000 x | same "$work/open" "a long line without CR"

# The longest block, 771 bytes, and one word more.
(printf '*' && repeat 32 '71....+0123456789ABCDEF ' && printf '\r\n*' && repeat 33 '71....+0123456789ABCDEF ' && printf '\r\n') >"$work/long"
(
    awk 'BEGIN {
        print "block=1 at=0 width=16 end=CRLF words=32 bytes=771"
        for (i = 1; i <= 32; i++) print "word=" i " index=71 info=.... text=0123456789ABCDEF"
    }'
    told 2 771 4 769 "*$(repeat 32 '71....+0123456789ABCDEF ')7"
    printf 'blocks=2 accepted=1 refused=1\n'
) >"$work/words"
same "$work/words" "32 and 33 wide words" <"$work/long"

# 5 MB of blocks with 200,000 bytes without CR in their midst: first no words, then words.
block='110014+00000003 82..00-00213159 \r\n'
(repeat 70000 "$block" && repeat 200000 x && printf '\r\n' && repeat 70000 "$block" && repeat 12500 '11....+00000058 ' && printf '\r' && repeat 10000 "$block") >"$work/large"
# blocks N FIRST AT: prints what is printed of N of them, the first of which has that number and place
blocks() {
    awk -v n="$1" -v k="$2" -v at="$3" 'BEGIN {
        for (; n > 0; n--) {
            print "block=" k++ " at=" at " width=8 end=CRLF words=2 bytes=34"
            print "word=1 index=11 info=0014 text=00000003"
            print "word=2 index=82 info=..00 count=-213159 step=1/1000m reads=-213.159m"
            at += 34
        }
    }'
}
(
    blocks 70000 1 0
    told 70001 2380000 5 0 "$(repeat 770 x)"
    blocks 70000 70002 2580002
    told 140002 4960002 4 512 "$(repeat 48 '11....+00000058 ')11"
    blocks 10000 140003 5160003
    printf 'blocks=150002 accepted=150000 refused=2\n'
) >"$work/lines"
same "$work/lines" "5 MB of blocks with two overlong pieces" <"$work/large"
cat "$work/large" | same "$work/lines" "the same through a pipe"

# A read that fails isn't the end of a file, and nothing is counted up.
: >"$work/nothing"
same "$work/nothing" "a folder for the file" <"$work"

if [ -c /dev/full ]; then
    ./gsi reading <"$work/large" >/dev/full || fail "it stumbles where nothing can be written"
    echo "no room" >>"$work/passed"
fi
echo "reading: $(wc -l <"$work/passed") checks passed"
