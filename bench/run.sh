#!/bin/sh
# run.sh [ROUNDS [LIBRARY [PLACES]]]: the library's time beside that of the second implementation in plain C, as ratios (docs/BENCHMARK.md); or beside an
# earlier build of it, LIBRARY, a libhost.a, whose functions are renamed by an objcopy that knows x86-64.
# The program is linked PLACES times, four if not said, each time further on by as much of a page, and every figure is the median over the places: where
# the code comes to stand moves a ratio by a tenth, more than the rounds do. With EVERY set to any text the tables by words have each number from 1 to 32.
set -eu
cd "$(dirname "$0")/.."
work=$(mktemp -d)
trap 'rm -rf "$work"' EXIT
echo "bench/run.sh: proving and building the library, where that isn't done yet .." >&2
sh tests/library.sh
defines=${EVERY:+EVERY_LENGTH} against= under=C
if [ -n "${2:-}" ]; then
    objcopy=$(command -v x86_64-linux-gnu-objcopy || command -v objcopy)
    "$objcopy" --prefix-symbols=before_ "$2" "$work/before.a"
    (mkdir "$work/before" && cd "$work/before" && "${objcopy%objcopy}ar" x ../before.a)
    # what the library calls of the C library keeps its name
    for object in "$work"/before/*.o; do
        for name in memcpy memmove memset memcmp bcmp; do "$objcopy" --redefine-sym "before_$name=$name" "$object"; done
    done
    defines="$defines BEFORE" against="$work/before/*.o" under=before
fi
for name in $defines; do echo "#define $name"; done >"$work/against.c"
printf '#include "%s/bench/bench.c"\n' "$PWD" >>"$work/against.c"
places=${3:-4}
for shift in $(seq 16 $((4096 / places)) 4095 | head -n "$places"); do
    printf '__asm__(".text\\n.zero %s\\n");\n' "$shift" >"$work/shift.c"
    # shellcheck disable=SC2086
    sh tests/c.sh "$work/bench" "$work/shift.c" "$work/against.c" $against tests/reference.c
    sh tests/c.sh --run "$work/bench" "${1:-15}" >"$work/rows.$shift" || { cat "$work/rows.$shift" && exit 1; }
done
head -n 1 "$work/rows.16"
awk -v under="$under" -v places="$places" -f bench/table.awk "$work"/rows.*
