#!/bin/sh
# library.sh [ci]: proves and builds the library for C, crates/host/out/libhost.a. `ci` says that `rt ci` has just run here: `rt lib` would prove every crate
# below once more, since it takes no library that `rt ci` has built, so host alone is proved over these then.
set -eu
cd "$(dirname "$0")/.."
made=crates/host/out/libhost.a
log=$(mktemp)
trap 'rm -f "$log"' EXIT

# Prints the crates below host.
below() {
    awk '
        function visit(name,    need, n, i) {
            if (name in seen || !(name in needs)) return
            seen[name] = 1
            n = split(needs[name], need, " ")
            for (i = 1; i <= n; i++) visit(need[i])
            if (name != "host") print name
        }
        { sub(/#.*/, "") }
        split($0, part, ":") == 2 { split(part[1], word, " "); needs[word[1]] = part[2] }
        END { visit("host") }' crates.txt
}

# Proves host over the libraries that stand in the crates' out/, and builds it, as rt has its prover do that.
over_ci() {
    kit=$(dirname "$(rt doc)")
    set -- --crate-name host src/lib.rt --extern "std=$kit/rlibs/std.rlib" -L "dependency=$kit/rlibs"
    for name in $(below); do
        # one with a stamp is an earlier `rt check`'s, which `rt ci` put back: of it only rt can tell whether it is of today's files
        [ -d "crates/$name/out/rlib/$name.rlib" ] && [ ! -e "crates/$name/out/rlib/stamp" ] || return 1
        set -- "$@" -L "dependency=../$name/out/rlib"
    done
    for name in $(sed -n 's/^host staticlib://p' crates.txt); do set -- "$@" --extern "$name=../$name/out/rlib/$name.rlib"; done
    mkdir -p crates/host/out && rm -f "$made"
    (cd crates/host && "$kit/bin/rattle" build "$@" --antt-project "$kit/rattle/logic/antt-project.json" --logic-built "$kit/logic_built" --jobs 4 --links host= \
        --crate-type staticlib --toolchain "$kit/toolchain" --backend llvm -o out/libhost.a) >"$log" 2>&1
}

if [ "${1:-}" = ci ] && over_ci && [ -f "$made" ]; then exit 0; fi
(cd crates/host && rt lib) >"$log" 2>&1 && [ -f "$made" ] || {
    grep -E '^(fn .*: (no proof|not proved)|rt: )|: error' "$log" | grep -v '^rt: chose' | tail -n 5 >&2
    exit 1
}
