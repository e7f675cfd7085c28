#!/bin/sh
# host.sh [built]: builds host.c with the library and runs it; the first time the library is proved and built. `built` says that the library is built already.
set -eu
cd "$(dirname "$0")/.."
work=$(mktemp -d)
trap 'rm -rf "$work"' EXIT
if [ "${1:-}" != built ]; then
    echo "examples/host.sh: proving and building the library, where that isn't done yet; the first time takes some minutes .." >&2
    sh tests/library.sh
fi
sh tests/c.sh "$work/host" examples/host.c
sh tests/c.sh --run "$work/host"
