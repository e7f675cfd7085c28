#!/bin/sh
# stack.sh [built]: measures how much stack a call of each C function takes, over cases that reach every kind of line, sheet and block, and holds it to the limits
# that stand at the top of stack.c. `built` says that the library is built already.
set -eu
cd "$(dirname "$0")/.."
work=$(mktemp -d)
trap 'rm -rf "$work"' EXIT
[ "${1:-}" = built ] || sh tests/library.sh
sh tests/c.sh "$work/stack" tests/stack.c
sh tests/c.sh --run "$work/stack"
