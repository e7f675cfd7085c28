#!/bin/sh
# compare.sh [CASES] [SEED] [built]: holds the C functions to the second implementation of the rules (reference.c): the answer, what it tells, and every
# lent byte and record, on as many cases made by seed as it is asked for; and the second implementation to the documents' own readings (selftest.c).
# `built` says that the library is built already.
set -eu
cd "$(dirname "$0")/.."
work=$(mktemp -d)
trap 'rm -rf "$work"' EXIT
[ "${3:-}" = built ] || sh tests/library.sh
sh tests/c.sh "$work/selftest" tests/selftest.c tests/reference.c
sh tests/c.sh --run "$work/selftest"
sh tests/c.sh "$work/driver" tests/driver.c tests/reference.c
sh tests/c.sh --run "$work/driver" "${1:-1000000}" "${2:-1}"
