#!/bin/sh
# c.sh OUT FILE.c ..: compiles C for x86-64 with the kit's compiler (FILE.o is taken as it is) and links it with crates/host/out/libhost.a and the kit's C
# library, so that the toolchain is all that a machine needs; the kit has no headers, so the files declare what they call. c.sh --run OUT ARG ..: runs it.
set -eu
here=$(CDPATH='' cd -- "$(dirname -- "$0")/.." && pwd)
kit=$(dirname "$(rt doc)")
lib=$kit/toolchain/lib
bin=$kit/toolchain/bin

if [ "$1" = --run ]; then
    shift
    exec "$lib/ld-linux-x86-64.so.2" --library-path "$lib" "$@"
fi

out=$1
shift
objects=
for file in "$@"; do
    case $file in *.o) objects="$objects $file" && continue ;; esac
    object=$out.$(basename "$file" .c).o
    "$bin/clang" --target=x86_64-unknown-linux-gnu -std=c11 -O2 -fPIC -Wall -Wextra -I "$here/include" -isystem "$here/tests/freestanding" -c "$file" -o "$object"
    objects="$objects $object"
done
# shellcheck disable=SC2086
"$bin/ld.lld" -pie -dynamic-linker /lib64/ld-linux-x86-64.so.2 -o "$out" "$lib/Scrt1.o" "$lib/crti.o" "$lib/crtbeginS.o" $objects \
    "$here/crates/host/out/libhost.a" "$lib/libc.so.6" "$lib/libc_nonshared.a" "$lib/libgcc.a" "$lib/crtendS.o" "$lib/crtn.o"
