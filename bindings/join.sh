#!/usr/bin/env bash
# One library out of the archives of the named crates: build/lib/libmundeziwa.a, and libmundeziwa.so.N, N being MZ_INTERFACE of the
# header, with libmundeziwa.so, the name to link by: a copy, since `rt ci` takes no link below the repository. Each crate's archive,
# which `rt lib` leaves in its folder out/, has one object, named as the crate, in which nothing but the exported calls can be seen
# from outside.
set -euo pipefail
cd "$(dirname "$0")/.."

readonly OUT=build/lib
interface=$(sed -n 's/^#define MZ_INTERFACE \([0-9][0-9]*\)$/\1/p' include/mundeziwa.h)
[ -n "$interface" ] || { echo 'include/mundeziwa.h has no MZ_INTERFACE' >&2; exit 1; }

objects=()
for crate in "$@"; do
    [ "$(ar t "crates/$crate/out/lib$crate.a")" = "$crate.o" ] \
        || { echo "lib$crate.a has other objects than $crate.o" >&2; exit 1; }
    (cd "$OUT" && ar x "../../crates/$crate/out/lib$crate.a")
    objects+=("$OUT/$crate.o")
done
rm -f "$OUT"/libmundeziwa.*
ar rcs "$OUT/libmundeziwa.a" "${objects[@]}"
cc -shared -o "$OUT/libmundeziwa.so.$interface" "-Wl,-soname,libmundeziwa.so.$interface" "${objects[@]}"
cp "$OUT/libmundeziwa.so.$interface" "$OUT/libmundeziwa.so"
rm "${objects[@]}"
