#!/usr/bin/env bash
# The library as its users meet it: built by `make lib`, called from C through the archive and the shared object, from Rust, and
# by the programs of README.md.
set -euo pipefail
cd "$(dirname "$0")/.."

fail() {
    echo "library: $*" >&2
    exit 1
}

# same WHAT ONE OTHER: fails with the differing lines, unless the two texts are the same.
same() {
    [ "$2" = "$3" ] || { diff <(echo "$2") <(echo "$3") >&2 || true; fail "$1"; }
}

make lib
readonly LIB=build/lib
strict=(-Wall -Wextra -Werror -pedantic -Iinclude)
cc -std=c99 "${strict[@]}" -o build/c_calls tests/c_calls.c "$LIB/libmundeziwa.a"
./build/c_calls
cc -std=c99 "${strict[@]}" -o build/c_calls_shared tests/c_calls.c "-L$LIB" -lmundeziwa "-Wl,-rpath,$PWD/$LIB"
./build/c_calls_shared
for header in include/*.h; do
    c++ "${strict[@]}" -fsyntax-only -x c++ "$header"
done

# the headers and the library name the same calls, each once and nothing else
named=$(grep -ohE '^(void|uint32_t) mz_[a-z_]+' include/*.h | cut -d ' ' -f 2 | sort)
same 'the headers and the archive name different calls' "$named" \
    "$(nm -g --defined-only "$LIB/libmundeziwa.a" | awk 'NF == 3 { print $3 }' | sort)"
same 'the headers and the shared object name different calls' "$named" \
    "$(nm -D --defined-only "$LIB/libmundeziwa.so" | awk '{ print $3 }' | sort)"

# "calls nothing but memcpy and memset" (include/mundeziwa.h)
called=$(nm -D --undefined-only "$LIB/libmundeziwa.so" | awk '$1 == "U" { sub("@.*", "", $2); print $2 }')
same 'the library calls what the header does not name' '' "$(grep -vxE 'memcpy|memset' <<< "$called" || true)"

# the shared object is named after the interface, and a program asks for that name
interface=$(sed -n 's/^#define MZ_INTERFACE //p' include/mundeziwa.h)
readelf -d "$LIB/libmundeziwa.so" | grep -qF "soname: [libmundeziwa.so.$interface]" || fail 'the shared object has another SONAME'
readelf -d build/c_calls_shared | grep -qF "[libmundeziwa.so.$interface]" || fail 'a program asks for another shared object'

# the header's collations and limits are the constants of crates/terms, the width of an entry that of crates/table, the kinds of
# record those of crates/records and the refusals the reasons of crates/terms (the reason 9 is the program's alone; the
# interface's number is compared above)
header=$(awk '$1 == "#define" && NF > 2 { sub("MZ_", "", $2); print $2, $3 }' include/mundeziwa.h | sort)
constants=$(awk '$1 == "pub" && $2 == "const" { print $3, $6 }' crates/terms/src/lib.rt crates/table/src/layout.rt | tr -d ':;' \
    | sed 's/^EXPANSION_MOST /KEY_PER_OCTET_MOST /;s/^PAGES_MOST /PAGES /')
kinds=$(sed -nE 's/^ +Kind::(\w+) => ([0-9]+),$/KIND_\U\1 \2/p' crates/records/src/lib.rt)
# Where several calls have one reason, the header has a name for each of them.
refusals=$(sed -nE 's/^ +Reason::(\w+) => ([0-9]+),$/\1 \2/p' crates/terms/src/lib.rt | grep -v '^NoTab ' \
    | sed -E 's/([a-z])([A-Z0-9])/\1_\2/g' | tr '[:lower:]' '[:upper:]' \
    | awk '
        BEGIN {
            names["ROOM"] = "KEY_ROOM RECORD_ROOM LIST_ROOM MANY_ROOM"
            names["COUNT"] = "NAME_COUNT END_COUNT"
            names["TABLE_ROOM"] = "NO_ROOM"
        }
        {
            count = split($1 in names ? names[$1] : $1, name, " ")
            for (i = 1; i <= count; i++) print "REFUSED_" name[i], $2
        }' | sort)
same 'the header and the crates have different refusals' "$(grep '^REFUSED_' <<< "$header")" "$refusals"
same 'the header and the crates have different numbers' '' \
    "$(comm -23 <(grep -v '^INTERFACE ' <<< "$header") <(sort <<< "$constants"$'\n'"$kinds"$'\n'"$refusals"))"

CARGO_TARGET_DIR=build/rust cargo test --quiet --offline --manifest-path bindings/rust/Cargo.toml
bash tests/readme.sh
