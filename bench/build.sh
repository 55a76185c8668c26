#!/usr/bin/env bash
# Builds the benchmarks: build/bench/occurrence, build/bench/records, build/bench/lists with Python's column if Python is here, and
# build/bench/names with each program that can be built here; it says which can't.
# MUNDEZIWA_ARCHIVE: the library's archive, if it isn't where `make lib` leaves it.
set -euo pipefail
cd "$(dirname "$0")/.."

archive=${MUNDEZIWA_ARCHIVE:-build/lib/libmundeziwa.a}
out=build/bench
# names made from the published file, and their keys by Mundeziwa and by straight C
keyed=(bench/inputs.c bench/straight.c bench/straight_lines.c bench/peers_mundeziwa.c)
sources=(bench/names.c bench/agreement.c bench/straight_paged.c "${keyed[@]}")
lists=(bench/lists.c bench/list_inputs.c bench/straight_lists.c bench/straight_records.c "${keyed[@]}")
flags=()
list_flags=()
libraries=("$archive")

# add_library NAME HEADER LIBRARY PACKAGE: adds bench/peers_NAME.c, if a program with that header and library can be built.
add_library() {
    if printf '#include <%s>\nint main(void) { return 0; }\n' "$2" | cc -x c - -o "$out/found" "-l$3" 2> /dev/null; then
        sources+=("bench/peers_$1.c")
        flags+=("-DWITH_${1^^}")
        libraries+=("-l$3")
    else
        echo "no column for $1: Debian's package $4 is missing"
    fi
}

# Adds ICU's fold from UTF-8 to UTF-8, which has no call for C, if a program in C++ with it can be built.
add_icu_casefold() {
    if printf '#include <unicode/normalizer2.h>\nint main() { return 0; }\n' \
        | c++ -x c++ - -o "$out/found" -licuuc 2> /dev/null; then
        # In C a member that is not named is 0 and needs no warning.
        c++ -std=c++20 -O3 -Wall -Wextra -Wno-missing-field-initializers -c -o "$out/peers_icu_casefold.o" \
            bench/peers_icu_casefold.cc
        sources+=("$out/peers_icu_casefold.o")
        flags+=(-DWITH_ICU_CASEFOLD)
        libraries+=(-licuuc -lstdc++)
    else
        echo "no column for ICU's NFKC_Casefold: Debian's package libicu-dev or g++ is missing"
    fi
}

# Adds the second program, if it and Rust's cargo are here.
add_second() {
    if [ ! -d tests/second ] || ! command -v cargo > /dev/null; then
        echo "no column for the second program: tests/second or Rust's cargo is missing"
        return
    fi
    CARGO_TARGET_DIR=$out/second cargo build --quiet --release --offline --manifest-path bench/second/Cargo.toml
    sources+=(bench/peers_second.c)
    flags+=(-DWITH_SECOND)
    # Rust's own library needs the rest, where they are not part of the C library.
    libraries+=("$out/second/release/libsecond_for_c.a" -lpthread -ldl -lm)
}

# Adds Python, if it is here.
add_python() {
    if command -v python3 > /dev/null; then
        list_flags+=(-DWITH_PYTHON)
    else
        echo "no column for Python: Debian's package python3 is missing"
    fi
}

mkdir -p "$out"
add_python
add_second
add_library icu unicode/unorm2.h icuuc libicu-dev
add_icu_casefold
add_library utf8proc utf8proc.h utf8proc libutf8proc-dev
add_library unistring uninorm.h unistring libunistring-dev
cc -O3 -Wall -Wextra -o "$out/occurrence" bench/occurrence.c crates/bench_find/out/libbench_find.a
cc -O3 -Wall -Wextra -o "$out/records" bench/records.c bench/straight_records.c "$archive"
cc -O3 -Wall -Wextra "${list_flags[@]}" -o "$out/lists" "${lists[@]}" "$archive"
cc -O3 -Wall -Wextra "${flags[@]}" -o "$out/names" "${sources[@]}" "${libraries[@]}"
