#!/usr/bin/env bash
# The comparison of the proved library with the second program, from the repository root: tests/second.sh
#
# Needs build/lib/libmundeziwa.a, which `make lib` leaves (MUNDEZIWA_LIB_DIR names another directory), cargo, Python 3 and the
# published UnicodeData.txt and NormalizationTest.txt (MZ_UNICODE_DATA and MZ_NORMALIZATION_TEST name other places; Debian's
# package unicode-data has both). UTF8_TEST may name Markus Kuhn's UTF-8-test.txt, whose lines are then compared too. MZ_SEED and
# MZ_CASES set the random parts. Whatever is missing is a failure.
set -euo pipefail
cd "$(dirname "$0")/.."
# shellcheck source=tests/packages.sh
. tests/packages.sh

readonly EDITION=806e9aed65037197f1ec85e12be6e8cd870fc5608b4de0fffd990f689f376a73
MUNDEZIWA_LIB_DIR="$(realpath -m "${MUNDEZIWA_LIB_DIR:-build/lib}")"
export MUNDEZIWA_LIB_DIR
export CARGO_TARGET_DIR="$PWD/build/second"
export MZ_NFKD="$PWD/build/nfkd.txt"
export MZ_NORMALIZATION="$PWD/build/normalization.txt"

fail() {
    echo "second: $*" >&2
    exit 1
}

need() {
    command -v "$1" > /dev/null || fail "$1 is missing"
}

need cargo
need python3
need sha256sum
[ -f "$MUNDEZIWA_LIB_DIR/libmundeziwa.a" ] || fail "no libmundeziwa.a in $MUNDEZIWA_LIB_DIR"
need_unicode_data || fail "no UnicodeData.txt"
need_normalization_test || fail "no NormalizationTest.txt"
echo "$EDITION  $MZ_UNICODE_DATA" | sha256sum --check --quiet - || fail "$MZ_UNICODE_DATA isn't edition 15.0.0"
mkdir -p build
cargo build --quiet --release --offline --manifest-path tests/compare/Cargo.toml || fail "the comparison doesn't build"
python3 tests/second/nfkd.py "$MZ_UNICODE_DATA" > "$MZ_NFKD" || fail "nfkd.py failed"
python3 tests/second/normalization.py "$MZ_NORMALIZATION_TEST" "$MZ_UNICODE_DATA" > "$MZ_NORMALIZATION" \
    || fail "normalization.py failed"
status=0
"$CARGO_TARGET_DIR/release/compare" || status=$?
case $status in
    0) ;;
    1) fail "the programs differ" ;;
    2) fail "the programs could not be compared" ;;
    139) fail "something was read or written outside a lent slice (SIGSEGV)" ;;
    *) fail "the comparison broke off with status $status" ;;
esac
