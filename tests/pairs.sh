#!/usr/bin/env bash
# The program `pairs` as its user meets it: tests/pairs.py runs crates/pairs/out/pairs, which `make pairs` leaves, on a table of
# cases.
set -euo pipefail
cd "$(dirname "$0")/.."

fail() {
    echo "pairs: $*" >&2
    exit 1
}

readonly PROGRAM="$PWD/crates/pairs/out/pairs"
command -v python3 > /dev/null || fail "python3 is missing"
[ -x "$PROGRAM" ] || fail "no $PROGRAM: make pairs builds it"
python3 tests/pairs.py "$PROGRAM"
