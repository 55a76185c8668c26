#!/usr/bin/env bash
# The whole check: `rt ci`, then the library, and the tests of it and of the program.
# The last line of `rt ci` is held back and printed last, only if everything passed.
set -u
cd "$(dirname "$0")/.." || exit 1
export MZ_INSTALL="${MZ_INSTALL:-yes}" # MZ_INSTALL=no: nothing is installed
failed=0
fail() {
    printf 'FAILED: %s\n' "$1" >&2
    failed=1
}

# What a test misses of Debian's packages is named and installed before anything else.
# shellcheck source=tests/packages.sh
. tests/packages.sh
need_unicode_data || fail 'no UnicodeData.txt'
need_normalization_test || fail 'no NormalizationTest.txt'
need_fuzzer || fail 'no clang that can build a fuzzer'
need_pandas || fail 'no Python with pandas'
need_ensurepip || fail 'no Python that can install pip'

verdict=$(mktemp)
counted=$(mktemp)
fuzzed=$(mktemp)
trap 'rm -f "$verdict" "$counted" "$fuzzed"' EXIT
rt ci 2>&1 | awk -v verdict="$verdict" -v counted="$counted" '
    NR > 1 { print last; fflush() }
    /^rt: ok;/ { print > counted }
    { last = $0 }
    END { print last > verdict }'
[ "${PIPESTATUS[0]}" -eq 0 ] || fail 'rt ci'
grep -Eqx '[0-9]+ passed, 0 failed' "$verdict" || fail "rt ci ended with: $(cat "$verdict")"
# An edit that can't be applied fails nothing there, and must here: it shows nothing of a contract.
grep -Eq '; must-fail edits: [1-9][0-9]* refused' "$counted" || fail 'rt ci does not say that it tried the must-fail edits'
! grep -Eq ', [1-9][0-9]* bad' "$counted" || fail "rt ci has bad must-fail edits: $(cat "$counted")"
# It leaves the program that it ran; where it doesn't, this builds it.
[ -x crates/pairs/out/pairs ] || make pairs > /dev/null || fail 'make pairs'

bash tests/specification.sh || fail 'tests/specification.sh: docs/SPECIFICATION.md and the definitions differ'
bash tests/library.sh || fail 'tests/library.sh: the library does not answer C or Rust as it should'
bash tests/python.sh || fail 'tests/python.sh: the Python package or the command does not answer as it should'
bash tests/pairs.sh || fail 'tests/pairs.sh: the program pairs does not print what it should'
# The fuzzer takes one core, and so does the comparison: they run at once, and what the fuzzer says is printed after.
bash tests/fuzz.sh > "$fuzzed" 2>&1 &
fuzzer=$!
bash tests/second.sh || fail 'tests/second.sh: the library and the second program differ, or could not be compared'
wait "$fuzzer" || fail 'tests/fuzz.sh: the fuzzer found a fault, or could not run'
cat "$fuzzed"
bash tests/mistakes.sh || fail 'tests/mistakes.sh: a planted mistake was not found'

[ "$failed" -eq 0 ] || exit 1
cat "$verdict"
