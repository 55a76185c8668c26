#!/usr/bin/env bash
# Fuzzes the C interface (tests/fuzz): runs the stored inputs, then for MZ_FUZZ_SECONDS seconds (10 without it) what libFuzzer
# makes of them. Before that, sees the target fail: the stored inputs must find each wrong library of tests/fuzz/wrong.
#
# Needs build/lib/libmundeziwa.a, which `make lib` leaves (MUNDEZIWA_LIB_DIR names another directory), objcopy, and clang with
# its runtime. A fault is a failure, and the input that brought it is left in build/fuzz. The stored inputs aren't changed: the
# fuzzer works on a copy.
set -euo pipefail
cd "$(dirname "$0")/.."
# shellcheck source=tests/packages.sh
. tests/packages.sh

readonly LIB="${MUNDEZIWA_LIB_DIR:-build/lib}/libmundeziwa.a"
readonly FOR="${MZ_FUZZ_SECONDS:-10}"
readonly OUT=build/fuzz
readonly COMPILE=(clang -std=c11 -g -O1 -Wall -Wextra -Werror -pedantic -Iinclude)
readonly SANITIZE=-fsanitize=fuzzer,address
# The library allocates nothing, and the search for leaks needs rights that a container may not give.
readonly OPTIONS=(-detect_leaks=0 -seed=20071001 -max_len=200 -timeout=60 "-artifact_prefix=$OUT/")
# A call and its mistake: the names of a file in tests/fuzz/wrong and of a number there.
readonly WRONG=(order/READS_AFTER_TEXT order/READS_BEFORE_TEXT order/READS_AFTER_POOL order/READS_AFTER_KEY
    order/WRITES_ON_REFUSAL order/ANSWERS_ON_REFUSAL order/PREFIX_IS_EQUAL order/READS_AFTER_RANKS order/WRITES_BEYOND_PRESENCE
    read_record/READS_AFTER_RECORDS read_record/ANSWERS_ON_REFUSAL read_record/STARTS_AT_THE_COLLATION
    read_record/TAKES_A_CUT_RECORD read_record/TAKES_FLAG_0_UNDER_1
    write_text/ANSWERS_WITHOUT_THE_LENGTH write_text/WRITES_AFTER_THE_RECORD
    write_key/WRITES_ON_REFUSAL write_key/COLLATION_OF_ONE_OCTET write_key/ROOM_BEFORE_BODY
    find_shared/READS_AFTER_SECOND_LIST find_shared/READS_AFTER_POSITIONS find_shared/WRITES_ON_REFUSAL
    find_shared/WRITES_AFTER_PARTNERS find_shared/PARTNERS_FROM_0 find_shared/TIES_REVERSED find_shared/PAIRS_ARE_NAMES
    find_shared/EMPTY_LISTS_SKIP_TABLE find_shared/PLACE_OF_THE_OTHER_LIST find_shared/FILLS_SHORT_PAGES
    prepare_many/READS_AFTER_OCTETS prepare_many/READS_AFTER_ENDS prepare_many/READS_AFTER_VALID prepare_many/WRITES_ON_REFUSAL
    prepare_many/WRITES_AFTER_KEY_ENDS prepare_many/KEY_ENDS_ARE_STARTS prepare_many/VALID_REVERSED
    prepare_many/NO_TEXTS_SKIP_TABLE prepare_many/FAULTS_COUNT_FROM_1 prepare_many/RANKS_COUNT_THE_PAGE
    match_keys/READS_AFTER_STORE match_keys/READS_AFTER_PARTNERS match_keys/WRITES_ON_REFUSAL match_keys/WRITES_AFTER_ROW
    match_keys/TIES_REVERSED match_keys/LAST_PLACE_REPEATS match_keys/PARTNERS_AMONG_ALL_KEYS match_keys/PAIRS_ARE_NAMES
    match_keys/TOO_MANY_FIRST_NAMES_TAKEN)
# The sanitizer finds no place for its memory under some kernels' randomised addresses; without them it always does.
STEADY=()
if setarch --addr-no-randomize true 2> /dev/null; then
    STEADY=(setarch --addr-no-randomize)
fi
readonly STEADY

fail() {
    echo "fuzz: $*" >&2
    exit 1
}

# run WHAT ARGUMENT..: runs the fuzzer, and says how many runs there were.
run() {
    local what=$1 runs
    shift
    "${STEADY[@]}" "$OUT/calls" "${OPTIONS[@]}" "$@" > "$OUT/calls.log" 2>&1 \
        || { tail -n 40 "$OUT/calls.log" >&2; fail "a fault, found by $what"; }
    runs=$(sed -n 's/^Done \([0-9]*\) runs .*/\1/p' "$OUT/calls.log")
    [ "${runs:-0}" -gt 0 ] || fail "nothing was run by $what"
    echo "fuzz: $runs runs, $what"
}

# must_find CALL/MISTAKE: the stored inputs find a library whose call has this mistake.
must_find() {
    local call=${1%/*} mistake=${1#*/}
    "${COMPILE[@]}" "-DWRONG=$mistake" -c -o "$OUT/wrong.o" "tests/fuzz/wrong/$call.c" || fail "$1 doesn't build"
    clang "$SANITIZE" -o "$OUT/wrong" "${objects[@]}" "$OUT/wrong.o" "$OUT/without_$call.a" || fail "$1 doesn't link"
    ! "${STEADY[@]}" "$OUT/wrong" "${OPTIONS[@]}" -runs=0 "$OUT/corpus" > "$OUT/wrong.log" 2>&1 || fail "$1 is not found"
    grep -Eq "doesn't hold|AddressSanitizer: SEGV" "$OUT/wrong.log" \
        || { cat "$OUT/wrong.log" >&2; fail "$1 stops in another way"; }
}

[[ $FOR =~ ^[1-9][0-9]*$ ]] || fail "MZ_FUZZ_SECONDS is no number above 0: $FOR"
[ -f "$LIB" ] || fail "no $LIB"
rm -rf "$OUT"
mkdir -p "$OUT"
need_fuzzer || fail "clang can't build a fuzzer"

objects=()
for source in tests/fuzz/*.c; do
    objects+=("$OUT/$(basename "$source" .c).o")
    "${COMPILE[@]}" "$SANITIZE" -c -o "${objects[-1]}" "$source" || fail "$source doesn't build"
done
clang "$SANITIZE" -o "$OUT/calls" "${objects[@]}" "$LIB" || fail "the target doesn't link"

cp -r tests/fuzz/corpus "$OUT/corpus"
inputs=("$OUT"/corpus/*)
[ -f "${inputs[0]}" ] || fail "tests/fuzz/corpus is empty"
for source in tests/fuzz/wrong/*.c; do
    call=$(basename "$source" .c)
    objcopy --redefine-sym "mz_$call=proved_mz_$call" "$LIB" "$OUT/without_$call.a"
done
for mistake in "${WRONG[@]}"; do
    must_find "$mistake"
done
echo "fuzz: ${#WRONG[@]} wrong libraries, all found"
rm -f "$OUT"/crash-*
run "the ${#inputs[@]} stored inputs" -runs=0 "$OUT/corpus"
run "$FOR seconds from the stored inputs" "-max_total_time=$FOR" "$OUT/corpus"
