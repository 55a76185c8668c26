#!/usr/bin/env bash
# Sees the comparison fail: each edit of tests/mistakes plants one mistake in a copy of the second program, and each must be
# found.
#
# Needs what tests/second.sh needs; the comparison is run with fewer cases (MZ_SHORT, MZ_CASES). Prints `NAME found by PART` for
# each mistake. One that isn't found, doesn't fit the second program, doesn't build, or stops the comparison in another way than
# by a difference (exit status 1) is a failure. Each part must find one by itself. MZ_JOBS is how many are tried at once, each
# job on a copy and in a build directory of its own. With a name as argument: that mistake alone; with a part after it: by that
# part.
set -euo pipefail
cd "$(dirname "$0")/.."

MUNDEZIWA_LIB_DIR="$(realpath -m "${MUNDEZIWA_LIB_DIR:-build/lib}")"
export MUNDEZIWA_LIB_DIR
readonly WORK="$PWD/build/mistakes${JOB:-0}"
readonly COPY="$WORK/copy"
export CARGO_TARGET_DIR="$WORK/target"
readonly COMPARE="$CARGO_TARGET_DIR/mistakes/compare"
export MZ_SHORT=yes MZ_CASES="${MZ_CASES:-5000}"
# The interpreter itself, found once: a shim before it takes longer than an edit.
MZ_PYTHON="${MZ_PYTHON:-$(python3 -c 'import sys; print(sys.executable)')}"
export MZ_PYTHON
# An edit may leave something unused behind; a warning of that says nothing.
export RUSTFLAGS=-Awarnings

fail() {
    echo "mistakes: $*" >&2
    exit 1
}

# Copies what the comparison is built of. Cargo goes by the files' times: those of the second program are new each time, so that
# what one mistake left is never taken for the next, and the others keep theirs.
copy() {
    rm -rf "$COPY"
    mkdir -p "$COPY/tests" "$COPY/bindings/rust/src"
    cp -r tests/second "$COPY/tests"
    cp -a tests/compare tests/data "$COPY/tests"
    cp -a bindings/rust/src/ffi.rs "$COPY/bindings/rust/src"
}

build() {
    cargo build --quiet --profile mistakes --offline --manifest-path "$COPY/tests/compare/Cargo.toml"
}

# Plants one mistake and says which part finds it.
try() {
    local output status=0
    copy
    "$MZ_PYTHON" -I -S tests/edit.py "tests/mistakes/$1.edit" "$COPY/tests/second" || { echo "$1 DOESN'T FIT"; return 1; }
    build || { echo "$1 DOESN'T BUILD"; return 1; }
    output=$("$COMPARE") || status=$?
    case $status in
        0) echo "$1 NOT FOUND"; return 1 ;;
        1) echo "$1 found by $(sed -n 's/: DIFFERENCE$//p' <<< "$output")" ;;
        *) echo "$1 STOPPED WITH STATUS $status AND NOT BY A DIFFERENCE"; return 1 ;;
    esac
}

# must_be_error VARIABLE=VALUE..: with these the comparison can't be made, and that is exit status 2.
must_be_error() {
    local status=0
    env "$@" "$COMPARE" > /dev/null 2>&1 || status=$?
    [ "$status" -eq 2 ] || fail "$* gives exit status $status, not 2"
}

# try_each N: tries mistakes, each of N arguments on standard input, so many at once.
try_each() {
    xargs -n "$1" -P "${MZ_JOBS:-2}" --process-slot-var=JOB bash tests/mistakes.sh
}

if [ $# -gt 0 ]; then
    [ $# -lt 2 ] || export MZ_PARTS=$2
    try "$1"
    exit
fi

# Without a mistake nothing may be found, or what follows says nothing.
[ -f "$MUNDEZIWA_LIB_DIR/libmundeziwa.a" ] || fail "no libmundeziwa.a in $MUNDEZIWA_LIB_DIR"
copy
build || fail "the comparison doesn't build"
output=$("$COMPARE") || { echo "$output"; fail "the comparison fails without any mistake"; }

# A comparison that can't be made is no difference.
must_be_error MZ_PARTS=0
must_be_error MZ_PARTS=
must_be_error MZ_CASES=0
must_be_error MZ_CASES=many
must_be_error MZ_SEED=-1
must_be_error MZ_SHORT=maybe
must_be_error MZ_PARTS=2 MZ_UNICODE_DATA=/nowhere
must_be_error MZ_PARTS=5 MZ_UNICODE_DATA=/dev/null
must_be_error MZ_PARTS=2 MZ_SHORT= MZ_NFKD=/nowhere
must_be_error MZ_PARTS=2 MZ_SHORT= MZ_NFKD=build/nfkd.txt MZ_NORMALIZATION=/nowhere
must_be_error MZ_PARTS=2 MZ_SHORT= MZ_NFKD=build/nfkd.txt MZ_NORMALIZATION=/dev/null
must_be_error MZ_PARTS=4 MZ_SHORT= MZ_UNICODE_DATA=/dev/null
must_be_error MZ_PARTS=9 MZ_UNICODE_DATA=/dev/null
must_be_error MZ_PARTS=3 UTF8_TEST=/nowhere

names=()
for edit in tests/mistakes/*.edit; do
    names+=("$(basename "$edit" .edit)")
done
[ -f "tests/mistakes/${names[0]}.edit" ] || fail "tests/mistakes has no edit"
printf '%s\n' "${names[@]}" | try_each 1 || fail "not all of ${#names[@]} were found"
echo "${#names[@]} mistakes, all found"

# Part 1 comes first and finds them; each of the others finds these by itself too, so that none only seems to look.
try_each 2 << 'END' || fail "a part doesn't find by itself what it should"
mistake_titlecase_0_if_none 2
mistake_field_12_ignored 2
mistake_pages_rank_counts_its_own_bit 2
mistake_overlong_accepted 3
mistake_last_occurrence 4
mistake_field_12_ignored 4
mistake_pages_own_entries_counted_before 4
mistake_key_of_1281_octets_refused 4
mistake_one_part_of_ascii_not_asked 4
mistake_ascii_of_long_texts_not_decomposed 4
mistake_exact_buffer_of_65_octets_refused 4
mistake_marks_sorted 5
mistake_29_after_24 5
mistake_syllable_unchecked 5
mistake_syllable_line_taken 5
mistake_pages_15_after_8 5
mistake_pages_left_on_8 5
mistake_record_129_times_taken 6
mistake_record_8_writes_what_fits 6
mistake_list_last_partner 7
mistake_list_1025_names_taken 7
mistake_list_15_before_7 7
mistake_many_ties_reversed 8
mistake_many_8_key_ends_before_store 8
mistake_many_15_after_8 8
mistake_syllable_always_of_three_parts 9
mistake_syllable_range_ends_before_d7a3 9
mistake_syllable_not_asked_for_its_titlecase 9
END
