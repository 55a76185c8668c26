#!/usr/bin/env bash
# The Python package and the command (tests/python), on the library that `make lib` leaves in build/lib: with `pip install` into a
# virtual environment, with pandas under a Python that has it, and with the published UnicodeData.txt. Whatever is missing is a
# failure.
set -euo pipefail
cd "$(dirname "$0")/.."
# shellcheck source=tests/packages.sh
. tests/packages.sh

fail() {
    echo "python: $*" >&2
    exit 1
}

[ -f build/lib/libmundeziwa.so ] || fail 'build/lib has no libmundeziwa.so: make lib'
need_unicode_data || fail 'no UnicodeData.txt'
need_pandas || fail 'no pandas'
need_ensurepip || fail 'no ensurepip'

readonly LOG=build/python.log
unset MUNDEZIWA_LIBRARY
export PYTHONPATH="$PWD/bindings/python" PYTHONDONTWRITEBYTECODE=1
export MZ_TEST_PIP=1 MZ_REQUIRE_UNICODE_DATA=1 MZ_REQUIRE_PANDAS=1
python3 -m unittest discover -s tests/python > "$LOG" 2>&1 || { cat "$LOG" >&2; fail 'a test fails'; }
tests=$(sed -n 's/^Ran \([1-9][0-9]*\) tests in .*/\1/p' "$LOG")
[ -n "$tests" ] || fail 'no test was run'
echo "python: $tests tests of the package and the command: $(tail -n 1 "$LOG")"
