# shellcheck shell=bash
# Debian's packages that a test needs; to be sourced. Nothing is installed without being named, and only where MZ_INSTALL=yes
# says so: tests/run.sh sets it unless it is set already.

# where Debian's package puts the published files, unless another place is named
export MZ_UNICODE_DATA="${MZ_UNICODE_DATA:-/usr/share/unicode/UnicodeData.txt}"
export MZ_NORMALIZATION_TEST="${MZ_NORMALIZATION_TEST:-/usr/share/unicode/NormalizationTest.txt.bz2}"

# need_packages WHAT PACKAGE..: WHAT is missing, and these packages have it.
need_packages() {
    local what=$1
    shift
    echo "$what is missing; Debian's packages with it: $*"
    if [ "${MZ_INSTALL:-no}" != yes ]; then
        echo "install them, or let MZ_INSTALL=yes say that this may" >&2
        return 1
    fi
    echo "installing $*"
    apt-get install -y "$@" || { apt-get update && apt-get install -y "$@"; }
}

# The published UnicodeData.txt is there.
need_unicode_data() {
    [ -f "$MZ_UNICODE_DATA" ] || need_packages "$MZ_UNICODE_DATA" unicode-data && [ -f "$MZ_UNICODE_DATA" ]
}

# The published NormalizationTest.txt is there.
need_normalization_test() {
    [ -f "$MZ_NORMALIZATION_TEST" ] || need_packages "$MZ_NORMALIZATION_TEST" unicode-data && [ -f "$MZ_NORMALIZATION_TEST" ]
}

# Whether clang is here with the runtime that a fuzzer is linked with; what it says otherwise is left in build/fuzzer.log.
can_build_fuzzer() {
    mkdir -p build
    printf 'int LLVMFuzzerTestOneInput(const char *data, unsigned long size) { return data == 0 && size == 0; }' \
        | clang -fsanitize=fuzzer,address -x c -o build/fuzzer - 2> build/fuzzer.log
}

# A fuzzer can be built.
need_fuzzer() {
    can_build_fuzzer && return
    need_packages 'clang, or its runtime for libFuzzer,' clang libclang-rt-14-dev || return 1
    can_build_fuzzer || { cat build/fuzzer.log >&2; return 1; }
}

# Whether a Python can import pandas: the one on the path, or Debian's own.
has_pandas() {
    python3 -c 'import pandas' 2> /dev/null || /usr/bin/python3 -c 'import pandas' 2> /dev/null
}

# The Python package can be tried with pandas.
need_pandas() {
    has_pandas || need_packages 'pandas' python3-pandas && has_pandas
}

# Whether Python can put pip into a virtual environment.
has_ensurepip() {
    python3 -c 'import ensurepip' 2> /dev/null
}

# `pip install` can be tried.
need_ensurepip() {
    has_ensurepip || need_packages "Python's ensurepip" python3-venv && has_ensurepip
}
