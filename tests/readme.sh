#!/usr/bin/env bash
# README.md as a newcomer takes it: `make` shows the report that it shows; its Python program, its C program, compiled strictly,
# its Rust programs, in a crate with its line for Cargo.toml, and `pairs` print what it says; the file of records has the octets
# that it shows; its commands are those of `make help` and of `mundeziwa --help`, and its crates those of crates.txt.
# Needs build/lib, which `make lib` leaves, and crates/pairs/out/pairs, which `make pairs` leaves.
set -euo pipefail
cd "$(dirname "$0")/.."

fail() {
    echo "readme: $*" >&2
    exit 1
}

# same WHAT ONE OTHER: fails with the differing lines, unless the two texts are the same.
same() {
    [ "$2" = "$3" ] || { diff <(echo "$2") <(echo "$3") >&2 || true; fail "$1"; }
}

# block SECTION LANGUAGE: the lines of the block in that language that README.md's section has.
block() {
    awk -v heading="## $1" -v language="$2" '
        /^## / { here = $0 == heading }
        here && $0 == "```" language { inside = 1; next }
        $0 == "```" { inside = 0 }
        inside' README.md
}

# run_rust PROGRAM: what one of the Rust programs prints.
run_rust() {
    CARGO_TARGET_DIR=$OUT/target cargo run --quiet --offline --manifest-path "$OUT/Cargo.toml" --bin "$1" \
        || fail "the Rust program $1 fails"
}

# run_python ARGUMENT..: what Python prints with the package.
run_python() {
    PYTHONPATH=bindings/python python3 -B -X utf8 "$@"
}

readonly OUT=build/readme
mkdir -p "$OUT/src/bin"

# `make`, the library being there, and without the empty line before the report. Two dots stand for what README.md leaves out.
unset MUNDEZIWA_LIBRARY
said=$(block 'Two commands' text)
printed=$(make -s -o lib | tail -n +2) || fail 'make fails'
begins=${said%%$'\n..\n'*} ends=${said#*$'\n..\n'}
same 'the report begins otherwise' "$begins" "$(head -n "$(wc -l <<< "$begins")" <<< "$printed")"
same 'the report ends otherwise' "$ends" "$(tail -n "$(wc -l <<< "$ends")" <<< "$printed")"
if MUNDEZIWA_LIBRARY=none make -s -o lib > /dev/null 2>&1; then
    fail 'make ends well though there is no report'
fi

said=$(block 'From Python' text)
[ -n "$said" ] || fail 'README.md says nowhere what its Python program prints'
printed=$(run_python -c "$(block 'From Python' python)") || fail 'the Python program fails'
same 'the Python program prints something else' "$said" "$printed"

said=$(block 'From C' text)
[ -n "$said" ] || fail 'README.md says nowhere what its programs print'

block 'From C' c > "$OUT/example.c"
cc -std=c99 -Wall -Wextra -Werror -pedantic -Iinclude -o "$OUT/example" "$OUT/example.c" build/lib/libmundeziwa.a
printed=$("./$OUT/example") || fail 'the C program fails'
same 'the C program prints something else' "$said" "$printed"

{
    printf '[package]\nname = "example"\nversion = "0.1.0"\nedition = "2021"\n\n[workspace]\n\n[dependencies]\n'
    block 'From Rust' toml | sed "s|path/to/mundeziwa|$PWD|"
} > "$OUT/Cargo.toml"
block 'From Rust' rust > "$OUT/src/main.rs"
block 'Records in files' rust > "$OUT/src/bin/records.rs"
block 'Which names two lists share' rust > "$OUT/src/bin/lists.rs"
printed=$(run_rust example)
same 'the Rust program prints something else' "$said" "$printed"

rm -f build/names.records
printed=$(run_rust records)
same 'the program on records prints something else' "$(block 'Records in files' text)" "$printed"
shown=$(block 'Records in files' console)
# the octets stand between the offset and two spaces; xxd itself is asked where it is installed
same 'the file of records has other octets' "$(sed -n 's/^[0-9a-f]*: //p' <<< "$shown" | sed 's/  .*//' | tr '\n' ' ')" \
    "$(od -A n -v -t x1 build/names.records | tr -s ' \n' ' ' | sed 's/^ //')"
if command -v xxd > /dev/null; then
    same 'xxd prints something else' "$(tail -n +2 <<< "$shown")" "$(xxd -g 1 build/names.records)"
fi

printed=$(run_rust lists)
same 'the program on lists prints something else' "$(block 'Which names two lists share' text)" "$printed"

[ -x crates/pairs/out/pairs ] || fail 'crates/pairs/out/pairs is not there: make pairs'
# README.md adds the names after two spaces
said=$(sed -n '/^    collation /,/^    pairs /{s/^    //;s/  .*//;p}' README.md)
same 'pairs prints something else' "$said" "$(cd sample && ../crates/pairs/out/pairs < storms.txt)"

commands=$(sed -n 's/^    \(make [a-z]*  *[a-z].*\)/\1/p' README.md)
same 'README.md and make help have different commands' "$(make -s help)" "$commands"

# the help breaks its lines elsewhere
parts=$(sed -n 's/^    mundeziwa \([a-z]*\) [A-Z ]*  \([a-z].*\)/\1 \2/p' README.md | tr '\n' ' ')
same 'README.md and mundeziwa --help have different parts' "$parts" \
    "$(run_python -m mundeziwa --help | tr -s ' \n' ' ' | sed 's/.* parts: PART //;s/examples: .*//')"

crates=$(awk -F '|' '/^\| Crate/ { inside = 1; getline; next } !/^\|/ { inside = 0 } inside { print $2 }' README.md)
same 'README.md and crates.txt have different crates' "$(sed -nE 's/^([a-z0-9_]+)( staticlib)?:.*/\1/p' crates.txt | sort)" \
    "$(tr -d ' ' <<< "$crates" | tr , '\n' | sort)"
echo 'readme: what README.md says of its programs, commands and crates holds'
