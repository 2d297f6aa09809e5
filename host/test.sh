#!/bin/sh
# Tests the archive from Rust and from C, and the programs slate, scribe, month and month_scribe. Builds none: `host/build.sh` does.
# JELVAKSNA_SEED sets the seed of the made books, JELVAKSNA_TIMES multiplies their number.
set -u
top=$(cd "$(dirname "$0")/.." && pwd -P) || exit 1
archive=$top/target/staticlib/libjelvaksna.a
out=$top/host/target/c
failed=''

if [ ! -f "$archive" ]; then
    echo "host tests: FAILED: $archive is missing: run 'host/build.sh jelvaksna' first"
    exit 1
fi
mkdir -p "$out" || exit 1

# step NAME COMMAND...: runs the command, and notes the name if it fails.
step() {
    name=$1
    shift
    echo "== $name"
    if ! "$@"; then
        echo "== $name: FAILED"
        failed="$failed
  $name"
    fi
}

tests() {
    timeout 1500 cargo test --release --offline --quiet --tests --no-fail-fast \
        --manifest-path "$top/host/Cargo.toml" -- --nocapture
}

example() {
    cargo run --release --offline --quiet --manifest-path "$top/host/Cargo.toml" --example "$1"
}

# compile NAME FLAGS...: host/c/NAME.c with the archive.
compile() {
    program=$1
    shift
    gcc -std=c11 -Wall -Wextra -Werror "$@" "-I$top/include" "$top/host/c/$program.c" "$archive" -o "$out/$program"
}

c_program() {
    compile "$1" -O2 && timeout 300 "$out/$1"
}

checked() {
    compile "$1" -O1 -g && timeout 300 valgrind -q --error-exitcode=9 "$out/$1" >/dev/null
}

cplusplus() {
    printf '#include "jelvaksna.h"\n' |
        g++ -std=c++17 -Wall -Wextra -Werror -pedantic "-I$top/include" -x c++ -fsyntax-only -
}

step 'cargo test' tests
step 'Rust example' example day
step 'Rust example of a morning' example morning
step 'Rust example of a bureau' example bureau
step 'Rust example of the latest free minute' example latest
step 'C example' c_program example
step 'C example of a morning' c_program morning
step 'C example of a bureau' c_program bureau
step 'C example of the latest free minute' c_program latest
step 'C guard pages' c_program guard_pages
if command -v valgrind >/dev/null; then
    step 'C example under valgrind' checked example
    step 'C example of a morning under valgrind' checked morning
    step 'C example of a bureau under valgrind' checked bureau
    step 'C example of the latest free minute under valgrind' checked latest
else
    echo '== valgrind is not there: not run'
fi
if command -v g++ >/dev/null; then step 'header in C++' cplusplus; else echo '== g++ is not there: not run'; fi

asked=$(nm -u "$archive" | awk '$1 == "U" { print $2 }' | sort -u | tr '\n' ' ')
echo "== the archive asks the C library for: ${asked:-nothing}"
if [ -n "$failed" ]; then
    echo "host tests: FAILED:$failed"
    exit 1
fi
echo 'host tests: all passed'
