#!/bin/sh
# Proves and builds what is named, the archive `jelvaksna` or a program, with all that it rests on, and puts it into target/: the archive as
# target/staticlib/libjelvaksna.a, a program as target/bin/NAME. With no name: the archive and the programs that the host tests run.
set -eu
top=$(cd "$(dirname "$0")/.." && pwd -P)
[ $# -gt 0 ] || set -- jelvaksna slate scribe month month_scribe
for name in "$@"; do
    out=$top/crates/$name/out
    cd "$top/crates/$name"
    if [ "$name" = jelvaksna ]; then
        rt lib
        mkdir -p "$top/target/staticlib"
        cp "$out/libjelvaksna.a" "$top/target/staticlib/"
    else
        rt run <stdin >/dev/null
        mkdir -p "$top/target/bin"
        cp "$out/$name" "$top/target/bin/"
    fi
done
