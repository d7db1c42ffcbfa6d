#!/bin/bash
# Proves and builds the archive and the programs, and puts them where the host tests and the guide find them: target/staticlib/libdesk.a and
# target/bin/NAME. With names, these alone: build.sh [desk | PROGRAM]..
# After `rt ci`, which leaves each program that it has built, AFTER_CI=1 takes those.
set -eu
cd "$(dirname "$0")/.."
mkdir -p target/bin target/staticlib

[ $# -gt 0 ] || set -- desk treecheck pnml samples
for name in "$@"; do
    if [ "$name" = desk ]; then
        (cd crates/desk && rt lib)
        cp crates/desk/out/libdesk.a target/staticlib/
    else
        built=crates/$name/out/$name
        if [ -z "${AFTER_CI:-}" ] || [ ! -x "$built" ]; then
            # `rt run` builds the program and runs it; how that run ends, here with no files to read, does not matter
            rm -f "$built"
            (cd "crates/$name" && rt run >/dev/null 2>&1 </dev/null) || true
        fi
        cp "$built" target/bin/
    fi
done
