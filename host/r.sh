#!/bin/bash
# The tables of "R holds 2" as the program `samples` prints them, which are proved to be those of crates/sample_nets/specs and
# crates/sample_trees/specs: r.sh PATH-OF-SAMPLES [FOLDER]
# They must be, byte for byte, the files of examples/r, those that host/samples writes (SAMPLES may name its executable) and those of
# the C program (DESK_LIB is the folder of libdesk.a). With a folder, writes the four files there instead: examples/r is made so.
set -u
. "$(dirname "$0")/common.sh"
begin "r.sh PATH-OF-SAMPLES [FOLDER]" "${1:-}"
host=$(cd "$(dirname "$0")" && pwd)
names="ASK NET FORMULA TREE"

# The printed bytes of each table, as a file.
"$program" >"$work/lines" || exit 2
mkdir "$work/printed"
for name in $names; do
    for byte in $(sed -n "s/^R $name://p" "$work/lines"); do
        printf "\\$(printf '%03o' "$byte")"
    done >"$work/printed/$name"
done
if [ $# -eq 2 ]; then
    mkdir -p "$2" && cp "$work/printed"/* "$2"
    exit
fi

if [ -n "${SAMPLES:-}" ]; then
    "$SAMPLES" "$work/samples" || exit 2
else
    (cd "$host" && cargo run --quiet --release -p samples -- "$work/samples") || exit 2
fi
: "${DESK_LIB:?the folder of libdesk.a}"
libraries=()
for library in ${DESK_LINK:-}; do libraries+=("-l$library"); done
mkdir "$work/terminal"
gcc -std=c11 -I "${DESK_INCLUDE:-$host/../include}" "$host/terminal/terminal.c" "$DESK_LIB/libdesk.a" -o "$work/program" \
    "${libraries[@]}" && "$work/program" "$work/terminal" || exit 2

# same WHAT FOLDER: the four files are those that are printed.
same() {
    for name in $names; do
        cmp "$work/printed/$name" "$2/$name" || fail "$1" "another $name"
    done
}
[ "$(wc -c <"$work/printed/TREE")" -eq 920 ] || failed=1
same "examples/r" "$host/../examples/r"
same "host/samples" "$work/samples/r-holds"
same "the C program" "$work/terminal"
echo "R's tables in three places: $failed differ"
[ "$failed" -eq 0 ]
