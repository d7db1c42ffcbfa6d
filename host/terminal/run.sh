#!/bin/bash
# Builds the C program against libdesk.a in the folder DESK_LIB and runs it:
# plain, as C++, under valgrind and with sanitizers. DESK_LINK may name further
# libraries, DESK_INCLUDE the folder of desk.h.
set -eu
here=$(cd "$(dirname "$0")" && pwd)
include=${DESK_INCLUDE:-$here/../../include}
archive=${DESK_LIB:?the folder of libdesk.a}/libdesk.a
libraries=()
for library in ${DESK_LINK:-}; do libraries+=("-l$library"); done
work=$(mktemp -d)
trap 'rm -rf "$work"' EXIT

# run NAME COMMAND..
run() {
    printf '%s: ' "$1"
    shift
    "$@"
}

warnings=(-Wall -Wextra -Werror -pedantic -g -I "$include")

gcc -std=c11 -O2 "${warnings[@]}" "$here/terminal.c" "$archive" -o "$work/plain" "${libraries[@]}"
run gcc "$work/plain"
if command -v g++ >/dev/null; then
    g++ -x c++ -O2 "${warnings[@]}" "$here/terminal.c" -x none "$archive" -o "$work/cpp" "${libraries[@]}"
    run g++ "$work/cpp"
fi
if command -v valgrind >/dev/null; then
    run valgrind valgrind -q --error-exitcode=9 --leak-check=full "$work/plain"
fi
gcc -std=c11 -O1 -fsanitize=address,undefined -fno-sanitize-recover=all "${warnings[@]}" \
    "$here/terminal.c" "$archive" -o "$work/sanitized" "${libraries[@]}"
run sanitizers "$work/sanitized"
