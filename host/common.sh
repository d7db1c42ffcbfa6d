# What the test scripts share; they source it. `passed` and `failed` count what was tested.

# begin USAGE PATH: `program` is the executable at that path, `work` a new folder that is removed at the end. Says how the script is used and ends
# it with status 2 where that is no executable.
begin() {
    if [ $# -ne 2 ] || [ ! -x "$2" ]; then
        echo "$1" >&2
        exit 2
    fi
    program=$(cd "$(dirname "$2")" && pwd)/$(basename "$2")
    work=$(mktemp -d)
    trap 'rm -rf "$work"' EXIT
}

passed=0
failed=0

pass() {
    passed=$((passed + 1))
}

# fail NAME WHAT
fail() {
    failed=$((failed + 1))
    echo "$1: $2"
}

# line NAME LINE: what the program has written, in $work/out, must be that line and a newline, nothing else.
line() {
    printf '%s\n' "$2" >"$work/expected"
    if cmp -s "$work/expected" "$work/out"; then
        pass
    else
        fail "$1" "expected '$2', got:"
        head -c 300 "$work/out"
        echo
    fi
}

# The script's last line and status.
finish() {
    echo "$passed passed, $failed failed"
    [ "$failed" -eq 0 ]
}
