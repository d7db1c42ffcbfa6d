#!/bin/bash
# Tests the code of docs/GUIDE.md and docs/REFERENCE.md: DESK_LIB=FOLDER guide.sh PATH-OF-TREECHECK
# The program `pnml` stands beside treecheck.
# A line `<!-- file: NAME -->` stands before a block that is a C program or a shell script, `<!-- output: NAME -->` before the block with what
# that one writes. Each is compiled and run in a copy of what the pages name. A table of nodes after `<!-- nodes: PATH -->` is compared with
# that file. DESK_LINK may name further libraries, DESK_DOCS another folder with the two pages.
set -u
: "${DESK_LIB:?the folder of libdesk.a, as an absolute path}"
. "$(dirname "$0")/common.sh"
begin "guide.sh PATH-OF-TREECHECK" "$@"
root=$(cd "$(dirname "$0")/.." && pwd)
docs=${DESK_DOCS:-$root/docs}
libraries=()
for library in ${DESK_LINK:-}; do libraries+=("-l$library"); done

# The code that the pages must have, and the files whose nodes they must list.
code="screen.c clerks.c loader.c converted.c rule.sh r.sh written.c room.c shelf.sh marks.sh editor.sh planner.c counters.c search.c terminal.c trail.sh"
tables="examples/r/TREE"

# The folder that the pages speak of.
mkdir -p "$work/page/docs" "$work/page/target/bin" "$work/page/target/staticlib" "$work/blocks"
cp -r "$root/include" "$root/examples" "$work/page"
cp "$root/docs/R.pnml" "$work/page/docs"
cp "$program" "$work/page/target/bin/treecheck"
cp "$(dirname "$program")/pnml" "$work/page/target/bin/pnml"
cp "$DESK_LIB/libdesk.a" "$work/page/target/staticlib"

# Takes out the blocks: `file NAME` and `output NAME` become files of that name. A mark that no block or table follows at once, one that
# occurs twice, and a block of C or shell without a mark are told.
awk -v to="$work/blocks/" '
    function tell(what) { print FILENAME ", line " FNR ": " what; bad = 1 }
    FNR == 1 { if (inside || mark != "") tell("the page before ends inside a block"); inside = 0; mark = ""; table = "" }
    inside && /^```$/ { inside = 0; if (name != "") close(name); name = ""; next }
    inside { if (name != "") print > name; next }
    /^```/ {
        inside = 1
        if (mark == "" && $0 != "```") tell("a block that is not tested")
        name = mark; mark = ""
        if (name != "") printf "" > name
        next
    }
    mark != "" { tell("no block after the mark"); mark = "" }
    /^<!-- (file|output): [a-z.]+ -->$/ {
        kind = $2; sub(":", "", kind)
        if (seen[kind $3]++) tell(kind " " $3 " once more")
        else mark = to kind "." $3
        next
    }
    /^<!-- nodes: [A-Za-z\/]+ -->$/ { path = $3; gsub("/", "_", path); table = to "nodes." path; printf "" > table; next }
    table != "" && /^\| [0-9]/ { gsub("[|]", " "); print > table; next }
    table != "" && /^\|/ { next }
    { table = "" }
    END { if (inside || mark != "") tell("the page ends inside a block"); exit bad }
' "$docs/GUIDE.md" "$docs/REFERENCE.md" >"$work/told" || fail "blocks" "$(cat "$work/told")"

# Marks that the lists above do not have.
for block in "$work"/blocks/*; do
    name=$(basename "$block")
    case " $code " in *" ${name#*.} "*) continue ;; esac
    case " ${tables//\//_} " in *" ${name#nodes.} "*) continue ;; esac
    fail "$name" "not in the list of guide.sh"
done

# build NAME: compiles a C program as the guide says; a script is taken as it is.
build() {
    case $1 in
    *.c)
        cp "$work/blocks/file.$1" "$work/page/$1"
        (cd "$work/page" && gcc -std=c11 -Wall -Wextra -Werror -Iinclude "$1" target/staticlib/libdesk.a -o "${1%.c}" "${libraries[@]}")
        ;;
    *) cp "$work/blocks/file.$1" "$work/page/$1" ;;
    esac
}

# start NAME: runs it in the folder.
start() {
    case $1 in
    *.c) (cd "$work/page" && "./${1%.c}") ;;
    *) (cd "$work/page" && bash -eu -o pipefail "$1") ;;
    esac </dev/null
}

for name in $code; do
    if [ ! -f "$work/blocks/file.$name" ] || [ ! -s "$work/blocks/output.$name" ]; then
        fail "$name" "no code or no output in the pages"
    elif ! build "$name"; then
        fail "$name" "does not compile"
    elif ! start "$name" >"$work/out"; then
        fail "$name" "ends with an error"
        cat "$work/out"
    elif ! diff "$work/blocks/output.$name" "$work/out"; then
        fail "$name" "writes something else"
    else
        pass
    fi
done

# put SIZE NUMBER: a little-endian number.
put() {
    local i value=$2
    for ((i = 0; i < $1; i++)); do
        printf "\\x$(printf %x $((value & 255)))"
        value=$((value >> 8))
    done
}

# The nodes of a table's lines, side 0: node, marking, anchor, kept, parent, first, formula, children, rule, phase, round, transition.
nodes() {
    local k=0 node marking anchor kept parent first formula children rule phase round transition
    while read -r node marking anchor kept parent first formula children rule phase round transition; do
        [ "$node" -eq "$k" ] || return 1
        k=$((k + 1))
        put 8 "$marking" && put 8 "$anchor" && put 8 "$kept" && put 4 "$parent" && put 4 "$first" && put 2 "$formula"
        put 1 "$children" && put 1 "$rule" && put 1 0 && put 1 "$phase" && put 1 "$round" && put 1 "$transition"
    done
}

for path in $tables; do
    lines=$work/blocks/nodes.${path//\//_}
    if [ ! -s "$lines" ]; then
        fail "$path" "no table of nodes in the pages"
    elif ! nodes <"$lines" >"$work/nodes" || ! cmp "$work/nodes" "$root/$path"; then
        fail "$path" "the table of nodes is another"
    else
        pass
    fi
done

finish
