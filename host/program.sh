#!/bin/bash
# Tests the program `treecheck`: program.sh PATH-OF-THE-EXECUTABLE
# The samples are written by host/samples (SAMPLES may name its executable).
set -u
. "$(dirname "$0")/common.sh"
begin "program.sh PATH-OF-THE-EXECUTABLE" "$@"
host=$(cd "$(dirname "$0")" && pwd)

if [ -n "${SAMPLES:-}" ]; then
    "$SAMPLES" "$work/samples" || exit 2
else
    (cd "$host" && cargo run --quiet --release -p samples -- "$work/samples") || exit 2
fi

case=$work/case

# in_folder NAME LINE: runs the program in the case's folder.
in_folder() {
    (cd "$case" && "$program") >"$work/out" 2>/dev/null </dev/null
    line "$1" "$2"
}

# by_paths NAME LINE ASK NET FORMULA TREE: runs it with four arguments.
by_paths() {
    (cd "$work" && "$program" "$3" "$4" "$5" "$6") >"$work/out" 2>/dev/null </dev/null
    line "$1" "$2"
}

# start SAMPLE: a fresh copy of a sample.
start() {
    rm -rf "$case"
    cp -r "$work/samples/$1" "$case"
    rm "$case/LINE"
}

# fill FILE SIZE: cuts a file or extends it with zero bytes.
fill() {
    truncate -s "$2" "$case/$1"
}

for sample in "$work"/samples/*; do
    name=$(basename "$sample")
    start "$name"
    line=$(cat "$sample/LINE")
    in_folder "$name" "$line"
    by_paths "$name by paths" "$line" "$case/ASK" "$case/NET" "$case/FORMULA" "$case/TREE"
done

# The arguments count, not the names of the files, nor those in the folder.
start r-holds
mkdir "$work/other"
cp "$case/ASK" "$work/other/a"
cp "$case/NET" "$work/other/b"
cp "$case/FORMULA" "$work/other/c"
cp "$case/TREE" "$work/other/d"
by_paths "other names" "accepted nodes 23" other/a other/b other/c other/d
by_paths "arguments in order" "refused 1 at 0" other/b other/a other/c other/d
by_paths "paths: no ask" "unread ASK" other/none other/b other/c other/d
by_paths "paths: no net" "unread NET" other/a other/none other/c other/d
by_paths "paths: no formulas" "unread FORMULA" other/a other/b other/none other/d
by_paths "paths: no tree" "unread TREE" other/a other/b other/c other/none
by_paths "paths: an empty path" "unread TREE" other/a other/b other/c ""

# Missing files, and folders and links to nothing in place of files.
for name in ASK NET FORMULA TREE; do
    start r-holds
    rm "$case/$name"
    in_folder "missing $name" "unread $name"
    mkdir "$case/$name"
    in_folder "a folder in place of $name" "unread $name"
    rmdir "$case/$name"
    ln -s nowhere "$case/$name"
    in_folder "a link to nothing in place of $name" "unread $name"
done

# The first that can't be read, in the order ASK, NET, FORMULA, TREE.
start r-holds
rm "$case/NET" "$case/TREE"
in_folder "NET and TREE missing" "unread NET"
rm "$case/FORMULA"
in_folder "NET, FORMULA and TREE missing" "unread NET"
rm "$case/ASK"
in_folder "all missing" "unread ASK"
start r-holds
fill ASK 5
rm "$case/TREE"
in_folder "reads all before it checks" "unread TREE"
start r-holds
fill NET 64001
rm "$case/ASK"
in_folder "ASK missing, NET too long" "unread ASK"
start r-holds
fill NET 64001
rm "$case/FORMULA"
in_folder "NET too long, FORMULA missing" "unread NET"

# 64,000 bytes are read, 64,001 are not.
start full-file
[ "$(wc -c <"$case/TREE")" -eq 64000 ] || echo "the full file has another size"
in_folder "a tree of 64,000 bytes" "accepted nodes 1600"
fill TREE 64001
in_folder "a tree of 64,001 bytes" "unread TREE"
fill TREE 1000000
in_folder "a tree of 1,000,000 bytes" "unread TREE"
start r-holds
fill TREE 64000
in_folder "a tree filled up" "broken 20 at 23"
start r-holds
fill ASK 64000
in_folder "an ask of 64,000 bytes" "refused 1 at 0"
fill ASK 64001
in_folder "an ask of 64,001 bytes" "unread ASK"
start r-holds
fill NET 64000
in_folder "a net of 64,000 bytes" "refused 2 at 0"
fill NET 64001
in_folder "a net of 64,001 bytes" "unread NET"
start r-holds
fill FORMULA 64000
in_folder "formulas of 64,000 bytes" "refused 4 at 0"
fill FORMULA 64001
in_folder "formulas of 64,001 bytes" "unread FORMULA"

# Empty files and small changes.
for refusal in "ASK 1" "NET 2" "FORMULA 4" "TREE 6"; do
    start r-holds
    fill "${refusal% *}" 0
    in_folder "empty ${refusal% *}" "refused ${refusal#* } at 0"
done
start r-holds
for name in ASK NET FORMULA TREE; do fill "$name" 0; done
in_folder "four empty files" "refused 1 at 0"
start r-holds
fill NET 71
in_folder "a net cut short" "refused 2 at 0"
start r-holds
printf '\001' | dd of="$case/NET" bs=1 seek=47 conv=notrunc 2>/dev/null
in_folder "a spare byte of transition 1" "refused 3 at 1"
start r-holds
printf '\001' | dd of="$case/NET" bs=1 seek=42 conv=notrunc 2>/dev/null
in_folder "transition 1 optional" "broken 26 at 2"
printf '\002' | dd of="$case/NET" bs=1 seek=42 conv=notrunc 2>/dev/null
in_folder "a mark of 2 in transition 1" "refused 3 at 1"
start r-holds
printf '\006' | dd of="$case/FORMULA" bs=1 seek=16 conv=notrunc 2>/dev/null
in_folder "operator 6 in formula 2" "refused 5 at 2"
start r-holds
printf '\013' | dd of="$case/ASK" bs=1 conv=notrunc 2>/dev/null
in_folder "marking beyond the places" "refused 7 at 0"
start r-holds
fill TREE 919
in_folder "a tree cut short" "refused 6 at 0"
start r-holds
fill TREE 880
in_folder "a tree without its last node" "broken 20 at $(
    # The parent of node 22 counts a child outside the table.
    od -An -tu4 -j $((22 * 40 + 24)) -N 4 "$work/samples/r-holds/TREE" | tr -d ' '
)"

finish
