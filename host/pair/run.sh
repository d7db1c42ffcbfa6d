#!/bin/bash
# The cost of an archive before and after a change: run.sh BEFORE AFTER [CASE ..], two folders with libdesk.a.
# Both are linked into one program, in 16 layouts (each archive's code at four places within 64 bytes), and called in turn. One line for
# each case: the median time before, and the ratio of the medians: the median over the layouts, the least and the largest.
# RUNS calls in each layout (60), on processor CPU (1). No other work should be on the machine.
set -eu
if [ $# -lt 2 ] || [ ! -f "$1/libdesk.a" ] || [ ! -f "$2/libdesk.a" ]; then
    echo "run.sh BEFORE AFTER [CASE ..]" >&2
    exit 2
fi
before=$1/libdesk.a after=$2/libdesk.a
shift 2
host=$(cd "$(dirname "$0")/.." && pwd)
work=$(mktemp -d)
trap 'rm -rf "$work"' EXIT

DESK_LIB=$(cd "$(dirname "$after")" && pwd) cargo run --quiet --release --manifest-path "$host/Cargo.toml" -p bench -- tables "$work/tables"
gcc -std=c11 -O2 -Wall -Wextra -Werror -c "$host/pair/pair.c" -o "$work/pair.o"
# renamed SIDE ARCHIVE
renamed() {
    local names=()
    for name in check fire categories label pnml_write pnml_read write_tree convert_categories join save_room; do names+=(--redefine-sym "desk_$name=$1_desk_$name"); done
    objcopy "${names[@]}" "$2" "$work/$1.a"
}
renamed before "$before"
renamed after "$after"
# space NAME BYTES: code that is never run
space() {
    printf '.text\n.globl %s\n%s: .skip %d, 0x90\n.section .note.GNU-stack,"",@progbits\n' "$1" "$1" "$2" >"$work/$1.s"
}
for i in 16 32 48 64; do
    for j in 16 32 48 64; do
        space space_before $i
        space space_after $j
        gcc -o "$work/pair_${i}_$j" "$work/pair.o" "$work/space_before.s" -Wl,--whole-archive "$work/before.a" "$work/space_after.s" "$work/after.a" -Wl,--no-whole-archive
    done
done

cases=("$@")
[ $# -gt 0 ] || cases=(R trail chain and wide rings fire-r fire-64 categories label-small label-first label-middle label-last label-low label-high)
echo "case              before, ns   ratio   least  largest"
for case in "${cases[@]}"; do
    for program in "$work"/pair_*; do
        taskset -c "${CPU:-1}" "$program" "$work/tables" "${RUNS:-60}" "$case"
    done >"$work/lines"
    read -r time < <(cut -d' ' -f1 "$work/lines" | sort -n | sed -n 8p)
    cut -d' ' -f3 "$work/lines" | sort -n >"$work/ratios"
    printf '%-14s %13s   %s   %s   %s\n' "$case" "$time" $(sed -n '8p' "$work/ratios") $(sed -n '1p;$p' "$work/ratios")
done
