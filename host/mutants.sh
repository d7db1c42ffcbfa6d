#!/bin/bash
# Tries the comparison out: builds copies of the stand-in with one mistake each
# and sees that `compare` notices each. Works in a temporary folder.
# Usage: mutants.sh [CASES [NAME-PREFIX]]
# A mistake that a tenth of the cases shows is not tried with all of them.
set -eu
cases=${1:-1000000}
only=${2:-}
host=$(cd "$(dirname "$0")" && pwd)
work=$(mktemp -d)
trap 'rm -rf "$work"' EXIT
tar -C "$host" --exclude=./target -cf - . | tar -C "$work" -xf -
cd "$work"

# Reference and stand-in as one crate, built as a shared library, so that
# `compare` is linked once.
cp -r reference/src pristine
sed 's/reference::/crate::/' stand_in/src/lib.rs >pristine/c.rs
echo 'mod c;' >>pristine/lib.rs
sed -i 's/static:-bundle=desk/dylib=desk/; s/libdesk\.a/libdesk.so/g' archive/build.rs
mkdir lib

build() {
    rustc --edition 2024 --crate-name mutant --crate-type cdylib --cap-lints allow \
        -C opt-level=1 -C panic=abort -o lib/libdesk.so "$1/lib.rs" 2>build.log
}

build pristine
DESK_LIB="$work/lib" cargo build --quiet --release -p compare
export LD_LIBRARY_PATH="$work/lib"
./target/release/compare "$cases" >out.log
echo "without a mistake: $(tail -1 out.log)"

noticed=0
missed=0

# shown CASES: whether that many cases show a difference (or the run stops).
shown() {
    timeout 120 ./target/release/compare "$1" >out.log 2>&1 && return 1
    local differences against
    differences=$(sed -n 's/^differences: \([0-9]*\)$/\1/p' out.log)
    against=$(sed -n 's/^accepted against the meaning: \([0-9]*\)$/\1/p' out.log)
    evidence="${differences:-stopped} differences, ${against:-?} against the meaning, $1 cases"
    [ "$differences" != 0 ]
}

miss() {
    missed=$((missed + 1))
    echo "$1"
}

# mutant NAME FILE OLD NEW: replaces the one occurrence of OLD.
mutant() {
    case $1 in "$only"*) ;; *) return 0 ;; esac
    rm -rf mutant
    cp -r pristine mutant
    if ! OLD=$3 NEW=$4 perl -0777 -i -pe \
        '$n = () = /\Q$ENV{OLD}\E/g; die "found $n times\n" if $n != 1; s/\Q$ENV{OLD}\E/$ENV{NEW}/' \
        "mutant/$2.rs"; then
        miss "NOT APPLIED  $1"
    elif ! build mutant; then
        miss "NOT BUILT    $1"
        tail -20 build.log
    elif shown $((cases / 10)) || shown "$cases"; then
        noticed=$((noticed + 1))
        echo "noticed      $1: $evidence"
    else
        miss "MISSED       $1"
    fi
}

. "$host/mutants.list"

echo "$noticed noticed, $missed missed"
[ "$missed" -eq 0 ]
