#!/bin/bash
# All host tests but the benchmark: DESK_LIB=FOLDER all.sh PATH-OF-TREECHECK
# The programs `samples` and `pnml` stand beside treecheck.
set -eu
: "${DESK_LIB:?the folder of libdesk.a, as an absolute path}"
program=$(cd "$(dirname "$1")" && pwd)/$(basename "$1")
cd "$(dirname "$0")"
export DESK_LIB
cargo test --quiet --release -p reference -p generate
cargo build --quiet --release -p compare -p samples
cargo run --quiet --release -p compare -- vectors vectors
cargo run --quiet --release -p compare -- programs vectors "$(dirname "$program")"
cargo run --quiet --release -p compare
terminal/run.sh
./r.sh "$(dirname "$program")/samples"
./program.sh "$program"
./pnml.sh "$(dirname "$program")/pnml"
./guide.sh "$program"
