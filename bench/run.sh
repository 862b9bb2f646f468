#!/bin/sh
# run.sh BENCH ROUNDS: builds each implementation in the folder BENCH, checks that all do the same work, and measures them in
# turns: in each round an operation of one beside the same of the next, so that a slow spell of the machine meets all. Leaves
# BENCH/times.tsv and BENCH/instructions.tsv; a round takes half a minute, the counts two minutes. From the environment:
#
#   PROJECT_LIB   the static library of this project's calls (rattle/build.sh, or the crate for Rust: see bin/bench)
#   BSON_CRATE    the folder of bson 2.15.0, without which the Rust crate is left out
#   NO_PYTHON     without pymongo
#   NO_COUNTS     without instructions
#   ONLY_CRATE    beside the Rust crate alone
#   BB_OPS, BB_DOCS, BB_SAMPLES, BB_MICROS   as driver.c says
set -eu
here=$(cd "$(dirname "$0")" && pwd)
bench=$1
rounds=$2
data=$bench/data
build=$bench/build
mkdir -p "$data" "$build"
log() { echo "run.sh: $*" >&2; }

log "documents"
python3 "$here/documents.py" "$data" >&2

log "building"
flags="-O2 -Wall -Wextra -I$here"
gcc $flags "$here/driver.c" "$here/libbson.c" "$here/absent.c" $(pkg-config --cflags --libs libbson-1.0) -o "$build/libbson"
gcc $flags "$here/driver.c" "$here/by_hand.c" "$here/absent.c" -o "$build/by_hand"
c=$(dirname "$(rt doc)")/c
gcc $flags "$here/driver.c" "$here/absent.c" -Wl,--whole-archive "$PROJECT_LIB" -Wl,--no-whole-archive \
    "$c/liblibc_c.a" "$c/libos_c.a" -o "$build/project"
names="libbson by_hand project"
[ -z "${ONLY_CRATE:-}" ] || names=project
if [ -n "${BSON_CRATE:-}" ]; then
    "$here/rust/build.sh" "$BSON_CRATE" "$bench/rust_crate"
    gcc $flags "$here/driver.c" "$bench/rust_crate/target/release/libffi.a" -lpthread -ldl -lm -o "$build/rust_crate"
    names="$names rust_crate"
else
    log "without the Rust crate: BSON_CRATE isn't set"
fi

log "checking"
for name in $names; do "$build/$name" "$name" "$data" check; done
[ -n "${NO_PYTHON:-}" ] || /usr/bin/python3 "$here/pymongo_trees.py" "$data" check

: >"$bench/times.tsv"
export BB_SAMPLES="${BB_SAMPLES:-4}" BB_MICROS="${BB_MICROS:-2500}"
operations=${BB_OPS:-frames,values,values_noutf8,visit,visit_noutf8,get,get_str,validate,tree,round,rebuild,append,push}
for round in $(seq "$rounds"); do
    log "round $round of $rounds"
    for operation in $(echo "$operations" | tr , ' '); do
        for name in $names; do BB_OPS=$operation "$build/$name" "$name" "$data" >>"$bench/times.tsv"; done
    done
    # its calls are long, so a third of the rounds is enough
    if [ -z "${NO_PYTHON:-}" ] && [ $((round % 3)) -eq 1 ]; then
        /usr/bin/python3 "$here/pymongo_trees.py" "$data" >>"$bench/times.tsv"
    fi
done
[ -z "${NO_COUNTS:-}" ] || exit 0
log "counting instructions"
python3 "$here/instructions.py" "$build" "$data" "$bench/instructions.tsv" $names
