#!/bin/sh
# build.sh PROJECT TO: builds the calls over the crates of PROJECT, in a copy at TO, as a static library, and prints its path
# as the last line. The copy has what checks of the crates left in out/, so that what was proved isn't proved again.
set -eu
here=$(cd "$(dirname "$0")" && pwd)
project=$1
to=$2
crate=$to/crates/calls
mkdir -p "$to"
[ -d "$to/.git" ] || git init -q "$to"
cp -r "$project/crates" "$to/"
{ cat "$project/crates.txt"; echo 'calls staticlib: raw_view raw_bson raw_tree bson_model'; } >"$to/crates.txt"
mkdir -p "$crate/src"
cp "$here/lib.rt.txt" "$crate/src/lib.rt"
for name in +visiting +rebuilding; do
    mkdir -p "$crate/proofs/$name"
    cp "$here/$name.antt.txt" "$crate/proofs/$name/Invariants.antt"
done
cd "$crate"
rt lib
echo "$crate/out/libcalls.a"
