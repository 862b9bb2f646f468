#!/bin/sh
# build.sh CRATE TO: builds the calls over the module `raw` of the Rust crate as a static library, TO/target/release/libffi.a,
# with cargo's settings for a release. CRATE is the folder of bson 2.15.0 as crates.io has it, of which src/raw is taken
# unchanged, except for raw/serde.rs; what it names of the rest of its crate is in stubs/, and so is that file.
set -eu
here=$(cd "$(dirname "$0")" && pwd)
crate=$1
to=$2
mkdir -p "$to"
cp -r "$here/stubs/." "$to/"
cp -rn "$crate/src/raw" "$to/bson/src/"
cd "$to"
cargo build --offline --quiet --release -p ffi
