#!/bin/sh
# The commands that the pages show do what the pages say, in a copy of this repository. A block `sh` with a block `text` after it prints
# that; a block that calls bin/bsonraw has one. Any other command has to end well, after those of README, which install everything.
# pages.py says how. What was skipped, since a tool is missing, is said in the last line.
#
#   checks/pages.sh            with what bin/install built here, and `--unproved` left away, since `bin/test unproved` tries that
#   checks/pages.sh --fresh    with nothing built, as a newcomer types them: for a release; half an hour to an hour
#
# What pages name beside their blocks is run by others: `rt try` by `bin/test unproved`, the program of `reader` by `rt ci`, `cargo` by rust.txt,
# `apt` by debians.txt, `--target aarch64` by arm.sh.
set -u
cd "$(dirname "$(realpath "$0")")/.." || exit 1
case "$*" in "") as_typed= ;; --fresh) as_typed=--as-typed ;; *) echo "usage: checks/pages.sh [--fresh]" >&2 && exit 2 ;; esac
work=$(mktemp -d) || exit 1
trap 'rm -rf "$work"' EXIT
clone=$work/clone
home=$HOME
mkdir "$clone" "$work/home" || exit 1
git ls-files -z --cached --others --exclude-standard | xargs -0 cp -P --parents -t "$clone" || exit 1
if [ -z "$as_typed" ]; then
    for built in bsonraw/out/bsonraw bsonraw_dump/out/bsonraw_dump bsonraw_c/out/libbsonraw_c.a bsonraw_c/out/baseline; do
        built=crates/$built
        [ -e "$built" ] || { echo "pages: $built isn't there, which bin/install builds" >&2 && exit 1; }
        cp -rp --parents "$built" "$clone" || exit 1
    done
    (root=$clone && . bin/build.sh && for crate in bsonraw bsonraw_dump bsonraw_c; do note_built "$crate" || exit 1; done) || exit 1
fi
cd "$clone" || exit 1
pages='README.md examples/README.md CONTRIBUTING.md docs/*.md'
failed=0

# The files that the commands name.
python3 -B checks/pages.py blocks c "$work" README.md && cp "$work/readme_1.c" field.c && mkdir -p dump/shop || exit 1
for name in greeting nested; do xxd -r -p "examples/$name.hex" >"dump/shop/$name.bson" || exit 1; done
cat dump/shop/*.bson | gzip >orders.bson.gz || exit 1

without=
. checks/skips.sh

# skip_lines WHAT TEXT: skips the lines that have this text
skip_lines() {
    skip "$1"
    without="$without${without:+,}$2"
}

command -v cc >/dev/null || skip_lines "programs in C and the Python package, without a compiler (gcc)" "cc ,./a.out,./json,bsonraw/bin/,venv"
command -v pkg-config >/dev/null || skip_lines "C programs by pkg-config (pkg-config)" "pkg-config,./a.out,./json"

# Debian's Python, by which README has the package built, is the first in PATH where it can.
mkdir "$work/bin" || exit 1
/usr/bin/python3 -c 'import ensurepip, setuptools, wheel' 2>/dev/null && ln -s /usr/bin/python3 "$work/bin/python3"
[ -e "$work/bin/python3" ] || skip_lines "the Python package, without venv, setuptools or wheel (python3-venv, python3-setuptools, python3-wheel)" "bsonraw/bin/,venv"
"$work/bin/python3" -c 'import dask.distributed' 2>/dev/null || skip_lines "Dask (python3-distributed)" "--workers 4"
command -v jq >/dev/null || skip_lines "jq (jq)" jq
has_cargo || skip_lines "cargo (cargo, of 1.81 or later)" cargo

export HOME="$work/home" PATH="$work/home/.local/bin:$work/bin:$PATH" CARGO_NET_OFFLINE=true
export CARGO_HOME="${CARGO_HOME-$home/.cargo}" RUSTUP_HOME="${RUSTUP_HOME-$home/.rustup}"
# shellcheck disable=SC2086 # a list of pages, and a flag or none
python3 -B checks/pages.py script $as_typed "$without" $pages >"$work/script" || exit 1
if ! sh "$work/script" >"$work/said" 2>&1 </dev/null; then
    cat "$work/said" >&2
    echo "pages: a command of this page doesn't end well" >&2
    failed=1
fi
grep ': [0-9]* lines are typed$' "$work/said"
# shellcheck disable=SC2086
python3 -B checks/pages.py run $as_typed $pages || failed=1
[ -z "$skipped" ] || echo "pages: skipped: $skipped"
exit "$failed"
