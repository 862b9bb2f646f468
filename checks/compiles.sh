#!/bin/sh
# compiles.sh FILE: what has to compile compiles, and what must not doesn't. No proof is needed for either.
#
# What has to: each block of Rust that a page shows, each example in a doc comment, which is also run, and the twin of each
# misuse. What must not: the misuses of the file (checks/must-not-compile.txt says how they are written). A misuse fails for just the error
# that is named, so for the reason that it is meant to.
#
# For the first three a crate of tests that lists what a user names, made in a copy of the tracked files, is compiled: once with all
# that has to compile, and once, over raw_bson alone, with all misuses. A block that has a `main` is a program: it is that of the crate
# `reader`, which `rt ci` proves and runs on the greeting, and the page says what it prints there.
set -u
list=$(realpath "$1")
cd "$(dirname "$(realpath "$0")")/.." || exit 1
work=$(mktemp -d) || exit 1
trap 'rm -rf "$work"' EXIT
crate=$work/copy/crates/shown
mkdir -p "$crate" "$work/programs" || exit 1
git ls-files -z crates crates.txt HANDLES | xargs -0 cp --parents -t "$work/copy" || exit 1
cp crates.txt "$work/crates.txt" || exit 1
pages='README.md CONTRIBUTING.md docs/*.md examples/*.md'
documented=$(git grep -l '^ */// ```' -- 'crates/*/src/*.rt')
grep '^[a-z]' "$list" >"$work/cases"
count=$(wc -l <"$work/cases")
failed=0

# blocks FOLDER: writes each block of Rust of the pages into a file of its own
blocks() {
    # shellcheck disable=SC2086 # a list of pages
    python3 -B checks/pages.py blocks rust "$1" $pages && for block in $(grep -l '^fn main(' "$1"/*.rt); do
        cp "$block" "$work/programs" && sed -i '/^#!\[/d' "$block" || return 1
    done
}

# examples FOLDER: writes the examples in doc comments, each as a test
examples() {
    python3 -B checks/pages.py tests "$1" $documented >"$work/examples"
}

# snippets SIGN FOLDER: writes the misuses (-), or their twins (+)
snippets() {
    awk -v sign="$1" -v folder="$2" '
        /^[a-z]/ { file = folder "/" $1 ".rt"; next }
        file && (/^ / || !NF || substr($0, 1, 1) == sign) { print substr($0, 5) >file }
    ' "$list"
}

# compile LIBRARIES FILL..: compiles the crate of the modules that FILL puts into its folder, over these; leaves what rt said in $work/said
compile() {
    { cat "$work/crates.txt" && echo "shown: $1"; } >"$work/copy/crates.txt" || return 2
    shift
    rm -rf "$crate/src" && mkdir "$crate/src" || return 2
    for fill in "$@"; do
        $fill "$crate/src" || return 2
    done
    for file in "$crate"/src/*.rt; do
        echo "mod $(basename "$file" .rt);"
    done >"$work/modules"
    { echo '#![tactic(auto)]'; cat "$work/modules"; printf '#[test]\nfn compiles() {}\n'; } >"$crate/src/lib.rt"
    (cd "$crate" && rt try --test) >"$work/said" 2>&1 </dev/null
}

if ! compile "raw_bson raw_form raw_shelf bson_to_json bson_from_json json_round_trip bson_uses" blocks examples "snippets +"; then
    cat "$work/said" >&2
    echo "a block of a page or a twin doesn't compile, or an example of a doc comment goes wrong" >&2
    failed=1
fi
echo "$(wc -l <"$work/modules") modules of blocks, examples and twins were compiled, $(cat "$work/examples") examples of doc comments run"
grep -q "test result: ok. $(($(cat "$work/examples") + 1)) passed" "$work/said" || failed=1

# is_reader PROGRAM PAGE: whether this is the program of `reader`, and the page says what that prints of the greeting
is_reader() {
    cmp -s "$1" crates/reader/src/main.rt && printf '\23\0\0\0\2hi\0\6\0\0\0y\47all\0\0' | cmp -s - crates/reader/stdin &&
        grep -qF "prints \`$(cat crates/reader/stdout)\`" "$2"
}

for program in "$work/programs"/*; do
    [ "$program" = "$work/programs/docs_rattle_1.rt" ] && is_reader "$program" docs/RATTLE.md && continue
    echo "$(basename "$program"): docs/RATTLE.md has one program, that of crates/reader, and says what it prints of the greeting" >&2
    failed=1
done

if compile raw_bson "snippets -" || [ "$(grep -c ': error' "$work/said")" != "$count" ]; then
    cat "$work/said" >&2
    echo "the misuses have another number of errors than $count" >&2
    failed=1
fi
while read -r name code; do
    if grep -q "^src/$name\.rt:[0-9:]* error\[$code\]" "$work/said"; then
        echo "$name: refused with $code"
    else
        echo "$name: not refused with $code" >&2
        failed=1
    fi
done <"$work/cases"
[ "$count" -gt 0 ] || failed=1

exit "$failed"
