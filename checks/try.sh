#!/bin/sh
# try.sh tests CRATE [PART OF]: the tests of a crate pass, without a proof; with PART, each OF-th of them, from the one of this number on.
# try.sh output CRATE: a program, without a proof, prints what is stored beside it, given the input and the words that are.
set -u
cd "$(dirname "$(realpath "$0")")/.." || exit 1
work=$(mktemp -d) || exit 1
trap 'rm -rf "$work"' EXIT
if [ -n "${3-}" ]; then
    # (`rt try` tries all, one after the other: so in a copy the others aren't there)
    git ls-files -z --cached --others --exclude-standard crates crates.txt HANDLES | xargs -0 cp -P --parents -t "$work" && cd "$work" || exit 1
    find "crates/$2/src" -name '*.rt' | LC_ALL=C sort | xargs awk -v part="$3" -v of="$4" '
        /^\/\/\// { comment = comment $0 "\n"; next }
        /^#\[test\]$/ && count++ % of != part - 1 { is_left_out = 1; comment = "" }
        !is_left_out { printf "%s%s\n", comment, $0 >(FILENAME ".part"); comment = "" }
        /^}$/ { is_left_out = 0 }
    ' && find "crates/$2/src" -name '*.part' -exec sh -c 'mv "$1" "${1%.part}"' sh {} \; || exit 1
fi
cd "crates/$2" || exit 1
if [ "$1" = tests ]; then
    # (AddressSanitizer's frames are larger than those that the tests of many levels are made for)
    ulimit -S -s "$(ulimit -H -s)"
    rt try --test --seconds 3000 >"$work/said" 2>&1 </dev/null && grep -q '^test result: ok' "$work/said" && exit
else
    stored=/dev/null
    [ ! -e stdin ] || stored=stdin
    set --
    for file in data/*; do [ ! -f "$file" ] || set -- "$@" --data "${file#data/}=$PWD/$file"; done
    set -- "$@" --
    [ ! -e args ] || while IFS= read -r word; do set -- "$@" "$word"; done <args
    rt try --steps 1 --seconds 1000 "$@" <"$stored" >"$work/output" 2>"$work/said"
    [ $? = "$(cat status 2>/dev/null || echo 0)" ] && cmp stdout "$work/output" && exit
fi
cat "$work/said" >&2
exit 1
