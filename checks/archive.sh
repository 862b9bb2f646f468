#!/bin/sh
# Builds the C library's archive, crates/bsonraw_c/out/libbsonraw_c.a. `rt ci` proves its crate and builds no archive, and bin/install
# would prove the crates below once more, since it takes what only its own runs and those of `rt lib` have kept. So on a fresh clone, where
# `rt ci` has proved the crates below and maybe goes on with this one and others, the archive is built here over the libraries that this run
# left, by the kit's compiler itself: that proves of the crate alone what no earlier build on this machine proved; `rt ci` proves it from
# nothing. It does so in a folder of its own, from which all goes into out/ at the end.
#
# Where bin/install or `rt` has kept libraries, the archive is built over them, as by bin/install. In either case the library is laid out in
# FOLDER as bin/install does it, but for the programs.
#
#   checks/archive.sh [--anew] FOLDER        after `rt ci` proved the crates below, with nothing changed since; with --anew nothing is taken
#                                            of earlier builds
set -u
root=$(dirname "$(dirname "$(realpath "$0")")")
me=checks/archive.sh
proofs=${HOME:+$HOME/.cache/foyeranise/archive} # of earlier builds
if [ "$1" = --anew ]; then
    proofs=
    shift
fi
laid=$(realpath -m "$1") || exit 1
. "$root/bin/build.sh"
. "$root/bin/release.sh"
cd "$root/crates/bsonraw_c" || exit 1
mkdir -p out || exit 1
programs=
for name in $(crates bsonraw_c); do
    [ -e "../$name/out/rlib/stamp" ] || continue
    { ! is_stale bsonraw_c || make_proved bsonraw_c; } && build_others && lay_out "$laid" "$laid" lib
    exit
done

room=$(mktemp -d) || exit 1
trap 'rm -rf "$room"' EXIT
trap 'exit 1' HUP INT TERM
for folder in "$kept" "$proofs"; do
    # (another run may put its own in their place meanwhile)
    [ ! -d "$folder" ] || [ -e "$room/incremental" ] || cp -a "$folder" "$room/incremental" || rm -rf "$room/incremental"
done
kept=$room/incremental
archive=$room/libbsonraw_c.a
baseline=$room/baseline/libbsonraw_c.a
build_over bsonraw_c . src/lib.rt --crate-type staticlib --incremental "$kept" -o "$archive" && build_others && lay_out "$laid" "$laid" lib || exit 1
rm -rf out/incremental out/baseline
mv "$kept" "$archive" "${baseline%/*}" out || exit 1
[ -n "$proofs" ] || exit 0
mkdir -p "${proofs%/*}" && cp -a out/incremental "$proofs.$$" && rm -rf "$proofs" && mv -T "$proofs.$$" "$proofs" && exit
rm -rf "$proofs.$$"
say "the proofs of this build aren't kept for the next"
