#!/bin/sh
# c.sh PREFIX [TARGET..]: the C library as bin/install puts it into a folder, used from C and C++. c/tests/Makefile says what is tried.
set -u
cd "$(dirname "$(realpath "$0")")/.." || exit 1
prefix=$(realpath "$1") || exit 1
shift
work=$(mktemp -d) || exit 1
trap 'rm -rf "$work"' EXIT
ulimit -c 0 # a test that fails may abort, and leaves no core file
unset MAKEFLAGS
make -s -k --output-sync=target -j "$(nproc)" -f c/tests/Makefile "PREFIX=$prefix" "OUT=$work" "$@"
