#!/bin/sh
# edits.sh [--anew] [--from-nothing] [--applies] [--compiles] [CRATE..]: whether the prover refuses each edit of
# crates/NAME/edits/, many in one check. edits.py says how.
exec python3 -B "$(dirname "$(realpath "$0")")/edits.py" "$@"
