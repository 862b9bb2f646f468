#!/bin/sh
# in_parts.sh FILE PARTS: prints a dump as JSON, a line each, by as many processes at once as there are parts
file=$1 parts=$2 made=$(mktemp -d) && export file made || exit
# a line for each part, as --at 0 --take 500
bsonraw-dump split --parts "$parts" "$file" >"$made/parts" || { status=$?; sed '/^--at/d' "$made/parts" >&2; rm -r "$made"; exit $status; }
xargs -r -P "$parts" -n 4 sh -c 'bsonraw-dump json -q "$@" "$file" >"$made/$(printf %020d "$2")"' sh <"$made/parts"
status=$?
for part in "$made"/0*; do [ ! -e "$part" ] || cat "$part"; done
rm -r "$made"
exit $status
