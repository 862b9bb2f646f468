#!/bin/sh
# instructions.sh [PREFIX]: where valgrind is there, counts the instructions of calls of the C library (checks/instructions.c), and of
# bsonraw-dump check and json, and fails where one takes over 1.05 of what checks/instructions.txt states. Each line there is an
# operation and its instructions; --write states what is counted now. PREFIX is where bin/install put the library and the program;
# without it, that is done first. The compiler and the C library's headers are the kit's, so that only the library's own code changes
# the counts, and what the C library of the machine has for memory.
set -u
cd "$(dirname "$(realpath "$0")")/.." || exit 1
. checks/skips.sh
command -v valgrind >/dev/null || skip_all "valgrind (valgrind)"
write=
[ "${1-}" != --write ] || { write=1 && shift; }
work=$(mktemp -d) || exit 1
trap 'rm -rf "$work"' EXIT
prefix=${1-$work/prefix}
[ $# = 1 ] || bin/install "$prefix" || exit 1
kit=$(dirname "$(rt doc)")/toolchain

python3 -B bench/documents.py "$work/documents" >/dev/null || exit 1
cd "$work/documents" && cat typical.bson tiny.bson last_key.bson deep.bson strings.bson >"$work/input" || exit 1
for _ in $(seq 100); do cat typical.bson; done >"$work/dump" || exit 1
cd - >/dev/null || exit 1

"$kit/bin/clang" -O2 -nostdinc -isystem c/tests/headers "-I$prefix/include" -c -o "$work/calls.o" checks/instructions.c &&
    "$kit/bin/ld.lld" -pie -dynamic-linker /lib64/ld-linux-x86-64.so.2 -o "$work/calls" "$kit/lib/Scrt1.o" "$kit/lib/crti.o" \
        "$kit/lib/crtbeginS.o" "$work/calls.o" "$prefix/lib/libbsonraw.a" "$kit/lib/libc.so.6" "$kit/lib/libc_nonshared.a" \
        "$kit/lib/crtendS.o" "$kit/lib/crtn.o" || exit 1

# counted PROGRAM ARGUMENT..: runs a program and leaves in $work/out what callgrind counted
counted() {
    valgrind -q --tool=callgrind "--callgrind-out-file=$work/out" "$@" >/dev/null 2>"$work/said" || {
        cat "$work/said" >&2
        return 1
    }
}

# Each call of a function op_NAME in $work/out with the instructions of all that it calls. A name is spelled where its number comes first.
calls() {
    awk '
        /^c?fn=/ {
            number = name = $0
            sub(/^c?fn=/, "", number)
            sub(/\).*/, "", number)
            sub(/^c?fn=\([0-9]+\) ?/, "", name)
            if (name != "") names[number] = name
            if (/^cfn=/) called = names[number]
        }
        /^calls=/ { getline; if (sub(/^op_/, "", called)) print called, $2 }
    ' "$work/out"
}

counted "$work/calls" <"$work/input" && calls >"$work/counts" || exit 1
: >"$work/none"
for command in check json; do
    counted "$prefix/bin/bsonraw-dump" "$command" "$work/none" && few=$(sed -n 's/^totals: //p' "$work/out") || exit 1
    counted "$prefix/bin/bsonraw-dump" "$command" "$work/dump" && all=$(sed -n 's/^totals: //p' "$work/out") || exit 1
    echo "bsonraw_dump_$command $((all - few))"
done >>"$work/counts"
if [ -n "$write" ]; then
    cp "$work/counts" checks/instructions.txt
    exit
fi
awk '
    NR == FNR { stated[$1] = $2; next }
    !($1 in stated) { print "instructions.sh: " $1 " is stated nowhere"; failed = 1; next }
    { counted[$1] = $2 }
    $2 > 1.05 * stated[$1] { print "instructions.sh: " $1 " takes " $2 " instructions, " stated[$1] " are stated"; failed = 1 }
    $2 < 0.95 * stated[$1] { print "instructions.sh: " $1 " takes only " $2 " instructions: state that in the place of " stated[$1] }
    END {
        for (name in stated) if (!(name in counted)) { print "instructions.sh: " name " was not counted"; failed = 1 }
        exit failed
    }
' checks/instructions.txt "$work/counts" || exit 1
echo "instructions.sh: all passed, $(wc -l <"$work/counts") operations"
