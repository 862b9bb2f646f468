#!/bin/sh
# try-release.sh PROGRAMS VERSION: what a new user does with an installed bsonraw, in a folder that has examples/, greeting.c and
# print.c: checks/packages.txt copies this file there, and runs it where nothing of the repository is. PROGRAMS is the folder of the
# programs, or empty where there are none, VERSION what `bsonraw-dump --version` has to print. It says what isn't as it has to be, and
# gives 0 where all is.
#
#   PKG_CONFIG=yes         C programs are compiled by pkg-config, too
#   PYTHON=INTERPRETER     the module bsonraw is used by this Python, too
set -u
cd "$(dirname "$0")" || exit 1
programs=$1
version=$2
failed=0

fails() {
    echo "$*" >&2
    failed=1
}

# prints_rows PROGRAM LEFT_OUT: whether it prints the worked rows, of documents without these characters
prints_rows() {
    rows=0
    for document in examples/*.hex; do
        for command in list canon check; do
            { tr -d "$2" <"$document" | "$1" "$command"; echo "status $?"; } >output 2>&1
            cmp -s "${document%.hex}.$command" output || fails "$1: $command of $document prints: $(cat output)"
            rows=$((rows + 1))
        done
    done
    [ "$rows" -ge 30 ] || fails "there are only $rows worked rows"
}

# says WANTED COMMAND..: whether a program prints this of the greeting
says() {
    wanted=$1
    shift
    [ "$("$@" <greeting)" = "$wanted" ] || fails "$* doesn't print $wanted of the greeting"
}

try_programs() {
    prints_rows "$programs/bsonraw" ''
    [ -e "$programs/bsonraw-dump" ] || return 0
    printf '\23\0\0\0\20a\0\1\0\0\0\20a\0\2\0\0\0\0' | cat greeting - >dump
    [ "$("$programs/bsonraw-dump" --version)" = "$version" ] || fails "bsonraw-dump has another version than $version"
    "$programs/bsonraw-dump" check dump >output 2>&1
    [ "$(tail -n 1 output | cut -d , -f 1-4)" = "documents: 2, bytes: 38, not canonical: 1, damaged: 0" ] || fails "of a dump bsonraw-dump prints: $(cat output)"
}

# try_c LIBRARIES: compiles the programs in C with these, and runs them
try_c() {
    for source in greeting.c print.c examples/c/*.c; do
        eval "cc -o c_$(basename "$source" .c) $source $(pkg-config --cflags bsonraw) $1" || fails "$source doesn't compile with $1"
    done
    says "02 hi" ./c_greeting
    prints_rows ./c_print ' \r\n'
    says "{\"hi\": \"y'all\"}" ./c_json
    says "{\"hi\":\"y'all\"}" ./c_json_text
    says "y'all" ./c_path hi
    says sound ./c_validate
    says "{\"hi\":\"y'all\"}" sh -c 'cat - greeting | ./c_unique | ./c_json_text'
    [ "$(./c_orders 2 | ./c_validate)" = sound ] || fails "what orders builds isn't sound"
    printf '\107\0\0\0\7_id\0abcdefghijkl\2name\0\3\0\0\0Al\0\20born\0\7\0\0\0\3address\0\21\0\0\0\2city\0\2\0\0\0X\0\0\0' >person
    [ "$(cat greeting person | ./c_fields)" = "6162636465666768696a6b6c Al 7 X" ] || fails "fields doesn't print the fields of the one document that has them"
    # a document laid over the greeting, which has all of its keys
    printf '\25\0\0\0\20hi\0\1\0\0\0\20ho\0\2\0\0\0\0' >over
    cat greeting over | ./c_merge | cmp -s - over || fails "merge doesn't lay a document over the greeting"
}

printf '\23\0\0\0\2hi\0\6\0\0\0y\47all\0\0' >greeting
[ -z "$programs" ] || try_programs
if [ -n "${PKG_CONFIG-}" ]; then
    try_c "$(pkg-config --libs bsonraw)"
    try_c "$(pkg-config --libs-only-L bsonraw) -l:libbsonraw.a"
fi
if [ -n "${PYTHON-}" ]; then
    "$PYTHON" examples/greeting.py <examples/greeting.hex >output 2>&1
    grep -q hi output || fails "Python prints of the greeting: $(cat output)"
fi
exit "$failed"
