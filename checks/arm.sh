#!/bin/sh
# The C library for ARM in 64 bits, and the Python package over it, under an emulator: for a release, and too slow for the gate. After
# bin/test it notes for bin/package --target aarch64 what passed.
#
#   checks/arm.sh
#
#   - the programs of c/tests with both libraries: every buffer at its edges, each request for memory refused, the builder, threads, texts,
#     reasons, numbers, JSON, where documents go on after damage, and what is written in C for daily use; what a reader written from the
#     format alone says of 20,000 made and damaged documents; and with a mistake in the library, or in its heap, that is noticed;
#   - c/tests/print.c prints of each document of the tests what bsonraw prints on x86-64, and examples/c/json_text.c the JSON of
#     bsonraw-dump; the other programs of examples/c compile;
#   - in a Debian of ARM, as root and with the net, the tests of the Python package, with 20,000 made documents beside a slow reader.
#
# It needs Debian's gcc-aarch64-linux-gnu, qemu-user-static, debootstrap, python3-setuptools and python3-wheel. Where one is missing,
# or a part, it fails.
set -u
cd "$(dirname "$(realpath "$0")")/.." || exit 1
. checks/packed.sh
root=$PWD
. bin/release.sh
for_machine aarch64
work=$(mktemp -d) || exit 1
trap 'rm -rf "$work"' EXIT
ulimit -c 0 # a test that fails may abort, and leaves no core file
prefix=$work/prefix
failed=0

fails() {
    echo "arm: $*" >&2
    failed=1
}

# compile PROGRAM LIBRARY FILE..: a program with this library of the prefix
compile() {
    program=$1
    library=$2
    shift 2
    aarch64-linux-gnu-gcc -std=gnu99 -O1 "-I$prefix/include" -o "$work/$program" "$@" "$prefix/lib/$library" -lpthread
}

# run PROGRAM WORD..: runs it by the emulator
run() {
    program=$work/$1
    shift
    qemu-aarch64-static -L /usr/aarch64-linux-gnu -E "LD_LIBRARY_PATH=$prefix/lib" "$program" "$@"
}

# The documents that tests in Rattle share, those of c/tests/documents.txt, each with a fault, and the examples: a name and hex digits a
# line.
documents() {
    LC_ALL=C awk -f c/tests/documents.awk crates/bson_tests/src/fixtures/documents.rt
    cat c/tests/documents.txt
    for document in examples/*.hex; do
        echo "$(basename "$document") $(tr -d ' \r\n' <"$document" | tr '[:upper:]' '[:lower:]')"
    done
}

try_c() {
    for name in agree buffers build daily from_json memory numbers reasons resync slips texts threads; do
        case $name in
        agree) word=20000 ;;
        resync) word=few ;;
        threads) word=once ;;
        *) word= ;;
        esac
        for library in libbsonraw.a libbsonraw.so; do
            compile "$name" $library "c/tests/$name.c" c/tests/documents.c || { fails "$name doesn't compile" && continue; }
            run "$name" ${word:+"$word"} <"$work/documents" >"$work/said" 2>&1 || fails "$name with $library: $(tail -n 1 "$work/said")"
            cat "$work/said"
        done
    done
}

# With a library that reads a byte after a document, a test fails.
notices_a_mistake() {
    cp "$prefix/lib/libbsonraw.a" "$prefix/lib/wrong.a" || exit 1
    for name in $(sed -n '/---- daily use/q; /BSONRAW_\(INLINE\|LOCAL\)/!s/^[A-Za-z].* \(bsonraw_[a-z0-9_]*\)(.*/\1/p' c/bsonraw.h); do
        aarch64-linux-gnu-objcopy --redefine-sym "$name=right_${name#bsonraw_}" "$prefix/lib/wrong.a" || exit 1
    done
    compile wrong wrong.a -DMISTAKE=1 c/tests/buffers.c c/tests/documents.c c/tests/wrong.c || fails "a test doesn't compile with a mistake"
    ! run wrong <"$work/documents" >/dev/null 2>&1 || fails "a test doesn't notice a mistake"
}

# With a heap that tells no refusal, whose blocks are too small, that loses what is in them as they grow, or that keeps them, a test
# fails.
notices_a_wrong_heap() {
    for change in 's/{start != 0, /{1, /' 's/malloc(size == 0 ? align : size)/malloc(size \/ 2)/' 's/realloc(old, size == 0 ? align : size)/malloc(size)/' \
        's/^    free(block);/    (void)block;/'; do
        rm -rf "$work/linked" && mkdir "$work/linked" && sed "$change" release/heap.c >"$work/linked/heap.c" || exit 1
        ! cmp -s release/heap.c "$work/linked/heap.c" || fails "this changes nothing in the heap: $change"
        (heap=$work/linked/heap.c && link_libraries "$work/linked") >"$work/said" 2>&1 && cp "$work/linked/libbsonraw.a" "$prefix/lib/wrong.a" &&
            compile wrong wrong.a c/tests/memory.c c/tests/documents.c || { fails "a library with another heap isn't built: $change" && continue; }
        ! run wrong <"$work/documents" >/dev/null 2>&1 || fails "a test doesn't notice a heap that is changed so: $change"
    done
}

# prints COMMAND HEX: what the library prints on ARM is what the program prints on x86-64
prints() {
    { echo "$2" | crates/bsonraw/out/bsonraw "$1"; echo "status $?"; } >"$work/wanted"
    { echo "$2" | run print "$1"; echo "status $?"; } >"$work/said"
    cmp -s "$work/wanted" "$work/said"
}

look_at_output() {
    compile print libbsonraw.a c/tests/print.c || fails "print doesn't compile"
    while read -r name hex; do
        for command in list canon check; do
            prints "$command" "$hex" || fails "$command of $name prints on ARM: $(cat "$work/said")"
        done
    done <"$work/documents"
    echo "$(wc -l <"$work/documents") documents are printed as by the program on x86-64"
    for file in examples/c/*.c; do compile "$(basename "$file" .c)" libbsonraw.a "$file" || fails "$file doesn't compile"; done
    texts=0
    while read -r name hex; do
        echo "$hex" | xxd -r -p >"$work/document"
        run json_text <"$work/document" >"$work/said" && crates/bsonraw_dump/out/bsonraw_dump json "$work/document" >"$work/wanted" 2>/dev/null || continue
        cmp -s "$work/wanted" "$work/said" || fails "JSON of $name on ARM: $(cat "$work/said")"
        texts=$((texts + 1))
    done <"$work/documents"
    [ "$texts" -ge 20 ] || fails "only $texts documents are printed as JSON"
    echo "$texts documents are printed as JSON as by the program on x86-64"
}

# Runs the tests of the Python package except for one, whose signal comes too late by an emulator.
all_but_signals='
import sys, unittest
def tests(suite):
    for it in suite:
        yield from tests(it) if isinstance(it, unittest.TestSuite) else [it]
found = [it for it in tests(unittest.defaultTestLoader.discover("python/tests")) if "test_signals_are_heard" not in it.id()]
sys.exit(not unittest.TextTestRunner().run(unittest.TestSuite(found)).wasSuccessful())
'

# The module as bin/package makes it, in a Debian of ARM.
try_python() {
    python=/usr/bin/python3
    mkdir "$work/headers" && cp -r python "$work/python" || exit 1
    (
        export BSONRAW_PREFIX="$prefix"
        cd "$work/python" && for_python "$work/headers" "$python" setup.py --quiet build --build-lib "$work/package"
    ) >"$work/said" 2>&1 || { cat "$work/said" >&2 && fails "the Python package isn't built" && return; }
    there=$work/debian
    if ! debian "$there" bookworm arm64 >"$work/said" 2>&1; then
        fails "there is no Debian of ARM: $(tail -n 1 "$work/said")"
        return
    fi
    mkdir -p "$there/try/python" && cp -r "$work/package" python/tests "$there/try/python" && cp -r docs examples README.md "$there/try" || exit 1
    in_debian "$there" "python3 -W ignore -c '$all_but_signals'" PYTHONPATH=/try/python/package:/try/python/tests:/try/examples \
        >"$work/said" 2>&1 || { cat "$work/said" >&2 && fails "the tests of the Python package"; }
    echo "arm: $(sed -n 's/^Ran \([0-9]* tests\) in .*/\1/p' "$work/said") by Python"
}

# Notes what bin/test noted, and what is built for ARM, where that was the same commit, and nothing was changed since.
note_passed() {
    rm -f "out/passed$record"
    if [ -n "$(git status --porcelain)" ] || ! grep -qx "commit $(git rev-parse HEAD)" out/passed 2>/dev/null; then
        echo "arm: bin/test hasn't passed for what is here, so bin/package has nothing to say of what passed"
        return
    fi
    {
        grep -v '^built ' out/passed
        echo "checks/arm.sh passed, under an emulator"
        checksums | sed 's/^/built /'
    } >"out/passed$record"
}

bin/install --target aarch64 "$prefix" || exit 1
documents >"$work/documents"
try_c
notices_a_mistake
notices_a_wrong_heap
look_at_output
try_python
[ "$failed" = 1 ] || note_passed
exit "$failed"
