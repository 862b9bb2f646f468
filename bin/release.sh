# What bin/install and bin/package share: what is built, and how it is laid out under a prefix. They source it, with root
# the repository's folder, and bin/build.sh before it.

version=$(cat "$root/VERSION") || exit 1
soname=libbsonraw.so.${version%%.*}
archive=$root/crates/bsonraw_c/out/libbsonraw_c.a
baseline=$root/crates/bsonraw_c/out/baseline/libbsonraw_c.a
arm=$root/crates/bsonraw_c/out/aarch64/libbsonraw_c.a
kept=$root/crates/bsonraw_c/out/incremental # the proofs of its build
heap=$root/release/heap.c # which the library for ARM has
machine=x86_64 # the processors that are built for
programs=bsonraw # the crates of the programs; what is installed has a - for each _
[ ! -d "$root/crates/bsonraw_dump" ] || programs="$programs bsonraw_dump"
record= # at the end of the names of what bin/test and bin/install note of these

# for_machine NAME: what is built for from here on: x86_64, as at first, or aarch64, for which there is the C library, and no program
for_machine() {
    case $1 in
    x86_64) ;;
    aarch64)
        machine=aarch64
        programs=
        record=-aarch64
        ;;
    *) return 1 ;;
    esac
}

# program_of CRATE: the program that its build leaves
program_of() {
    echo "$root/crates/$1/out/$1"
}

# The commit that the crates are of, in ten digits, as `--version` shows it; or "unreleased", where something of them is in no commit.
crates_commit() {
    if [ "$(git -C "$root" rev-parse --show-toplevel 2>/dev/null)" = "$(realpath "$root")" ] &&
        [ -z "$(git -C "$root" status --porcelain -- crates crates.txt)" ]; then
        git -C "$root" rev-parse HEAD | cut -c 1-10
    else
        echo unreleased
    fi
}

# put_commit PROGRAM: writes the commit into a program whose version has a place for it, which is as long: "unreleased"
put_commit() {
    case $(LC_ALL=C grep -ao "$version (unreleased)" "$1" | wc -l) in
    0) ;;
    1) LC_ALL=C sed -i "s/$version (unreleased)/$version ($(crates_commit))/" "$1" ;;
    *) say "$1 has more than one place for its commit" && return 1 ;;
    esac
}

# The checksums of all that is built, which an installation is made of.
checksums() {
    for name in $programs; do
        (cd "$root" && sha256sum "crates/$name/out/$name") || return 1
    done
    case $machine in
    x86_64) (cd "$root" && sha256sum "${archive#"$root/"}" "${baseline#"$root/"}") ;;
    aarch64) (cd "$root" && sha256sum "${arm#"$root/"}") ;;
    esac
}

# put_programs TOOL FOLDER: the programs, if there are any, without the names that only a debugger reads and with their commit, and
# their manual pages
put_programs() {
    [ -n "$programs" ] || return 0
    mkdir -p "$2/bin" "$2/share/man/man1" || return 1
    for name in $programs; do
        put=$2/bin/$(echo "$name" | tr _ -)
        install -m 644 "$root/man/$(basename "$put").1" "$2/share/man/man1" || return 1
        [ "$name" != bsonraw_dump ] || put_completions "$2/share" || return 1
        "$1" --strip-all "$(program_of "$name")" "$put" && put_commit "$put" && chmod 755 "$put" || return 1
    done
}

# Where shells look for how words are completed, below share
completions="bash-completion/completions zsh/site-functions fish/vendor_completions.d"

# put_completions FOLDER: what bash, zsh and fish complete of the words of bsonraw-dump
put_completions() (
    for into in $completions; do
        case $into in bash*) file=bsonraw-dump ;; zsh*) file=_bsonraw-dump ;; *) file=bsonraw-dump.fish ;; esac
        mkdir -p "$1/$into" && python3 -B "$root/release/completions.py" "${into%%[-/]*}" >"$1/$into/$file" && chmod 644 "$1/$into/$file" || exit 1
    done
)

# build_again FILE WHAT FLAG..: builds the library once more, with these flags, over the proofs that its own build kept, unless that was done;
# the sums of both are noted
build_again() (
    made=$1
    what=$2
    from=${made%/*}/from
    shift 2
    [ ! -e "$made" ] || ! cat "$archive" "$made" | sha256sum | cmp -s - "$from" || exit 0
    say "the C library is built once more, for $what"
    room=$(mktemp -d) || exit 1
    trap 'rm -rf "$room"' EXIT
    trap 'exit 1' HUP INT TERM
    [ ! -d "$kept" ] || cp -a "$kept" "$room/kept" || exit 1
    mkdir -p "${made%/*}" && build_over bsonraw_c "$root/crates/bsonraw_c" src/lib.rt --crate-type staticlib "$@" \
        --incremental "$room/kept" -o "$made" >"$room/said" 2>&1 && cat "$archive" "$made" | sha256sum >"$from" || { cat "$room/said" >&2; exit 1; }
)

# Builds the library a second time, for each x86-64, or for ARM. The first build is for processors from x86-64-v2 on, and so is the
# time of most of what is measured.
build_others() {
    case $machine in
    x86_64) build_again "$baseline" "processors without SSE4.1" --cpu x86-64 ;;
    aarch64) build_again "$arm" ARM --target aarch64-unknown-linux-gnu ;;
    esac
}

# choose: C code in which each call of standard input goes to the library that the processor can run, decided as a program is loaded
choose() {
    cat <<'END'
static int is_v2(void) {
    unsigned a = 1, b, c = 0, d, leaf = 0x80000001u, more = 0;
    __asm__("cpuid" : "+a"(a), "=b"(b), "+c"(c), "=d"(d));
    __asm__("cpuid" : "+a"(leaf), "=b"(b), "+c"(more), "=d"(d));
    /* SSE3, SSSE3, CMPXCHG16B, SSE4.1, SSE4.2 and POPCNT; LAHF in 64 bits */
    return (c & 0x982201u) == 0x982201u && (more & 1) == 1;
}
END
    while read -r call; do
        echo "extern char ${call}_v1[] __attribute__((visibility(\"hidden\"))), ${call}_v2[] __attribute__((visibility(\"hidden\")));"
        echo "static void *choose_$call(void) { return is_v2() ? ${call}_v2 : ${call}_v1; }"
        echo "void $call(void) __attribute__((ifunc(\"choose_$call\")));"
    done
}

# link_build ARCHIVE FOLDER NAME: links an archive and the part of the kit's C code that it calls into one object, FOLDER/NAME.o, in
# which the header's calls have names that end in _NAME, and nothing else has a name
link_build() {
    "$toolchain/bin/ld.lld" -r -o "$2/$3.o" --whole-archive "$1" --no-whole-archive "$toolchain/../c/liblibc_c.a" &&
        "$2/llvm-nm" --defined-only --extern-only --just-symbol-name "$2/$3.o" | grep '^bsonraw_' | LC_ALL=C sort >"$2/calls" &&
        sed "s/.*/& &_$3/" "$2/calls" >"$2/renamed" &&
        "$2/llvm-objcopy" --wildcard --keep-global-symbol='bsonraw_*' "$2/$3.o" && "$2/llvm-objcopy" --redefine-syms="$2/renamed" "$2/$3.o"
}

# compile_c FILE FOLDER: compiles a file of C for the machine, FOLDER/NAME.o
compile_c() {
    "$toolchain/bin/clang" "--target=$machine-unknown-linux-gnu" -nostdinc -isystem "$root/c/tests/headers" -std=gnu99 -O2 -fPIC -c \
        -o "$2/$(basename "$1" .c).o" "$1"
}

# compile_rest FOLDER: compiles what of the library is written in C, which no proof covers: the functions for daily use, and the
# header's inline functions as functions that are exported
compile_rest() {
    for file in daily edit stream exported; do compile_c "$root/c/$file.c" "$1" || return 1; done
}

# link_x86_64 FOLDER: links both builds into one object
link_x86_64() {
    ln -s "$toolchain/lib/libc.so.6" "$1/libc.so.6" && link_build "$baseline" "$1" v1 && link_build "$archive" "$1" v2 &&
        choose <"$1/calls" >"$1/choose.c" &&
        "$toolchain/bin/clang" -O2 -fPIC -ffreestanding -c -o "$1/choose.o" "$1/choose.c" &&
        "$toolchain/bin/ld.lld" -r -o "$1/bsonraw.o" "$1/v1.o" "$1/v2.o" "$1/choose.o" &&
        "$1/llvm-objcopy" --keep-global-symbols="$1/calls" "$1/bsonraw.o"
}

# link_aarch64 FOLDER: links the build for ARM and its heap into one object. The kit has no C library for ARM: in its place is
# one that has just the names that are called. Their version is that of the first C library for ARM.
link_aarch64() {
    compile_c "$heap" "$1" &&
        "$toolchain/bin/ld.lld" -r -o "$1/bsonraw.o" --whole-archive "$arm" --no-whole-archive "$1/heap.o" &&
        "$1/llvm-objcopy" --wildcard --keep-global-symbol='bsonraw_*' "$1/bsonraw.o" || return 1
    "$1/llvm-nm" --undefined-only --just-symbol-name "$1/bsonraw.o" "$1/daily.o" "$1/edit.o" "$1/stream.o" "$1/exported.o" | grep -x '[a-z0-9_][a-z0-9_]*' | grep -v '^bsonraw_' |
        LC_ALL=C sort -u | sed 's/.*/void &(void) {}/' >"$1/names.c"
    echo 'GLIBC_2.17 { global: *; };' >"$1/versions"
    "$toolchain/bin/clang" --target=aarch64-unknown-linux-gnu -ffreestanding -fno-builtin -fPIC -c -o "$1/names.o" "$1/names.c" &&
        "$toolchain/bin/ld.lld" -shared -soname libc.so.6 --version-script "$1/versions" -o "$1/libc.so.6" "$1/names.o"
}

# Links what was built into one object whose only names are those of the exported calls, and makes both libraries of it and of what is
# written in C, in this folder.
link_libraries() {
    toolchain=$(dirname "$(rt doc)")/toolchain
    for tool in llvm-objcopy llvm-nm; do ln -s "$toolchain/bin/clang" "$1/$tool" || return 1; done
    compile_rest "$1" && "link_$machine" "$1" &&
        "$toolchain/bin/llvm-ar" rcsD "$1/libbsonraw.a" "$1/bsonraw.o" "$1/daily.o" "$1/edit.o" "$1/stream.o" "$1/exported.o" &&
        echo "BSONRAW_${version%%.*} { global: bsonraw_*; local: *; };" >"$1/exports" &&
        "$toolchain/bin/ld.lld" -shared -soname "$soname" --version-script "$1/exports" --build-id=sha1 --gc-sections -z defs -z relro \
            -z now -z noexecstack -o "$1/linked.so" "$1/bsonraw.o" "$1/daily.o" "$1/edit.o" "$1/stream.o" "$1/exported.o" "$1/libc.so.6" &&
        "$1/llvm-objcopy" --strip-all "$1/linked.so" "$1/libbsonraw.so.$version"
}

# put_symbols FOLDER GOAL: puts the symbol table that the linked library lost into a file below GOAL where debuggers look for it, by the
# library's build-id
put_symbols() {
    ln -s "$toolchain/bin/clang" "$1/llvm-readelf" && id=$("$1/llvm-readelf" --notes "$1/linked.so" | sed -n 's/^ *Build ID: //p') &&
        [ -n "$id" ] && symbols=$2/.build-id/$(echo "$id" | cut -c 1-2) && mkdir -p "$symbols" &&
        "$1/llvm-objcopy" --only-keep-debug "$1/linked.so" "$symbols/$(echo "$id" | cut -c 3-).debug" && chmod 644 "$symbols"/*
}

# pkg_config PREFIX LIB: the pkg-config file of a prefix, whose libraries are in its folder LIB
pkg_config() {
    sed "s|@PREFIX@|$(printf '%s' "$1" | sed 's/[\\&|]/\\&/g')|; s|@LIB@|$2|; s|@VERSION@|$version|" "$root/c/bsonraw.pc.in"
}

# link_pages FOLDER: for each other call that a manual page names, a page that shows that one
link_pages() {
    for manual in "$1"/*.3; do
        page=$(basename "$manual" .3)
        for name in $(sed -n '/^\.SH NAME/ { n; s/ \\-.*//; s/,//g; p; q; }' "$manual"); do
            [ "$name" = "$page" ] || echo ".so man3/$page.3" | install -m 644 /dev/stdin "$1/$name.3" || return 1
        done
    done
}

# lay_out FOLDER PREFIX LIB [SYMBOLS]: what an installation has, in this new folder, as it has to be under the prefix; and the symbol table
# of the library in a folder of its own
lay_out() {
    link_folder=$1.link
    mkdir -p "$link_folder" "$1/include" "$1/$3/pkgconfig" "$1/share/man/man3" || return 1
    link_libraries "$link_folder" && { [ $# = 3 ] || put_symbols "$link_folder" "$4"; } &&
        put_programs "$link_folder/llvm-objcopy" "$1" &&
        install -m 644 "$root/c/bsonraw.h" "$root/c/bsonraw.hpp" "$1/include" &&
        install -m 644 "$link_folder/libbsonraw.a" "$1/$3" &&
        install -m 644 "$link_folder/libbsonraw.so.$version" "$1/$3" &&
        ln -s "libbsonraw.so.$version" "$1/$3/$soname" &&
        ln -s "$soname" "$1/$3/libbsonraw.so" &&
        pkg_config "$2" "$3" | install -m 644 /dev/stdin "$1/$3/pkgconfig/bsonraw.pc" &&
        install -m 644 "$root"/man/*.3 "$1/share/man/man3" &&
        link_pages "$1/share/man/man3"
    status=$?
    rm -rf "$link_folder"
    return "$status"
}

# for_python FOLDER COMMAND..: runs a command of Python so that what it compiles is for the machine; the folder is one that is there, for a
# header. On ARM Python's header of settings may not be installed: that of x86-64 takes its place. In these two Debian's settings differ
# in four names, which no module of the stable interface reads.
for_python() {
    headers=$1
    shift
    if [ "$machine" = x86_64 ]; then
        "$@"
        return
    fi
    cc=$machine-linux-gnu-gcc
    settings=$("$1" -c 'import sysconfig; print(sysconfig.get_path("include").rpartition("/")[2] + "/pyconfig.h")') &&
        mkdir -p "$headers/$machine-linux-gnu/${settings%/*}" &&
        echo "#include <x86_64-linux-gnu/$settings>" >"$headers/$machine-linux-gnu/$settings" || return 1
    CC=$cc LDSHARED="$cc -shared" CFLAGS="-idirafter $headers" _PYTHON_HOST_PLATFORM=linux-$machine "$@"
}
