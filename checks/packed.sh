# What checks/packages.txt, checks/records.txt, checks/debians.txt and checks/arm.sh share: a copy of what is here, what is seen of something
# that is packed, and a fresh Debian in a folder. They source it. A function says what isn't as it has to be.

# put FOLDER: the files of this repository as they are here, and what was built
put() (
    cd "$TOP" && git ls-files -z --cached --others --exclude-standard | xargs -0 cp -P --parents -t "$1" &&
        for built in crates/bsonraw/out/bsonraw crates/bsonraw_dump/out/bsonraw_dump crates/bsonraw_c/out/*.a crates/bsonraw_c/out/baseline/* \
            crates/bsonraw_c/out/aarch64/* crates/*/out/built; do
            [ ! -e "$built" ] || cp -p --parents "$built" "$1" || exit 1
        done
)

# clone FOLDER: the same in a clone of someone who lets nobody else read, with the commit and what isn't committed, and with what Python leaves
clone() (
    umask 077
    git clone -q --no-checkout "$TOP" "$1" && git -C "$1" reset -q && put "$1" &&
        mkdir -p "$1/python/bsonraw/__pycache__" && echo left >"$1/python/bsonraw/__pycache__/left.pyc"
)

# make_twice FOLDER [FLAG..]: makes what is called unproved, twice, a second later and in another folder the second time, where the machine has
# settings of its own, signed where the file `key` has a key
make_twice() {
    folder=$1
    shift
    rm -rf "another clone" again && clone "$CRAMTMP/another clone" || return
    "$TOP/bin/package" "$@" --unproved "$CRAMTMP/$folder" >said 2>&1 &
    first=$!
    sleep 1
    # shellcheck disable=SC2046 # words
    CFLAGS=-g LDFLAGS=-Wl,--build-id=none TZ=X-13 "another clone/bin/package" "$@" --unproved $(cat key 2>/dev/null) "$CRAMTMP/again" >again.said 2>&1
    second=$?
    wait "$first" && [ "$second" = 0 ] || { cat said again.said && return 1; }
    diff -r -x SHA256SUMS.asc "$folder" again
    (cd "$folder" && sha256sum --check --quiet --strict SHA256SUMS)
    ! ls "$folder" | grep '\.' | grep -v unproved
    allowed='was not seen|was seen|nothing (of that )?is proved|would be proved|PROVED says|/PROVED\b| PROVED$|proves and installs|unproved'
    "$TOP/checks/claims.sh" "$folder" '\bprove[ds]\b|\bproofs?\b|\btested\b' "$allowed"
}

# prepare FOLDER: what a new user has there besides
prepare() {
    mkdir -p "$1" && (cd "$TOP" && cp -r examples c/tests/greeting.c c/tests/print.c checks/try-release.sh "$1")
}

# whole FOLDER PROVED: PROVED lists each file below the folder but itself, and release/verify finds what is changed
whole() {
    sed '1,/^sha256 of what is shipped:$/d; s/^[^ ]*  //' "$2" >shipped
    (cd "$1" && find . ! -type d | sed 's|^\./||' | grep -vx PROVED | LC_ALL=C sort) >there
    LC_ALL=C sort shipped | diff - there && changes_show "$1" "$2"
}

# changes_show FOLDER PROVED: release/verify has nothing against the files below the folder, fails where one is changed, and names each that is
changes_show() {
    sed '1,/^sha256 of what is shipped:$/d; s/^[^ ]*  //' "$2" >shipped
    [ -s shipped ] || echo "$2 lists no file"
    "$TOP/release/verify" "$2" "$1" >told 2>&1 || { cat told && return 1; }
    rm -rf changed && mkdir changed && (cd "$1" && xargs -d '\n' cp -a --parents -t "$CRAMTMP/changed") <shipped || return
    is_first=yes
    while IFS= read -r file; do
        printf x | dd of="changed/$file" bs=1 seek=3 conv=notrunc 2>/dev/null
        [ -z "$is_first" ] || ! "$TOP/release/verify" "$2" changed >told 2>&1 || echo "verify doesn't fail where $file is changed"
        is_first=
    done <shipped
    ! "$TOP/release/verify" "$2" changed >told 2>/dev/null || echo "verify doesn't fail where all of $2 is changed"
    sed -n 's/: FAILED$//p' told | diff shipped -
}

# licensed FILE CRATE..: each part that is compiled into these crates is named there, with the whole text of its licence
licensed() {
    file=$1
    kit=$(dirname "$(rt doc)")
    shift
    # shellcheck disable=SC2046 # names of parts
    python3 -B "$TOP/checks/licences.py" "$kit" "$file" $(python3 -B "$TOP/release/parts.py" "$kit" "$@" | cut -d ' ' -f 1)
}

# names_functions LIBRARY FOLDER [GDB]: a file of the folder has the symbol table of the library, which itself has none, where a debugger looks
# for it by the build-id; GDB is one that has to find a function's name by it
names_functions() {
    id=$(readelf -n "$1" | sed -n 's/.*Build ID: //p')
    table=$2/.build-id/$(echo "$id" | sed 's|^..|&/|').debug
    [ -f "$table" ] && [ "$(readelf -n "$table" | sed -n 's/.*Build ID: //p')" = "$id" ] || echo "no symbol table has the build-id of $1: $id"
    ! readelf -SW "$1" | grep ' \.symtab '
    readelf -sW "$table" | awk '$4 == "FUNC" && $5 == "LOCAL" { print $3, $2, $8 }' | sort -n | tail -n 1 >longest
    read -r _ at name <longest || echo "$table names no function"
    [ -z "${3-}" ] || "$3" -nx -batch -iex "set debug-file-directory $2" -ex "info symbol 0x$at" "$1" 2>&1 | grep -qF "$name in section .text" ||
        echo "$3 doesn't find the name $name by the build-id of $1"
}

# debian FOLDER RELEASE MACHINE: makes one there, with a C compiler and Python; as root, with debootstrap and the net. MACHINE is amd64, or
# arm64 where the machine runs such programs by an emulator. Where BSONRAW_DEBIANS names a folder, what is made is kept there, for the
# next time.
debian() {
    kept=${BSONRAW_DEBIANS:+"$BSONRAW_DEBIANS/$2-$3.tar"}
    if [ "$3" = arm64 ] && ! grep -qx enabled /proc/sys/fs/binfmt_misc/qemu-aarch64 2>/dev/null; then
        echo "programs of ARM don't run here: Debian's qemu-user-static with binfmt-support runs them"
        return 1
    fi
    if [ -n "$kept" ] && [ -e "$kept" ]; then
        mkdir -p "$1" && tar -C "$1" -xf "$kept"
        return
    fi
    debootstrap --arch="$3" --variant=minbase --include=gcc,libc6-dev,pkg-config,python3-dev,python3-venv,python3-pip,python3-setuptools,python3-wheel \
        "$2" "$1" || return 1
    rm -f "$1"/var/cache/apt/archives/*.deb
    [ -z "$kept" ] || { tar -C "$1" -cf "$kept.new" . && mv "$kept.new" "$kept"; }
}

# in_debian FOLDER COMMANDS [NAME=VALUE..]: runs them there, in /try, with these in the environment
in_debian() {
    there=$1
    commands=$2
    shift 2
    chroot "$there" /usr/bin/env -i PATH=/usr/sbin:/usr/bin:/sbin:/bin HOME=/root LC_ALL=C.UTF-8 PYTHONDONTWRITEBYTECODE=1 "$@" \
        sh -c "cd /try && $commands"
}
