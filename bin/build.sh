# What bin/bsonraw, bin/bsonraw-dump, bin/install, bin/package and bin/test share: the proved build of crates, and runs of a program. They
# source it, with root the repository's folder and me the script's name. plan.py knows the crates' keys, and how long they take.

say() {
    echo "$me: $*" >&2
}

# need_rt WHAT: ends the script where the kit isn't there, and says what there is without it
need_rt() {
    need_tools python3 # which rt is written in
    command -v rt >/dev/null && return
    say "$1 needs the command rt of the Rattle kit, which isn't in PATH, and neither the kit nor a release has a public address yet." \
        "README.md says what can be read without them"
    exit 127
}

# need_tools TOOL..: ends the script where one of these isn't there
need_tools() {
    for tool in "$@"; do
        command -v "$tool" >/dev/null || { say "it needs $tool, which isn't in PATH: bin/setup installs all that is needed" && exit 127; }
    done
}

# kit: the kit's folder; rt isn't run for it where it is a program of the kit's folder bin
kit() {
    found=$(dirname "$(dirname "$(realpath "$(command -v rt)")")")
    if [ -e "$found/KIT-ID" ]; then echo "$found"; else dirname "$(rt doc)"; fi
}

plan() {
    python3 -I "$root/bin/plan.py" "$@"
}

# key_of CRATE: a sum of all that its build is made with: the kit, flags, names and content of files, also of the crates below it
key_of() {
    plan key "$(kit)" "$1"
}

# is_stale CRATE: whether what its build leaves isn't there, or was made with something else than what is there now
is_stale() {
    [ ! -e "$(made_by "$1")" ] || ! plan is-built "$(kit)" "$1"
}

# made_by CRATE: the file that its build leaves: a program, or the library for C
made_by() {
    case $1 in
    bsonraw_c) echo "$root/crates/$1/out/lib$1.a" ;;
    *) echo "$root/crates/$1/out/$1" ;;
    esac
}

# note_built CRATE [KEY]: notes the key of a build, or today's, and the sum of what it made
note_built() {
    noted=${2-$(key_of "$1")} && printf '%s\n%s\n' "$noted" "$(sha256sum <"$(made_by "$1")")" >"$root/crates/$1/out/built"
}

# is_as_built CRATE: whether what is there is what its build made
is_as_built() {
    [ "$(sha256sum 2>/dev/null <"$(made_by "$1")")" = "$(sed -n 2p "$root/crates/$1/out/built" 2>/dev/null)" ]
}

# The crates below these crates, and themselves, in the order of crates.txt: the lowest first.
crates() {
    awk -F: -v tops="$*" '
        function mark(crate, names, count, i) {
            if (crate in marked || !(crate in below)) return
            marked[crate] = 1
            count = split(below[crate], names, " ")
            for (i = 1; i <= count; i++) mark(names[i])
        }
        /^[a-z]/ { split($1, words, " "); below[words[1]] = $2; order[++lines] = words[1] }
        END {
            count = split(tops, each, " ")
            for (i = 1; i <= count; i++) mark(each[i])
            for (i = 1; i <= lines; i++) if (order[i] in marked) print order[i]
        }
    ' "$root/crates.txt"
}

# over COMMAND CRATE FOLDER FLAG..: has the kit's compiler itself check or build a crate whose files are in this folder, over the
# libraries below it that are in out/ of the repository's crates. That proves the crate alone.
over() {
    command=$1
    crate=$2
    folder=$3
    kit=$(kit)
    shift 3
    for name in $(sed -n "s/^$crate\( staticlib\)\{0,1\}: *//p" "$root/crates.txt"); do
        if [ -d "$root/crates/$name" ]; then
            set -- "$@" --extern "$name=$root/crates/$name/out/rlib/$name.rlib"
        else
            set -- "$@" --extern "$name=$kit/rlibs/$name.rlib"
        fi
    done
    for name in $(crates "$crate"); do
        [ "$name" = "$crate" ] || set -- "$@" -L "dependency=$root/crates/$name/out/rlib"
    done
    (cd "$folder" && "$kit/bin/rattle" "$command" --crate-name "$crate" --links "$crate=" "$@" --extern "std=$kit/rlibs/std.rlib" \
        -L "dependency=$kit/rlibs" --antt-project "$kit/rattle/logic/antt-project.json" --logic-built "$kit/logic_built")
}

# build_over CRATE FOLDER FLAG..: builds a crate so
build_over() {
    over build "$@" --toolchain "$(kit)/toolchain" --backend llvm
}

# locked CRATE COMMAND..: runs a command; meanwhile no `rt` and no other build works in this crate, and none changes those below it
locked() {
    crate=$1
    shift
    for name in $(crates "$crate" | LC_ALL=C sort -r); do
        if [ "$name" = "$crate" ]; then set -- flock "$root/crates/$name" "$@"; else set -- flock -s "$root/crates/$name" "$@"; fi
    done
    "$@"
}

# link_program CRATE: links what was compiled of a program
link_program() {
    made=$root/crates/$1/out/$1
    kit=$(kit)
    "$kit/bin/rattle-link" --target x86_64-unknown-linux-gnu --toolchain "$kit/toolchain" -o "$made" "$made.o" "$kit/c/libos_c.a" \
        "$kit/c/liblibc_c.a" && rm "$made.o"
}

# runs CRATE: whether its program prints what the file stdout beside src/ has, given the files args and stdin
runs() {
    folder=$root/crates/$1
    export given="$folder/stdin"
    printed=$(xargs -d '\n' sh -c 'exec "$0" "$@" <"$given"' "$folder/out/$1" <"$folder/args") && [ "$printed" = "$(cat "$folder/stdout")" ] && return
    echo "$1 prints something else than its file stdout has: $printed"
    return 1
}

# prove_alone CRATE JOBS: proves and builds a crate over those below it: a library, the library for C, or a program
prove_alone() {
    folder=$root/crates/$1
    if [ -e "$folder/src/main.rt" ]; then
        build_over "$1" "$folder" src/main.rt --jobs "$2" --incremental out/incremental -o "out/$1.o" && link_program "$1" && runs "$1"
    elif grep -q "^$1 staticlib" "$root/crates.txt"; then
        build_over "$1" "$folder" src/lib.rt --jobs "$2" --incremental out/incremental --crate-type staticlib -o "out/lib$1.a"
    else
        rm -rf "$folder/out/rlib" && mkdir "$folder/out/rlib" &&
            over build "$1" "$folder" src/lib.rt --jobs "$2" --incremental out/incremental -o "out/rlib/$1.rlib"
    fi
}

# prove CRATE JOBS KEY: the same, with the key noted of what it was made with, if that is still there
prove() {
    mkdir -p "$root/crates/$1/out" || return 1
    prove_alone "$1" "$2"
    status=$?
    if [ "$status" = 137 ] && [ "$2" != 1 ]; then
        echo "the check was killed, most likely for memory: once more, with one job"
        prove_alone "$1" 1
        status=$?
    fi
    [ "$status" = 0 ] || return 1
    if [ "$(key_of "$1")" != "$3" ]; then
        echo "$1, or a crate below it, was changed while it was proved"
        return 1
    fi
    if [ -d "$root/crates/$1/out/rlib" ]; then printf '%s' "$3" >"$root/crates/$1/out/rlib/stamp"; else note_built "$1" "$3"; fi
}

# run_step GOAL KEY: what make runs for a goal of plan.py
run_step() {
    jobs=$(plan begin "$work" "$slots" "$1") || return 1
    case $1 in
    *:again)
        built_for=$machine
        . "$root/bin/release.sh" && for_machine "$built_for" && build_others
        ;;
    *) locked "$1" sh -c '. "$root/bin/build.sh" && prove "$@"' sh "$1" "$jobs" "$2" ;;
    esac >"$work/log/$1" 2>&1 </dev/null
    if [ $? = 0 ]; then touch "$work/ended/$1"; else echo "$1" >>"$work/failed"; fi
    [ -e "$work/ended/$1" ]
}

# say_how_long CRATES KEPT MINUTES: what the build takes
say_how_long() {
    kept=
    [ "$2" = 0 ] || kept=" $2 of them were proved here before, and of these only what changed is proved again."
    say "crates to prove, once: $1, up to $slots at a time, in about $3 minutes.$kept"
}

# columns: how many the terminal has
columns() {
    stty size </dev/tty 2>/dev/null | cut -d ' ' -f 2 | grep -x '[1-9][0-9]*' || echo 80
}

# show_left: says how far the build is: on a terminal every five seconds, in a line that is written over; else where a step is through
show_left() {
    now=$(date +%s)
    through=$(find "$work/ended" -type f | wc -l)
    [ "$through" != "$shown" ] || { [ -t 2 ] && [ $((now - said_at)) -ge 5 ]; } || return 0
    said_at=$now
    # shellcheck disable=SC2046 # words
    set -- $(plan left "$work" "$slots")
    shown=$1
    text="$me: $1 of $2 done in $(((now - began) / 60)) min, about $3 min left"
    shift 3
    if [ -t 2 ]; then
        printf '\r%s\033[K' "$(echo "$text${1+; now: $*}" | cut -c "1-$(($(columns) - 1))")" >&2
    else
        echo "$text" >&2
    fi
}

# build GOAL..: proves and builds the crates of these goals of plan.py and those below them, where they aren't. make says which is next. In
# the folder $work are left log/GOAL of each and, where one failed, its name in the file failed.
build() {
    mkdir "$work/begun" "$work/ended" "$work/log" && slots=$(plan slots) && planned=$(plan makefile "$(kit)" "$work" "$slots" "$@") || return 1
    # shellcheck disable=SC2086 # three numbers
    say_how_long $planned
    export root me work machine slots
    # in a session of its own, so that it ends with all that it started
    env -u MAKEFLAGS -u MFLAGS -u MAKELEVEL setsid sh -c 'make -s -f "$work/Makefile" -j "$1" >"$work/make" 2>&1; echo "$?" >"$work/status"' \
        sh "$slots" </dev/null &
    making=$!
    began=$(date +%s)
    said_at=$began
    shown=0
    while [ ! -e "$work/status" ] && [ ! -e "$work/failed" ] && kill -0 "$making" 2>/dev/null; do
        sleep 1
        kill -0 "$$" 2>/dev/null || exit 1
        show_left
    done
    [ ! -t 2 ] || echo >&2
    [ ! -e "$work/failed" ] && wait "$making" && making= && [ "$(cat "$work/status")" = 0 ]
}

# make_proved GOAL..: proves and builds these goals of plan.py, in one run; what the compiler said is shown where that fails
make_proved() {
    need_tools make flock setsid
    make_in_a_folder "$@" &
    wait "$!"
}

# The same in a shell with a folder and traps of its own, which ends when the script ends.
make_in_a_folder() (
    work=$(mktemp -d) || exit 1
    making=
    trap '[ -z "$making" ] || kill -TERM "-$making" 2>/dev/null; rm -rf "$work"' EXIT
    trap 'exit 1' HUP INT TERM
    build "$@" && exit
    for name in $(cat "$work/failed" 2>/dev/null); do
        grep -vE '^(fn .*: proved|statements .*|checked .*|so far: .*)$' "$work/log/$name" >&2
        say "$name isn't built: see above"
    done
    [ -e "$work/failed" ] || cat "$work/make" >&2
    say "the build failed; bin/bsonraw --unproved, and bin/bsonraw-dump --unproved, run without a proof"
    exit 1
)

# run_program CRATE WORD..: runs a crate's program, built first where that isn't done with what is there now; or, with --unproved first,
# without a proof. Words that ask for nothing that a build is needed for are answered as the program answers them.
run_program() {
    crate=$1
    shift
    need_tools python3
    if [ "${1-}" != --unproved ] && command -v rt >/dev/null && ! is_stale "$crate"; then exec "$(made_by "$crate")" "$@"; fi
    python3 -I "$root/bin/words.py" "$crate" "$@"
    status=$?
    [ "$status" = 100 ] || exit "$status"
    if [ "${1-}" = --unproved ]; then
        need_rt "a run without a proof"
        exec python3 -I "$root/bin/unproved.py" "$me" "$crate" "$@"
    fi
    need_rt "the build of $me"
    say "the proved program is built first; for a first look without a proof: $me --unproved COMMAND"
    make_proved "$crate" || exit 125
    exec "$(made_by "$crate")" "$@"
}
