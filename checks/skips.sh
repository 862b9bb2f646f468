# What the scripts of checks/ say of what they can't try, since a tool isn't there. They source this file, and so does each run of a table.
#
# Each such thing is a line `NAME: WHAT` in the file that SKIPS names, where it names one: bin/test lists them at its end, by the name that
# CHECK has. WHAT names Debian's package in parentheses. A script that could try nothing ends with the status 77, as automake and meson have it.

skipped=

# has_cargo: whether there is a cargo that builds the crate for Rust
has_cargo() {
    cargo --version 2>/dev/null | grep -Eq '^cargo 1\.(8[1-9]|9[0-9]|[0-9]{3})'
}

# skip WHAT: notes that this isn't tried
skip() {
    skipped="$skipped${skipped:+, }$1"
    [ -z "${SKIPS-}" ] || echo "${CHECK-$(basename "$0" .sh)}: $1" >>"$SKIPS"
}

# skip_all WHAT: ends the script, of which nothing can be tried
skip_all() {
    skip "$1"
    echo "$(basename "$0"): skipped: $1" >&2
    exit 77
}
