# Programs that rt built, for x86-64. `rt ci` at the top of the repository leaves them in their crates' out/, and so does
# `rt run` in a crate. Scripts read this file in, with the repository's root as the current folder.

# Builds a program, by its name, where it is missing or older than a source of the crates; says so, and shows why where
# that fails.
build_program() {
    program=crates/$1/out/$1
    [ ! -x "$program" ] || [ -n "$(find crates/*/src -name '*.rt' -newer "$program" | head -n 1)" ] || return 0
    echo "$1 is not built, or its sources are newer: rt run proves and builds it" >&2
    mkdir -p target
    (cd "crates/$1" && rt run </dev/null) >"target/$1.log" 2>&1 || { tail -n 20 "target/$1.log" >&2 && return 1; }
}

# Runs a program that rt built, by its name. Where a command follows the name, that one is run instead, with the program
# as its last word.
built() {
    program=crates/$1/out/$1
    shift
    [ -x "$program" ] || { echo "there is no $program" >&2 && return 1; }
    "$@" "$program"
}
