# What host/test and host/emulated share. They read this file in.

# Says in one line what failed, and ends.
fail() {
    echo "host: $1" >&2
    exit 1
}

# Runs the Rust crate's tests: a log, what answers in place of the entries, and the command that is cargo. Says how many
# passed, or shows what cargo said.
crate_tests() {
    log=$1 answered=$2
    shift 2
    "$@" >"$log" 2>&1 || { cat "$log" >&2 && fail "cargo test fails on $answered"; }
    passed=$(sed -n 's/^test result: ok\. \([0-9]*\) passed.*/\1/p' "$log" | awk '{ sum += $1 } END { print sum }')
    echo "Rust: $passed tests passed on $answered"
}
