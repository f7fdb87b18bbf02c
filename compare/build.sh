# Builds the comparison under target/compare. The scripts beside it read this file in, with the repository's root as the
# current folder. Where the crate's sources or rustc are missing it says so in one line and ends the script with 0. Where
# the library can't be linked or run it says so in one line too, and crate and model are compared without it.
. tools/x86_64.sh

out=target/compare
sources=${MEMINTERVAL_SRC:-../shared/docs/src/src}

# Says why nothing is compared, and ends: a comparison that can't be run is no failure.
not_run() {
    echo "comparison not run: $1"
    exit 0
}

# Makes the library's archive and the bridge to it. An archive that can't be made is a failure, a missing tool is none.
build_bridge() {
    bridge=$out/bridge
    command -v rt >/dev/null 2>&1 || { without_library "there is no rt to make it" && return; }
    find_compiler || { without_library "no C compiler or no emulator for x86-64 can be had" && return; }
    make_archive && c_program compare/bridge.c "$bridge"
}

# Says why the library isn't compared.
without_library() {
    bridge=
    echo "library not compared: $1"
}

# Runs the comparison, with the library where there is a bridge to it.
compare() {
    if [ -n "$bridge" ]; then set -- "$@" --by ${emulator:+"$emulator"} "$bridge"; fi
    "$out/compare" "$@"
}

# Compiles a library: its name, its source, its folder, and what else rustc is to know.
library() {
    name=$1 source=$2 folder=$3
    shift 3
    rustc -O --crate-type rlib --crate-name "$name" "$@" --out-dir "$folder" "$source"
}

# Compiles num-traits' sources, as Debian packs them, in the edition that their own manifest names; no feature and no
# build script is needed.
build_num_traits() {
    unpack "$out/num-traits" download librust-num-traits-dev || return 1
    packed=$(echo "$out"/num-traits/usr/share/cargo/registry/num-traits-*) traits=$out/debian
    edition=$(sed -n 's/^edition = "\(.*\)"$/\1/p' "$packed/Cargo.toml")
    library num_traits "$packed/src/lib.rs" "$traits" --edition "${edition:-2015}" --cap-lints allow \
        >"$out/num-traits.log" 2>&1
}

# Chooses num-traits, or the stand-in, and says which.
choose_num_traits() {
    if build_num_traits; then
        version=$(sed -n 's/^version = "\(.*\)"$/\1/p' "$packed/Cargo.toml" | head -n 1)
        echo "num-traits: $version, from Debian's package librust-num-traits-dev"
        return 0
    fi
    echo "num-traits: the stand-in compare/num_traits.rs, as Debian's package can't be had here"
    traits=$out/stand-in
    library num_traits compare/num_traits.rs "$traits" --edition 2021
}

# Copies the crate's four files, adds the probe to the copy of lib.rs as one more module, and leaves the sources alone.
lay_out_crate() {
    mkdir -p "$out/crate"
    for file in interval node iterators lib; do
        cat "$sources/$file.rs" >"$out/crate/$file.rs" || return 1
    done
    cp compare/probe.rs "$out/crate/probe.rs"
    echo 'pub mod probe;' >>"$out/crate/lib.rs"
}

# Compiles the crate into a folder, with further options.
build_crate() {
    crate_folder=$1
    shift
    library meminterval "$out/crate/lib.rs" "$crate_folder" --edition 2021 --cap-lints allow \
        --extern num_traits="$traits/libnum_traits.rlib" "$@"
}

# Compiles a program against the crate in a folder: its source, what it is called, the folder, and further options.
program() {
    source=$1 called=$2 crate_folder=$3
    shift 3
    rustc -O --edition 2021 -L "$traits" --extern meminterval="$crate_folder/libmeminterval.rlib" "$@" \
        -o "$out/$called" "$source"
}

rustc --version >/dev/null 2>&1 || not_run "there is no rustc"
for file in interval node iterators lib; do
    [ -r "$sources/$file.rs" ] || not_run "there is no $file.rs in $sources"
done
mkdir -p "$out"
choose_num_traits && lay_out_crate && build_crate "$out" &&
    library model compare/model/lib.rs "$out" --edition 2021 -C overflow-checks=on &&
    program compare/driver/main.rs compare "$out" --extern model="$out/libmodel.rlib" && build_bridge || exit 1
