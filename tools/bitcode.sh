# The library for this machine's processor, compiled from the LLVM bitcode that its archive, which is for x86-64, is made
# from. Scripts read this file in, with the repository's root as the current folder and `made` as the whole path of the
# folder for all that is made.
machine=$(uname -m)

# Links what is in a folder of the kit into another, except for one name.
link_all_but() {
    mkdir -p "$2"
    for file in "$1"/*; do
        [ "${file##*/}" = "$3" ] || ln -s "$file" "$2/${file##*/}"
    done
}

# Lays out a kit of links to the real one, whose clang also keeps the bitcode that it is given: outside the checkout, as
# `rt ci` refuses links in it. rt takes the folder above its own for the kit, so its two files of Python are copies.
lay_out_kit() {
    rt=$(readlink -f "$(command -v rt)") || return 1
    kit=${rt%/bin/rt}
    clang=$kit/toolchain/bin/clang
    [ -x "$clang" ] || return 1
    links=$(mktemp -d) || return 1
    link_all_but "$kit" "$links/kit" bin
    rm "$links/kit/toolchain"
    link_all_but "$kit/bin" "$links/kit/bin" rt
    rm "$links/kit/bin/rtlib.py"
    cp "$rt" "$kit/bin/rtlib.py" "$links/kit/bin/"
    link_all_but "$kit/toolchain" "$links/kit/toolchain" bin
    link_all_but "$kit/toolchain/bin" "$links/kit/toolchain/bin" clang
    cat >"$links/kit/toolchain/bin/clang" <<END
#!/bin/sh
for word in "\$@"; do
    case \$word in *.bc) cp "\$word" "$made/module.bc" ;; esac
done
exec "$clang" "\$@"
END
    chmod +x "$links/kit/toolchain/bin/clang"
}

# The lines that say what an LLVM module is for: those of this processor.
target_lines() {
    echo 'int none;' | "$clang" --target="$machine-unknown-linux-gnu" --no-default-config -S -emit-llvm -x c - -o - |
        grep '^target '
}

# Proves and compiles the library by that kit.
keep_bitcode() {
    links=
    lay_out_kit && (cd crates/hindraloha_c && "$links/kit/bin/rt" lib) >"$made/library.txt" 2>&1 && [ -s "$made/module.bc" ]
    status=$?
    [ -z "$links" ] || rm -rf "$links"
    return $status
}

# Proves and compiles the library, keeps its bitcode, and writes it as text for this processor: entries.ll.
write_entries() {
    rm -rf "$made"
    mkdir -p "$made"
    keep_bitcode && "$clang" --target=x86_64-unknown-linux-gnu --no-default-config -Xclang -disable-llvm-passes -S \
        -emit-llvm -x ir "$made/module.bc" -o "$made/module.ll" || return 1
    cpu='s/"target-cpu"="x86-64[^"]*"//'
    [ "$machine" != x86_64 ] || cpu=
    {
        target_lines
        sed -e '/^target /d' -e "$cpu" "$made/module.ll"
    } >"$made/entries.ll"
}

# Compiles a module for this processor, as the toolchain compiles the archive.
compile() {
    "$clang" --target="$machine-unknown-linux-gnu" --no-default-config -O3 -fPIC -ffunction-sections -fdata-sections \
        -mllvm -trap-unreachable -mllvm -no-trap-after-noreturn -mllvm -disable-machine-licm \
        -mllvm -disable-postra-machine-licm -mllvm -sink-common-insts=false -c -x ir "$made/$1.ll" -o "$made/$1.o"
}

# Chooses the code of the entries, and says which.
choose_entries() {
    if [ "$machine" = x86_64 ]; then
        entries=target/staticlib/libhindraloha.a
        echo "library: the archive that tools/archive wrote, on x86-64"
        return 0
    fi
    entries=$made/entries.o
    compile entries || return 1
    echo "library: NOT the archive, which is for x86-64: the same bitcode, compiled for $machine"
}
