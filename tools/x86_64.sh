# C programs for x86-64 that link the library's archive, on any machine: by a cross compiler and an emulator where it is
# another one. Scripts read this file in, with the repository's root as the current folder.
. tools/debian.sh

archive=target/staticlib/libhindraloha.a
c_out=target/x86_64

# Makes the archive where it is missing or older than a source of the crates; where that fails, shows why.
make_archive() {
    [ ! -f "$archive" ] || [ -n "$(find crates/*/src -name '*.rt' -newer "$archive" | head -n 1)" ] || return 0
    mkdir -p "$c_out"
    tools/archive >"$c_out/archive.log" 2>&1 || { tail -n 20 "$c_out/archive.log" >&2 && return 1; }
}

# Runs the C compiler that was found.
compiler() {
    LD_LIBRARY_PATH=$compiler_libraries "$compiler" $compiler_static "$@"
}

# Runs a program for x86-64.
run_program() {
    if [ -n "$emulator" ]; then "$emulator" "$@"; else "$@"; fi
}

# Whether the compiler and the emulator that were found make a program and run it.
works() {
    mkdir -p "$c_out"
    printf '#include <stdio.h>\nint main(void) { return puts("works") < 0; }\n' >"$c_out/works.c"
    compiler "$c_out/works.c" -o "$c_out/works" >"$c_out/works.log" 2>&1 &&
        [ "$(run_program "$c_out/works" 2>>"$c_out/works.log")" = works ]
}

# Finds an emulator: one that is installed, or Debian's.
find_emulator() {
    for emulator in qemu-x86_64 qemu-x86_64-static; do
        ! command -v "$emulator" >/dev/null 2>&1 || return 0
    done
    emulator=$c_out/qemu/usr/bin/qemu-x86_64-static
    unpack "$c_out/qemu" download qemu-user-static
}

# Finds a compiler and, where the machine is another one, an emulator; the compiler may be Debian's, unpacked. It looks for
# its assembler beside itself alone, so that is unpacked too where the machine has one.
find_compiler() {
    compiler=${CC:-cc} compiler_static='' compiler_libraries=${LD_LIBRARY_PATH:-} emulator=
    if [ "$(uname -m)" != x86_64 ]; then
        find_emulator || return 1
        compiler=x86_64-linux-gnu-gcc compiler_static=-static
        works || {
            mkdir -p "$c_out"
            unpack "$c_out/gcc" --reinstall install gcc-x86-64-linux-gnu binutils-x86-64-linux-gnu libc6-dev-amd64-cross ||
                return 1
            compiler=$PWD/$c_out/gcc/usr/bin/x86_64-linux-gnu-gcc
            compiler_libraries=$PWD/$c_out/gcc/usr/lib/$(uname -m)-linux-gnu
        }
    fi
    works
}

# Compiles a C program against header and archive, without a warning: its source and what it is called.
c_program() {
    compiler -std=c11 -O2 -Wall -Wextra -Wpedantic -Werror -Iinclude "$1" "$archive" -o "$2"
}
