# Read by reedsatchel, tests/talk, firmware/test and bench: where the Rattle toolchain is. POSIX sh.
# What the toolchain builds is for x86-64 and runs with the toolchain's own loader and C library, on another processor in its emulator.

# Sets `tools` (the folder of its compiler and C library), `clang`, `linker`, `loader` and `emulator` (empty where none is needed).
# Fails where the toolchain is not there, with the reason in `missing`.
find_toolchain() {
    missing='there is no rt: the Rattle toolchain is not on the PATH'
    command -v rt >/dev/null 2>&1 || return 1
    missing='rt doc failed, so the toolchain was not found'
    guide=$(rt doc) || return 1
    own=$(dirname "$guide")
    find_loader "$own/toolchain" "the toolchain" || return 1
    clang=$tools/bin/clang linker=$own/bin/rattle-link
}

# Sets `tools`, `loader` and `emulator` for a folder with what programs need to run.
find_loader() { # FOLDER WHAT IT IS
    tools=$1 loader=$1/lib/ld-linux-x86-64.so.2 emulator=$1/bin/qemu-x86_64
    [ -x "$emulator" ] || emulator=''
    missing="$2 has no loader for this machine"
    [ -x "$loader" ] || return 1
    missing="this machine is $(uname -m), and $2 has no emulator for it"
    [ "$(uname -m)" = x86_64 ] || [ -n "$emulator" ] || return 1
    missing=''
}

# Sets `programs`, the folder of the programs, and what they need to run: of a folder that `reedsatchel pack` made (`packed` is not empty
# then) that folder itself, of a clone the toolchain.
find_programs() { # FOLDER
    packed='' programs=$1/target/bin
    if [ ! -f "$1/version" ]; then
        find_toolchain
        return
    fi
    packed=yes programs=$1/bin
    find_loader "$1" "this folder, packed for another processor,"
}

# Fails where the toolchain cannot compile and link C, with the reason in `missing`.
find_compiler() {
    for part in "$clang" "$linker"; do
        missing="the toolchain has no $(basename "$part") for this machine"
        [ -x "$part" ] || return 1
    done
    missing=''
}

# Proves the calls for C of a crate NAME, those of crates/NAME_c, and makes their archive: its path is then in `archive`.
make_archive() { # REPOSITORY NAME
    archive=$1/target/staticlib/lib$2.a
    (cd "$1/crates/$2_c" && rt lib) && mkdir -p "$1/target/staticlib" && cp "$1/crates/$2_c/out/lib$2_c.a" "$archive"
}

# Proves and builds a program of a clone, crates/NAME/out/NAME, where it is not there or not of these sources. rt runs what it builds: with
# these words both programs end at once and print nothing.
make_program() { # REPOSITORY NAME
    case $2 in night) set -- "$1" "$2" lines /dev/null ;; *) set -- "$1" "$2" - ;; esac
    (cd "$1/crates/$2" && shift 2 && rt run -- "$@") </dev/null
}

# Runs a program that was built by the toolchain.
run_program() { # PROGRAM WORDS...
    ${emulator:+"$emulator"} "$loader" --library-path "$tools/lib" "$@"
}
# Becomes such a program: only for a subshell.
become_program() { # PROGRAM WORDS...
    exec ${emulator:+"$emulator"} "$loader" --library-path "$tools/lib" "$@"
}
# Links objects and archives to a program.
link_x86() { # PROGRAM OBJECTS...
    program=$1
    shift
    "$linker" --target x86_64-unknown-linux-gnu --toolchain "$tools" -o "$program" "$@"
}
