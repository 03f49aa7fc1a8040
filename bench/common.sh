# Read by run and fuzz: proves and makes the archives, compiles, links, runs. POSIX sh.
# FIRMWARE_A and BENCH_A name archives that are there already. CC names another compiler, on x86-64 alone.
set -u

die() { printf 'bench: %s\n' "$*" >&2; exit 2; }

here=$(cd "$(dirname "$0")" && pwd -P) || exit 2
root=$(dirname "$here")
room=''
trap '[ -z "$room" ] || rm -rf "$room"' EXIT
trap 'exit 130' INT
trap 'exit 143' TERM
room=$(mktemp -d) || die "cannot make a temporary folder"

machine=$(uname -m)
for file in firmware/plain.h firmware/plain.c; do [ -f "$root/$file" ] || die "there is no $file"; done

# The toolchain is needed unless a compiler and both archives are given.
. "$root/toolchain.sh"
emulator=''
if [ -z "${CC:-}" ] || [ -z "${FIRMWARE_A:-}" ] || [ -z "${BENCH_A:-}" ]; then find_toolchain || die "$missing"; fi
if [ -z "${CC:-}" ]; then
    find_compiler || die "$missing"
else
    [ "$machine" = x86_64 ] || die "CC is for x86-64 alone, and this machine is $machine"
    command -v "${CC%% *}" >/dev/null 2>&1 || die "there is no compiler $CC"
fi

# Runs words silently; where they fail, shows what they said and stops.
quietly() { # WHAT WORDS...
    what=$1
    shift
    "$@" >"$room/said" 2>&1 || { tail -n 20 "$room/said" >&2; die "$what failed"; }
}

# Puts the path of an archive into $archive; it is proved and made unless it is given.
find_archive() { # NAME GIVEN
    if [ -n "$2" ]; then
        [ -f "$2" ] || die "there is no archive $2"
        archive=$2
        return
    fi
    [ -d "$root/crates/$1_c" ] || die "there is no crate $1_c"
    echo "bench: proving the crate $1_c and making its archive" >&2
    quietly "rt lib in crates/$1_c" make_archive "$root" "$1"
}

compile() { # SOURCE OBJECT WORDS...
    source=$1 object=$room/$2
    shift 2
    set -- -std=c99 -O2 -Wall -Wextra -Werror -I"$root/firmware" -I"$here" "$@" -c "$source" -o "$object"
    if [ -n "${CC:-}" ]; then
        # shellcheck disable=SC2086
        quietly "$CC $source" $CC -D_POSIX_C_SOURCE=200809L "$@"
    else
        quietly "clang $source" "$clang" --target=x86_64-linux-gnu -nostdinc -isystem "$here/include" "$@"
    fi
}

# Links $room/program from the objects of $room and the archives.
link_program() { # OBJECT... ; archives in $archives, one to a line
    objects=''
    for object in "$@"; do objects="$objects$room/$object
"; done
    oldifs=$IFS
    IFS='
'
    # shellcheck disable=SC2086
    set -- $objects $archives
    IFS=$oldifs
    if [ -n "${CC:-}" ]; then
        # shellcheck disable=SC2086
        quietly "$CC, linking," $CC -o "$room/program" "$@"
    else
        quietly "rattle-link" link_x86 "$room/program" "$@"
    fi
}

# Runs the program, under other words if $under has any.
under=''
program() {
    if [ -n "${CC:-}" ]; then
        # shellcheck disable=SC2086
        $under "$room/program" "$@"
    else
        # shellcheck disable=SC2086
        $under ${emulator:+"$emulator"} "$loader" --library-path "$tools/lib" "$room/program" "$@"
    fi
}
