#!/bin/sh
# Installs the built program, its manual page and its completions for bash, zsh and fish below PREFIX. Folders that
# aren't there are made; a line is printed for each file. Where one of the files isn't here, nothing is installed.
#
# With --library it installs the library for C in their place: the header, libpciplan.a, libpciplan.so.0, a file for
# pkg-config, and the bindings for Python and Rust. It needs what `rt lib` made in crates/pciplan_c, and a C compiler.
#
# With --uninstall the same files below PREFIX are removed, and a line is printed for each that was there. Folders stay.
# Where none of the files is there, or a folder stands in the place of one, nothing is removed.
#
# Usage: install.sh [--uninstall] [--library] PREFIX, which begins with a slash, as /usr/local; with DESTDIR set, below
# $DESTDIR$PREFIX.
set -u
umask 022

# refuse STATUS WHY: says why nothing more is done, and ends.
refuse() {
    printf 'install.sh: %s\n' "$2" >&2
    exit "$1"
}

usage='usage: install.sh [--uninstall] [--library] PREFIX, which begins with a slash'
uninstalls='' what=program
while [ $# -gt 1 ]; do
    case $1 in
    --uninstall) uninstalls=yes ;;
    --library) what=library ;;
    *) refuse 2 "$usage" ;;
    esac
    shift
done
[ $# -eq 1 ] || refuse 2 "$usage"
case $1 in
/*) prefix=${1%/} below=${DESTDIR-}${1%/} ;;
*) refuse 2 "$usage" ;;
esac
top=$(CDPATH='' cd -- "$(dirname -- "$0")" && pwd) || exit 1
program=crates/pciplan/out/pciplan
proved=crates/pciplan_c/out/libpciplan_c.a

# each_file_of_program DOES: calls DOES with a file of this folder, its place below PREFIX, and its mode, for each of them.
each_file_of_program() {
    "$1" "$program" bin/pciplan 755
    "$1" docs/pciplan.1 share/man/man1/pciplan.1 644
    "$1" docs/completions/pciplan.bash share/bash-completion/completions/pciplan 644
    "$1" docs/completions/_pciplan share/zsh/site-functions/_pciplan 644
    "$1" docs/completions/pciplan.fish share/fish/vendor_completions.d/pciplan.fish 644
}

# each_file_of_library DOES: the same of the library. What make_library makes stands in the folder $made; a link has no
# mode, but the word `link`, and what it leads to in the place of a file.
each_file_of_library() {
    "$1" c/include/pciplan.h include/pciplan.h 644
    "$1" "${made-}/libpciplan.a" lib/libpciplan.a 644
    "$1" "${made-}/libpciplan.so.0" lib/libpciplan.so.0 644
    "$1" libpciplan.so.0 lib/libpciplan.so link
    "$1" "${made-}/pciplan.pc" lib/pkgconfig/pciplan.pc 644
    for file in python/pciplan.py rust/Cargo.toml rust/build.rs rust/src/lib.rs rust/src/memory.rs rust/src/raw.rs; do
        "$1" "bindings/$file" "share/pciplan/$file" 644
    done
}

# make_library: makes both libraries and the file for pkg-config in a folder of its own, which is removed at the end.
make_library() {
    [ -f "$top/$proved" ] || refuse 1 "$proved isn't built: (cd crates/pciplan_c && rt lib)"
    made=$(mktemp -d) || refuse 1 "can't make a folder"
    trap 'rm -rf "$made"' EXIT
    cp -- "$top/$proved" "$made/libpciplan.a" || refuse 1 "can't write $made/libpciplan.a"
    # Members that a program doesn't need aren't linked. So one that has functions of memory of its own gets these.
    for part in memory/pciplan_memory processor/pciplan_supported version/pciplan_version; do
        compile -O2 -c "$top/c/$part.c" -o "$made/${part#*/}.o"
        "${AR:-ar}" r "$made/libpciplan.a" "$made/${part#*/}.o" 2>/dev/null || refuse 1 "can't add to $made/libpciplan.a"
    done
    names=$(sed -n 's/^uint[0-9]*_t \(pciplan_[a-z]*\)(.*/\1;/p' "$top/c/include/pciplan.h") || exit 1
    printf 'PCIPLAN_0 { global: %s local: *; };\n' "$names" >"$made/names"
    compile -shared -Wl,-soname,libpciplan.so.0 -Wl,--version-script="$made/names" -Wl,-z,defs -Wl,-z,relro -Wl,-z,now \
        -Wl,--whole-archive "$made/libpciplan.a" -Wl,--no-whole-archive -o "$made/libpciplan.so.0"
    version=$(sed -n 's/^#define PCIPLAN_VERSION 0x\(..\)\(..\)\(..\)$/0x\1 0x\2 0x\3/p' "$top/c/include/pciplan.h") || exit 1
    # shellcheck disable=SC2086,SC2016
    {
        printf 'prefix=%s\nincludedir=${prefix}/include\nlibdir=${prefix}/lib\n\n' "$prefix"
        printf 'Name: pciplan\nDescription: judges, plans and settles the addresses of PCI functions\n'
        printf 'Version: %d.%d.%d\n' $version
        printf 'Cflags: -I"${includedir}"\nLibs: -L"${libdir}" -lpciplan\n'
    } >"$made/pciplan.pc"
}

# compile WORD..: the C compiler, with the header at hand.
compile() {
    ${CC:-cc} -std=c11 -fPIC -I"$top/c/include" "$@" || refuse 1 "the C compiler ${CC:-cc} failed"
}

# source_of FILE: sets `source` to the file, which is one of this folder where it doesn't begin with a slash.
source_of() {
    case $1 in
    /*) source=$1 ;;
    *) source=$top/$1 ;;
    esac
}

# look FILE PLACE MODE: ends where the file isn't here, or a folder stands in its place.
look() {
    source_of "$1"
    if [ "$3" != link ] && ! [ -f "$source" ]; then
        [ "$1" != "$program" ] ||
            refuse 1 "$1 isn't built: (cd crates/pciplan && rt all check --jobs 4 && rt run -- check data/dump.txt data/probe.txt)"
        refuse 1 "$1 is missing"
    fi
    ! [ -d "$below/$2" ] || refuse 1 "$below/$2 is a folder"
}

# put FILE PLACE MODE: installs one file. It is moved to its place when it is whole, as the old program may be running.
put() {
    place=$below/$2
    source_of "$1"
    mkdir -p -- "${place%/*}" || refuse 1 "can't make the folder ${place%/*}"
    new=$(mktemp "$place.XXXXXX") || refuse 1 "can't write to the folder ${place%/*}"
    if ! { put_at "$new" "$1" "$3" && mv -f -- "$new" "$place"; }; then
        rm -f -- "$new"
        refuse 1 "can't write $place"
    fi
    printf '%s\n' "$place"
}

# put_at NEW FILE MODE: makes the file or the link NEW.
put_at() {
    case $3 in
    link) ln -sf -- "$2" "$1" ;;
    *) cp -- "$source" "$1" && chmod "$3" "$1" ;;
    esac
}

# find_put FILE PLACE MODE: counts the file if something stands in its place; ends where that is a folder.
find_put() {
    ! [ -d "$below/$2" ] || refuse 1 "$below/$2 is a folder"
    if [ -e "$below/$2" ] || [ -L "$below/$2" ]; then
        found=$((found + 1))
    fi
}

# take FILE PLACE MODE: removes one file, if it is there.
take() {
    place=$below/$2
    if [ -e "$place" ] || [ -L "$place" ]; then
        rm -f -- "$place" || refuse 1 "can't remove $place"
        printf '%s\n' "$place"
    fi
}

if [ -n "$uninstalls" ]; then
    found=0
    "each_file_of_$what" find_put
    [ $found -gt 0 ] || refuse 1 "nothing is installed below $below/"
    "each_file_of_$what" take
else
    [ "$what" = program ] || make_library
    "each_file_of_$what" look
    "each_file_of_$what" put
fi
