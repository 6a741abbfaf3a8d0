#!/bin/sh
# Installs the library for C with install.sh --library from a copy of this tree into temporary folders, looks at what is
# there then, and uninstalls it again. The library here is one of the same names whose calls do nothing, so that nothing has
# to be proved for it; c/package_test.sh runs what uses the real one. A line is printed for each case; the status is 1 where
# one differs. Without a C compiler all of it is skipped.
#
# Usage: library_test.sh [PROGRAM], by default out/pciplan beside this file, which `rt ci` and `rt run` make.
set -u
umask 022
LC_ALL=C
export LC_ALL
unset DESTDIR

for tool in "${CC:-cc}" "${AR:-ar}"; do
    if ! command -v "${tool%% *}" >/dev/null; then
        echo "skipped: all of it, as $tool isn't here"
        echo '0 passed, 0 failed'
        exit 0
    fi
done
here=$(CDPATH='' cd -- "$(dirname -- "$0")" && pwd) || exit 1
top=$here/../..
room=$(mktemp -d) || exit 1
trap 'rm -rf "$room"' EXIT
mkdir -p "$room/tree/crates/pciplan/out" "$room/tree/crates/pciplan_c/out" || exit 1
cp -- "${1:-$here/out/pciplan}" "$room/tree/crates/pciplan/out/pciplan" || exit 1
cp -R -- "$top/install.sh" "$top/docs" "$top/c" "$top/bindings" "$room/tree" || exit 1
cd "$room" || exit 1
proved=crates/pciplan_c/out/libpciplan_c.a
number=$(sed -n 's/^#define PCIPLAN_VERSION //p' tree/c/include/pciplan.h)
version=$(printf '%d.%d.%d' $((number >> 16)) $((number >> 8 & 255)) $((number & 255)))
passed=0 failed=0

# same NAME: compares the files wanted and got.
same() {
    if cmp -s wanted got; then
        echo "ok: $1"
        passed=$((passed + 1))
    else
        echo "DIFFERS: $1"
        diff wanted got
        failed=$((failed + 1))
    fi
}

# has NAME TEXT: the same, where a text is wanted that is no file.
has() {
    printf '%s\n' "$2" >wanted
    same "$1"
}

# said NAME BELOW WORD..: install.sh says each place of the library below BELOW, and ends with 0.
said() {
    title=$1 at=$2
    shift 2
    tree/install.sh "$@" >got 2>&1
    echo "status $?" >>got
    { echo "$places" | sed "s,^,$at/,"; echo 'status 0'; } >wanted
    same "$title"
}

# refused NAME STATUS MESSAGE WORD..: what the last line of standard error and the status are.
refused() {
    title=$1 message="install.sh: $3
status $2"
    shift 3
    tree/install.sh "$@" >out 2>err
    status=$?
    { tail -n 1 err; echo "status $status"; } >got
    has "$title" "$message"
}

# files FOLDER: what stands in the folder and is none, each with its mode.
files() {
    [ ! -d "$1" ] || (cd "$1" && find . ! -type d -exec ls -ld {} +) | awk '{ print substr($1, 1, 10), $NF }' | sort -k 2
}

places='include/pciplan.h
lib/libpciplan.a
lib/libpciplan.so.0
lib/libpciplan.so
lib/pkgconfig/pciplan.pc
share/pciplan/python/pciplan.py
share/pciplan/rust/Cargo.toml
share/pciplan/rust/build.rs
share/pciplan/rust/src/lib.rs
share/pciplan/rust/src/memory.rs
share/pciplan/rust/src/raw.rs'

refused 'a library that is not built' 1 "$proved isn't built: (cd crates/pciplan_c && rt lib)" --library "$room/new"
files new >got
: >wanted
same 'nothing is made without one'

# the calls of the header, but those that install.sh adds
for name in check plan settle start step judge; do
    printf 'unsigned char pciplan_%s(void) { return 0; }\n' $name
done >stub.c
{ ${CC:-cc} -fPIC -c stub.c && "${AR:-ar}" rc "tree/$proved" stub.o; } || exit 1

said 'a new prefix' "$room/usr" --library "$room/usr"
said 'the same prefix again' "$room/usr" --library "$room/usr/"
files usr >got
has 'its files' '-rw-r--r-- ./include/pciplan.h
-rw-r--r-- ./lib/libpciplan.a
-rw-r--r-- ./lib/libpciplan.so.0
-rw-r--r-- ./lib/pkgconfig/pciplan.pc
-rw-r--r-- ./share/pciplan/python/pciplan.py
-rw-r--r-- ./share/pciplan/rust/Cargo.toml
-rw-r--r-- ./share/pciplan/rust/build.rs
-rw-r--r-- ./share/pciplan/rust/src/lib.rs
-rw-r--r-- ./share/pciplan/rust/src/memory.rs
-rw-r--r-- ./share/pciplan/rust/src/raw.rs
lrwxrwxrwx libpciplan.so.0'
{
    cmp usr/include/pciplan.h tree/c/include/pciplan.h
    for file in python/pciplan.py rust/Cargo.toml rust/build.rs rust/src/lib.rs rust/src/memory.rs rust/src/raw.rs; do
        cmp "usr/share/pciplan/$file" "tree/bindings/$file"
    done
} >got 2>&1
: >wanted
same 'header and bindings are those of the tree'
(cd tree/bindings/rust && echo Cargo.toml build.rs src/*) >got
has 'all files of the crate are installed' "$(echo "$places" | sed -n 's,^share/pciplan/rust/,,p' | tr '\n' ' ' | sed 's/ $//')"
"${AR:-ar}" t usr/lib/libpciplan.a >got
has 'the members of the archive' 'stub.o
pciplan_memory.o
pciplan_supported.o
pciplan_version.o'
"${AR:-ar}" t "tree/$proved" >got
has 'what was proved stays as it is' stub.o
cat usr/lib/pkgconfig/pciplan.pc >got
# shellcheck disable=SC2016
has 'the file for pkg-config' "prefix=$room/usr"'
includedir=${prefix}/include
libdir=${prefix}/lib

Name: pciplan
Description: judges, plans and settles the addresses of PCI functions
Version: '"$version"'
Cflags: -I"${includedir}"
Libs: -L"${libdir}" -lpciplan'
{
    sed -n "s/^__version__ = '\(.*\)'$/\1/p" tree/bindings/python/pciplan.py
    sed -n 's/^version = "\(.*\)"$/\1/p' tree/bindings/rust/Cargo.toml
    sed -n 's/^const VERSION: u32 = \(.*\);$/\1/p' tree/bindings/rust/src/lib.rs
} >got
has 'the version of the bindings' "$version
$version
$number"

umask 077
DESTDIR=$room/package
export DESTDIR
said 'DESTDIR, and a umask that hides' "$room/package/a prefix" --library '/a prefix'
umask 022
sed -n 1p "package/a prefix/lib/pkgconfig/pciplan.pc" >got
has 'DESTDIR: the file for pkg-config leaves it out' 'prefix=/a prefix'
if command -v pkg-config >/dev/null; then
    PKG_CONFIG_PATH="package/a prefix/lib/pkgconfig" pkg-config --cflags --libs pciplan | tr -s ' ' | sed 's/ $//' >got
    has 'a prefix with a blank' '-I/a\ prefix/include -L/a\ prefix/lib -lpciplan'
else
    echo "skipped: a prefix with a blank, as pkg-config isn't here"
fi
files package | sed 's/ .*//' | sort -u >got
has 'their modes' '-rw-r--r--
lrwxrwxrwx'
said 'DESTDIR: uninstalled' "$room/package/a prefix" --library --uninstall '/a prefix'
unset DESTDIR

# beside the program, which stays
tree/install.sh "$room/usr" >both 2>&1
tree/install.sh --uninstall --library "$room/usr" >/dev/null 2>&1
files usr | sed 's/.* //' >got
sed "s,$room/usr,.," both | sort >wanted
same 'uninstalled beside the program'
refused 'uninstalled again' 1 "nothing is installed below $room/usr/" --uninstall --library "$room/usr"
tree/install.sh --library "$room/usr" >/dev/null 2>&1
tree/install.sh --uninstall "$room/usr" >/dev/null 2>&1
files usr | wc -l | tr -d ' ' >got
has 'uninstalled: the program beside the library' "$(echo "$places" | wc -l | tr -d ' ')"

# what is refused
usage='usage: install.sh [--uninstall] [--library] PREFIX, which begins with a slash'
refused 'no prefix' 2 "$usage" --library
refused 'a prefix first' 2 "$usage" "$room/new" --library
refused 'a prefix without a slash' 2 "$usage" --library new
refused 'an option that is none' 2 "$usage" --libraries "$room/new"
CC=false
export CC
refused 'a compiler that fails' 1 'the C compiler false failed' --library "$room/new"
unset CC
mv tree/bindings/rust/build.rs kept
refused 'a binding that is missing' 1 'bindings/rust/build.rs is missing' --library "$room/new"
mv kept tree/bindings/rust/build.rs
mkdir -p folders/lib/libpciplan.so
refused 'a folder in the place of the link' 1 "$room/folders/lib/libpciplan.so is a folder" --library "$room/folders"
{ files new; files folders; } >got
: >wanted
same 'nothing is made then'

echo "$passed passed, $failed failed"
[ "$failed" -eq 0 ]
