#!/bin/sh
# Installs the library below a prefix, and builds and runs what uses it there by pkg-config alone: programs in C and C++, the
# tests of both bindings, and what pages show. Then it makes the packages of package.sh, looks at the sums, unpacks the
# archive, and installs and removes the .deb below a folder. A line is printed for each case; the status is 1 where one
# fails. What isn't here (the built library or program, a compiler, cargo, python3, dpkg) is said with the cases that are
# skipped for it.
#
# Usage: c/package_test.sh [--apt] [PROGRAM LIBRARY], by default what `rt run` and `rt lib` made. With --apt, as root, the .deb
# is installed by apt on this very machine, and removed again.
set -u
umask 022
LC_ALL=C
export LC_ALL
unset DESTDIR

here=$(CDPATH='' cd -- "$(dirname -- "$0")" && pwd) || exit 1
by_apt=
case ${1-} in
--apt)
    by_apt=yes
    shift
    ;;
esac
program=${1-$here/../crates/pciplan/out/pciplan}
library=${2-$here/../crates/pciplan_c/out/libpciplan_c.a}
if ! [ -f "$library" ]; then
    echo 'skipped: the installed library and the packages, as rt lib has made none in crates/pciplan_c'
    exit 0
fi
cc=${CC:-cc} cxx=${CXX:-c++}
for tool in "$cc" "${AR:-ar}" pkg-config; do
    command -v "${tool%% *}" >/dev/null || { echo "skipped: the installed library, as $tool isn't here"; exit 0; }
done

room=$(mktemp -d) || exit 1
trap 'rm -rf "$room"' EXIT
chmod 755 "$room"
mkdir "$room/tree" || exit 1
tar -C "$here/.." --exclude=out --exclude=target --exclude=.git -cf - . | tar -C "$room/tree" -xf - || exit 1
mkdir -p "$room/tree/crates/pciplan_c/out" "$room/tree/crates/pciplan/out" || exit 1
cp -- "$library" "$room/tree/crates/pciplan_c/out/libpciplan_c.a" || exit 1
[ ! -f "$program" ] || cp -- "$program" "$room/tree/crates/pciplan/out/pciplan" || exit 1
cd "$room/tree" || exit 1
prefix=$room/prefix
export PKG_CONFIG_PATH="$prefix/lib/pkgconfig" LD_LIBRARY_PATH="$prefix/lib"
passed=0 failed=0

# passes NAME COMMAND..: the command ends with 0; else what it said is printed.
passes() {
    title=$1
    shift
    if "$@" >"$room/said" 2>&1 </dev/null; then
        echo "ok: $title"
        passed=$((passed + 1))
    else
        echo "FAILED: $title"
        cat "$room/said"
        failed=$((failed + 1))
    fi
}

# needs TOOL NAME: whether the tool is here; else the case is skipped.
needs() {
    command -v "$1" >/dev/null || { echo "skipped: $2, as $1 isn't here"; return 1; }
}

# c_program OUT FILE, cxx_program OUT FILE: compiles and links with what pkg-config says.
c_program() {
    # shellcheck disable=SC2046
    $cc -std=c11 -Wall -Wextra -O2 -o "$room/$1" "$2" $(pkg-config --cflags --libs pciplan)
}
cxx_program() {
    # shellcheck disable=SC2046
    $cxx -std=c++11 -Wall -Wextra -O2 -o "$room/$1" -x c++ "$2" -x none $(pkg-config --cflags --libs pciplan)
}

# judges PROGRAM: it prints the verdicts on the machines, with root bus 0 alone.
judges() {
    for machine in desk old port roots; do
        wanted=$(cat machines/$machine.check)
        [ $machine != roots ] || wanted='no 58 Orphan 40:00.0'
        said=$("$1" machines/$machine.dump machines/$machine.probe)
        [ "$said" = "$wanted" ] || { echo "$machine: $said"; return 1; }
    done
}

# shared: the library shows the calls of the header and no more, needs the C library alone, and has no text relocation and
# no stack that is executed.
shared() {
    so=$prefix/lib/libpciplan.so.0
    sed -n 's/^uint[0-9]*_t \(pciplan_[a-z]*\)(.*/\1/p' c/include/pciplan.h | sort >"$room/wanted"
    nm -D --defined-only "$so" | sed -n 's/^.* T \([^@]*\).*/\1/p' | sort | cmp - "$room/wanted" || return 1
    readelf -d "$so" | sed -n 's/.*(\(NEEDED\|SONAME\|TEXTREL\)).*\[\(.*\)\]/\1 \2/p' | sort >"$room/got"
    printf 'NEEDED libc.so.6\nSONAME libpciplan.so.0\n' | cmp - "$room/got" || return 1
    readelf -lW "$so" | grep -q 'GNU_STACK.* RW  *0'
}

# own_memory: a program with functions of memory of its own links the archive without a clash, and without those over malloc.
own_memory() {
    # shellcheck disable=SC2046
    $cc -O2 -o "$room/own" c/example/pciplan_verdict.c c/memory/pciplan_fixed_memory.c \
        $(pkg-config --cflags --libs-only-L pciplan) -l:libpciplan.a || return 1
    judges "$room/own" && ! nm -u "$room/own" | grep -w 'malloc\|realloc'
}

# fenced PAGE WORD: the lines of the page's first block that is fenced with this word.
fenced() {
    awk -v begins="\`\`\`$2" '$0 == begins { inside = 1; next } /^```/ && inside { exit } inside' "docs/$1"
}

# page_lines PAGE LAST: the commands of its first fenced block end with this line, for the prefix of this test in the place
# of /usr/local, and without those that build the library or change the machine.
page_lines() {
    fenced "$1" sh | sed -e '/rt lib/d' -e '/^sudo /d' -e "s,/usr/local,$prefix,g" >"$room/lines.sh"
    ! grep -v "^./install.sh --library $prefix\$" "$room/lines.sh" | grep install || return 1
    # docs/C.md and README.md show the same
    [ "$1" != C.md ] || sed -n '/^## From C/,/^## /s/^    //p' README.md >"$room/of_readme"
    [ "$1" != C.md ] || fenced "$1" sh | cmp - "$room/of_readme" || return 1
    sh -e "$room/lines.sh" >"$room/got" && [ "$(tail -n 1 "$room/got")" = "$2" ]
}

# python WORD..: python3 with the installed module and library.
python() {
    PYTHONPATH=$prefix/share/pciplan/python PCIPLAN_LIBRARY=$(pkg-config --variable=libdir pciplan)/libpciplan.so.0 \
        PYTHONDONTWRITEBYTECODE=1 python3 "$@"
}

# by_pip: pip installs the module of the tree into a folder, and it is the same.
by_pip() {
    python3 -m pip install --quiet --no-index --no-build-isolation --no-deps --target "$room/pip" ./bindings/python &&
        cmp "$room/pip/pciplan.py" bindings/python/pciplan.py
}

# layouts: what docs/CI.md shows judges the machines in one process of Python.
layouts() {
    fenced CI.md python >"$room/layouts.py"
    [ -s "$room/layouts.py" ] || return 1
    (cd machines && python "$room/layouts.py") >"$room/got" || return 1
    for machine in desk full old port roots; do
        echo "$machine.dump $(cat "machines/$machine.check" 2>/dev/null || echo yes)"
    done | sed 's/^roots.dump .*/roots.dump no 58 Orphan 40:00.0/' | cmp - "$room/got"
}

# crate WORD..: the tests of this tree on the installed crate.
crate() {
    (cd "$room/rust" && PCIPLAN_SOURCE=$room/tree CARGO_TARGET_DIR=$room/target cargo test --offline --quiet "$@")
}

# code_of_tests: the Rust that docs/BINDINGS.md shows is what the crate's own documentation shows, which is compiled.
code_of_tests() {
    fenced BINDINGS.md rust >"$room/shown"
    # shellcheck disable=SC2016
    sed -n '/^\/\/! ```$/,/^\/\/! ```$/{s/^\/\/! \{0,1\}//;/^```/d;p;}' bindings/rust/src/lib.rs | cmp - "$room/shown"
}

# unpacked: the archive has its sums, and pkg-config finds the library where it was unpacked.
unpacked() {
    (cd "$room/packages" && sha256sum -c -- *.sha256) && tar -C "$room" -xzf "$room"/packages/*.tar.gz || return 1
    set -- "$room"/pciplan-*
    export PKG_CONFIG_PATH="$1/lib/pkgconfig" LD_LIBRARY_PATH="$1/lib"
    c_program verdict c/example/pciplan_verdict.c && judges "$room/verdict" && judges_all "$1/bin/pciplan"
}

# judges_all PROGRAM: the program does so, too.
judges_all() {
    [ "$("$1" check machines/old.dump machines/old.probe)" = yes ]
}

# unpacks_deb: dpkg installs the .deb below a folder, where the program runs, and removes it without leaving a file.
unpacks_deb() {
    at=$room/debian
    mkdir -p "$at/var/lib/dpkg" || return 1
    : >"$at/var/lib/dpkg/status"
    dpkg_there --force-depends -i "$room"/packages/*.deb || return 1
    judges_all "$at/usr/bin/pciplan" && gzip -cd "$at/usr/share/man/man1/pciplan.1.gz" | cmp - docs/pciplan.1 || return 1
    dpkg_there --purge pciplan && [ -z "$(find "$at/usr" ! -type d)" ]
}

dpkg_there() {
    dpkg --root="$at" --log=/dev/null --force-not-root --force-bad-path --force-script-chrootless "$@"
}

# with_apt: apt installs the .deb on this machine; program, library and pkg-config are found without a further word.
with_apt() {
    unset PKG_CONFIG_PATH LD_LIBRARY_PATH
    apt-get install -y --no-install-recommends "$1" || return 1
    judges_all pciplan && c_program verdict c/example/pciplan_verdict.c && judges "$room/verdict"
    worked=$?
    installed=$(dpkg -L pciplan)
    apt-get purge -y pciplan || return 1
    for file in $installed; do
        [ -d "$file" ] || ! [ -e "$file" ] || { echo "left: $file"; worked=1; }
    done
    return $worked
}

# the folder of what was removed holds no file
removed() {
    ./install.sh --uninstall --library "$prefix" && [ -z "$(find "$prefix" ! -type d)" ]
}

passes 'install.sh --library' ./install.sh --library "$prefix"
passes 'what the shared library shows and needs' shared
passes 'a program in C' c_program verdict c/example/pciplan_verdict.c
passes 'its verdicts' judges "$room/verdict"
passes 'the version' c_program version c/test/pciplan_version_test.c
passes 'that of pkg-config is the same' pkg-config --exact-version="$("$room/version")" pciplan
passes 'a program in C over memory of its own' own_memory
if needs "${cxx%% *}" 'a program in C++'; then
    passes 'a program in C++' cxx_program verdict c/example/pciplan_verdict.c
    passes 'its verdicts' judges "$room/verdict"
fi
passes 'the commands of docs/C.md' page_lines C.md yes
if needs python3 'the Python module'; then
    # the tests beside no module, so that they take the installed one
    mkdir bindings/apart && cp bindings/python/test_pciplan.py bindings/apart || exit 1
    passes 'the Python module' python bindings/apart/test_pciplan.py
    passes 'the commands of docs/BINDINGS.md' page_lines BINDINGS.md "$("$room/version")"
    passes 'the Python of docs/BINDINGS.md' python -m doctest docs/BINDINGS.md
    passes 'the Python of docs/CI.md' layouts
    if python3 -c 'import setuptools, wheel' 2>/dev/null; then
        passes 'the Python module by pip' by_pip
    else
        echo "skipped: the Python module by pip, as setuptools or wheel isn't here"
    fi
fi
cp -R "$prefix/share/pciplan/rust" "$room/rust" && cp -R bindings/rust/tests "$room/rust" || exit 1
if needs cargo 'the Rust crate'; then
    passes 'the Rust crate' crate
    passes "the Rust crate over Rust's memory" crate --no-default-features
    passes 'the Rust of docs/BINDINGS.md' code_of_tests
fi
if [ -f "$program" ]; then
    passes 'package.sh' ./package.sh "$room/packages"
    passes 'the archive' unpacked
    if needs dpkg 'the .deb'; then
        passes 'the .deb' unpacks_deb
        [ -z "$by_apt" ] || passes 'the .deb by apt' with_apt "$room"/packages/*.deb
    fi
else
    echo "skipped: the packages, as the program isn't built"
fi
passes 'install.sh --uninstall --library' removed
echo "$passed passed, $failed failed"
[ "$failed" -eq 0 ]
