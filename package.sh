#!/bin/sh
# Makes packages of the built program and the built library, and their sums, in the folder OUT:
#
#   pciplan_VERSION_amd64.deb              for apt
#   pciplan-VERSION-linux-x86_64.tar.gz    what install.sh and install.sh --library put below a prefix; wherever it is
#                                          unpacked, pkg-config finds it below lib/pkgconfig
#   pciplan-VERSION.sha256                 for sha256sum -c
#
# It needs what `install.sh --library` needs, and GNU tar; the .deb is left out where dpkg-deb isn't. With SOURCE_DATE_EPOCH
# set two runs over the same build make the same bytes.
#
# Usage: package.sh OUT
set -eu
umask 022

[ $# -eq 1 ] || { echo 'usage: package.sh OUT' >&2; exit 2; }
top=$(CDPATH='' cd -- "$(dirname -- "$0")" && pwd)
mkdir -p -- "$1"
out=$(CDPATH='' cd -- "$1" && pwd)
version=$(sed -n '/^## /{s/## //p;q;}' "$top/CHANGELOG.md")
SOURCE_DATE_EPOCH=${SOURCE_DATE_EPOCH-$(date +%s)}
export SOURCE_DATE_EPOCH
room=$(mktemp -d)
trap 'rm -rf "$room"' EXIT
unset DESTDIR

# filled BELOW PREFIX: puts program, library and pages below BELOW for this prefix.
filled() {
    DESTDIR=$1 "$top/install.sh" "$2" >/dev/null
    DESTDIR=$1 "$top/install.sh" --library "$2" >/dev/null
    mkdir -p "$1$2/share/doc/pciplan/docs"
    cp -- "$top/README.md" "$top/CHANGELOG.md" "$1$2/share/doc/pciplan"
    cp -- "$top"/docs/*.md "$1$2/share/doc/pciplan/docs"
}

# control: what dpkg is to know of the package.
control() {
    cat <<END
Package: pciplan
Version: $version
Architecture: amd64
Maintainer: the pciplan project
Installed-Size: $(du -sk "$room/deb/usr" | cut -f1)
Section: utils
Priority: optional
Depends: libc6 (>= 2.34), sse4.2-support
Suggests: pciutils
Description: judge a dump of PCI configuration space, and plan its addresses
 Two PCI functions that answer one address, or a BAR that no bridge window
 reaches, hang machines. pciplan finds them in what lspci -xxx prints, names
 each with its reason, and plans or settles addresses as register writes.
 The library for C, Python and Rust is in it.
END
}

# The .pc of an unpacked archive says where it stands, as nobody knows the prefix yet.
name=pciplan-$version-linux-x86_64
filled "$room" "/$name"
pc=$room/$name/lib/pkgconfig/pciplan.pc
# shellcheck disable=SC2016
sed 's,^prefix=.*,prefix=${pcfiledir}/../..,' "$pc" >"$room/pc"
cat "$room/pc" >"$pc"
tar -C "$room" --sort=name --owner=0 --group=0 --numeric-owner --mtime="@$SOURCE_DATE_EPOCH" -cf - "$name" |
    gzip -9n >"$room/$name.tar.gz"
made=$name.tar.gz

if command -v dpkg-deb >/dev/null; then
    deb=pciplan_${version}_amd64.deb
    filled "$room/deb" /usr
    gzip -9n "$room/deb/usr/share/man/man1/pciplan.1"
    mkdir "$room/deb/usr/share/zsh/vendor-completions" "$room/deb/DEBIAN"
    mv "$room/deb/usr/share/zsh/site-functions/_pciplan" "$room/deb/usr/share/zsh/vendor-completions"
    rmdir "$room/deb/usr/share/zsh/site-functions"
    control >"$room/deb/DEBIAN/control"
    echo 'activate-noawait ldconfig' >"$room/deb/DEBIAN/triggers"
    find "$room/deb" -exec touch -hd "@$SOURCE_DATE_EPOCH" {} +
    dpkg-deb --root-owner-group --build "$room/deb" "$room/$deb" >/dev/null
    made="$deb $made"
else
    echo "package.sh: no .deb, as dpkg-deb isn't here" >&2
fi

cd "$room"
# shellcheck disable=SC2086 # the files are one word each
sha256sum $made >"pciplan-$version.sha256"
for file in $made "pciplan-$version.sha256"; do
    mv -f -- "$file" "$out/$file"
    printf '%s\n' "$out/$file"
done
