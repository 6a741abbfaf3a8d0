#!/bin/sh
# Makes a dump of what root's lspci printed, with -xxx or -xxxx and any of -D, -n, -nn, -k, -v, -vv, -vvv, -m, -mm, -vmm:
# prints the slot lines with titles of at most 200 bytes, the byte lines 00 to f0, and an empty line behind each f0. All
# else is dropped, as are other domains and the carriage returns of serial consoles. docs/FORMATS.md has the dump's form.
#
# Byte lines without a slot line before them are refused, as their function would be lost: something stands before its
# slot, or the slot line was cut. So are the paths of -P and -PP, as they are no slots.
#
# Usage: convert.sh [DOMAIN] [FILE]; domain 0000 if none is said, which slots without a domain are of, and standard input
# if no file is said. A word of four to eight hex digits is a domain: a file of such a name is ./NAME.
set -u
export LC_ALL=C

# refuse WHY: says why there is no dump.
refuse() {
    echo "convert.sh: $1" >&2
    exit 1
}

domain=0000
case ${1-} in
    *[!0-9a-f]* | ?????????*) ;;
    ????*)
        domain=$1
        shift
        ;;
esac
[ $# -le 1 ] || refuse 'usage: convert.sh [DOMAIN] [FILE]'
if [ $# -eq 1 ]; then
    [ -r "$1" ] || refuse "$1 can't be read"
    exec <"$1"
fi

# -vmm and -vm have the slot behind a word.
tr -d '\r' | sed -e 's/^Slot:.//' -e 's/^Device:.//' | awk -v domain="$domain" '
    # refuse WHY: no dump comes, so all lines are kept until the last.
    function refuse(why) {
        print "convert.sh: " why | "cat >&2"
        refused = 1
        exit 1
    }
    # ended: looks whether the function before had its last line.
    function ended() {
        if (mine && last < 15)
            refuse(slot ": not all of the lines 00 to f0; root reads them, with lspci -xxx")
    }
    match($0, /^([0-9a-f][0-9a-f][0-9a-f][0-9a-f]+:)?[0-9a-f][0-9a-f]:[01][0-9a-f]\.[0-7]/) {
        ended()
        mine = (RLENGTH == 7 ? "0000" : substr($0, 1, RLENGTH - 8)) == domain
        slot = substr($0, RLENGTH - 6, 7)
        open = 1
        last = -1
        if (!mine)
            next
        if (substr($0, RLENGTH + 1, 1) == "/")
            refuse("line " NR ": a path of lspci -P in the place of a slot")
        line[++lines] = substr($0, RLENGTH - 6, 208)
        next
    }
    # `last` is the line of bytes before this one in the block, and `open` says that line f0 is still to come.
    /^[0-9a-f]0: / {
        row = index("0123456789abcdef", substr($0, 1, 1)) - 1
        if (mine && open && row != last + 1)
            ended()
        if (!open || row <= last)
            refuse("line " NR ": bytes without a slot line before them")
        last = row
        open = row < 15
        if (mine)
            line[++lines] = open ? $0 : $0 "\n"
    }
    END {
        if (refused)
            exit 1
        ended()
        if (lines == 0)
            refuse("no function of domain " domain)
        for (n = 1; n <= lines; n++)
            print line[n]
    }'
