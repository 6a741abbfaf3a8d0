#!/bin/sh
# Makes a sizes text of what root's lspci printed with -vvxxx, as bug reports hold it, where nobody has the machine's
# sysfs: `[size=..]` behind regions and the expansion ROM is what Linux found. machines/convert.sh makes the dump of the
# same text. docs/FORMATS.md has the form of both.
#
# A register has zeros where no size is told, and where what is told is of another kind than it shows: so are the ports of
# an IDE channel. With -v alone regions have no numbers: each is taken to be of the register that shows its address.
# First addresses are 0 in the text, as probe doesn't look at them.
#
# Usage: sizes_of_lspci.sh [DOMAIN] [FILE]; domain 0000 if none is said, which slots without a domain are of, and standard
# input if no file is said. A word of four to eight hex digits is a domain: a file of such a name is ./NAME.
set -u
export LC_ALL=C

# refuse WHY: says why there is no text.
refuse() {
    echo "sizes_of_lspci.sh: $1" >&2
    exit 1
}

domain=0000
case ${1-} in
    *[!0-9a-f]* | ?????????*) ;;
    ????*)
        domain=$1
        shift
        ;;
esac
[ $# -le 1 ] || refuse 'usage: sizes_of_lspci.sh [DOMAIN] [FILE]'
if [ $# -eq 1 ]; then
    { [ -r "$1" ] && ! [ -d "$1" ]; } || refuse "$1 can't be read"
    exec <"$1"
fi

tr -d '\r' | awk -v domain="$domain" '
    # refuse WHY: no text comes, so all of it is kept until the end.
    function refuse(why) {
        print "sizes_of_lspci.sh: " why | "cat >&2"
        refused = 1
        exit 1
    }
    # power LINE: the k for which the line tells 2^k addresses, or -1.
    function power(line,    size, k) {
        if (!match(line, /\[size=[0-9]+[KMGT]?\]/))
            return -1
        told = 1
        size = substr(line, RSTART + 6, RLENGTH - 7)
        k = 10 * index("KMGT", substr(size, length(size)))
        for (size += 0; size > 1; size /= 2)
            k++
        return size == 1 && k < 64 ? k : -1
    }
    # line_of K FLAGS: the line of a register of 2^k addresses, made of digits, as numbers of awk hold 53 bits.
    function line_of(k, flags,    last) {
        if (k < 0)
            return "0x" zeros " 0x" zeros " 0x" zeros "\n"
        last = substr("0137", k % 4 + 1, 1) substr("ffffffffffffffff", 1, int(k / 4))
        return "0x" zeros " 0x" substr(zeros, length(last) + 1) last " 0x" substr(zeros, 4) flags "\n"
    }
    # flags_of BAR: I/O or memory, with the encoding bits, as its register shows them.
    function flags_of(bar,    digit) {
        digit = substr(byte[16 + 4 * bar], 2)
        return digit ~ /[13579bdf]/ ? "101" : "20" digit
    }
    # flags_said LINE: the same, as the line says it.
    function flags_said(line) {
        if (line ~ /I\/O ports at /)
            return "101"
        return "20" substr("02048a0c", 1 + (line ~ /\(low-1M/) + 3 * (line ~ /\(64-bit/) + 4 * (line ~ / prefetch/), 1)
    }
    # address_of BAR: the address that the register shows, a BAR of 64 bits with the one behind it.
    function address_of(bar,    n, digit, address) {
        n = 16 + 4 * bar
        digit = substr(byte[n], 2)
        digit = flags_of(bar) == "101" ? substr("000044448888cccc", index("0123456789abcdef", digit), 1) : 0
        address = byte[n + 3] byte[n + 2] byte[n + 1] substr(byte[n], 1, 1) digit
        if (flags_of(bar) ~ /20[4c]/)
            address = byte[n + 7] byte[n + 6] byte[n + 5] byte[n + 4] address
        sub(/^0+/, "", address)
        return address
    }
    # size_of BAR: the k of the line that is of the register, or -1.
    function size_of(bar,    n) {
        for (n = 1; n <= regions; n++)
            if (flags[n] == flags_of(bar) && (number[n] == "" ? address[n] == address_of(bar) : number[n] == bar))
                return k_of[n]
        return -1
    }
    # finish: adds the block of the function that was read.
    function finish(    bar) {
        if (!mine)
            return
        if (rows < 4)
            refuse(slot ": not all of the lines 00 to 30; lspci prints them with -xxx")
        text = text slot "\n"
        for (bar = 0; bar < 6; bar++)
            text = text line_of(size_of(bar), flags_of(bar))
        text = text line_of(rom, "200") "\n"
    }
    BEGIN { zeros = "0000000000000000" }

    match($0, /^([0-9a-f][0-9a-f][0-9a-f][0-9a-f]+:)?[0-9a-f][0-9a-f]:[01][0-9a-f]\.[0-7]/) {
        finish()
        mine = (RLENGTH == 7 ? "0000" : substr($0, 1, RLENGTH - 8)) == domain
        slot = substr($0, RLENGTH - 6, 7)
        if (mine && substr($0, RLENGTH + 1, 1) == "/")
            refuse("line " NR ": a path of lspci -P in the place of a slot")
        open = 1
        last = rom = -1
        rows = regions = listed = 0
        next
    }

    # Regions stand before the capabilities; one of those lists the regions of virtual functions. What is virtual or
    # enhanced is in no register, and a ROM at C0000h is its copy in memory.
    /^[ \t]*Capabilities: / { listed = 1 }
    /^[ \t]*(Region [0-5]: )?(Memory|I\/O ports) at / && !listed && !/\[(virtual|enhanced)\]/ {
        k_of[++regions] = power($0)
        flags[regions] = flags_said($0)
        number[regions] = address[regions] = $0
        if (!sub(/^[ \t]*Region /, "", number[regions]))
            number[regions] = ""
        sub(/:.*/, "", number[regions])
        sub(/.* at 0*/, "", address[regions])
        sub(/ .*/, "", address[regions])
    }
    /^[ \t]*Expansion ROM at / && !listed && !/\[(virtual|enhanced)\]| at 0*c0000 / { rom = power($0) }

    # `last` is the line of bytes before this one in the block, and `open` says that line f0 is still to come.
    /^[0-9a-f]0: / {
        row = index("0123456789abcdef", substr($0, 1, 1)) - 1
        if (!open || row <= last)
            refuse("line " NR ": bytes without a slot line before them")
        if (mine && (NF != 17 || $0 !~ /^.0:( [0-9a-f][0-9a-f])+ *$/))
            refuse("line " NR ": not sixteen bytes")
        last = row
        open = row < 15
        rows += row < 4
        for (n = 0; n < 16; n++)
            byte[16 * row + n] = $(n + 2)
    }
    END {
        if (refused)
            exit 1
        finish()
        if (text == "")
            refuse("no function of domain " domain)
        if (!told)
            print "sizes_of_lspci.sh: no sizes in the text; lspci prints them with -v" | "cat >&2"
        printf "%s", text
    }'
